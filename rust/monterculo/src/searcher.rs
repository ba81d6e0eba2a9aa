//! A roll searched while it still comes in.

use std::error::Error;
use std::fmt;

use crate::refusal::Given;
use crate::{bytes_for, hits_for, sys, Refusal, Roll, PATTERN};

/// A search in a roll whose packed bytes come in pieces.
///
/// The record is known beforehand. The bytes are fed in their order, in pieces of any size, empty ones too, and need not
/// be kept: a searcher is a value of fixed size that lends nothing. Each hit is named by the feeding that reads its last
/// symbol. However the same bytes are cut into pieces, the hits are the same, and so is the searcher at the end.
///
/// Hits are named before the roll is known to be sound. [`Searcher::finish`] says so once all has come in: the hits are
/// then those of [`Roll::search`].
///
/// ```
/// use monterculo::{hits_for, OwnedRoll, Searcher, Width};
///
/// // What the sender has: the record, which comes first, and the packed bytes.
/// let members = OwnedRoll::new(Width::Two, b"pan 7 Oda 5550143\npan 12 Jory 5550128\n")?;
/// let (record, bytes, _) = members.as_parts();
///
/// let mut searcher = Searcher::new(record, b"pan ")?;
/// // Entries for pieces of up to 5 bytes.
/// let mut hits = [0; hits_for(2, 5)];
/// let mut found = Vec::new();
/// for piece in bytes.chunks(5) {
///     for &hit in searcher.feed(piece, &mut hits)? {
///         found.push(hit);
///     }
/// }
/// searcher.finish()?;
/// assert_eq!(found, [0, 18]);
/// # Ok::<(), monterculo::Refusal>(())
/// ```
#[derive(Clone, Debug, PartialEq, Eq, Hash)]
pub struct Searcher(sys::Searcher);

impl Searcher {
    /// Starts a search for a pattern of 1 to 64 characters without byte 10 in a roll of which nothing has come in yet.
    ///
    /// Of the record the table and h are looked at here, and n by [`Searcher::finish`]. A pattern with a character that
    /// is not in the table stands nowhere.
    ///
    /// Refusals, in their order: 1 (0), 5 (h; it is over 1,048,576), 11 (0).
    pub fn new(roll: &Roll, pattern: &[u8]) -> Result<Searcher, Refusal> {
        let started = sys::start(roll.record(), pattern);
        match started.answer.result(Given { text: pattern, ..roll.given() }) {
            Ok(_) => Ok(Searcher(started.searcher)),
            Err(Refusal::BadSymbolCount { h }) => Err(Refusal::LongRoll { h }),
            Err(refusal) => Err(refusal),
        }
    }

    /// Reads the next bytes of the roll, and gives the hits whose last symbol is among them: ascending, in the first
    /// entries of `hits`; later entries are unchanged.
    ///
    /// Whatever the piece holds, lend [`hits_for`]`(k, piece.len())` entries.
    ///
    /// Refusals, in their order: a 6 of an earlier piece, 5 (h; the piece reaches past the roll's last byte), 14
    /// (entries needed), 6 (the bad codeword's first symbol). The first three change nothing, so that another piece may
    /// be fed after 5 and 14. At a bad codeword the hits before it are handed over with the refusal; what follows it is
    /// not read, and every later piece is refused with the same 6.
    ///
    /// ```
    /// use monterculo::{Refusal, Roll, Searcher, Table};
    ///
    /// // banana, but for its last symbol: a continuer, so that its codeword is open at the roll's end.
    /// let mut searcher = Searcher::new(&Roll::new(Table::new(4, 3, b"anb"), 6, 6), b"ana")?;
    /// let mut hits = [0; 6];
    /// assert_eq!(searcher.feed(&[0x20], &mut hits)?, []);
    /// let stopped = searcher.feed(&[0x10, 0x1f], &mut hits).unwrap_err();
    /// assert_eq!((stopped.refusal, stopped.hits), (Refusal::BadCodeword { symbol: 5 }, &[1][..]));
    /// # Ok::<(), monterculo::Refusal>(())
    /// ```
    pub fn feed<'a>(&mut self, piece: &[u8], hits: &'a mut [u32]) -> Result<&'a [u32], PieceRefusal<&'a [u32]>> {
        let missing = self.missing();
        let fed = sys::feed(self.0, piece, hits);
        self.0 = fed.searcher;
        let hits = hits.get(..fed.hits).unwrap_or_default();
        match fed.answer.result(self.given()) {
            Ok(_) => Ok(hits),
            Err(Refusal::BadSymbolCount { h }) => {
                Err(PieceRefusal { refusal: Refusal::LongPiece { length: piece.len(), missing, h }, hits })
            }
            Err(refusal) => Err(PieceRefusal { refusal, hits }),
        }
    }

    /// Reads the next bytes of the roll, and gives the hits whose last symbol is among them, ascending. This one
    /// allocates.
    ///
    /// Refusals: those of [`Searcher::feed`] but 14.
    ///
    /// ```
    /// use monterculo::{Roll, Searcher, Table};
    ///
    /// let mut searcher = Searcher::new(&Roll::new(Table::new(4, 3, b"anb"), 6, 6), b"ana")?;
    /// assert_eq!(searcher.find(&[0x20, 0x10])?, [1]);
    /// assert_eq!(searcher.find(&[0x10])?, [3]);
    /// # Ok::<(), monterculo::Refusal>(())
    /// ```
    pub fn find(&mut self, piece: &[u8]) -> Result<Vec<usize>, PieceRefusal<Vec<usize>>> {
        // A piece of more bytes than are missing is refused before the entries are asked for.
        let mut hits = vec![0; hits_for(self.k(), piece.len().min(self.missing()))];
        let owned = |hits: &[u32]| hits.iter().map(|&hit| hit as usize).collect();
        match self.feed(piece, &mut hits) {
            Ok(hits) => Ok(owned(hits)),
            Err(PieceRefusal { refusal, hits }) => Err(PieceRefusal { refusal, hits: owned(hits) }),
        }
    }

    /// Says whether all of the roll has come in and is sound, as [`Roll::check`] would of the whole. It changes nothing,
    /// and may be asked at any time.
    ///
    /// Refusals, in their order: 6 (the bad codeword's first symbol; where not all has come in, that of the codeword
    /// that is open, or how many symbols were read if none is), 7 (codewords read), 8 (0).
    ///
    /// ```
    /// use monterculo::{Refusal, Roll, Searcher, Table};
    ///
    /// let mut searcher = Searcher::new(&Roll::new(Table::new(4, 3, b"anb"), 6, 6), b"ana")?;
    /// searcher.find(&[0x20, 0x10])?;
    /// assert_eq!(searcher.finish(), Err(Refusal::EndsTooSoon { symbol: 4, missing: 1 }));
    /// searcher.find(&[0x10])?;
    /// searcher.finish()?;
    /// # Ok::<(), monterculo::Refusal>(())
    /// ```
    pub fn finish(&self) -> Result<(), Refusal> {
        match sys::finish(self.0).result(self.given()) {
            Ok(_) => Ok(()),
            Err(Refusal::BadCodeword { symbol }) if self.0.judge.progress.bad == 0 => {
                Err(Refusal::EndsTooSoon { symbol, missing: self.missing() })
            }
            Err(refusal) => Err(refusal),
        }
    }

    /// How many bytes of the roll have not come in; behind a bad codeword none is read.
    ///
    /// ```
    /// use monterculo::{Roll, Searcher, Table};
    ///
    /// let mut searcher = Searcher::new(&Roll::new(Table::new(4, 3, b"anb"), 6, 6), b"ana")?;
    /// assert_eq!(searcher.missing(), 3);
    /// searcher.find(&[0x20])?;
    /// assert_eq!(searcher.missing(), 2);
    /// # Ok::<(), monterculo::Refusal>(())
    /// ```
    pub fn missing(&self) -> usize {
        let bytes = |symbols: u32| bytes_for(self.k(), symbols.into());
        bytes(self.0.judge.roll.h).saturating_sub(bytes(self.0.judge.progress.read))
    }

    /// The record of the roll.
    pub fn roll(&self) -> Roll {
        self.0.judge.roll.into()
    }

    /// The pattern.
    pub fn pattern(&self) -> &[u8] {
        let length = usize::try_from(self.0.length).unwrap_or(PATTERN);
        self.0.pattern.get(..length).unwrap_or(&self.0.pattern)
    }

    fn k(&self) -> u8 {
        self.0.judge.roll.table.k
    }

    fn given(&self) -> Given<'_> {
        let roll = &self.0.judge.roll;
        Given { table: Some(&roll.table), text: self.pattern(), n: roll.n, ..Given::default() }
    }
}

/// What [feeding a piece](Searcher::feed) answers where it does not accept: the refusal, and the hits named with it.
///
/// At a bad codeword these are the hits of the piece before it; with any other refusal there are none. It becomes a
/// [`Refusal`] by `?`, and the hits are let go.
#[derive(Clone, Copy, PartialEq, Eq, Hash)]
pub struct PieceRefusal<H> {
    /// The refusal.
    pub refusal: Refusal,
    /// The hits.
    pub hits: H,
}

impl<H> From<PieceRefusal<H>> for Refusal {
    fn from(refused: PieceRefusal<H>) -> Refusal {
        refused.refusal
    }
}

impl<H> fmt::Display for PieceRefusal<H> {
    fn fmt(&self, f: &mut fmt::Formatter<'_>) -> fmt::Result {
        fmt::Display::fmt(&self.refusal, f)
    }
}

/// The words again, as of a [`Refusal`].
impl<H> fmt::Debug for PieceRefusal<H> {
    fn fmt(&self, f: &mut fmt::Formatter<'_>) -> fmt::Result {
        fmt::Display::fmt(&self.refusal, f)
    }
}

impl<H> Error for PieceRefusal<H> {}
