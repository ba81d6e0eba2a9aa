//! The roll.

use std::ops::{Bound, RangeBounds};

use crate::refusal::Given;
use crate::{sys, Refusal, Table, SYMBOLS};

/// The record of a roll: its table, the character count n and the symbol count h.
///
/// The symbols themselves lie in a buffer that is lent to each operation, and so does the directory, where used. The
/// room of a buffer is the smaller of 1,048,576 and its bytes times 8/k, in symbols; it may be more than the roll takes.
///
/// A roll is sound if [`Roll::check`] accepts it. Every operation looks at what it is lent, so that any buffer may come
/// with any record: what is not sound is refused.
#[derive(Clone, Debug, PartialEq, Eq, Hash)]
pub struct Roll {
    table: Table,
    n: u32,
    h: u32,
}

/// Start and end of a range of n characters. A bound past the greatest number becomes that number, and no text has as
/// many characters: it is refused.
pub(crate) fn bounds(range: impl RangeBounds<usize>, n: u32) -> (usize, usize) {
    let start = match range.start_bound() {
        Bound::Included(&start) => start,
        Bound::Excluded(&before) => before.saturating_add(1),
        Bound::Unbounded => 0,
    };
    let end = match range.end_bound() {
        Bound::Included(&last) => last.saturating_add(1),
        Bound::Excluded(&end) => end,
        Bound::Unbounded => n as usize,
    };
    (start, end)
}

/// All hits of a search, which lists them in a slice and answers their total.
fn all_of(search: impl Fn(&mut [u32]) -> Result<u32, Refusal>) -> Result<Vec<usize>, Refusal> {
    // Most patterns stand at few places, and are then searched for once.
    let mut hits = vec![0; 64];
    let total = search(&mut hits)? as usize;
    if total > hits.len() {
        hits.resize(total.min(SYMBOLS), 0);
        search(&mut hits)?;
    }
    Ok(hits.into_iter().take(total).map(|hit| hit as usize).collect())
}

impl From<sys::Roll> for Roll {
    fn from(roll: sys::Roll) -> Roll {
        Roll { table: Table(roll.table), n: roll.n, h: roll.h }
    }
}

impl Roll {
    /// Packs a text into the buffer; bytes past the packed ones are unchanged.
    ///
    /// A buffer of [`bytes_for`](crate::bytes_for)(k, total) bytes has room for a text, where the total is that of
    /// [`Table::choose`] for the text's counts and not over 1,048,576. It may have more than needed, because there the ten
    /// digits, + and byte 10 count as at least 1; so a text may be packed though its total is somewhat over 1,048,576.
    ///
    /// Refusals, in their order: 1 (0), 3 (place of the first), 4 (number of the first character that does not fit).
    ///
    /// ```
    /// use monterculo::{Roll, Table};
    ///
    /// let table = Table::new(4, 3, b"anb");
    /// let mut buf = [0xff; 4];
    /// let roll = Roll::pack(&table, b"banana", &mut buf)?;
    /// assert_eq!((roll.n(), roll.h(), buf), (6, 6, [0x20, 0x10, 0x10, 0xff]));
    /// # Ok::<(), monterculo::Refusal>(())
    /// ```
    pub fn pack(table: &Table, text: &[u8], buf: &mut [u8]) -> Result<Roll, Refusal> {
        let packed = sys::pack(table.0, text, buf);
        let given = Given { table: Some(&table.0), text, ..Given::default() };
        packed.answer.result(given).map(|_| packed.roll.into())
    }

    /// The record of these parts, such as were stored with the buffer. Nothing is checked here, since every operation
    /// checks.
    ///
    /// ```
    /// use monterculo::{Refusal, Roll, Table};
    ///
    /// let roll = Roll::new(Table::new(4, 3, b"anb"), 6, 6);
    /// roll.check(&[0x20, 0x10, 0x10])?;
    /// assert_eq!(roll.check(&[0x20, 0x10]), Err(Refusal::BadSymbolCount { h: 6 }));
    /// # Ok::<(), monterculo::Refusal>(())
    /// ```
    pub fn new(table: Table, n: u32, h: u32) -> Roll {
        Roll { table, n, h }
    }

    pub(crate) fn record(&self) -> sys::Roll {
        sys::Roll { table: self.table.0, n: self.n, h: self.h }
    }

    pub(crate) fn given(&self) -> Given<'_> {
        Given { table: Some(&self.table.0), n: self.n, ..Given::default() }
    }

    /// The table.
    pub fn table(&self) -> &Table {
        &self.table
    }

    /// The character count.
    pub fn n(&self) -> u32 {
        self.n
    }

    /// The symbol count.
    pub fn h(&self) -> u32 {
        self.h
    }

    /// Checks that the roll is sound.
    ///
    /// Refusals, in their order: 1 (0), 5 (h), 6 (the bad codeword's first symbol), 7 (codewords read), 8 (0).
    pub fn check(&self, buf: &[u8]) -> Result<(), Refusal> {
        sys::check(self.record(), buf).result(self.given()).map(|_| ())
    }

    /// Unpacks the characters of a range into `out`, from its first byte on; later bytes are unchanged. A range without
    /// an end runs to the text's end.
    ///
    /// Refusals, in their order: those of [`Roll::check`], then 10 (0), 13 (range length).
    ///
    /// ```
    /// use monterculo::{Roll, Table};
    ///
    /// let roll = Roll::new(Table::new(4, 3, b"anb"), 6, 6);
    /// let mut out = *b"....";
    /// roll.unpack(&[0x20, 0x10, 0x10], 0..3, &mut out)?;
    /// assert_eq!(&out, b"ban.");
    /// roll.unpack(&[0x20, 0x10, 0x10], 4.., &mut out)?;
    /// assert_eq!(&out, b"nan.");
    /// # Ok::<(), monterculo::Refusal>(())
    /// ```
    pub fn unpack(&self, buf: &[u8], range: impl RangeBounds<usize>, out: &mut [u8]) -> Result<(), Refusal> {
        let (start, end) = bounds(range, self.n);
        sys::unpack(self.record(), buf, start, end, out).result(Given { start, end, ..self.given() }).map(|_| ())
    }

    /// Makes the directory: for each of characters 0, 32, 64, … below n the number of its first symbol. It has
    /// [`entries_for`](crate::entries_for)(n) entries; later ones are unchanged.
    ///
    /// Refusals, in their order: those of [`Roll::check`], then 12 (entries needed).
    ///
    /// ```
    /// use monterculo::{entries_for, Roll, Table};
    ///
    /// let mut buf = [0; 40];
    /// let roll = Roll::pack(&Table::new(2, 1, b"ab"), &[b'b'; 40], &mut buf)?;
    /// let mut directory = vec![0; entries_for(roll.n())];
    /// roll.make_directory(&buf, &mut directory)?;
    /// assert_eq!(directory, [0, 64]);
    /// # Ok::<(), monterculo::Refusal>(())
    /// ```
    pub fn make_directory(&self, buf: &[u8], directory: &mut [u32]) -> Result<(), Refusal> {
        sys::make_directory(self.record(), buf, directory).result(self.given()).map(|_| ())
    }

    /// Reads the character at a place, from the directory's entry for it on.
    ///
    /// It does not check the whole roll: with a sound roll and a right directory the answer is the character of the
    /// unpacked text.
    ///
    /// Refusals, in their order: 1 (0), 5 (h), 10 (0), 9 (place/32; that entry is missing or not below h), 6 (the first
    /// symbol of the bad codeword on the way; h where one would start at h).
    ///
    /// ```
    /// use monterculo::{Roll, Table};
    ///
    /// let roll = Roll::new(Table::new(4, 3, b"anb"), 6, 6);
    /// assert_eq!(roll.read_one(&[0x20, 0x10, 0x10], &[0], 4)?, b'n');
    /// # Ok::<(), monterculo::Refusal>(())
    /// ```
    pub fn read_one(&self, buf: &[u8], directory: &[u32], place: usize) -> Result<u8, Refusal> {
        let given = Given { entries: directory.len(), ..self.given() };
        match sys::read_one(self.record(), buf, directory, place).narrow(given) {
            Err(Refusal::BadRange { n, .. }) => Err(Refusal::BadPlace { place, n }),
            answer => answer,
        }
    }

    /// Searches for all places where a pattern of 1 to 64 characters without byte 10 stands, overlapping ones too, and
    /// gives their total. The first hits are written, ascending, as many as `hits` holds; later entries are unchanged.
    ///
    /// The total may be more than `hits` holds. It is 0 if a character of the pattern is not in the table. A pattern with
    /// byte 10, the newline, is refused even so.
    ///
    /// This one goes from character to character. [`Roll::search_jumping`] answers the same: take that one for long rolls
    /// and patterns of four characters or more, and this one for other searches and where stack is scarce.
    ///
    /// Refusals, in their order: those of [`Roll::check`], then 11 (0).
    ///
    /// ```
    /// use monterculo::{Roll, Table};
    ///
    /// let roll = Roll::new(Table::new(4, 3, b"anb"), 6, 6);
    /// let mut hits = [0; 8];
    /// assert_eq!(roll.search(&[0x20, 0x10, 0x10], b"ana", &mut hits)?, 2);
    /// assert_eq!(hits[..2], [1, 3]);
    /// # Ok::<(), monterculo::Refusal>(())
    /// ```
    pub fn search(&self, buf: &[u8], pattern: &[u8], hits: &mut [u32]) -> Result<u32, Refusal> {
        sys::search(self.record(), buf, pattern, hits).narrow(Given { text: pattern, ..self.given() })
    }

    /// The same search by another way: whatever comes, it answers and writes what [`Roll::search`] does, refusals too.
    /// It jumps over most of the bytes.
    ///
    /// Take it for long rolls and patterns of four characters or more. Take [`Roll::search`] where stack is scarce, as
    /// this one takes more of it. A pattern of too few symbols to jump by, fewer than 4 with k 2 and one with k 4, is
    /// sought by the plain search inside.
    ///
    /// Refusals, in their order: those of [`Roll::check`], then 11 (0).
    ///
    /// ```
    /// use monterculo::{Roll, Table};
    ///
    /// let roll = Roll::new(Table::new(4, 3, b"anb"), 6, 6);
    /// let (mut hits, mut plain) = ([9; 8], [9; 8]);
    /// assert_eq!(roll.search_jumping(&[0x20, 0x10, 0x10], b"ana", &mut hits)?, 2);
    /// assert_eq!(roll.search(&[0x20, 0x10, 0x10], b"ana", &mut plain)?, 2);
    /// assert_eq!((hits, &hits[..2]), (plain, &[1, 3][..]));
    /// # Ok::<(), monterculo::Refusal>(())
    /// ```
    pub fn search_jumping(&self, buf: &[u8], pattern: &[u8], hits: &mut [u32]) -> Result<u32, Refusal> {
        sys::search_jumping(self.record(), buf, pattern, hits).narrow(Given { text: pattern, ..self.given() })
    }

    /// All places where a pattern of 1 to 64 characters without byte 10 stands, ascending, overlapping ones too, by
    /// [`Roll::search`]. This one allocates.
    ///
    /// [`Roll::find_jumping`] gives the same: take that one for long rolls and patterns of four characters or more.
    ///
    /// Refusals: those of [`Roll::search`].
    ///
    /// ```
    /// use monterculo::{Roll, Table};
    ///
    /// let roll = Roll::new(Table::new(4, 3, b"anb"), 6, 6);
    /// assert_eq!(roll.find(&[0x20, 0x10, 0x10], b"a")?, [1, 3, 5]);
    /// # Ok::<(), monterculo::Refusal>(())
    /// ```
    pub fn find(&self, buf: &[u8], pattern: &[u8]) -> Result<Vec<usize>, Refusal> {
        all_of(|hits| self.search(buf, pattern, hits))
    }

    /// What [`Roll::find`] gives, by [`Roll::search_jumping`], which says when to take it. This one allocates.
    ///
    /// Refusals: those of [`Roll::search`].
    ///
    /// ```
    /// use monterculo::{Roll, Table};
    ///
    /// let roll = Roll::new(Table::new(4, 3, b"anb"), 6, 6);
    /// assert_eq!(roll.find_jumping(&[0x20, 0x10, 0x10], b"anan")?, [1]);
    /// # Ok::<(), monterculo::Refusal>(())
    /// ```
    pub fn find_jumping(&self, buf: &[u8], pattern: &[u8]) -> Result<Vec<usize>, Refusal> {
        all_of(|hits| self.search_jumping(buf, pattern, hits))
    }

    /// Replaces the characters of a range by a text of any length; the record, the buffer and the directory become
    /// those of the edited text. Bytes and entries used before and no longer become 0, the rest is unchanged.
    ///
    /// Lend a buffer for the roll before the edit and after it, whichever is more, and so for the directory.
    ///
    /// Refusals, in their order: those of [`Roll::check`], then 9 (the first missing or wrong entry), 10 (0), 3 (place
    /// in the text put in), 4 (number, in the edited text, of the first character that does not fit), 12 (entries
    /// needed).
    ///
    /// ```
    /// use monterculo::{Roll, Table};
    ///
    /// let (mut buf, mut directory) = ([0; 8], [0; 1]);
    /// let mut roll = Roll::pack(&Table::new(4, 3, b"anb"), b"banana", &mut buf)?;
    /// roll.make_directory(&buf, &mut directory)?;
    /// roll.edit(&mut buf, &mut directory, 2..4, b"")?;
    /// let mut out = [0; 4];
    /// roll.unpack(&buf, 0..4, &mut out)?;
    /// assert_eq!((roll.n(), &out), (4, b"bana"));
    /// # Ok::<(), monterculo::Refusal>(())
    /// ```
    pub fn edit(
        &mut self,
        buf: &mut [u8],
        directory: &mut [u32],
        range: impl RangeBounds<usize>,
        text: &[u8],
    ) -> Result<(), Refusal> {
        let (start, end) = bounds(range, self.n);
        let edited = sys::edit(self.record(), buf, directory, start, end, text);
        edited.answer.result(Given { text, entries: directory.len(), start, end, ..self.given() })?;
        *self = edited.roll.into();
        Ok(())
    }
}
