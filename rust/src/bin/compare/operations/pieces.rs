//! A roll searched in pieces, from start to finish and in several cuttings, held to the search and the check of the whole.

use monterculo::sys::{self, Answer, Fed, Roll, Searcher};
use monterculo_reference::library::{done, searcher_of, started, told};
use monterculo_reference::reference::{self, bytes_of, symbols_of, Received, LIMIT};

use crate::coming::{coming, coming_at_limit, coming_long, cut, Coming};
#[cfg(test)]
use crate::in_pieces;
use crate::lent::Lent;
use crate::long_rolls::LONG;
use crate::operation::{Answered, Cases, Corners, Operation};
use crate::rng::{Rng, NEAR_16_BITS};
use crate::rolls::{bytes_for, per_byte};

#[derive(Clone, Debug, PartialEq)]
pub struct Pieces {
    roll: Roll,
    pattern: Lent<u8>,
    bytes: Lent<u8>,
    /// The places at which the bytes are cut, each time.
    cuttings: Vec<Vec<usize>>,
    /// The hits of all pieces, one behind the other.
    hits: Lent<u32>,
    /// The first cutting whose pieces gave something else than those of the first of all.
    other: Option<Vec<usize>>,
}

/// What finishing answers, or start if it refuses; the first refusal of a piece; and what is then there.
#[derive(Clone, Copy, Debug, PartialEq)]
pub struct Whole {
    answer: Answer,
    met: Answer,
    hits: usize,
    searcher: Searcher,
}

impl Answered for Whole {
    fn answer(&self) -> Answer {
        self.answer
    }
}

const NOTHING: Answer = Answer { number: 0, value: 0 };

impl Pieces {
    /// All cuttings by this feeding and finishing; the searcher is started.
    fn fed(
        &mut self,
        searcher: Searcher,
        feed: impl Fn(Searcher, &[u8], &mut [u32]) -> Fed,
        finish: impl Fn(Searcher) -> Answer,
    ) -> Whole {
        let per = per_byte(self.roll.table.k);
        let mut first: Option<(Whole, Vec<u32>)> = None;
        for cuts in &self.cuttings {
            let mut whole = Whole { answer: NOTHING, met: NOTHING, hits: 0, searcher };
            let mut all = Vec::new();
            for piece in cut(&self.bytes, cuts) {
                let mut slice = vec![0; piece.len() * per];
                let Fed { answer, hits, searcher } = feed(whole.searcher, piece, &mut slice);
                if whole.met == NOTHING && answer.number != 0 {
                    whole.met = answer;
                }
                all.extend(slice.iter().take(hits));
                whole.searcher = searcher;
            }
            whole.answer = finish(whole.searcher);
            whole.hits = all.len();
            let outcome = (whole, all);
            match &first {
                Some(first) if *first != outcome => {
                    self.other = Some(cuts.clone());
                    break;
                }
                Some(_) => {}
                None => first = Some(outcome),
            }
        }
        let (whole, all) = first.expect("there is a cutting");
        self.hits.iter_mut().zip(all).for_each(|(entry, hit)| *entry = hit);
        whole
    }
}

const OF_LIMIT: &str = "rolls of 1,048,576 symbols fed in pieces";

impl Operation for Pieces {
    const NAME: &'static str = "pieces";
    const LISTED: &'static [u32] = &[0, 1, 5, 6, 7, 8, 11];
    const CASES: Cases<Self> = &[(4, make), (2, make_long)];
    const AT_LIMIT: Cases<Self> = &[(2, make_at_limit)];
    const DUE: &'static [&'static str] = &[OF_LIMIT];
    type Answer = Whole;

    fn archive(&mut self) -> Whole {
        let started = sys::start(self.roll, &self.pattern);
        match started.answer.number {
            0 => self.fed(started.searcher, sys::feed, sys::finish),
            _ => Whole { answer: started.answer, met: NOTHING, hits: 0, searcher: started.searcher },
        }
    }

    /// The hits are those of a search in the roll that ends before the first codeword that is bad or open.
    fn reference(&mut self) -> Whole {
        let Pieces { roll, pattern, bytes, hits, .. } = self;
        let mut received = match Received::new(&(*roll).into(), pattern) {
            Ok(received) => received,
            Err(refused) => return self.refused(done(Err(refused))),
        };
        received.bytes.extend_from_slice(bytes);
        let searcher = searcher_of(&received.searcher());
        let progress = searcher.judge.progress;
        let table = roll.table;
        let symbols = symbols_of(table.k, bytes, progress.first as usize);
        let sound = Roll { table, n: progress.count, h: progress.first };
        let searched = told(reference::search(&sound.into(), &bytes_of(table.k, &symbols), pattern, hits));
        assert_eq!(searched.number, 0);
        let six = Answer { number: 6, value: u64::from(progress.first) };
        let all_came = bytes.len() == bytes_for(table.k, roll.h as usize);
        Whole {
            answer: if all_came { done(reference::check(&(*roll).into(), bytes)) } else { six },
            met: if progress.bad == 1 { six } else { NOTHING },
            hits: searched.value as usize,
            searcher,
        }
    }

    fn refused(&self, refusal: Answer) -> Whole {
        let searcher = started(reference::start(&self.roll.into(), &self.pattern)).searcher;
        Whole { answer: refusal, met: NOTHING, hits: 0, searcher }
    }

    fn may_change(&self, refusal: Answer) -> bool {
        matches!(refusal.number, 6..=8)
    }

    fn corners(&self, whole: &Whole, met: &mut Corners) {
        let (h, progress) = (self.roll.h as usize, whole.searcher.judge.progress);
        if !matches!(whole.answer.number, 0 | 6..=8) {
            return;
        }
        let bytes = self.bytes.len();
        let every = self.cuttings.len() == (bytes + 1) * (bytes + 2) / 2;
        met.meet(every && bytes > 1, "rolls cut in every way into up to three pieces");
        met.meet(h >= LONG, "long rolls fed in pieces");
        met.meet(NEAR_16_BITS.contains(&h), "rolls of 65,535 to 65,537 symbols fed in pieces");
        met.meet(h == LIMIT, OF_LIMIT);
        met.meet(whole.answer.number == 6 && progress.bad == 0, "rolls fed in pieces that end too soon");
        met.meet(whole.answer.number == 6 && progress.bad == 1, "rolls fed in pieces with a bad codeword");
        met.meet(whole.hits > 1, "rolls fed in pieces with several hits");
        met.meet(self.cuttings.iter().any(|cuts| cuts.len() > bytes && bytes > 3), "rolls fed in single bytes");
    }

    #[cfg(test)]
    const ERRORS: &'static [&'static str] = &[
        "loses the state at a border",
        "forgets past at a border",
        "forgets beginnings at a border",
        "names a hit a call late",
        "names one hit of a piece",
        "numbers hits within the piece",
        "loses overlapping hits",
        "keeps 32 bits of the beginnings",
        "answers no hits with 6",
        "reads on behind a bad codeword",
        "counts the rest of a bad piece",
        "names a run before its stopper",
        "names an open codeword at finishing alone",
        "passes unused symbols of a byte alone",
        "names 7 and 8 too",
        "passes what ends too soon",
        "passes unused symbols",
        "asks 8 before 7",
        "answers n",
        "answers no hits where finishing refuses",
    ];

    #[cfg(test)]
    fn with_error(&mut self, error: &str) -> Whole {
        let started = started(reference::start(&self.roll.into(), &self.pattern));
        if started.answer.number != 0 {
            return self.refused(started.answer);
        }
        let feed = |searcher, piece: &[u8], slice: &mut [u32]| in_pieces::feed(searcher, piece, slice, error);
        let mut whole = self.fed(started.searcher, feed, |searcher| in_pieces::finish(searcher, error));
        if error == "answers no hits where finishing refuses" && whole.answer.number != 0 {
            whole.hits = 0;
        }
        whole
    }
}

/// Every cutting of so many bytes into up to three pieces, of which some may be empty.
fn all_cuttings(bytes: usize) -> Vec<Vec<usize>> {
    (0..=bytes).flat_map(|first| (first..=bytes).map(move |second| vec![first, second])).collect()
}

fn of(rng: &mut Rng, coming: Coming, cuttings: Vec<Vec<usize>>) -> Pieces {
    let Coming { roll, pattern, bytes } = coming;
    let entries = bytes.len() * per_byte(if roll.table.k == 4 { 4 } else { 2 }) + 1;
    Pieces {
        roll,
        pattern: pattern.into(),
        bytes: bytes.into(),
        cuttings,
        hits: rng.numbers(entries).into(),
        other: None,
    }
}

/// A short roll in all cuttings into up to three pieces, and in single bytes with empty pieces between.
fn make(rng: &mut Rng) -> Pieces {
    let length = rng.between(0, 24);
    let mut coming = coming(rng, length);
    // Seldom longer; it ends too soon then.
    coming.bytes.truncate(16);
    let bytes = coming.bytes.len();
    let mut cuttings = all_cuttings(bytes);
    if rng.one_in(3) {
        cuttings = vec![Vec::new(), (0..=bytes).flat_map(|cut| [cut, cut]).collect()];
    }
    of(rng, coming, cuttings)
}

/// One as long as there may be, whole and cut.
fn make_at_limit(rng: &mut Rng) -> Pieces {
    let coming = coming_at_limit(rng);
    let cuttings = vec![Vec::new(), coming.cuts(rng, 300)];
    of(rng, coming, cuttings)
}

/// A long roll in a few cuttings.
fn make_long(rng: &mut Rng) -> Pieces {
    let coming = if rng.one_in(3) {
        let length = rng.border_length();
        coming(rng, length)
    } else {
        coming_long(rng)
    };
    let most = rng.pick(&[4, 40, 300]);
    let mut cuttings = vec![Vec::new()];
    cuttings.extend((0..3).map(|_| coming.cuts(rng, most)));
    of(rng, coming, cuttings)
}
