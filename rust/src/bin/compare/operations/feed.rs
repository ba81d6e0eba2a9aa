//! Feeding a searcher, piece by piece; after each, finishing is asked too.

use monterculo::sys::{self, Answer, Fed, Searcher};
use monterculo_reference::library::{done, fed, started};
use monterculo_reference::reference::{self, Received, LIMIT};

use crate::coming::{any_searcher, coming, coming_at_limit, coming_long, cut, held, Coming};
#[cfg(test)]
use crate::in_pieces;
use crate::lent::Lent;
use crate::long_rolls::LONG;
use crate::operation::{Answered, Cases, Corners, Operation};
use crate::rng::Rng;
use crate::rolls::{bytes_for, per_byte};
use crate::texts::is_over_lines;

#[derive(Clone, Debug, PartialEq)]
pub struct Feed {
    searcher: Searcher,
    /// All that it was fed, if start and feeding made it.
    received: Option<Received>,
    /// Several are a chain.
    pieces: Vec<Piece>,
    /// The number of the piece to be fed now.
    now: usize,
}

#[derive(Clone, Debug, PartialEq)]
struct Piece {
    bytes: Lent<u8>,
    hits: Lent<u32>,
}

/// What feeding answers, and what finishing answers then.
#[derive(Clone, Copy, Debug, PartialEq)]
pub struct Told {
    fed: Fed,
    finished: Answer,
}

impl Answered for Told {
    fn answer(&self) -> Answer {
        self.fed.answer
    }
}

const FED: &str = "rolls of 1,048,576 symbols fed";
const ENDED: &str = "rolls of 1,048,576 symbols fed to their end by a searcher that nothing made";

impl Operation for Feed {
    const NAME: &'static str = "feed";
    const LISTED: &'static [u32] = &[0, 1, 5, 6, 11, 14];
    const CASES: Cases<Self> = &[(6, make), (1, make_long), (5, make_any)];
    const AT_LIMIT: Cases<Self> = &[(1, make_at_limit)];
    const DUE: &'static [&'static str] = &[FED, ENDED];
    type Answer = Told;

    fn archive(&mut self) -> Told {
        let Piece { bytes, hits } = &mut self.pieces[self.now];
        let fed = sys::feed(self.searcher, bytes, hits);
        Told { fed, finished: sys::finish(fed.searcher) }
    }

    /// By the searcher's numbers alone; of one that was made, by all that has come in too.
    fn reference(&mut self) -> Told {
        let Piece { bytes, hits } = &mut self.pieces[self.now];
        let mut again = hits.clone();
        let by_numbers = fed(reference::feed(&self.searcher.into(), bytes, hits));
        let finished = done(reference::finish(&by_numbers.searcher.into()));
        if let Some(received) = &self.received {
            let mut received = received.clone();
            let (answer, named) = received.feed(bytes, &mut again);
            assert_eq!(fed((answer, named, received.searcher())), by_numbers);
            assert_eq!((&again, done(received.finish())), (&*hits, finished));
        }
        Told { fed: by_numbers, finished }
    }

    fn refused(&self, refusal: Answer) -> Told {
        let fed = Fed { answer: refusal, hits: 0, searcher: self.searcher };
        Told { fed, finished: done(reference::finish(&self.searcher.into())) }
    }

    fn may_change(&self, refusal: Answer) -> bool {
        refusal.number == 6 && self.searcher.judge.progress.bad == 0
    }

    fn calls(&self) -> usize {
        self.pieces.len()
    }

    fn go_on(&mut self, told: &Told) {
        let was_read = told.fed.answer.number == 0 || self.may_change(told.fed.answer);
        if let Some(received) = self.received.as_mut().filter(|_| was_read) {
            received.bytes.extend_from_slice(&self.pieces[self.now].bytes);
        }
        self.searcher = told.fed.searcher;
        self.now += 1;
    }

    fn corners(&self, told: &Told, met: &mut Corners) {
        let Piece { bytes, hits } = &self.pieces[self.now];
        let (before, after) = (self.searcher.judge.progress, told.fed.searcher.judge.progress);
        let number = told.fed.answer.number;
        if self.received.is_none() {
            met.meet(number == 0 && !bytes.is_empty(), "pieces fed to a searcher that nothing made");
            met.meet(number == 0 && told.fed.hits > 0, "hits named by a searcher that nothing made");
            met.meet(number == 0 && before.read < after.read && after.read as usize == LIMIT, ENDED);
            met.meet(self.may_change(told.fed.answer), "bad codewords met by a searcher that nothing made");
            let (held, behind) = held(&self.searcher);
            met.meet(number == 11 && is_over_lines(held), "pieces refused for byte 10 in the searcher");
            met.meet(number == 0 && behind.contains(&10), "pieces fed with byte 10 behind the pattern");
            return;
        }
        let (table, h) = (self.searcher.judge.roll.table, self.searcher.judge.roll.h);
        let per = per_byte(table.k) as u32;
        let is_last = bytes.len() == 1 && after.read == h && before.read < h;
        let over_border = hits_over(told.fed.hits, self);
        met.meet(self.now == 0 && self.pieces.len() > 1, "chains of pieces");
        match number {
            0 => {
                met.meet(bytes.is_empty(), "empty pieces fed");
                met.meet(bytes.len() == 1, "single bytes fed");
                met.meet(before.place > 0, "pieces fed in the middle of a codeword");
                met.meet(before.past == 1 && after.past == 1, "pieces fed in a run that has reached sigma");
                met.meet(told.fed.hits > 1, "pieces with several hits");
                met.meet(over_border, "pieces with a hit over their border");
                met.meet(is_last && after.stained == 1, "last bytes fed alone, with unused symbols not 0");
                met.meet(told.finished.number == 0, "pieces that end a sound roll");
                met.meet(told.finished.number == 7 && after.read == h, "pieces that end a roll of a wrong n");
                met.meet(told.finished.number == 8, "pieces that end a roll with unused symbols not 0");
                met.meet(
                    told.finished.number == 6 && after.first < after.read,
                    "pieces behind which a codeword is open",
                );
                met.meet(bytes.len() as u32 * per >= LONG as u32, "pieces of 2,048 symbols or more");
                met.meet(h as usize == LIMIT && after.read == h, FED);
            }
            6 if before.bad == 1 => met.meet(true, "pieces behind a bad codeword"),
            6 => {
                let open = after.place > 0;
                met.meet(told.fed.hits > 0, "hits delivered with 6");
                met.meet(over_border, "hits over a border delivered with 6");
                met.meet(open, "codewords open at h");
                met.meet(after.first < before.read, "bad codewords over a border of pieces");
                met.meet(after.first == before.read, "bad codewords that begin with a piece");
                met.meet(
                    !open && after.read == before.read + bytes.len() as u32 * per,
                    "bad codewords that end with a piece",
                );
                met.meet(!open && after.read < before.read + per, "bad codewords that end in a piece's first byte");
                met.meet(!open && before.past == 1, "bad codewords that had reached sigma in an earlier piece");
            }
            5 => {
                met.meet(hits.len() < bytes.len() * per as usize, "pieces refused 5 with a short slice too");
                met.meet(self.now + 1 < self.pieces.len(), "pieces refused 5 before others");
            }
            14 => {
                met.meet(self.now + 1 < self.pieces.len(), "pieces refused 14 before others");
                met.meet(told.fed.answer.value == hits.len() as u64 + 1, "pieces refused 14 for one entry");
            }
            _ => {}
        }
    }

    #[cfg(test)]
    const ERRORS: &'static [&'static str] = &[
        "loses the state at a border",
        "begins a codeword at a border",
        "forgets past at a border",
        "forgets beginnings at a border",
        "takes rank sigma",
        "counts places as far as 3",
        "names a run before its stopper",
        "names an open codeword at finishing alone",
        "forgets the state of a codeword open at h",
        "reads on behind a bad codeword",
        "counts the rest of a bad piece",
        "keeps the state of a bad codeword",
        "stops before the bad codeword's stopper",
        "keeps the searcher with 6",
        "gives 6 once",
        "answers the stopper",
        "passes unused symbols",
        "passes unused symbols of a byte alone",
        "looks at the first unused symbol alone",
        "looks at the last unused symbol alone",
        "looks at unused symbols behind a bad codeword",
        "reads unused symbols as symbols",
        "forgets a stain",
        "names a hit a call late",
        "names one hit of a piece",
        "loses overlapping hits",
        "keeps 32 bits of the beginnings",
        "keeps the whole pattern among the beginnings",
        "numbers hits within the piece",
        "numbers hits by their last character",
        "numbers hits by symbols",
        "writes hits backwards",
        "clears what is behind",
        "answers no hits with 6",
        "writes no hits with 6",
        "writes under a later 6",
        "counts two for a hit over a border",
        "answers no number of hits",
        "answers the number of hits with 6",
        "names 7 and 8 too",
        "asks 14 before 5",
        "asks 14 before an earlier 6",
        "asks 5 before an earlier 6",
        "asks 14 of the hits alone",
        "asks 14 of symbols up to h",
        "asks one entry of an empty piece",
        "asks 5 of symbols",
        "refuses an empty piece at the end",
        "takes a piece past the last byte",
        "counts a refused piece as fed",
        "answers the bytes",
        "answers the entries missing",
        "asks no past",
        "asks no place",
        "asks no shorter",
        "asks no rows",
        "asks no value",
        "asks no bad",
        "asks no stained",
        "asks no count",
        "asks no first",
        "asks no read",
        "asks no whole bytes",
        "asks no beginnings of characters",
        "asks no beginnings of the pattern",
        "asks no limit",
        "asks no length",
        "asks bounds before 11",
        "asks bounds before 5",
        "asks 11 before 5",
        "takes byte 10",
        "takes byte 10 alone",
        "takes byte 10 at the front",
        "takes byte 10 at the end",
        "takes byte 10 in the middle",
        "takes byte 10 behind 63 others",
        "asks bounds before byte 10",
        "asks for byte 10 before 5",
        "asks for byte 10 first",
        "answers where byte 10 is",
        "looks for byte 10 behind the pattern",
        "refuses byte 13",
        "looks behind the pattern",
        "clears what is behind the pattern",
        "wants a fresh state where no codeword is open",
        "answers h with 1",
        "keeps a limit of 65,536",
        "keeps 16 bits of what was read",
        "keeps 20 bits of what was read",
        "panics",
    ];

    #[cfg(test)]
    fn with_error(&mut self, error: &str) -> Told {
        let Piece { bytes, hits } = &mut self.pieces[self.now];
        let mut fed = in_pieces::feed(self.searcher, bytes, hits, error);
        match (error, fed.answer.number) {
            ("panics", 14) => panic!("on purpose"),
            ("clears what is behind the pattern", 0) => fed.searcher.pattern[fed.searcher.length as usize..].fill(0),
            _ => {}
        }
        Told { fed, finished: in_pieces::finish(fed.searcher, error) }
    }
}

/// Whether one of the hits named begins before the piece.
fn hits_over(named: usize, before: &Feed) -> bool {
    let Feed { received, pieces, now, .. } = before;
    let mut slice = vec![0; pieces[*now].hits.len()];
    let read = received.clone().map_or(0, |mut received| received.feed(&pieces[*now].bytes, &mut slice).1);
    slice[..read.min(named)].iter().any(|&hit| hit < before.searcher.judge.progress.count)
}

/// A roll fed piece by piece; some are refused between the others, and some come when all has come in.
fn make(rng: &mut Rng) -> Feed {
    let length = rng.length();
    let coming = coming(rng, length);
    // All that has come in is read anew at each piece.
    let most = if coming.bytes.len() > 2_000 { 3 } else { 60 };
    chain(rng, &coming, most)
}

fn make_long(rng: &mut Rng) -> Feed {
    let coming = coming_long(rng);
    let most = if coming.bytes.len() > 4_000 { 2 } else { 5 };
    chain(rng, &coming, most)
}

fn make_at_limit(rng: &mut Rng) -> Feed {
    let coming = coming_at_limit(rng);
    chain(rng, &coming, 1)
}

fn chain(rng: &mut Rng, coming: &Coming, most: usize) -> Feed {
    let searcher = started(reference::start(&coming.roll.into(), &coming.pattern)).searcher;
    let received = Received::new(&coming.roll.into(), &coming.pattern).ok();
    // Under a bad table any width will do.
    let k = if coming.roll.table.k == 4 { 4 } else { 2 };
    // With h over the limit every piece is refused.
    let due = if coming.roll.h as usize > LIMIT { 0 } else { bytes_for(k, coming.roll.h as usize) };
    let mut pieces = Vec::new();
    let mut fed = 0;
    for bytes in cut(&coming.bytes, &coming.cuts(rng, most)) {
        if rng.one_in(10) {
            pieces.push(past_the_end(rng, k, due.saturating_sub(fed)));
        }
        let needed = bytes.len() * per_byte(k);
        if rng.one_in(10) && needed > 0 {
            let any = rng.below(needed);
            let entries = rng.pick(&[needed - 1, needed - 1, any, 0]);
            pieces.push(piece(rng, bytes, entries));
        }
        let entries = needed + rng.pick(&[0, 0, 0, 1, 9]);
        pieces.push(piece(rng, bytes, entries));
        fed += bytes.len();
    }
    if rng.one_in(4) {
        pieces.push(piece(rng, &[], 2));
    }
    if rng.one_in(4) {
        pieces.push(past_the_end(rng, k, due.saturating_sub(fed)));
    }
    Feed { searcher, received, pieces, now: 0 }
}

fn piece(rng: &mut Rng, bytes: &[u8], entries: usize) -> Piece {
    Piece { bytes: bytes.to_vec().into(), hits: rng.numbers(entries).into() }
}

/// A piece that is longer than what is missing, with enough entries or not.
fn past_the_end(rng: &mut Rng, k: u8, missing: usize) -> Piece {
    let length = missing + rng.pick(&[1, 1, 2, 40]);
    let (bytes, needed) = (rng.bytes(length), length * per_byte(k));
    let entries = rng.pick(&[needed, needed, needed - 1, 0]);
    piece(rng, &bytes, entries)
}

/// A few pieces for a searcher that nothing made.
fn make_any(rng: &mut Rng) -> Feed {
    let searcher = any_searcher(rng);
    let (roll, progress) = (searcher.judge.roll, searcher.judge.progress);
    let k = if roll.table.k == 4 { 4 } else { 2 };
    let due = |symbols: u32| bytes_for(k, (symbols as usize).min(LIMIT));
    let mut missing = due(roll.h).saturating_sub(due(progress.read));
    let mut pieces = Vec::new();
    for _ in 0..rng.between(1, 3) {
        let any = rng.pick(&[0, 1, 1, 2, 3, 9]);
        let length = if rng.one_in(8) { any } else { any.min(missing) };
        missing -= length.min(missing);
        // Many bytes are codewords of one symbol.
        let mask = rng.pick(&[0x00, 0x11, 0x55, 0xFF]);
        let bytes: Vec<u8> = rng.bytes(length).iter().map(|byte| byte & mask).collect();
        let needed = length * per_byte(k);
        let entries = rng.pick(&[needed, needed, needed, needed + 1, needed.saturating_sub(1)]);
        pieces.push(piece(rng, &bytes, entries));
    }
    Feed { searcher, received: None, pieces, now: 0 }
}

#[cfg(test)]
mod tests {
    use std::collections::BTreeSet;

    use super::*;
    use crate::operation::{Case, Library};

    #[test]
    fn in_pieces_without_an_error_it_is_the_reference() {
        for (call, make) in (0..400).zip([make, make_any, make, make_any, make_long].into_iter().cycle()) {
            let case = make(&mut Rng::of_call(5, call));
            case.compare(Library::WithError("")).unwrap_or_else(|text| panic!("{}: {}", call, text));
        }
    }

    #[test]
    fn pieces_come_in_every_way() {
        let (mut bad, mut bad_end, mut open, mut rests) = Default::default();
        let into = |set: &mut BTreeSet<(u8, u32, i32)>, k, place, side: std::cmp::Ordering| {
            set.insert((k, place, side as i32));
        };
        for call in 0..3_000 {
            let mut case = make(&mut Rng::of_call(5, call));
            for _ in 0..case.calls() {
                let told = case.reference();
                let (before, after) = (case.searcher.judge.progress, told.fed.searcher.judge.progress);
                let (k, h) = (case.searcher.judge.roll.table.k, case.searcher.judge.roll.h);
                let bytes = case.pieces[case.now].bytes.len() as u32;
                if case.may_change(told.fed.answer) {
                    // Before, at or behind the piece's first symbol; and its last one in the piece's last byte or not.
                    let per = per_byte(k) as u32;
                    into(&mut bad, k, after.first % per, after.first.cmp(&before.read));
                    if after.place == 0 {
                        let rest = before.read + bytes * per - after.read;
                        into(&mut bad_end, k, (after.read - 1) % per, (rest / per).cmp(&0));
                    }
                }
                if told.fed.answer.number == 0 && told.finished.number == 6 {
                    into(&mut open, k, after.first % per_byte(k) as u32, after.read.cmp(&after.first));
                }
                if told.fed.answer.number == 0 && bytes == 1 && after.read == h {
                    into(&mut rests, k, h % per_byte(k) as u32, after.stained.cmp(&0));
                }
                case.go_on(&told);
            }
        }
        // A piece begins with a byte.
        assert_eq!(bad.len(), 2 * (4 + 2) + 2);
        assert_eq!(bad_end.len(), 2 * (4 + 2));
        // Where none is open, all that was read is whole bytes.
        assert_eq!(open.len(), 4 + 2 + 2);
        // A full last byte has no unused symbol.
        assert_eq!(rests.len(), 2 * (4 + 2) - 2);
    }
}
