//! Unpacking a range of a roll.

use monterculo::sys::{self, Answer, Roll};
use monterculo_reference::library::done;
use monterculo_reference::reference::{self, LIMIT};

#[cfg(test)]
use crate::by_bytes;
use crate::faults::{bad_range, faults, Fault};
use crate::lent::Lent;
use crate::long_rolls::{roll_of_characters, MANY};
use crate::operation::{Cases, Corners, Operation};
#[cfg(test)]
use crate::planted::says;
use crate::rng::{Rng, OVER_16_BITS};
use crate::rolls::{self, per_byte, roll_at_limit, starts, Made};

#[derive(Clone, Debug, PartialEq)]
pub struct Unpack {
    roll: Roll,
    buf: Lent<u8>,
    start: usize,
    end: usize,
    out: Lent<u8>,
}

const UNPACKED: &str = "rolls of 1,048,576 symbols unpacked";
const ALL: &str = "1,048,576 characters unpacked";

impl Operation for Unpack {
    const NAME: &'static str = "unpack";
    const LISTED: &'static [u32] = &[0, 1, 5, 6, 7, 8, 10, 13];
    const CASES: Cases<Self> = &[(11, make), (1, make_long)];
    const AT_LIMIT: Cases<Self> = &[(2, make_at_limit), (1, make_long_at_limit)];
    const DUE: &'static [&'static str] = &[UNPACKED, ALL];
    type Answer = Answer;

    fn archive(&mut self) -> Answer {
        sys::unpack(self.roll, &self.buf, self.start, self.end, &mut self.out)
    }

    fn reference(&mut self) -> Answer {
        done(reference::unpack(&self.roll.into(), &self.buf, self.start, self.end, &mut self.out))
    }

    fn refused(&self, refusal: Answer) -> Answer {
        refusal
    }

    fn corners(&self, answer: &Answer, met: &mut Corners) {
        met.meet(answer.number == 0 && self.roll.h as usize == LIMIT, UNPACKED);
        if !self.is_long() || self.end > self.roll.n as usize {
            return;
        }
        met.meet(answer.number != 0, "long ranges refused, not 10");
        if answer.number == 0 {
            let first = starts(&self.roll, &self.buf)[self.start] as usize;
            met.meet(true, "long ranges unpacked");
            met.meet(self.end - self.start == LIMIT, ALL);
            met.meet(first % per_byte(self.roll.table.k) != 0, "long ranges unpacked from inside a byte on");
            met.meet(self.end < self.roll.n as usize, "long ranges unpacked with characters behind");
            met.meet(self.end - self.start < self.out.len(), "long ranges unpacked with output behind");
        }
    }

    #[cfg(test)]
    const ERRORS: &'static [&'static str] = &[
        "asks 13 first",
        "writes one behind",
        "by bytes: begins with the byte's first symbol",
        "by bytes: leaves out what is before the first border",
        "by bytes: loses the state at the first border",
        "by bytes: loses the state at a byte",
        "by bytes: turns the later characters of a byte",
        "by bytes: stores four where three are to come",
        "by bytes: loses the state behind the bytes",
        "by bytes: leaves out the last symbols",
        "by bytes: writes one character more",
    ];

    #[cfg(test)]
    const ERRORS_AT_LIMIT: &'static [&'static str] =
        &["keeps 16 bits of a place", "keeps 20 bits of a length", "leaves out the last character"];

    #[cfg(test)]
    fn with_error(&mut self, error: &str) -> Answer {
        let before = self.out.clone();
        let answer = self.reference();
        if let Some(error) = error.strip_prefix("by bytes: ") {
            if self.is_long() && answer.number == 0 {
                self.out = before;
                by_bytes::unpack(&self.roll, &self.buf, self.start, self.end - self.start, &mut self.out, error);
            }
            return answer;
        }
        let length = self.end.saturating_sub(self.start);
        match (error, answer.number) {
            ("asks 13 first", 10) if length > self.out.len() => return says(13, length),
            // From a place over 65,535 on it goes on with those that have the same number in 16 bits.
            ("keeps 16 bits of a place", 0) if self.start == 0 && length > 65_536 => {
                let (first, behind) = self.out.split_at_mut(65_536);
                let many = (length - 65_536).min(65_536);
                behind[..many].copy_from_slice(&first[..many]);
            }
            ("keeps 20 bits of a length", 0) if length == LIMIT => self.out = before,
            ("leaves out the last character", 0) if length > 65_536 => self.out[length - 1] = before[length - 1],
            ("writes one behind", 0) if length < self.out.len() => self.out[length] = !self.out[length],
            _ => {}
        }
        answer
    }
}

impl Unpack {
    /// Whether so many characters are asked for that a reader may take bytes.
    fn is_long(&self) -> bool {
        self.end.saturating_sub(self.start) >= MANY
    }
}

fn make(rng: &mut Rng) -> Unpack {
    of(rng, rolls::roll)
}

fn make_at_limit(rng: &mut Rng) -> Unpack {
    of(rng, roll_at_limit)
}

/// Of a roll that is made so.
fn of(rng: &mut Rng, make: fn(&mut Rng, &[Fault]) -> Made) -> Unpack {
    use Fault::*;
    #[rustfmt::skip]
    let faults = faults(rng, &[Table, OtherTable, Room, Rank, Unfinished, Count, Length, Unused, Unused, Bits, Range, Range, Output, Output]);
    let made = make(rng, &faults);
    let n = made.n as usize;
    let (mut start, mut end) = match rng.below(5) {
        0 => (0, n),
        1 => {
            let place = rng.between(0, n);
            (place, place)
        }
        2 if n > 0 => {
            let place = rng.below(n);
            (place, place + 1)
        }
        _ => {
            let start = rng.between(0, n);
            (start, rng.between(start, n))
        }
    };
    if faults.contains(&Output) && start == end && !rng.one_in(8) {
        start = 0;
        end = n;
    }
    if faults.contains(&Range) {
        (start, end) = bad_range(rng, n, start, end);
    }
    // A wrong n or range may be far longer than any text.
    let longest = if faults.contains(&Count) || faults.contains(&Range) { 300 } else { LIMIT };
    let range = end.saturating_sub(start).min(longest);
    let out = if faults.contains(&Output) && range > 0 {
        let any = rng.below(range);
        rng.pick(&[range - 1, range - 1, 0, any])
    } else {
        range + rng.pick(&[0, 0, 1, 9])
    };
    Unpack { roll: made.roll(), buf: made.buf.into(), start, end, out: rng.bytes(out).into() }
}

fn make_long(rng: &mut Rng) -> Unpack {
    let length = match rng.below(30) {
        0 => rng.between(20_000, 60_000),
        1..=9 => rng.between(MANY, 6_000),
        _ => rng.between(MANY - 2, MANY + 4),
    };
    of_long(rng, length, OVER_16_BITS)
}

fn make_long_at_limit(rng: &mut Rng) -> Unpack {
    let any = rng.between(100_000, LIMIT);
    let length = rng.pick(&[any, LIMIT]);
    of_long(rng, length, LIMIT)
}

/// A range that is long, or just too short for that, of a sound roll of no more than so many symbols; seldom with one fault.
fn of_long(rng: &mut Rng, length: usize, most: usize) -> Unpack {
    use Fault::*;
    let (near, any) = (rng.below(9), rng.below(1_000));
    let before = rng.pick(&[0, near, any, any]).min(most - length);
    let (near, any) = (rng.below(9), rng.below(1_000));
    let behind = rng.pick(&[0, near, near, any]).min(most - length - before);
    let (mut roll, mut buf) = roll_of_characters(rng, before + length + behind, most);
    let n = roll.n as usize;
    let (mut start, mut end, mut out) = (before, before + length, length + rng.pick(&[0, 0, 1, 2, 3, 4, 9]));
    let fault = if rng.one_in(5) { Some(rng.pick(&[Range, Output, Output, Count, Bits])) } else { None };
    match fault {
        Some(Range) => (start, end) = bad_range(rng, n, start, end),
        Some(Output) => {
            let any = rng.below(length);
            out = rng.pick(&[length - 1, length - 1, any]);
        }
        Some(Count) => roll.n = rng.pick(&[roll.n - 1, roll.n + 1]),
        Some(Bits) => {
            let byte = rng.below(buf.len());
            buf[byte] ^= 1 << rng.below(8);
        }
        _ => {}
    }
    let unused = rng.pick(&[0, 0, 1, 20]);
    buf.extend(rng.bytes(unused));
    Unpack { roll, buf: buf.into(), start, end, out: rng.bytes(out).into() }
}

#[cfg(test)]
mod tests {
    use std::collections::BTreeSet;

    use super::*;
    use crate::operation::{Case, Library};

    #[test]
    fn by_bytes_without_an_error_it_is_the_reference() {
        for call in 0..300 {
            let case = make_long(&mut Rng::of_call(5, call));
            case.compare(Library::WithError("by bytes: ")).unwrap_or_else(|text| panic!("{}: {}", call, text));
        }
    }

    #[test]
    fn long_ranges_come_in_every_way() {
        let (mut codes, mut lengths, mut places) = (BTreeSet::new(), BTreeSet::new(), BTreeSet::new());
        for call in 0..1_000 {
            let mut case = make_long(&mut Rng::of_call(5, call));
            if case.reference().number != 0 {
                continue;
            }
            let (table, length) = (case.roll.table, case.end - case.start);
            let starts = starts(&case.roll, &case.buf);
            codes.insert((table.k, table.s));
            lengths.insert(length);
            // The symbols of a byte at which it begins and ends.
            let place = |character: usize| starts[character] as usize % per_byte(table.k);
            places.insert((table.k, place(case.start), place(case.end)));
        }
        assert_eq!(codes.len(), 18);
        assert!((MANY - 2..=MANY + 4).all(|length| lengths.contains(&length)));
        assert_eq!(places.len(), 4 * 4 + 2 * 2);
    }
}
