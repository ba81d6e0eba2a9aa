//! Reading one character by the directory.

use monterculo::sys::{self, Answer, Roll, Table};
use monterculo_reference::library::{done, told};
use monterculo_reference::reference::{self, symbols_of, LIMIT, STRIDE};

use crate::faults::{faults, wrong_entry, Fault};
use crate::lent::Lent;
use crate::operation::{Cases, Corners, Operation};
#[cfg(test)]
use crate::planted::{good_if_wrapped, says};
use crate::rng::Rng;
#[cfg(test)]
use crate::rolls::{entries_for, starts};
use crate::rolls::{roll_of, roll_of_limit, Made};
use crate::tables::good_table;

#[derive(Clone, Debug, PartialEq)]
pub struct ReadOne {
    roll: Roll,
    buf: Lent<u8>,
    directory: Lent<u32>,
    place: usize,
}

impl ReadOne {
    /// What a check says of the roll.
    fn check(&self) -> Answer {
        done(reference::check(&self.roll.into(), &self.buf))
    }
}

const OF_LIMIT: &str = "characters read of rolls of 1,048,576 symbols, behind 65,536 of them";

impl Operation for ReadOne {
    const NAME: &'static str = "read_one";
    const LISTED: &'static [u32] = &[0, 1, 5, 6, 9, 10];
    const CASES: Cases<Self> = &[(13, make)];
    const AT_LIMIT: Cases<Self> = &[(2, make_at_limit)];
    const DUE: &'static [&'static str] = &[OF_LIMIT];
    type Answer = Answer;

    fn archive(&mut self) -> Answer {
        sys::read_one(self.roll, &self.buf, &self.directory, self.place)
    }

    fn reference(&mut self) -> Answer {
        told(reference::read_one(&self.roll.into(), &self.buf, &self.directory, self.place))
    }

    fn refused(&self, refusal: Answer) -> Answer {
        refusal
    }

    fn corners(&self, answer: &Answer, met: &mut Corners) {
        let ReadOne { roll, buf, directory, place } = self;
        match answer.number {
            0 => {
                let entry = directory[place / STRIDE] as usize;
                let inside = entry > 0 && symbols_of(roll.table.k, buf, entry)[entry - 1] >= roll.table.s;
                met.meet(inside, "characters read from an entry inside a codeword");
                met.meet(roll.h as usize == LIMIT && entry >= 65_536, OF_LIMIT);
                met.meet(*place >= STRIDE && place % STRIDE == 0, "characters read right at an entry behind the first");
                let unsound = self.check().number;
                met.meet(unsound == 6, "characters read with a bad codeword elsewhere");
                met.meet(unsound == 7, "characters read under a wrong n");
                met.meet(unsound == 8, "characters read with unused symbols not 0");
            }
            6 => met.meet(answer.value == u64::from(roll.h), "codewords refused 6 that would start at h"),
            10 => {
                met.meet(*place > u32::MAX as usize, "places over 32 bits refused 10");
                met.meet(directory.len() <= place / STRIDE, "places refused 10 with their entry missing too");
            }
            _ => {}
        }
    }

    #[cfg(test)]
    const ERRORS: &'static [&'static str] = &[
        "starts one entry early",
        "checks the whole roll",
        "checks n",
        "checks unused symbols",
        "asks 9 before 10",
        "asks 10 before 5",
        "asks 6 before 9",
        "answers the entry",
        "answers the place",
        "takes an entry at h",
        "checks the whole directory",
        "wants no entry behind",
        "cuts the place to 32 bits",
        "takes place n",
        "reads from the start",
        "passes over bad codewords",
        "answers h for all that is unfinished",
        "answers the last symbol and not h",
        "wraps at 8 bits",
        "wraps at 32 bits",
        "wraps at 64 bits",
        "cuts the place to 16 bits",
        "cuts the place to 20 bits",
    ];

    #[cfg(test)]
    const ERRORS_AT_LIMIT: &'static [&'static str] = &["keeps 16 bits of an entry", "keeps 20 bits of h"];

    #[rustfmt::skip]
    #[cfg(test)]
    fn with_error(&mut self, error: &str) -> Answer {
        let ReadOne { roll, buf, directory, place } = &*self;
        let (Roll { table, n, h }, place) = (*roll, *place);
        let read = |n: u32, directory: &[u32], place: usize| told(reference::read_one(&Roll { table, n, h }.into(), buf, directory, place));
        let answer = read(n, directory, place);
        let number = place / STRIDE;
        let good_entry = directory.get(number).map_or(false, |&entry| entry < h);
        let check = || self.check();
        match (error, answer.number) {
            ("starts one entry early", 0) if place >= STRIDE => read(n, directory, place - STRIDE),
            ("checks the whole roll", 0 | 6) if check().number != 0 => check(),
            ("checks n", 0 | 6) if check().number == 7 => check(),
            ("checks unused symbols", 0 | 6) if check().number == 8 => check(),
            ("asks 9 before 10", 10) if !good_entry => says(9, number),
            ("asks 10 before 5", 5) if place >= n as usize => says(10, 0),
            ("asks 6 before 9", 9) if check().number == 6 => check(),
            ("answers the entry", 9) => says(9, directory.get(number).map_or(number, |&entry| entry as usize)),
            ("answers the place", 9) => says(9, place),
            ("takes an entry at h", 9) if directory.get(number) == Some(&h) => says(6, h as usize),
            ("checks the whole directory", 0) if directory.iter().any(|&entry| entry >= h) => says(9, 0),
            ("wants no entry behind", 0) if directory.len() > entries_for(n as usize) => says(9, 0),
            ("cuts the place to 16 bits", 10) => read(n, directory, place & 0xFFFF),
            ("cuts the place to 20 bits", 10) => read(n, directory, place & 0xF_FFFF),
            ("keeps 16 bits of an entry", 0) => read(n, &directory.iter().map(|entry| entry & 0xFFFF).collect::<Vec<_>>(), place),
            ("keeps 20 bits of h", 0) if h as usize == LIMIT => says(9, number),
            ("cuts the place to 32 bits", 10) => read(n, directory, place & 0xFFFF_FFFF),
            ("takes place n", 10) if n < u32::MAX && place == n as usize => read(n + 1, directory, place),
            // All entries as a whole reading would find them, whatever is lent.
            ("reads from the start", 0 | 6) => {
                let right: Vec<u32> = starts(roll, buf).into_iter().step_by(STRIDE).collect();
                read(n, &right, place)
            }
            // A good codeword at the place is enough; those before it are only cut at their stoppers.
            ("passes over bad codewords", 6) => {
                let from = directory[number];
                let behind = starts(roll, buf).into_iter().filter(|&start| start > from);
                match std::iter::once(from).chain(behind).nth(place % STRIDE) {
                    Some(start) if start < h => read(1, &[start], 0),
                    _ => answer,
                }
            }
            ("answers h for all that is unfinished", 6) => {
                let symbols = symbols_of(table.k, buf, h as usize);
                let finished = symbols.iter().skip(answer.value as usize).any(|&symbol| symbol < table.s);
                says(6, if finished { answer.value as usize } else { h as usize })
            }
            ("answers the last symbol and not h", 6) if answer.value == u64::from(h) => says(6, h as usize - 1),
            ("wraps at 8 bits", 6) if good_if_wrapped(roll, buf, answer.value as usize, 8) => says(0, 0),
            ("wraps at 32 bits", 6) if good_if_wrapped(roll, buf, answer.value as usize, 32) => says(0, 0),
            ("wraps at 64 bits", 6) if good_if_wrapped(roll, buf, answer.value as usize, 64) => says(0, 0),
            _ => answer,
        }
    }
}

fn make(rng: &mut Rng) -> ReadOne {
    let length = rng.border_length();
    of(rng, |rng, table, faults| roll_of(rng, table, length, faults))
}

fn make_at_limit(rng: &mut Rng) -> ReadOne {
    of(rng, roll_of_limit)
}

/// Of a roll that is made so.
fn of(rng: &mut Rng, make: impl Fn(&mut Rng, Table, &[Fault]) -> Made) -> ReadOne {
    use Fault::*;
    #[rustfmt::skip]
    let faults = faults(rng, &[Table, OtherTable, Room, Rank, Rank, Unfinished, Count, Count, Length, Unused, Bits, Place, Place, Entry, Entry, Entry]);
    let table = good_table(rng);
    let made = make(rng, table, &faults);
    let starts = made.cut().1;
    let mut directory: Vec<u32> = starts.iter().copied().step_by(STRIDE).collect();
    let (n, read) = (made.n as usize, starts.len());
    // Under a wrong n also where the last character stands, and behind it.
    let mut place = match rng.below(8) {
        0 => 0,
        1 => n.saturating_sub(1),
        2 => rng.pick(&[31, 32, 33, 63, 64, 65]),
        3 => rng.pick(&[read.saturating_sub(1), read, read + 1]),
        4 => rng.below(n.max(1)),
        5 | 6 => made.strange + rng.below(3),
        _ => rng.below(read.max(1)),
    };
    if faults.contains(&Place) {
        let far = rng.pick(&[1 << 32, 1 << 37, 1 << 63, 1 << 16, 1 << 20]);
        place = rng.pick(&[n, n, n + 1, n + 31, n + 32, place + far, usize::MAX, usize::MAX - 31, u32::MAX as usize]);
    } else if n > 0 {
        place %= n;
    }
    let number = place / STRIDE;
    if faults.contains(&Entry) {
        match rng.below(6) {
            0 => directory.truncate(number),
            1 => directory.clear(),
            _ => {
                if let Some(entry) = directory.get_mut(number) {
                    *entry = wrong_entry(rng, *entry, made.h);
                }
            }
        }
    }
    // Entries that are not looked at may hold anything, or be missing.
    match rng.below(6) {
        0 => directory.truncate(number + 1),
        1 => {
            for _ in 0..rng.between(1, 4) {
                let any = rng.next() as u32;
                directory.push(rng.pick(&[any, made.h, made.h.wrapping_sub(1), 0]));
            }
        }
        2 | 3 if !directory.is_empty() => {
            let other = rng.below(directory.len());
            if other != number {
                directory[other] = wrong_entry(rng, directory[other], made.h);
            }
        }
        _ => {}
    }
    ReadOne { roll: made.roll(), buf: made.buf.into(), directory: directory.into(), place }
}
