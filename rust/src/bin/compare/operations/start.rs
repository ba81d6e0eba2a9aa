//! Starting a search in a roll that comes in pieces.

use monterculo::sys::{self, Answer, Roll, Started};
use monterculo_reference::library::started;
use monterculo_reference::reference::{self, LIMIT, PATTERN};

use crate::faults::{bad_pattern, faults, wrong, Fault};
use crate::lent::Lent;
use crate::operation::{Answered, Cases, Corners, Operation};
#[cfg(test)]
use crate::planted::{says, takes_byte_10};
use crate::rng::Rng;
use crate::tables::{characters, good_table, spoil_table};
use crate::texts::{is_over_lines, pattern, LineEnds};

#[derive(Clone, Debug, PartialEq)]
pub struct Start {
    roll: Roll,
    pattern: Lent<u8>,
}

impl Answered for Started {
    fn answer(&self) -> Answer {
        self.answer
    }
}

impl Start {
    fn of(&self, pattern: &[u8]) -> Started {
        started(reference::start(&self.roll.into(), pattern))
    }

    /// As though byte 10 were a character as any other.
    #[cfg(test)]
    fn kept(&self) -> Started {
        let mut started = self.of(&vec![0; self.pattern.len()]);
        started.searcher.pattern[..self.pattern.len()].copy_from_slice(&self.pattern);
        started
    }
}

const LINE_ENDS: LineEnds = LineEnds {
    alone: "starts refused for byte 10: alone",
    first: "starts refused for byte 10: first",
    last: "starts refused for byte 10: last",
    between: "starts refused for byte 10: between others",
    last_of_64: "starts refused for byte 10: last of 64",
    last_of_65: "starts refused with byte 10 last of 65",
    behind_13: "starts refused for byte 10: behind byte 13",
};

const IN_LIMIT: &str = "searches started in 1,048,576 symbols";
const ONE_OVER: &str = "starts refused for 1,048,577 symbols";

impl Operation for Start {
    const NAME: &'static str = "start";
    const LISTED: &'static [u32] = &[0, 1, 5, 11];
    const CASES: Cases<Self> = &[(4, make)];
    const DUE: &'static [&'static str] = &[IN_LIMIT, ONE_OVER];
    type Answer = Started;

    fn archive(&mut self) -> Started {
        sys::start(self.roll, &self.pattern)
    }

    fn reference(&mut self) -> Started {
        self.of(&self.pattern)
    }

    fn refused(&self, refusal: Answer) -> Started {
        Started { answer: refusal, ..self.of(b"") }
    }

    fn corners(&self, started: &Started, met: &mut Corners) {
        let bad_length = self.pattern.is_empty() || self.pattern.len() > PATTERN;
        let over_lines = is_over_lines(&self.pattern);
        match started.answer.number {
            0 => {
                let foreign = self.pattern.iter().any(|byte| !characters(&self.roll.table).contains(byte));
                met.meet(foreign, "searches started for a character not in the table");
                met.meet(self.pattern.len() == PATTERN, "searches started for 64 characters");
                met.meet(self.roll.h as usize == LIMIT, IN_LIMIT);
                met.meet(self.pattern.contains(&13), "searches started for byte 13");
            }
            1 => {
                met.meet(self.roll.h as usize > LIMIT, "starts refused 1 with h over the limit too");
                met.meet(over_lines, "starts refused 1 with byte 10 in the pattern too");
            }
            5 => {
                met.meet(self.roll.h as usize == LIMIT + 1, ONE_OVER);
                met.meet(bad_length, "starts refused 5 with a bad pattern too");
                met.meet(over_lines, "starts refused 5 with byte 10 in the pattern too");
            }
            _ => LINE_ENDS.meet(&self.pattern, met),
        }
    }

    #[cfg(test)]
    const ERRORS: &'static [&'static str] = &[
        "refuses everything",
        "asks 5 before 1",
        "asks 11 before 5",
        "asks no table",
        "knows no limit",
        "keeps a limit of 65,536",
        "refuses 1,048,576 symbols",
        "takes 1,048,577 symbols",
        "keeps 16 bits of h",
        "keeps 20 bits of h",
        "refuses 64 characters",
        "takes 65 characters",
        "takes the empty pattern",
        "takes byte 10",
        "takes byte 10 alone",
        "takes byte 10 at the front",
        "takes byte 10 at the end",
        "takes byte 10 in the middle",
        "takes byte 10 behind 63 others",
        "asks for byte 10 first",
        "asks for byte 10 before 5",
        "answers where byte 10 is",
        "refuses byte 13",
        "keeps a pattern with byte 10",
        "refuses a foreign character",
        "asks n",
        "answers the length",
        "keeps the pattern though refused",
        "leaves out the last character",
        "leaves something behind the pattern",
        "clears the places past sigma",
        "begins with no row",
        "begins with a symbol read",
        "begins with a beginning that ends",
    ];

    #[cfg(test)]
    fn with_error(&mut self, error: &str) -> Started {
        let Start { roll, pattern } = &*self;
        let mut started = self.of(pattern);
        let Started { answer, searcher } = &mut started;
        let bad_length = pattern.is_empty() || pattern.len() > PATTERN;
        let foreign = || pattern.iter().position(|byte| !characters(&roll.table).contains(byte));
        let over_lines = is_over_lines(pattern);
        let place = pattern.iter().position(|&byte| byte == 10).unwrap_or(0);
        match (error, answer.number) {
            ("refuses everything", _) => return self.refused(says(1, 0)),
            ("asks 5 before 1", 1) if roll.h as usize > LIMIT => *answer = says(5, roll.h as usize),
            ("asks 11 before 5", 5) if bad_length => *answer = says(11, 0),
            ("asks no table", 1) => *answer = says(0, 0),
            ("knows no limit", 5) => *answer = says(0, 0),
            ("keeps a limit of 65,536", 0) if roll.h > 65_536 => return self.refused(says(5, roll.h as usize)),
            ("refuses 1,048,576 symbols", 0) if roll.h as usize == LIMIT => return self.refused(says(5, LIMIT)),
            ("takes 1,048,577 symbols", 5) if roll.h as usize == LIMIT + 1 => *answer = says(0, 0),
            ("keeps 16 bits of h", 0) => searcher.judge.roll.h &= 0xFFFF,
            ("keeps 20 bits of h", 0) => searcher.judge.roll.h &= 0xF_FFFF,
            ("refuses 64 characters", 0) if pattern.len() == PATTERN => return self.refused(says(11, 0)),
            ("takes 65 characters", 11) if pattern.len() == PATTERN + 1 => return self.of(&pattern[..PATTERN]),
            ("takes the empty pattern", 11) if pattern.is_empty() => *answer = says(0, 0),
            ("asks for byte 10 first", 1 | 5) if over_lines => *answer = says(11, 0),
            ("asks for byte 10 before 5", 5) if over_lines => *answer = says(11, 0),
            ("answers where byte 10 is", 11) if over_lines => answer.value = place as u64,
            ("refuses byte 13", 0) if pattern.contains(&13) => return self.refused(says(11, 0)),
            ("keeps a pattern with byte 10", 11) if over_lines => return Started { answer: *answer, ..self.kept() },
            (_, 11) if takes_byte_10(error, &roll.table, pattern) => return self.kept(),
            ("refuses a foreign character", 0) => {
                if let Some(place) = foreign() {
                    return self.refused(says(3, place));
                }
            }
            ("asks n", 0) if roll.n > roll.h => return self.refused(says(7, 0)),
            ("answers the length", 0) => answer.value = pattern.len() as u64,
            ("keeps the pattern though refused", 1 | 5 | 11) => {
                searcher.pattern.iter_mut().zip(pattern.iter()).for_each(|(kept, &character)| *kept = character);
            }
            ("leaves out the last character", 0) => searcher.pattern[pattern.len() - 1] = 0,
            ("leaves something behind the pattern", 0) if pattern.len() < PATTERN => {
                searcher.pattern[pattern.len()] = 1
            }
            ("clears the places past sigma", 0) => {
                searcher.judge.roll.table.places[usize::from(roll.table.sigma)..].fill(0);
            }
            ("begins with no row", _) => searcher.judge.progress.rows = 0,
            ("begins with a symbol read", _) => searcher.judge.progress.read = 1,
            ("begins with a beginning that ends", _) => searcher.ends = 1,
            _ => {}
        }
        started
    }
}

fn make(rng: &mut Rng) -> Start {
    use Fault::*;
    let faults = faults(rng, &[Table, Room, Count, Pattern]);
    let mut table = good_table(rng);
    let (any, few) = (rng.between(0, LIMIT), rng.below(150));
    let text: Vec<u8> = characters(&table).iter().copied().cycle().take(few).collect();
    let mut pattern = pattern(rng, &table, &text);
    let near = rng.near_16_bits();
    let mut h = rng.pick(&[any, any, 0, few, near, LIMIT]) as u32;
    let mut n = rng.between(0, h as usize) as u32;
    if faults.contains(&Pattern) {
        pattern = bad_pattern(rng, &pattern, &text);
    }
    if faults.contains(&Room) {
        let over = LIMIT as u32 + 1;
        h = rng.pick(&[over, over, over + 1, 0x8000_0000 + h, u32::MAX, 2 * LIMIT as u32]);
    }
    if faults.contains(&Count) {
        n = wrong(rng, n);
    }
    if faults.contains(&Table) {
        spoil_table(rng, &mut table);
    }
    Start { roll: Roll { table, n, h }, pattern: pattern.into() }
}

#[cfg(test)]
mod tests {
    use super::*;

    #[test]
    fn byte_10_comes_in_every_way() {
        let others = [
            "starts refused 1 with byte 10 in the pattern too",
            "starts refused 5 with byte 10 in the pattern too",
            "searches started for byte 13",
        ];
        LINE_ENDS.hold(&others, make, |case| &case.pattern);
    }
}
