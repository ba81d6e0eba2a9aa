//! Searching a roll for a pattern, by both engines: from codeword to codeword, and by jumping over most of the bytes.

use monterculo::sys::{self, Answer, Roll, Table};
use monterculo_reference::library::told;
use monterculo_reference::reference::{self, listing, symbols_of, LIMIT, LONGEST, PATTERN};

use crate::faults::{bad_pattern, faults, Fault};
use crate::lent::Lent;
use crate::operation::{Answered, Cases, Corners, Operation};
#[cfg(test)]
use crate::planted::{good_if_wrapped, says, takes_byte_10};
use crate::rng::{Rng, NEAR_16_BITS};
use crate::rolls::{fills_window, per_byte, roll_of, roll_of_limit, starts, Made};
use crate::tables::{characters, lengths, table_to_search};
use crate::texts::{is_over_lines, pattern, LineEnds};

#[derive(Clone, Debug, PartialEq)]
pub struct Search {
    pub roll: Roll,
    pub buf: Lent<u8>,
    pub pattern: Lent<u8>,
    /// What is lent to the plain search.
    pub hits: Lent<u32>,
    /// What is lent to the one that jumps: the same before a call.
    pub jumping: Lent<u32>,
}

/// What the two answer. Each is held to the reference, and so to the other.
#[derive(Clone, Copy, Debug, PartialEq)]
pub struct Both {
    pub plain: Answer,
    pub jumping: Answer,
}

impl Both {
    /// Both answer this.
    fn of(answer: Answer) -> Both {
        Both { plain: answer, jumping: answer }
    }
}

impl Answered for Both {
    fn answer(&self) -> Answer {
        self.plain
    }
}

impl Search {
    pub fn new(roll: Roll, buf: Vec<u8>, pattern: Vec<u8>, hits: Vec<u32>) -> Search {
        let hits: Lent<u32> = hits.into();
        Search { roll, buf: buf.into(), pattern: pattern.into(), jumping: hits.clone(), hits }
    }

    /// The symbols of the pattern, if all its characters are in the table.
    pub fn packed(&self) -> Option<Vec<u8>> {
        let (list, characters) = (listing(self.roll.table.k, self.roll.table.s), characters(&self.roll.table));
        let rank = |byte| characters.iter().position(|character| character == byte);
        let ranks: Option<Vec<usize>> = self.pattern.iter().map(rank).collect();
        ranks.map(|ranks| ranks.iter().flat_map(|&rank| list.codewords[rank].iter().copied()).collect())
    }

    /// All hits of a pattern in the roll, which is sound.
    fn all_hits(&self, pattern: &[u8]) -> Vec<u32> {
        let mut all = vec![0; self.roll.n as usize];
        let total = told(reference::search(&self.roll.into(), &self.buf, pattern, &mut all)).value as usize;
        all.truncate(total);
        all
    }

    /// What a search with this error lists, all of it; the reference has accepted.
    #[cfg(test)]
    fn wrong_hits(&self, error: &str) -> Option<Vec<u32>> {
        let Search { roll, buf, pattern, .. } = self;
        let Roll { table, n, h } = *roll;
        let symbols = symbols_of(table.k, buf, h as usize);
        let mut all = self.all_hits(pattern);
        match error {
            "takes any match of symbols" => {
                let packed = self.packed()?;
                let stoppers = |end| symbols[..end].iter().filter(|&&symbol| symbol < table.s).count() as u32;
                all = (0..symbols.len()).filter(|&at| symbols[at..].starts_with(&packed)).map(stoppers).collect();
            }
            "goes on behind a hit" => {
                let mut next = 0;
                all.retain(|&hit| {
                    let kept = hit >= next;
                    if kept {
                        next = hit + pattern.len() as u32;
                    }
                    kept
                });
            }
            "lists the last hit first" if !all.is_empty() => all.rotate_right(1),
            "lists backwards" => all.reverse(),
            "keeps 16 bits of a hit" => all.iter_mut().for_each(|hit| *hit &= 0xFFFF),
            "lists symbol numbers" => {
                let starts = starts(roll, buf);
                all = all.iter().map(|&hit| starts[hit as usize]).collect();
            }
            "compares 63 characters" => all = self.all_hits(&pattern[..pattern.len().min(63)]),
            "passes over the last place" => all.retain(|&hit| hit as usize + pattern.len() < n as usize),
            "passes over the first place" => all.retain(|&hit| hit > 0),
            "misses the first hit" if !all.is_empty() => drop(all.remove(0)),
            "misses the last hit" => drop(all.pop()),
            "lists a hit twice" if !all.is_empty() => all.insert(0, all[0]),
            "finds a near miss at the front" => all = self.hits_but(|place| place == 0),
            "finds a near miss in the middle" => all = self.hits_but(|place| place == pattern.len() / 2),
            "finds a near miss at the end" => all = self.hits_but(|place| place == pattern.len() - 1),
            _ => return None,
        }
        Some(all)
    }

    /// Where the pattern, be it good or not, stands in the text of the roll, which is sound; at the places passed over
    /// the characters may differ.
    fn hits_but(&self, passed: impl Fn(usize) -> bool) -> Vec<u32> {
        let mut text = vec![0; self.roll.n as usize];
        reference::unpack(&self.roll.into(), &self.buf, 0, text.len(), &mut text).expect("a sound roll");
        let same = |at: &[u8]| (0..at.len()).all(|number| passed(number) || at[number] == self.pattern[number]);
        let near = text.windows(self.pattern.len()).enumerate().filter(|&(_, at)| same(at));
        near.map(|(hit, _)| hit as u32).collect()
    }

    /// What the reference answers and lists with an error.
    #[rustfmt::skip]
    #[cfg(test)]
    pub fn wrong(&self, error: &str, slice: &mut [u32]) -> Answer {
        let Search { roll, buf, pattern, hits, .. } = self;
        let answer = told(reference::search(&(*roll).into(), buf, pattern, slice));
        let listed = match answer.number {
            0 => self.wrong_hits(error),
            11 if takes_byte_10(error, &roll.table, pattern) => Some(self.hits_but(|_| false)),
            _ => None,
        };
        if let Some(all) = listed {
            slice.copy_from_slice(hits);
            slice.iter_mut().zip(&all).for_each(|(entry, &hit)| *entry = hit);
            return says(0, all.len());
        }
        let total = answer.value as usize;
        let foreign = || pattern.iter().position(|byte| !characters(&roll.table).contains(byte));
        match (error, answer.number) {
            ("cuts the total to the list", 0) => return says(0, slice.len().min(total)),
            ("counts one hit more", 0) if total > 0 => return says(0, total + 1),
            ("counts one hit fewer", 0) if total > 0 => return says(0, total - 1),
            ("clears what is behind", 0) => slice.iter_mut().skip(total).for_each(|entry| *entry = 0),
            ("writes an entry behind the list", 0) if total < slice.len() => slice[total] = !slice[total],
            ("lists one hit fewer", 0) if total > 0 && total <= slice.len() => slice[total - 1] = hits[total - 1],
            ("asks 11 first", 5..=8) if pattern.is_empty() || pattern.len() > PATTERN => return says(11, 0),
            ("asks 11 before 8", 8) if pattern.is_empty() || pattern.len() > PATTERN => return says(11, 0),
            ("asks for byte 10 first", 1 | 5..=8) if is_over_lines(pattern) => return says(11, 0),
            ("asks for byte 10 before 8", 8) if is_over_lines(pattern) => return says(11, 0),
            ("answers where byte 10 is", 11) if is_over_lines(pattern) => {
                return says(11, pattern.iter().position(|&byte| byte == 10).unwrap_or(0));
            }
            ("refuses byte 13", 0) if pattern.contains(&13) => return says(11, 0),
            ("refuses byte 13 at the end", 0) if pattern.last() == Some(&13) => return says(11, 0),
            ("refuses a foreign character", 0) => {
                if let Some(place) = foreign() {
                    return says(3, place);
                }
            }
            ("refuses 64 characters", 0) if pattern.len() == PATTERN => return says(11, 0),
            ("finds the empty pattern", 11) if pattern.is_empty() => return says(0, roll.n as usize),
            ("wraps at 32 bits", 6) if good_if_wrapped(roll, buf, total, 32) => return says(0, 0),
            ("writes though refused", 7) if !slice.is_empty() => slice[0] = !slice[0],
            ("passes what is refused", 6..=8) => return says(0, 0),
            _ => {}
        }
        answer
    }
}

const IN_LIMIT: &str = "searches with hits in a roll of 1,048,576 symbols";
const FAR: &str = "searches with hits behind 65,536 characters";

impl Operation for Search {
    const NAME: &'static str = "search";
    const LISTED: &'static [u32] = &[0, 1, 5, 6, 7, 8, 11];
    const CASES: Cases<Self> = &[(7, make)];
    const AT_LIMIT: Cases<Self> = &[(2, make_at_limit)];
    const DUE: &'static [&'static str] = &[IN_LIMIT, FAR];
    type Answer = Both;

    fn archive(&mut self) -> Both {
        Both {
            plain: sys::search(self.roll, &self.buf, &self.pattern, &mut self.hits),
            jumping: sys::search_jumping(self.roll, &self.buf, &self.pattern, &mut self.jumping),
        }
    }

    fn reference(&mut self) -> Both {
        let answer = told(reference::search(&self.roll.into(), &self.buf, &self.pattern, &mut self.hits));
        self.jumping = self.hits.clone();
        Both::of(answer)
    }

    fn refused(&self, refusal: Answer) -> Both {
        Both::of(refusal)
    }

    fn corners(&self, both: &Both, met: &mut Corners) {
        let Search { roll, buf, pattern, hits, .. } = self;
        match both.plain.number {
            0 => {}
            11 => {
                LINE_ENDS.meet(pattern, met);
                let known = characters(&roll.table).contains(&10);
                met.meet(is_over_lines(pattern) && !known, "patterns with byte 10, which the table has not");
                let stands = is_over_lines(pattern) && !self.hits_but(|_| false).is_empty();
                return met.meet(stands, "patterns with byte 10 that stand in the text");
            }
            _ => return met.meet(is_over_lines(pattern), "patterns with byte 10 where check refuses"),
        }
        let packed = self.packed();
        met.meet(packed.is_none(), "patterns with a character not in the table");
        met.meet(pattern.len() > roll.n as usize, "patterns longer than the text");
        let all = self.all_hits(pattern);
        let total = all.len();
        met.meet(total > 0 && pattern.len() == roll.n as usize, "patterns that are the whole text");
        met.meet(total > 0 && pattern.len() == PATTERN, "patterns of 64 characters found");
        met.meet(total > 0 && pattern.contains(&13), "patterns with byte 13 found");
        let known = characters(&roll.table).contains(&13);
        met.meet(pattern.contains(&13) && !known, "patterns with byte 13, which the table has not");
        met.meet(total > hits.len(), "lists too short for the hits");
        met.meet(total > 0 && total == hits.len(), "lists as long as the hits");
        met.meet(total < hits.len(), "lists longer than the hits");
        met.meet(all.windows(2).any(|two| two[1] - two[0] < pattern.len() as u32), "searches with overlapping hits");
        let near = NEAR_16_BITS.contains(&(roll.h as usize));
        met.meet(total > 0 && near, "searches with hits in a roll of 65,535 to 65,537 symbols");
        met.meet(total > 0 && roll.h as usize == LIMIT, IN_LIMIT);
        met.meet(all.last().map_or(false, |&hit| hit > 65_535), FAR);
        if let Some(packed) = packed {
            let lengths = lengths(roll.table.k, roll.table.s, characters(&roll.table));
            let longest = pattern.iter().any(|&character| lengths[usize::from(character)] == LONGEST);
            met.meet(total > 0 && longest, "codewords of 86 symbols found");
            let symbols = symbols_of(roll.table.k, buf, roll.h as usize);
            let matches = symbols.windows(packed.len()).filter(|&at| at == packed).count();
            met.meet(matches > total, "searches with the symbols also where no hit is");
            let per = per_byte(roll.table.k);
            let in_window = total > 0 && fills_window(roll.table.k, packed.len());
            met.meet(total > 0 && !in_window, "patterns found with too few symbols to jump by");
            met.meet(in_window && packed.len() < 2 * per, "patterns found by windows of one byte");
            met.meet(in_window && packed.len() / per == 2, "patterns found by windows of two bytes");
            met.meet(in_window && packed.len() / per > 255, "patterns found that fill more than the widest window");
            let starts = starts(roll, buf);
            let inside = |&hit: &u32| starts[hit as usize] as usize % per != 0;
            met.meet(all.iter().any(inside), "searches with hits from inside a byte on");
            met.meet(all.first() == Some(&0), "searches with a hit at the roll's first symbol");
            let ends = |&hit: &u32| hit as usize + pattern.len() == roll.n as usize;
            met.meet(all.last().map_or(false, ends), "searches with a hit at the roll's last symbol");
        }
    }

    #[cfg(test)]
    const ERRORS: &'static [&'static str] = &[
        "takes any match of symbols",
        "goes on behind a hit",
        "cuts the total to the list",
        "lists the last hit first",
        "lists backwards",
        "lists symbol numbers",
        "compares 63 characters",
        "passes over the last place",
        "clears what is behind",
        "asks 11 first",
        "asks 11 before 8",
        "refuses a foreign character",
        "refuses 64 characters",
        "finds the empty pattern",
        "takes byte 10",
        "takes byte 10 alone",
        "takes byte 10 at the front",
        "takes byte 10 at the end",
        "takes byte 10 in the middle",
        "takes byte 10 behind 63 others",
        "takes byte 10 behind byte 13",
        "takes byte 10 where the table has it",
        "takes byte 10 where the table has it not",
        "asks for byte 10 first",
        "asks for byte 10 before 8",
        "answers where byte 10 is",
        "refuses byte 13",
        "refuses byte 13 at the end",
        "wraps at 32 bits",
        "writes though refused",
        "jumping: takes byte 10",
        "jumping: takes any match of symbols",
        "jumping: counts one hit fewer",
        "jumping: misses the last hit",
        "jumping: writes an entry behind the list",
        "jumping: passes what is refused",
    ];

    #[cfg(test)]
    const ERRORS_AT_LIMIT: &'static [&'static str] = &["keeps 16 bits of a hit", "jumping: keeps 16 bits of a hit"];

    #[cfg(test)]
    fn with_error(&mut self, error: &str) -> Both {
        let mut slice = self.hits.clone();
        let in_jumping = error.strip_prefix("jumping: ");
        let answer = self.wrong(in_jumping.unwrap_or(error), &mut slice);
        let both = self.reference();
        if in_jumping.is_some() {
            self.jumping = slice;
            Both { jumping: answer, ..both }
        } else {
            self.hits = slice;
            Both { plain: answer, ..both }
        }
    }
}

pub const LINE_ENDS: LineEnds = LineEnds {
    alone: "patterns refused for byte 10: alone",
    first: "patterns refused for byte 10: first",
    last: "patterns refused for byte 10: last",
    between: "patterns refused for byte 10: between others",
    last_of_64: "patterns refused for byte 10: last of 64",
    last_of_65: "patterns refused with byte 10 last of 65",
    behind_13: "patterns refused for byte 10: behind byte 13",
};

/// How many entries are lent for so many hits: none, too few, as many, or more.
pub fn entries_lent(rng: &mut Rng, total: usize) -> usize {
    let any = rng.between(0, total);
    rng.pick(&[0, 1, total, total, total.saturating_sub(1), total + 1, total + 9, any])
}

fn make(rng: &mut Rng) -> Search {
    let length = rng.border_length();
    of(rng, |rng, table, faults| roll_of(rng, table, length, faults))
}

fn make_at_limit(rng: &mut Rng) -> Search {
    of(rng, roll_of_limit)
}

/// Of a roll that is made so.
fn of(rng: &mut Rng, make: impl Fn(&mut Rng, Table, &[Fault]) -> Made) -> Search {
    use Fault::*;
    #[rustfmt::skip]
    let faults = faults(rng, &[Table, OtherTable, Room, Rank, Unfinished, Count, Length, Unused, Unused, Bits, Pattern, Pattern, Pattern]);
    let table = table_to_search(rng);
    let made = make(rng, table, &faults);
    let text = made.cut().0;
    let mut pattern = pattern(rng, &made.under, &text);
    if faults.contains(&Pattern) {
        pattern = bad_pattern(rng, &pattern, &text);
    }
    let total = if pattern.is_empty() { 0 } else { text.windows(pattern.len()).filter(|&at| at == pattern).count() };
    let entries = entries_lent(rng, total);
    Search::new(made.roll(), made.buf, pattern, rng.numbers(entries))
}

/// Corners of byte 10 and byte 13 that both ways of making a search meet.
#[cfg(test)]
pub const OTHERS: &[&str] = &[
    "patterns with byte 10, which the table has not",
    "patterns with byte 10 that stand in the text",
    "patterns with byte 10 where check refuses",
    "patterns with byte 13 found",
    "patterns with byte 13, which the table has not",
];

#[cfg(test)]
mod tests {
    use super::*;

    #[test]
    fn byte_10_comes_in_every_way() {
        LINE_ENDS.hold(OTHERS, make, |case| &case.pattern);
    }
}
