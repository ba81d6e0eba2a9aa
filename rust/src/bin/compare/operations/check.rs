//! Checking a roll.

use monterculo::sys::{self, Answer, Roll};
use monterculo_reference::library::done;
use monterculo_reference::reference::{self, symbols_of, LIMIT};

#[cfg(test)]
use crate::by_bytes;
use crate::faults::{faults, Fault};
use crate::lent::Lent;
use crate::long_rolls::{long_roll, long_roll_of, FIRST, LONG};
use crate::operation::{Cases, Corners, Operation};
#[cfg(test)]
use crate::planted::{good_if_wrapped, says};
use crate::rng::{Rng, NEAR_16_BITS};
use crate::rolls::{self, bytes_for, per_byte, roll_at_limit};

#[derive(Clone, Debug, PartialEq)]
pub struct Check {
    roll: Roll,
    buf: Lent<u8>,
}

const READ: &str = "rolls of 1,048,576 symbols read";
const READ_IN_LONGER: &str = "rolls of 1,048,576 symbols read in a longer buffer";
const REFUSED_6: &str = "rolls of 1,048,576 symbols refused 6";
const ONE_OVER: &str = "rolls of 1,048,577 symbols refused 5, their bytes being there";
const CLOSED: &str = "runs of 1,048,575 continuers, closed";
const OPEN: &str = "runs of 1,048,575 continuers, open";

impl Operation for Check {
    const NAME: &'static str = "check";
    const LISTED: &'static [u32] = &[0, 1, 5, 6, 7, 8];
    const CASES: Cases<Self> = &[(11, make), (5, make_long)];
    const AT_LIMIT: Cases<Self> = &[(2, make_at_limit), (2, make_long_at_limit)];
    const DUE: &'static [&'static str] = &[READ, READ_IN_LONGER, REFUSED_6, ONE_OVER, CLOSED, OPEN];
    type Answer = Answer;

    fn archive(&mut self) -> Answer {
        sys::check(self.roll, &self.buf)
    }

    fn reference(&mut self) -> Answer {
        done(reference::check(&self.roll.into(), &self.buf))
    }

    fn refused(&self, refusal: Answer) -> Answer {
        refusal
    }

    fn corners(&self, answer: &Answer, met: &mut Corners) {
        let (k, s, h) = (self.roll.table.k, self.roll.table.s, self.roll.h as usize);
        let long = h >= LONG;
        match answer.number {
            0 => {
                met.meet(long, "long rolls read");
                met.meet(
                    long && symbols_of(k, &self.buf, FIRST)[FIRST - 1] >= s,
                    "long rolls read with a codeword over the symbol where bytes begin",
                );
                met.meet(NEAR_16_BITS.contains(&h), "rolls of 65,535 to 65,537 symbols read");
                met.meet(h == LIMIT, READ);
                met.meet(h == LIMIT && self.buf.len() > bytes_for(k, LIMIT), READ_IN_LONGER);
            }
            5 => met.meet(h == LIMIT + 1 && self.buf.len() >= bytes_for(k, h), ONE_OVER),
            6 => {
                let first = answer.value as usize;
                let symbols = symbols_of(k, &self.buf, h);
                let end = symbols[first..].iter().position(|&symbol| symbol < s).map(|continuers| first + continuers);
                let two = 2 * per_byte(k);
                met.meet(long, "long rolls refused 6");
                met.meet(NEAR_16_BITS.contains(&h), "rolls of 65,535 to 65,537 symbols refused 6");
                met.meet(h == LIMIT, REFUSED_6);
                met.meet(long && end.is_none(), "long rolls refused 6 with a codeword unfinished");
                met.meet(
                    long && first < FIRST && end.unwrap_or(h) >= FIRST,
                    "long rolls refused 6 with a bad codeword over the symbol where bytes begin",
                );
                if let Some(end) = end.filter(|_| long) {
                    let (first_byte, last_byte) = (first / per_byte(k), end / per_byte(k));
                    met.meet(first_byte == last_byte, "long rolls refused 6 with a bad codeword inside one byte");
                    met.meet(first_byte < last_byte, "long rolls refused 6 with a bad codeword over a border of bytes");
                    met.meet(
                        end >= h / two * two,
                        "long rolls refused 6 with a bad codeword behind all pairs of bytes",
                    );
                }
                let runs = symbols.split(|&symbol| symbol < s).map(<[u8]>::len);
                let longest = runs.max().unwrap_or(0);
                met.meet(longest > 250, "rolls refused 6 with a run of over 250 continuers");
                met.meet((31..=250).contains(&longest), "rolls refused 6 with a run of 31 to 250 continuers");
                let (as_long, open) = (longest == LIMIT - 1, symbols[h - 1] >= s);
                met.meet(as_long && !open, CLOSED);
                met.meet(as_long && open, OPEN);
            }
            7 => met.meet(long, "long rolls refused 7"),
            8 => met.meet(long, "long rolls refused 8"),
            _ => {}
        }
    }

    #[cfg(test)]
    const ERRORS: &'static [&'static str] = &[
        "passes unused symbols",
        "passes every roll",
        "answers n",
        "panics",
        "wraps at 8 bits",
        "wraps at 16 bits",
        "wraps at 32 bits",
        "wraps at 64 bits",
        "by bytes: passes every rank in the last symbols",
        "by bytes: passes an unfinished codeword",
        "by bytes: passes unused symbols",
        "by bytes: takes a bound one too great",
        "by bytes: ranks the first codeword of a byte alone",
        "by bytes: loses the state between two bytes",
        "by bytes: loses the state behind two bytes",
        "by bytes: keeps 8 bits of the state",
        "by bytes: counts one fewer where a byte ends two",
        "by bytes: keeps the state of a refused pair",
        "by bytes: loses the state where bytes begin",
        "by bytes: loses the count where bytes begin",
        "by bytes: leaves out the last odd byte",
        "by bytes: names the first symbol of a byte",
        "by bytes: names no symbol before bytes begin",
        "by bytes: names the symbol that is refused",
        "by bytes: takes 65,536 symbols for none",
        "keeps a room of 65,536",
        "asks 16 bits of n",
        "asks 20 bits of n",
    ];

    #[cfg(test)]
    const ERRORS_AT_LIMIT: &'static [&'static str] = &[
        "by bytes: takes 1,048,576 symbols for none",
        "refuses 1,048,576 symbols",
        "refuses a longer buffer",
        "takes 1,048,577 symbols",
        "passes a run of 1,048,575 continuers",
        "passes an open run of 1,048,575 continuers",
    ];

    #[cfg(test)]
    fn with_error(&mut self, error: &str) -> Answer {
        let answer = self.reference();
        if let Some(error) = error.strip_prefix("by bytes: ") {
            return by_bytes::check(&self.roll, &self.buf, answer, error);
        }
        let good_in = |bits| good_if_wrapped(&self.roll, &self.buf, answer.value as usize, bits);
        let (k, h) = (self.roll.table.k, self.roll.h as usize);
        let same_n = |bits| (answer.value as u32 ^ self.roll.n) & bits == 0;
        // All symbols but this one are continuers: the last closes their run, the first leaves it open.
        let lone_stopper = |at: usize| {
            let symbols = symbols_of(k, &self.buf, h);
            (0..h).all(|number| (symbols[number] < self.roll.table.s) == (number == at))
        };
        match (error, answer.number) {
            ("keeps a room of 65,536", 0 | 6..=8) if h > 65_536 => says(5, h),
            ("asks 16 bits of n", 7) if same_n(0xFFFF) => says(0, 0),
            ("asks 20 bits of n", 7) if same_n(0xF_FFFF) => says(0, 0),
            ("refuses 1,048,576 symbols", 0 | 6..=8) if h == LIMIT => says(5, h),
            ("refuses a longer buffer", 0) if h == LIMIT && self.buf.len() > bytes_for(k, h) => says(5, h),
            ("takes 1,048,577 symbols", 5) if h == LIMIT + 1 && self.buf.len() >= bytes_for(k, h) => says(0, 0),
            ("passes a run of 1,048,575 continuers", 6) if h == LIMIT && lone_stopper(h - 1) => says(0, 0),
            ("passes an open run of 1,048,575 continuers", 6) if h == LIMIT && lone_stopper(0) => says(0, 0),
            ("passes unused symbols", 8) => says(0, 0),
            ("passes every roll", _) => says(0, 0),
            ("answers n", 7) => says(7, self.roll.n as usize),
            ("panics", 6) => panic!("on purpose"),
            ("wraps at 8 bits", 6) if good_in(8) => says(0, 0),
            ("wraps at 16 bits", 6) if good_in(16) => says(0, 0),
            ("wraps at 32 bits", 6) if good_in(32) => says(0, 0),
            ("wraps at 64 bits", 6) if good_in(64) => says(0, 0),
            _ => answer,
        }
    }
}

fn make(rng: &mut Rng) -> Check {
    use Fault::*;
    let faults = faults(rng, &[Table, OtherTable, Room, Rank, Rank, Unfinished, Count, Length, Unused, Unused, Bits]);
    let made = rolls::roll(rng, &faults);
    Check { roll: made.roll(), buf: made.buf.into() }
}

/// Sound, with a run as long, or with one fault or several.
fn make_at_limit(rng: &mut Rng) -> Check {
    use Fault::*;
    let any = faults(rng, &[Table, OtherTable, Room, Count, Length, Unused, Bits]);
    let faults = rng.pick(&[&[][..], &[Rank], &[Unfinished], &any]);
    let made = roll_at_limit(rng, faults);
    Check { roll: made.roll(), buf: made.buf.into() }
}

fn make_long(rng: &mut Rng) -> Check {
    let (roll, buf) = long_roll(rng);
    Check { roll, buf: buf.into() }
}

fn make_long_at_limit(rng: &mut Rng) -> Check {
    let h = rng.pick(&[LIMIT, LIMIT, LIMIT - 1, LIMIT + 1]);
    let (roll, buf) = long_roll_of(rng, h);
    Check { roll, buf: buf.into() }
}

#[cfg(test)]
mod tests {
    use std::collections::BTreeSet;

    use super::*;
    use crate::operation::{Case, Library};

    #[test]
    fn by_bytes_without_an_error_it_is_the_reference() {
        for call in 0..500 {
            let case = make_long(&mut Rng::of_call(5, call));
            case.compare(Library::WithError("by bytes: ")).unwrap_or_else(|text| panic!("{}: {}", call, text));
        }
        for call in 0..2 {
            let case = make_long_at_limit(&mut Rng::of_call(5, call));
            assert!(case.compare(Library::WithError("by bytes: ")).is_ok(), "{}", call);
        }
    }

    #[test]
    fn long_rolls_come_in_every_way() {
        let (mut codes, mut lengths, mut bad) = (BTreeSet::new(), BTreeSet::new(), BTreeSet::new());
        let (mut all, mut begun) = (BTreeSet::new(), BTreeSet::new());
        for call in 0..2_000 {
            let mut case = make_long(&mut Rng::of_call(5, call));
            let answer = case.reference();
            let Roll { table, h, .. } = case.roll;
            let two = 2 * per_byte(table.k) as u32;
            codes.insert((table.k, table.s, answer.number == 0));
            all.insert(h as usize);
            if h >= LONG as u32 {
                lengths.insert((table.k, h % two, answer.number == 0));
            }
            if h >= LONG as u32 && answer.number == 6 {
                bad.insert((table.k, answer.value as u32 % two));
                begun.insert((table.k, answer.value as usize));
            }
        }
        assert_eq!(codes.len(), 2 * 18);
        assert_eq!(lengths.len(), 2 * (8 + 4));
        assert_eq!(bad.len(), 8 + 4);
        assert!((FIRST - 1..=FIRST + 1).chain(LONG - 2..=LONG + 17).chain(NEAR_16_BITS).all(|h| all.contains(&h)));
        assert!((FIRST - 8..=FIRST + 8).all(|first| begun.contains(&(2, first)) && begun.contains(&(4, first))));
    }
}
