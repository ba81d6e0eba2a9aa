//! Making a roll's directory.

use monterculo::sys::{self, Answer, Roll, Table};
use monterculo_reference::library::done;
use monterculo_reference::reference::{self, LIMIT, STRIDE};

use crate::faults::{faults, Fault};
use crate::lent::Lent;
use crate::operation::{Cases, Corners, Operation};
#[cfg(test)]
use crate::planted::says;
use crate::rng::Rng;
use crate::rolls::{entries_for, roll_of, roll_of_limit, Made};
use crate::tables::good_table;

#[derive(Clone, Debug, PartialEq)]
pub struct MakeDirectory {
    roll: Roll,
    buf: Lent<u8>,
    directory: Lent<u32>,
}

const OF_LIMIT: &str = "directories of rolls of 1,048,576 symbols";

impl Operation for MakeDirectory {
    const NAME: &'static str = "make_directory";
    const LISTED: &'static [u32] = &[0, 1, 5, 6, 7, 8, 12];
    const CASES: Cases<Self> = &[(9, make)];
    const AT_LIMIT: Cases<Self> = &[(2, make_at_limit)];
    const DUE: &'static [&'static str] = &[OF_LIMIT];
    type Answer = Answer;

    fn archive(&mut self) -> Answer {
        sys::make_directory(self.roll, &self.buf, &mut self.directory)
    }

    fn reference(&mut self) -> Answer {
        done(reference::make_directory(&self.roll.into(), &self.buf, &mut self.directory))
    }

    fn refused(&self, refusal: Answer) -> Answer {
        refusal
    }

    fn corners(&self, answer: &Answer, met: &mut Corners) {
        let (n, h) = (self.roll.n as usize, self.roll.h as usize);
        if answer.number == 0 {
            met.meet(n > 0 && n % STRIDE < 2, "directories with a last entry of 1 or 32 characters");
            met.meet(n > 2_000, "directories of rolls of over 2,000 characters");
            met.meet(h == LIMIT, OF_LIMIT);
            met.meet(n == LIMIT, "directories of rolls of 1,048,576 characters");
        }
    }

    #[cfg(test)]
    const ERRORS: &'static [&'static str] = &[
        "counts in characters",
        "has an entry more",
        "clears what is behind",
        "writes before it refuses",
        "asks 12 first",
        "refuses one too long",
    ];

    #[cfg(test)]
    const ERRORS_AT_LIMIT: &'static [&'static str] = &["keeps 16 bits of an entry", "has 2,048 entries at most"];

    #[cfg(test)]
    fn with_error(&mut self, error: &str) -> Answer {
        let answer = self.reference();
        let Roll { n, h, .. } = self.roll;
        let directory = &mut self.directory;
        let needed = entries_for(n as usize);
        match (error, answer.number) {
            ("counts in characters", 0) => {
                for (number, entry) in directory[..needed].iter_mut().enumerate() {
                    *entry = (number * STRIDE) as u32;
                }
            }
            ("keeps 16 bits of an entry", 0) => directory[..needed].iter_mut().for_each(|entry| *entry &= 0xFFFF),
            ("has 2,048 entries at most", 0) if needed > 2_048 => return says(12, needed),
            ("has an entry more", 0) if n as usize % STRIDE == 0 && needed < directory.len() => directory[needed] = h,
            ("clears what is behind", 0) => directory[needed..].fill(0),
            ("writes before it refuses", 12) if !directory.is_empty() => directory[0] = 0,
            ("asks 12 first", 6..=8) if directory.len() < needed => return says(12, needed),
            ("refuses one too long", 0) if directory.len() > needed => return says(12, needed),
            _ => {}
        }
        answer
    }
}

fn make(rng: &mut Rng) -> MakeDirectory {
    let length = rng.border_length();
    of(rng, |rng, table, faults| roll_of(rng, table, length, faults))
}

fn make_at_limit(rng: &mut Rng) -> MakeDirectory {
    of(rng, roll_of_limit)
}

/// Of a roll that is made so.
fn of(rng: &mut Rng, make: impl Fn(&mut Rng, Table, &[Fault]) -> Made) -> MakeDirectory {
    use Fault::*;
    #[rustfmt::skip]
    let faults = faults(rng, &[Table, OtherTable, Room, Rank, Unfinished, Count, Length, Unused, Unused, Bits, Directory, Directory]);
    let table = good_table(rng);
    let made = make(rng, table, &faults);
    let needed = entries_for(made.cut().1.len());
    let entries = if faults.contains(&Directory) && needed > 0 {
        let any = rng.below(needed);
        rng.pick(&[needed - 1, needed - 1, 0, any])
    } else {
        needed + rng.pick(&[0, 0, 1, 5])
    };
    MakeDirectory { roll: made.roll(), buf: made.buf.into(), directory: rng.numbers(entries).into() }
}
