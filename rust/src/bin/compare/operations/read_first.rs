//! Reading the first line of a frame text.

use monterculo::sys::{self, Answer, Roll, Rolled};
use monterculo_reference::library::rolled;
use monterculo_reference::reference::{self, HEAD, LIMIT};

use crate::faults::{faults, Fault};
use crate::framed::{first_frame, line_of, packed_line, spoil_head, spoil_line};
#[cfg(test)]
use crate::in_frames;
use crate::lent::Lent;
use crate::operation::{Cases, Corners, Operation};
use crate::rng::Rng;
use crate::tables::{bad_width, good_table, spoil_table};

#[derive(Clone, Debug, PartialEq)]
pub struct ReadFirst {
    line: Lent<u8>,
}

/// What stands beside a refused reading.
pub const NO_ROLL: Roll = Roll { table: sys::Table { k: 0, s: 0, sigma: 0, places: [0; 256] }, n: 0, h: 0 };

impl Operation for ReadFirst {
    const NAME: &'static str = "read_first";
    const LISTED: &'static [u32] = &[0, 1, 15];
    const CASES: Cases<Self> = &[(8, make)];
    type Answer = Rolled;

    fn archive(&mut self) -> Rolled {
        sys::read_first(&self.line)
    }

    fn reference(&mut self) -> Rolled {
        rolled(reference::read_first(&self.line))
    }

    fn refused(&self, refusal: Answer) -> Rolled {
        Rolled { answer: refusal, roll: NO_ROLL }
    }

    fn corners(&self, read: &Rolled, met: &mut Corners) {
        let table = read.roll.table;
        match read.answer.number {
            0 => {
                met.meet(table.sigma == 0, "first lines without characters read");
                met.meet(table.sigma == 256, "first lines of 256 characters read");
                met.meet(table.sigma > 256, "first lines of over 256 characters read");
                met.meet(table.sigma == u16::MAX, "first lines of 65,535 characters read");
                met.meet(table.s == 0 || table.s >= 1 << table.k, "first lines with a bad s read");
            }
            15 => {
                let length = self.line.len();
                met.meet(length == 0, "empty first lines refused");
                met.meet(length > 0 && length <= 2 * HEAD, "first lines of fewer than 13 bytes refused");
                met.meet(self.line.iter().any(u8::is_ascii_uppercase), "first lines with capitals refused");
                met.meet(self.line.last() != Some(&b'\n'), "first lines without their byte 10 refused");
            }
            _ => {}
        }
    }

    #[cfg(test)]
    const ERRORS: &'static [&'static str] = &[
        "takes capitals",
        "takes a blank for 0",
        "takes byte 58 for a digit",
        "takes byte 96 for a digit",
        "takes g for a digit",
        "takes a line without its byte 10",
        "takes byte 13 before byte 10",
        "takes byte 13 for byte 10",
        "leaves out an odd digit",
        "leaves out blanks",
        "reads up to the first byte 10",
        "reads the low digit first",
        "takes any kind",
        "takes a longer line",
        "takes a shorter line",
        "takes 12 bytes",
        "refuses a line without characters",
        "refuses 256 characters",
        "refuses over 256 characters",
        "refuses a bad s",
        "refuses a character twice",
        "reads the low byte of sigma first",
        "reads the low byte of n first",
        "reads the low byte of h first",
        "changes n for h",
        "changes k for s",
        "keeps 8 bits of sigma",
        "keeps 16 bits of n",
        "keeps 16 bits of h",
        "keeps 20 bits of n",
        "keeps 20 bits of h",
        "keeps 255 characters",
        "cuts sigma to 256",
        "leaves something behind sigma",
        "takes any width",
        "takes width 8",
        "asks the width before the line",
        "answers the width",
        "answers h",
        "counts lines from 1",
        "keeps the record with 1",
        "keeps the record with 15",
        "keeps k with 1",
        "panics",
    ];

    #[cfg(test)]
    fn with_error(&mut self, error: &str) -> Rolled {
        in_frames::first(&self.line, error)
    }
}

fn make(rng: &mut Rng) -> ReadFirst {
    use Fault::*;
    let faults = faults(rng, &[Table, Table, Length, Bits, Bits, Bits, Bits]);
    let mut table = good_table(rng);
    let numbers = [rng.next() as u32, rng.below(70_000) as u32, rng.below(300) as u32, 65_536, LIMIT as u32, 0];
    let (n, h) = (rng.pick(&numbers), rng.pick(&numbers));
    if faults.contains(&Table) {
        spoil_table(rng, &mut table);
    }
    if rng.one_in(8) {
        table.k = bad_width(rng);
    }
    let mut line = line_of(&first_frame(rng, &Roll { table, n, h }));
    if faults.contains(&Length) {
        let cut = rng.below(20).min(line.len() / 2 - 1);
        match rng.below(4) {
            // A line that is too short for its own head.
            0 => drop(line.splice(2 * cut.clamp(1, HEAD - 1).., *b"\n")),
            1 => spoil_head(rng, &mut line),
            2 => {
                let more = packed_line(&rng.bytes(cut));
                line.extend(more);
            }
            _ => line = packed_line(&rng.bytes(cut)),
        }
    }
    if faults.contains(&Bits) {
        spoil_line(rng, &mut line);
    }
    ReadFirst { line: line.into() }
}

#[cfg(test)]
mod tests {
    use super::*;
    use crate::operation::{Case, Library};

    #[test]
    fn in_frames_without_an_error_it_is_the_reference() {
        for call in 0..1_000 {
            let case = make(&mut Rng::of_call(5, call));
            case.compare(Library::WithError("")).unwrap_or_else(|text| panic!("{}: {}", call, text));
        }
    }
}
