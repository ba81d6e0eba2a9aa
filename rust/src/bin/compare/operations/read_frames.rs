//! Reading a frame text: of a roll as it stands, and damaged in many ways.

use monterculo::sys::{self, Answer, Roll, Rolled};
use monterculo_reference::library::rolled;
use monterculo_reference::reference::{self, FRAME, LIMIT};

use super::read_first::NO_ROLL;
use crate::faults::{faults, Fault};
use crate::framed::{damaged, lines_of, roll_to_frame};
#[cfg(test)]
use crate::in_frames;
use crate::lent::Lent;
use crate::operation::{Cases, Corners, Operation};
use crate::rng::{Rng, OVER_16_BITS};
use crate::rolls::{bytes_for, roll_at_limit, Made};
use crate::tables::{bad_width, good_table};

#[derive(Clone, Debug, PartialEq)]
pub struct ReadFrames {
    text: Lent<u8>,
    buf: Lent<u8>,
}

const OF_LIMIT: &str = "frame texts of 1,048,576 symbols read";
const ONE_OVER: &str = "frame texts of 1,048,577 symbols refused";

impl Operation for ReadFrames {
    const NAME: &'static str = "read_frames";
    const LISTED: &'static [u32] = &[0, 1, 5, 6, 7, 8, 15];
    const CASES: Cases<Self> = &[(18, make), (1, make_long)];
    const AT_LIMIT: Cases<Self> = &[(1, make_at_limit), (2, make_long_at_limit)];
    const DUE: &'static [&'static str] = &[OF_LIMIT, ONE_OVER];
    type Answer = Rolled;

    fn archive(&mut self) -> Rolled {
        sys::read_frames(&self.text, &mut self.buf)
    }

    fn reference(&mut self) -> Rolled {
        rolled(reference::read_frames(&self.text, &mut self.buf))
    }

    fn refused(&self, refusal: Answer) -> Rolled {
        Rolled { answer: refusal, roll: NO_ROLL }
    }

    fn corners(&self, read: &Rolled, met: &mut Corners) {
        let value = read.answer.value as usize;
        let lines = self.text.split_inclusive(|&byte| byte == b'\n').count();
        match read.answer.number {
            0 => {
                let (k, h) = (read.roll.table.k, read.roll.h as usize);
                let bytes = bytes_for(k, h);
                met.meet(h == 0, "frame texts of one line read");
                met.meet(bytes > 0 && bytes % FRAME == 0, "frame texts read whose last frame is full");
                met.meet(bytes % FRAME == 1 && bytes > FRAME, "frame texts read with one byte in the last frame");
                met.meet(h == LIMIT, OF_LIMIT);
                met.meet(h > OVER_16_BITS, "frame texts of over 65,536 symbols read");
                met.meet(read.roll.table.sigma == 256, "frame texts of 256 characters read");
                met.meet(bytes == self.buf.len(), "frame texts read into just their bytes");
            }
            1 => met.meet(lines == 1, "frame texts of one line refused 1"),
            5 => {
                met.meet(value > LIMIT, "frame texts refused 5 by the limit");
                met.meet(value == LIMIT + 1, ONE_OVER);
                met.meet(value <= LIMIT, "frame texts refused 5 by the buffer");
            }
            15 => {
                let line = self.text.split_inclusive(|&byte| byte == b'\n').nth(value).unwrap_or_default();
                let well = reference::read_frame(line, &mut [0; FRAME]).is_ok();
                met.meet(self.text.is_empty(), "empty frame texts refused");
                met.meet(value == 0, "frame texts refused for their first line");
                met.meet(value == lines, "frame texts refused for a line that is missing");
                met.meet(value > 0 && value + 1 < lines, "frame texts refused for a line in the middle");
                met.meet(line.iter().any(u8::is_ascii_uppercase), "frame texts refused for capitals");
                met.meet(line.ends_with(b"\r\n"), "frame texts refused for byte 13");
                met.meet(line == b"\n", "frame texts refused for an empty line");
                met.meet(!line.is_empty() && !line.ends_with(b"\n"), "frame texts refused for a line without its end");
                met.meet(value > 0 && well, "frame texts refused for a frame too short, too long or too many");
            }
            _ => {}
        }
    }

    #[cfg(test)]
    const ERRORS: &'static [&'static str] = &[
        "takes capitals",
        "takes a blank for 0",
        "takes byte 58 for a digit",
        "takes byte 96 for a digit",
        "takes g for a digit",
        "takes a line without its byte 10",
        "takes a last line without its byte 10",
        "takes byte 13 before byte 10",
        "leaves out an odd digit",
        "leaves out blanks",
        "leaves out empty lines",
        "reads the low digit first",
        "takes any kind",
        "takes kind 1",
        "takes a longer line",
        "takes a shorter line",
        "takes the empty text",
        "takes a short frame in the middle",
        "takes a long last frame",
        "takes frames of any length",
        "takes 33 bytes",
        "lets all lines behind pass",
        "lets an empty line behind pass",
        "lets an empty frame behind pass",
        "lets what is no line behind pass",
        "wants a line with h 0",
        "wants an empty frame behind a full one",
        "reads one frame fewer",
        "takes zeros for a line that is missing",
        "counts lines from 1",
        "counts later lines from 0",
        "answers 0 with 15",
        "answers the last line",
        "answers the bytes that came",
        "reads the low byte of sigma first",
        "reads the low byte of n first",
        "reads the low byte of h first",
        "changes n for h",
        "keeps 8 bits of sigma",
        "keeps 16 bits of h",
        "keeps 255 characters",
        "cuts sigma to 256",
        "leaves something behind sigma",
        "takes any width",
        "asks the width behind the lines",
        "asks the table before the lines",
        "asks h before the lines",
        "asks h before the table",
        "checks before the lines",
        "asks the codewords before h",
        "asks n before the codewords",
        "asks h of the bytes that came",
        "keeps a limit of 65,536",
        "refuses an exact buffer",
        "passes a bad table",
        "passes a bad codeword",
        "passes a wrong n",
        "passes unused symbols",
        "answers n with 7",
        "answers h",
        "keeps the record with a refusal",
        "writes under 15",
        "writes under 6",
        "writes under 8",
        "writes one behind",
        "clears what is behind",
        "panics",
    ];

    #[cfg(test)]
    const ERRORS_AT_LIMIT: &'static [&'static str] =
        &["knows no limit", "refuses 1,048,576 symbols", "keeps 20 bits of n", "keeps 20 bits of h"];

    #[cfg(test)]
    fn with_error(&mut self, error: &str) -> Rolled {
        in_frames::read(&self.text, &mut self.buf, error)
    }
}

fn make(rng: &mut Rng) -> ReadFrames {
    of(rng, roll_to_frame)
}

fn make_at_limit(rng: &mut Rng) -> ReadFrames {
    of(rng, roll_at_limit)
}

/// Of a roll that is made so.
fn of(rng: &mut Rng, make: fn(&mut Rng, &[Fault]) -> Made) -> ReadFrames {
    use Fault::*;
    #[rustfmt::skip]
    let faults = faults(rng, &[Table, Table, OtherTable, Rank, Rank, Unfinished, Count, Length, Unused, Unused, Bits, Room, Short, Short]);
    let for_roll: Vec<Fault> = faults.iter().copied().filter(|&fault| fault != Room && fault != Short).collect();
    let made = make(rng, &for_roll);
    let mut roll = made.roll();
    if rng.one_in(16) {
        roll.table.k = bad_width(rng);
    }
    if faults.contains(&Room) {
        // Far more than can come, or a few more.
        roll.h = rng.pick(&[u32::MAX, 0x8000_0000 + roll.h, LIMIT as u32 + 1, roll.h + 1, roll.h + 130]);
    }
    // Under a bad width any will do.
    let k = if let 2 | 4 = roll.table.k { roll.table.k } else { made.under.k };
    let mut bytes = made.buf;
    let due = bytes_for(k, roll.h as usize);
    if due <= bytes.len().max(40_000) && !rng.one_in(20) {
        let fill = rng.pick(&[0, 0, 0x55]);
        bytes.resize(due, fill);
    }
    let lines = lines_of(rng, &roll, &bytes);
    let text = if rng.below(5) < 2 { damaged(rng, lines) } else { lines.concat() };
    let buf = lent(rng, bytes.len(), faults.contains(&Short));
    ReadFrames { text: text.into(), buf }
}

/// A buffer for so many bytes, or a shorter one.
fn lent(rng: &mut Rng, bytes: usize, short: bool) -> Lent<u8> {
    let any = rng.below(bytes.max(1));
    let length = if short {
        rng.pick(&[bytes.saturating_sub(1), bytes.saturating_sub(1), any, 0])
    } else {
        bytes + rng.pick(&[0, 0, 0, 1, 7, 40])
    };
    rng.bytes(length).into()
}

/// All lines of a roll that 16 bits cannot count.
fn make_long(rng: &mut Rng) -> ReadFrames {
    let h = OVER_16_BITS + rng.pick(&[0, 0, 1, 1, 2, 4, 5, 128, 3_000]);
    of_symbols(rng, h)
}

/// All lines of a roll at the limit or over it.
fn make_long_at_limit(rng: &mut Rng) -> ReadFrames {
    let h = LIMIT + rng.pick(&[0, 0, 0, 0, 1, 1, 2, 4, 5, 128, 3_000]);
    of_symbols(rng, h)
}

/// All lines of a roll of so many symbols, all of rank 0; seldom damaged.
fn of_symbols(rng: &mut Rng, h: usize) -> ReadFrames {
    let mut table = good_table(rng);
    table.sigma = table.sigma.max(1);
    let roll = Roll { table, n: h as u32, h: h as u32 };
    // Rank 0 is one symbol 0.
    let bytes = vec![0; bytes_for(table.k, h)];
    let lines = lines_of(rng, &roll, &bytes);
    let text = if rng.one_in(4) { damaged(rng, lines) } else { lines.concat() };
    let short = rng.one_in(4);
    ReadFrames { text: text.into(), buf: lent(rng, bytes.len(), short) }
}

#[cfg(test)]
mod tests {
    use std::collections::BTreeSet;

    use super::*;
    use crate::operation::{Case, Library};

    #[test]
    fn in_frames_without_an_error_it_is_the_reference() {
        for call in 0..1_000 {
            let make = if call % 100 == 0 { make_long } else { make };
            let case = make(&mut Rng::of_call(5, call));
            case.compare(Library::WithError("")).unwrap_or_else(|text| panic!("{}: {}", call, text));
        }
    }

    #[test]
    fn texts_come_in_every_way() {
        let (mut numbers, mut lengths, mut bad) = (BTreeSet::new(), BTreeSet::new(), BTreeSet::new());
        for call in 0..3_000 {
            let mut case = make(&mut Rng::of_call(5, call));
            let Rolled { answer, roll } = case.reference();
            numbers.insert(answer.number);
            match answer.number {
                0 => drop(lengths.insert((roll.table.k, bytes_for(roll.table.k, roll.h as usize)))),
                15 => drop(bad.insert(answer.value)),
                _ => {}
            }
        }
        assert!(ReadFrames::LISTED.iter().all(|number| numbers.contains(number)), "{:?}", numbers);
        for k in [2, 4] {
            let reached =
                [0, 1, 31, 32, 33, 63, 64, 65, 96, 97, 160].iter().all(|&bytes| lengths.contains(&(k, bytes)));
            assert!(reached, "{:?}", lengths);
        }
        assert!((0..=6).all(|number| bad.contains(&number)), "{:?}", bad);
    }
}
