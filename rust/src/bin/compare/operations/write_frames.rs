//! Writing a roll as a frame text.

use monterculo::sys::{self, Answer, Roll};
use monterculo_reference::library::told;
use monterculo_reference::reference::{self, FRAME, LIMIT};

use crate::faults::{faults, Fault};
use crate::framed::roll_to_frame;
#[cfg(test)]
use crate::in_frames;
use crate::lent::Lent;
use crate::operation::{Cases, Corners, Operation};
use crate::rng::{Rng, NEAR_16_BITS};
use crate::rolls::{bytes_for, per_byte, roll_at_limit, Made};

#[derive(Clone, Debug, PartialEq)]
pub struct WriteFrames {
    roll: Roll,
    buf: Lent<u8>,
    out: Lent<u8>,
}

const OF_LIMIT: &str = "rolls of 1,048,576 symbols written as frames";

impl Operation for WriteFrames {
    const NAME: &'static str = "write_frames";
    const LISTED: &'static [u32] = &[0, 1, 5, 6, 7, 8, 13];
    const CASES: Cases<Self> = &[(9, make)];
    const AT_LIMIT: Cases<Self> = &[(2, make_at_limit)];
    const DUE: &'static [&'static str] = &[OF_LIMIT];
    type Answer = Answer;

    fn archive(&mut self) -> Answer {
        sys::write_frames(self.roll, &self.buf, &mut self.out)
    }

    fn reference(&mut self) -> Answer {
        told(reference::write_frames(&self.roll.into(), &self.buf, &mut self.out))
    }

    fn refused(&self, refusal: Answer) -> Answer {
        refusal
    }

    fn corners(&self, answer: &Answer, met: &mut Corners) {
        let (value, out) = (answer.value as usize, self.out.len());
        match answer.number {
            0 => {
                let Roll { table, h, .. } = self.roll;
                let bytes = bytes_for(table.k, h as usize);
                met.meet(h == 0, "rolls without symbols written as frames");
                met.meet(bytes > 0 && bytes % FRAME == 0, "rolls that fill their last frame written");
                met.meet(bytes % FRAME == 1 && bytes > FRAME, "rolls with one byte in their last frame written");
                met.meet(NEAR_16_BITS.contains(&(h as usize)), "rolls of 65,535 to 65,537 symbols written as frames");
                met.meet(h as usize == LIMIT, OF_LIMIT);
                met.meet(table.sigma == 256, "rolls of 256 characters written as frames");
                met.meet(out == value, "frame texts written into just their bytes");
                met.meet(h as usize % per_byte(table.k) != 0, "rolls with unused symbols written as frames");
            }
            13 => met.meet(out + 1 == value, "frame texts refused 13 for one byte"),
            1 | 5..=8 => met.meet(out < 27, "rolls refused before 13 with a short output too"),
            _ => {}
        }
    }

    #[cfg(test)]
    const ERRORS: &'static [&'static str] = &[
        "writes capitals",
        "writes the low digit first",
        "writes 13 before 10",
        "leaves out the last byte 10",
        "leaves out every byte 10",
        "begins with kind 0",
        "writes kind 1 later too",
        "writes no kind later",
        "writes the low byte of sigma first",
        "writes the low byte of n first",
        "writes the low byte of h first",
        "changes n for h",
        "changes k for s",
        "writes 8 bits of sigma",
        "writes 16 bits of h",
        "writes all places",
        "writes one character fewer",
        "writes frames of 31",
        "writes frames of 33",
        "writes one frame",
        "fills the last frame",
        "writes an empty frame behind a full one",
        "writes an empty frame with h 0",
        "leaves out a last frame of one byte",
        "leaves out a last frame that is full",
        "writes the whole buffer",
        "writes whole bytes alone",
        "asks 13 before the check",
        "asks 13 of the digits alone",
        "asks one byte more",
        "asks 13 of the longest text",
        "answers the bytes missing",
        "answers the packed bytes",
        "answers 0",
        "writes what has room under 13",
        "writes the first line under 13",
        "writes the first line under 6",
        "writes one behind",
        "clears what is behind",
        "passes a bad codeword",
        "passes a wrong n",
        "passes unused symbols",
        "panics",
    ];

    #[cfg(test)]
    const ERRORS_AT_LIMIT: &'static [&'static str] = &["writes 20 bits of h", "writes 65,536 bytes at most"];

    #[cfg(test)]
    fn with_error(&mut self, error: &str) -> Answer {
        in_frames::write(&self.roll, &self.buf, &mut self.out, error)
    }
}

fn make(rng: &mut Rng) -> WriteFrames {
    of(rng, roll_to_frame)
}

fn make_at_limit(rng: &mut Rng) -> WriteFrames {
    of(rng, roll_at_limit)
}

/// Of a roll that is made so.
fn of(rng: &mut Rng, make: fn(&mut Rng, &[Fault]) -> Made) -> WriteFrames {
    use Fault::*;
    #[rustfmt::skip]
    let faults = faults(rng, &[Table, OtherTable, Room, Rank, Unfinished, Count, Length, Unused, Unused, Bits, Output, Output, Output, Output]);
    let made = make(rng, &faults);
    let (roll, k) = (made.roll(), made.under.k);
    let bytes = bytes_for(k, (made.h as usize).min(LIMIT));
    let frames = (bytes + FRAME - 1) / FRAME;
    let needed = 27 + 2 * usize::from(roll.table.sigma.min(256)) + 2 * bytes + 3 * frames;
    let out = if faults.contains(&Output) {
        let any = rng.below(needed);
        rng.pick(&[needed - 1, needed - 1, needed - 1 - frames, needed - frames.min(1) * 5, any, 0])
    } else {
        needed + rng.pick(&[0, 0, 0, 1, 9, 70])
    };
    WriteFrames { roll, buf: made.buf.into(), out: rng.bytes(out).into() }
}

#[cfg(test)]
mod tests {
    use super::*;
    use crate::operation::{Case, Library};

    #[test]
    fn in_frames_without_an_error_it_is_the_reference() {
        for call in 0..400 {
            let case = make(&mut Rng::of_call(5, call));
            case.compare(Library::WithError("")).unwrap_or_else(|text| panic!("{}: {}", call, text));
        }
    }
}
