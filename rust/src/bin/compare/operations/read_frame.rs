//! Reading a later line of a frame text.

use monterculo::sys::{self, Answer};
use monterculo_reference::library::told;
use monterculo_reference::reference::{self, FRAME};

use crate::framed::{packed_line, spoil_line};
#[cfg(test)]
use crate::in_frames;
use crate::lent::Lent;
use crate::operation::{Cases, Corners, Operation};
use crate::rng::Rng;

#[derive(Clone, Debug, PartialEq)]
pub struct ReadFrame {
    line: Lent<u8>,
    out: Lent<u8>,
}

impl Operation for ReadFrame {
    const NAME: &'static str = "read_frame";
    const LISTED: &'static [u32] = &[0, 13, 15];
    const CASES: Cases<Self> = &[(8, make)];
    type Answer = Answer;

    fn archive(&mut self) -> Answer {
        sys::read_frame(&self.line, &mut self.out)
    }

    fn reference(&mut self) -> Answer {
        told(reference::read_frame(&self.line, &mut self.out))
    }

    fn refused(&self, refusal: Answer) -> Answer {
        refusal
    }

    fn corners(&self, answer: &Answer, met: &mut Corners) {
        let (value, out) = (answer.value as usize, self.out.len());
        match answer.number {
            0 => {
                met.meet(value == FRAME, "lines of 32 packed bytes read");
                met.meet(value == 1, "lines of one packed byte read");
                met.meet(value == out, "lines read into just their bytes");
            }
            13 => met.meet(out + 1 == value, "lines refused 13 for one byte"),
            15 => {
                met.meet(self.line[..] == packed_line(&[]), "lines without packed bytes refused");
                met.meet(self.line.len() == 2 * FRAME + 5, "lines of 33 packed bytes refused");
                met.meet(self.line.iter().any(u8::is_ascii_uppercase), "lines with capitals refused");
                met.meet(self.line.last() != Some(&b'\n'), "lines without their byte 10 refused");
                met.meet(out == 0, "lines refused 15 with no output");
            }
            _ => {}
        }
    }

    #[cfg(test)]
    const ERRORS: &'static [&'static str] = &[
        "takes capitals",
        "takes a blank for 0",
        "takes byte 58 for a digit",
        "takes byte 96 for a digit",
        "takes g for a digit",
        "takes a line without its byte 10",
        "takes byte 13 before byte 10",
        "takes byte 13 for byte 10",
        "leaves out an odd digit",
        "leaves out blanks",
        "reads up to the first byte 10",
        "reads the low digit first",
        "takes any kind",
        "takes kind 1",
        "takes 33 bytes",
        "takes any number of bytes",
        "takes no bytes",
        "refuses 32 bytes",
        "refuses fewer than 32 bytes",
        "refuses one byte",
        "cuts to 32 bytes",
        "asks 13 before 15",
        "asks 32 bytes always",
        "asks one byte more",
        "asks 13 of the kind too",
        "cuts to the output",
        "answers the bytes missing",
        "answers the digits",
        "answers 0",
        "counts lines from 1",
        "writes under 13",
        "writes under 15",
        "writes the kind too",
        "writes one behind",
        "clears what is behind",
        "panics",
    ];

    #[cfg(test)]
    fn with_error(&mut self, error: &str) -> Answer {
        in_frames::frame(&self.line, &mut self.out, error)
    }
}

fn make(rng: &mut Rng) -> ReadFrame {
    let (any, over) = (rng.between(1, FRAME), rng.between(FRAME + 1, 3 * FRAME));
    let length = match rng.below(12) {
        0 => rng.pick(&[0, FRAME + 1, FRAME + 1, over]),
        _ => rng.pick(&[any, any, any, 1, FRAME - 1, FRAME, FRAME]),
    };
    let mut line = packed_line(&rng.bytes(length));
    if rng.one_in(3) {
        spoil_line(rng, &mut line);
    }
    let any = rng.below(length.max(1));
    let out = match rng.below(4) {
        0 => rng.pick(&[length.saturating_sub(1), length.saturating_sub(1), any, 0]),
        _ => length + rng.pick(&[0, 0, 0, 1, 9, FRAME]),
    };
    ReadFrame { line: line.into(), out: rng.bytes(out).into() }
}

#[cfg(test)]
mod tests {
    use super::*;
    use crate::operation::{Case, Library};

    #[test]
    fn in_frames_without_an_error_it_is_the_reference() {
        for call in 0..1_000 {
            let case = make(&mut Rng::of_call(5, call));
            case.compare(Library::WithError("")).unwrap_or_else(|text| panic!("{}: {}", call, text));
        }
    }
}
