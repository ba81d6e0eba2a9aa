//! Finishing a search in a roll that came in pieces.

use monterculo::sys::{self, Answer, Searcher};
use monterculo_reference::library::done;
use monterculo_reference::reference::{self, LIMIT};

use crate::coming::{any_searcher, fed_searcher, held};
#[cfg(test)]
use crate::in_pieces;
use crate::operation::{Cases, Corners, Operation};
use crate::rng::Rng;
use crate::texts::is_over_lines;

#[derive(Clone, Debug, PartialEq)]
pub struct Finish {
    searcher: Searcher,
}

const OF_LIMIT: &str = "finishings of a roll of 1,048,576 symbols";

impl Operation for Finish {
    const NAME: &'static str = "finish";
    const LISTED: &'static [u32] = &[0, 1, 5, 6, 7, 8, 11];
    const CASES: Cases<Self> = &[(3, make), (3, make_any)];
    const DUE: &'static [&'static str] = &[OF_LIMIT];
    type Answer = Answer;

    fn archive(&mut self) -> Answer {
        sys::finish(self.searcher)
    }

    fn reference(&mut self) -> Answer {
        done(reference::finish(&self.searcher.into()))
    }

    fn refused(&self, refusal: Answer) -> Answer {
        refusal
    }

    fn corners(&self, answer: &Answer, met: &mut Corners) {
        let (roll, progress) = (self.searcher.judge.roll, self.searcher.judge.progress);
        let too_soon = progress.bad == 0 && progress.read < roll.h;
        let (held, behind) = held(&self.searcher);
        match answer.number {
            6 => {
                met.meet(too_soon && progress.first < progress.read, "finishings too soon, with a codeword open");
                met.meet(too_soon && progress.first == progress.read, "finishings too soon, with no codeword open");
                met.meet(too_soon && progress.read == 0, "finishings before the first symbol");
                met.meet(progress.bad == 1, "finishings behind a bad codeword");
                met.meet(progress.stained == 1, "finishings refused 6 with a stain too");
            }
            7 => met.meet(progress.stained == 1, "finishings refused 7 with a stain too"),
            11 => met.meet(is_over_lines(held), "finishings refused for byte 10 in the searcher"),
            0 => {
                met.meet(roll.h == 0, "finishings of a roll without symbols");
                met.meet(roll.h as usize == LIMIT, OF_LIMIT);
                met.meet(behind.contains(&10), "finishings with byte 10 behind the pattern");
            }
            _ => {}
        }
    }

    #[cfg(test)]
    const ERRORS: &'static [&'static str] = &[
        "passes every roll",
        "passes a bad codeword",
        "passes what ends too soon",
        "names nothing that is missing",
        "passes unused symbols",
        "passes one character more",
        "asks 7 before 6",
        "asks 8 before 6",
        "asks 8 before 7",
        "answers the symbols read",
        "answers h where it ends too soon",
        "answers n",
        "asks no past",
        "asks no place",
        "asks no shorter",
        "asks no rows",
        "asks no value",
        "asks no bad",
        "asks no stained",
        "asks no count",
        "asks no first",
        "asks no read",
        "asks no whole bytes",
        "asks no beginnings of characters",
        "asks no beginnings of the pattern",
        "asks no limit",
        "asks no length",
        "asks bounds before 11",
        "asks bounds before 5",
        "asks 11 before 5",
        "takes byte 10",
        "takes byte 10 alone",
        "takes byte 10 at the front",
        "takes byte 10 at the end",
        "takes byte 10 in the middle",
        "takes byte 10 behind 63 others",
        "asks bounds before byte 10",
        "asks for byte 10 before 5",
        "asks for byte 10 first",
        "answers where byte 10 is",
        "looks for byte 10 behind the pattern",
        "refuses byte 13",
        "looks behind the pattern",
        "wants a fresh state where no codeword is open",
        "answers h with 1",
        "keeps a limit of 65,536",
        "asks 16 bits of n",
        "asks 20 bits of n",
    ];

    #[cfg(test)]
    fn with_error(&mut self, error: &str) -> Answer {
        in_pieces::finish(self.searcher, error)
    }
}

fn make(rng: &mut Rng) -> Finish {
    Finish { searcher: fed_searcher(rng) }
}

fn make_any(rng: &mut Rng) -> Finish {
    Finish { searcher: any_searcher(rng) }
}

#[cfg(test)]
mod tests {
    use super::*;
    use crate::operation::{Case, Library};

    #[test]
    fn in_pieces_without_an_error_it_is_the_reference() {
        for call in 0..600 {
            let make = if call % 2 == 0 { make } else { make_any };
            let case = make(&mut Rng::of_call(5, call));
            case.compare(Library::WithError("")).unwrap_or_else(|text| panic!("{}: {}", call, text));
        }
    }
}
