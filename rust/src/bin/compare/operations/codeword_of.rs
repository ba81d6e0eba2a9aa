//! The codeword of a character.

use monterculo::sys::{self, Answer, Coded, Codeword, Table};
use monterculo_reference::library::done;
use monterculo_reference::reference::{self, LONGEST};

use crate::operation::{Answered, Cases, Corners, Operation};
use crate::rng::Rng;
use crate::tables::{good_table, spoil_table};

#[derive(Clone, Debug, PartialEq)]
pub struct CodewordOf {
    table: Table,
    character: u8,
}

impl Answered for Coded {
    fn answer(&self) -> Answer {
        self.answer
    }
}

impl Operation for CodewordOf {
    const NAME: &'static str = "codeword_of";
    const LISTED: &'static [u32] = &[0, 1, 3];
    const CASES: Cases<Self> = &[(8, make)];
    type Answer = Coded;

    fn archive(&mut self) -> Coded {
        sys::codeword_of(self.table, self.character)
    }

    fn reference(&mut self) -> Coded {
        let (answer, word) = reference::codeword_of(&self.table.into(), self.character);
        Coded { answer: done(answer), word: Codeword { length: word.length, symbols: word.symbols } }
    }

    fn refused(&self, refusal: Answer) -> Coded {
        Coded { answer: refusal, word: Codeword { length: 0, symbols: [0; LONGEST] } }
    }

    fn corners(&self, coded: &Coded, met: &mut Corners) {
        let Table { k, s, sigma, .. } = self.table;
        let longest = coded.answer.number == 0 && (k, s, sigma) == (2, 3, 256);
        met.meet(longest, "codewords under a table whose longest has 86 symbols");
    }

    #[cfg(test)]
    const ERRORS: &'static [&'static str] = &["leaves the last symbol"];

    #[cfg(test)]
    fn with_error(&mut self, error: &str) -> Coded {
        let mut coded = self.reference();
        if error == "leaves the last symbol" {
            coded.word.symbols[LONGEST - 1] = 1;
        }
        coded
    }
}

fn make(rng: &mut Rng) -> CodewordOf {
    let mut table = good_table(rng);
    let sigma = usize::from(table.sigma);
    let character = match rng.below(8) {
        // Ranked last, so of the longest codeword.
        0 | 1 if sigma > 0 => table.places[sigma - 1],
        2 if sigma < 256 => table.places[sigma],
        3 => rng.byte(),
        4 => 0,
        _ if sigma > 0 => table.places[rng.below(sigma)],
        _ => rng.byte(),
    };
    if rng.one_in(4) {
        spoil_table(rng, &mut table);
    }
    CodewordOf { table, character }
}
