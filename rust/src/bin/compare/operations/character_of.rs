//! The character of a codeword.

use monterculo::sys::{self, Answer, Codeword, Table};
use monterculo_reference::library::told;
use monterculo_reference::reference::{self, listing, LONGEST};

use crate::operation::{Cases, Corners, Operation};
use crate::rng::Rng;
use crate::tables::{good_table, other_table, spoil_table, table_with};
use crate::texts::{run_of_continuers, strange_codeword};

#[derive(Clone, Debug, PartialEq)]
pub struct CharacterOf {
    table: Table,
    word: Codeword,
}

impl Operation for CharacterOf {
    const NAME: &'static str = "character_of";
    const LISTED: &'static [u32] = &[0, 1, 6];
    const CASES: Cases<Self> = &[(10, make)];
    type Answer = Answer;

    fn archive(&mut self) -> Answer {
        sys::character_of(self.table, self.word)
    }

    fn reference(&mut self) -> Answer {
        by_reference(self.table, self.word)
    }

    fn refused(&self, refusal: Answer) -> Answer {
        refusal
    }

    fn corners(&self, answer: &Answer, met: &mut Corners) {
        let longest = self.word.length == LONGEST;
        met.meet(longest && answer.number == 0, "codewords of 86 symbols read");
        met.meet(longest && answer.number == 6, "86 symbols refused");
    }

    #[cfg(test)]
    const ERRORS: &'static [&'static str] = &["takes the low bits", "takes 87 as 86"];

    #[cfg(test)]
    fn with_error(&mut self, error: &str) -> Answer {
        let (k, Codeword { length, symbols }) = (self.table.k, self.word);
        match error {
            "takes the low bits" if k == 2 || k == 4 => {
                let symbols = symbols.map(|symbol| symbol & ((1 << k) - 1));
                by_reference(self.table, Codeword { length, symbols })
            }
            "takes 87 as 86" if length == 87 => by_reference(self.table, Codeword { length: 86, symbols }),
            _ => self.reference(),
        }
    }
}

fn by_reference(table: Table, word: Codeword) -> Answer {
    let word = reference::Codeword { length: word.length, symbols: word.symbols };
    told(reference::character_of(&table.into(), &word))
}

fn make(rng: &mut Rng) -> CharacterOf {
    // The one codeword of 86 symbols would else come too seldom.
    let longest = rng.one_in(16);
    let mut table = if longest { table_with(rng, 2, 3, 256) } else { good_table(rng) };
    let list = listing(table.k, table.s);
    let sigma = usize::from(table.sigma);
    let mut codeword = match rng.below(8) {
        _ if longest => list.codewords[255].clone(),
        0 => strange_codeword(rng, &table),
        1 => run_of_continuers(rng, &table),
        2 => list.codewords[255].clone(),
        3 if sigma > 0 => list.codewords[sigma - 1].clone(),
        _ if sigma > 0 => list.codewords[rng.below(sigma)].clone(),
        _ => list.codewords[0].clone(),
    };
    let mut length = codeword.len();
    let last = length - 1;
    let top = 1u8 << table.k;
    match rng.below(24) {
        0 => length = 0,
        1 => length = rng.pick(&[LONGEST, LONGEST + 1, LONGEST + 2, 256 + length, (1 << 32) + length, usize::MAX]),
        2 => length = last,
        3 => length += 1,
        // Not a symbol of this width at all, though perhaps with the same low bits.
        4 | 5 => {
            let place = rng.below(length);
            codeword[place] = rng.pick(&[codeword[place] | top, top, top + 1, 255, codeword[place] | 0x80]);
        }
        6 => codeword[rng.below(length)] = rng.below(usize::from(table.s)) as u8,
        7 => codeword[last] = table.s,
        8..=11 if length == LONGEST => length = rng.pick(&[LONGEST + 1, LONGEST + 2, 256 + LONGEST, usize::MAX]),
        _ => {}
    }
    // Past the length anything may stand.
    let mut symbols = if rng.one_in(3) { [0; LONGEST] } else { rng.array() };
    let kept = codeword.len().min(LONGEST);
    symbols[..kept].copy_from_slice(&codeword[..kept]);
    match rng.below(8) {
        0 | 1 => spoil_table(rng, &mut table),
        2 => other_table(rng, &mut table),
        _ => {}
    }
    CharacterOf { table, word: Codeword { length, symbols } }
}
