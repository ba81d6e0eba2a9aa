//! Packing a text.

use monterculo::sys::{self, Answer, Roll, Rolled, Table};
use monterculo_reference::library::rolled;
use monterculo_reference::reference::{self, listing, LIMIT};

use crate::faults::{faults, Fault};
use crate::lent::Lent;
use crate::operation::{Answered, Cases, Corners, Operation};
#[cfg(test)]
use crate::planted::says;
use crate::rng::{Rng, OVER_16_BITS};
use crate::rolls::bytes_for;
use crate::tables::{good_table, spoil_table};
use crate::texts::{put_foreign, ranks};

#[derive(Clone, Debug, PartialEq)]
pub struct Pack {
    table: Table,
    text: Lent<u8>,
    buf: Lent<u8>,
}

impl Answered for Rolled {
    fn answer(&self) -> Answer {
        self.answer
    }
}

const PACKED: &str = "1,048,576 characters packed";
const ONE_MORE: &str = "texts of 1,048,577 characters refused at the last";
const BY_LIMIT: &str = "texts refused 4 by the limit and not the buffer";

impl Operation for Pack {
    const NAME: &'static str = "pack";
    const LISTED: &'static [u32] = &[0, 1, 3, 4];
    const CASES: Cases<Self> = &[(9, make)];
    const AT_LIMIT: Cases<Self> = &[(3, make_at_limit)];
    const DUE: &'static [&'static str] = &[PACKED, ONE_MORE, BY_LIMIT];
    type Answer = Rolled;

    fn archive(&mut self) -> Rolled {
        sys::pack(self.table, &self.text, &mut self.buf)
    }

    fn reference(&mut self) -> Rolled {
        rolled(reference::pack(&self.table.into(), &self.text, &mut self.buf))
    }

    fn refused(&self, refusal: Answer) -> Rolled {
        Rolled { answer: refusal, roll: Roll { table: self.table, n: 0, h: 0 } }
    }

    fn corners(&self, packed: &Rolled, met: &mut Corners) {
        let length = self.text.len();
        match packed.answer.number {
            0 => {
                met.meet(length == LIMIT, PACKED);
                met.meet(packed.roll.h as usize == LIMIT, "texts packed in 1,048,576 symbols");
                met.meet(length > OVER_16_BITS, "texts of over 65,536 characters packed");
            }
            4 => {
                let roomy = self.buf.len() > bytes_for(self.table.k, LIMIT);
                met.meet(length == LIMIT + 1 && packed.answer.value as usize == LIMIT, ONE_MORE);
                met.meet(roomy && length <= LIMIT, BY_LIMIT);
            }
            _ => {}
        }
    }

    #[cfg(test)]
    const ERRORS: &'static [&'static str] = &[
        "answers n though refused",
        "answers another table",
        "writes before it refuses",
        "keeps a room of 65,536",
        "keeps 16 bits of h",
        "keeps 16 bits of n",
    ];

    #[cfg(test)]
    const ERRORS_AT_LIMIT: &'static [&'static str] =
        &["refuses 1,048,576 characters", "knows no limit", "keeps 20 bits of h", "keeps 20 bits of n"];

    #[cfg(test)]
    fn with_error(&mut self, error: &str) -> Rolled {
        if error == "keeps a room of 65,536" {
            let bytes = self.buf.len().min(bytes_for(if self.table.k == 4 { 4 } else { 2 }, 65_536));
            return rolled(reference::pack(&self.table.into(), &self.text, &mut self.buf[..bytes]));
        }
        let before = self.buf.clone();
        let mut packed = self.reference();
        let room = self.buf.len() * if self.table.k == 4 { 2 } else { 4 };
        match (error, packed.answer.number) {
            ("keeps 16 bits of h", 0) => packed.roll.h &= 0xFFFF,
            ("keeps 16 bits of n", 0) => packed.roll.n &= 0xFFFF,
            ("keeps 20 bits of h", 0) => packed.roll.h &= 0xF_FFFF,
            ("keeps 20 bits of n", 0) => packed.roll.n &= 0xF_FFFF,
            ("refuses 1,048,576 characters", 0) if self.text.len() == LIMIT => {
                self.buf = before;
                return self.refused(says(4, LIMIT - 1));
            }
            ("knows no limit", 4) if room > LIMIT => packed.answer = says(0, 0),
            ("answers n though refused", number) if number != 0 => packed.roll.n = 1,
            ("answers another table", _) => packed.roll.table.places[255] = !packed.roll.table.places[255],
            // Refused, the buffer is as it was.
            ("writes before it refuses", 4) if !self.buf.is_empty() => self.buf[0] = !self.buf[0],
            _ => {}
        }
        packed
    }
}

fn make(rng: &mut Rng) -> Pack {
    let long = rng.one_in(100);
    let length = if long { rng.pick(&[OVER_16_BITS, OVER_16_BITS + 1, 70_000]) } else { rng.length() };
    of(rng, length, long)
}

fn make_at_limit(rng: &mut Rng) -> Pack {
    let length = rng.pick(&[LIMIT, LIMIT, LIMIT + 1, LIMIT + 5_000]);
    of(rng, length, true)
}

/// A text of so many characters; a long one mostly of rank 0 alone.
fn of(rng: &mut Rng, length: usize, long: bool) -> Pack {
    use Fault::*;
    let mut faults = faults(rng, &[Table, Foreign, Foreign, Short, Short]);
    if long && rng.one_in(2) {
        faults.clear();
    }
    let mut table = good_table(rng);
    let sigma = usize::from(table.sigma);
    let list = listing(table.k, table.s);
    // Only rank 0 alone comes as far as the limit with as many characters.
    let ranks = if long && sigma > 0 && !rng.one_in(4) { vec![0; length] } else { ranks(rng, sigma, length) };
    let symbols: usize = ranks.iter().map(|&rank| list.codewords[rank].len()).sum();
    let mut text: Vec<u8> = ranks.iter().map(|&rank| table.places[rank]).collect();
    if faults.contains(&Foreign) {
        put_foreign(rng, &table, &mut text);
    }
    let needed = bytes_for(table.k, symbols.min(LIMIT + 40));
    let bytes = if faults.contains(&Short) && needed > 0 {
        let any = rng.below(needed);
        rng.pick(&[needed - 1, needed - 1, 0, any])
    } else {
        needed + rng.pick(&[0, 0, 1, 7, 30])
    };
    if faults.contains(&Table) {
        spoil_table(rng, &mut table);
    }
    Pack { table, text: text.into(), buf: rng.bytes(bytes).into() }
}
