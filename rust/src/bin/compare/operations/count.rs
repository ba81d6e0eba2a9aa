//! Counting a text's characters.

use monterculo::sys::{self, Answer};
use monterculo_reference::library::done;
use monterculo_reference::reference::{self, LIMIT};

use crate::faults::counts_length;
use crate::lent::Lent;
use crate::operation::{Cases, Corners, Operation};
#[cfg(test)]
use crate::planted::says;
use crate::rng::Rng;

#[derive(Clone, Debug, PartialEq)]
pub struct Count {
    text: Lent<u8>,
    counts: Lent<u32>,
}

const COUNTED: &str = "1,048,576 characters counted";
const REFUSED: &str = "texts of 1,048,577 characters refused by counting";

impl Operation for Count {
    const NAME: &'static str = "count";
    const LISTED: &'static [u32] = &[0, 2, 4];
    const CASES: Cases<Self> = &[(7, make)];
    const DUE: &'static [&'static str] = &[COUNTED, REFUSED];
    type Answer = Answer;

    fn archive(&mut self) -> Answer {
        sys::count(&self.text, &mut self.counts)
    }

    fn reference(&mut self) -> Answer {
        done(reference::count(&self.text, &mut self.counts))
    }

    fn refused(&self, refusal: Answer) -> Answer {
        refusal
    }

    fn corners(&self, answer: &Answer, met: &mut Corners) {
        met.meet(answer.number == 0 && self.text.len() == LIMIT, COUNTED);
        met.meet(answer.number == 4 && self.text.len() == LIMIT + 1, REFUSED);
    }

    #[cfg(test)]
    const ERRORS: &'static [&'static str] = &[
        "writes though refused",
        "answers the length",
        "raises the twelve",
        "keeps a limit of 65,536",
        "answers 65,536",
        "refuses 1,048,576 characters",
        "takes 1,048,577 characters",
        "keeps 16 bits of a count",
        "keeps 20 bits of a count",
    ];

    #[cfg(test)]
    fn with_error(&mut self, error: &str) -> Answer {
        let before = self.counts.clone();
        let answer = self.reference();
        let length = self.text.len();
        match (error, answer.number) {
            ("keeps a limit of 65,536", 0) if length > 65_536 => {
                self.counts = before;
                return says(4, 65_536);
            }
            ("refuses 1,048,576 characters", 0) if length == LIMIT => {
                self.counts = before;
                return says(4, LIMIT);
            }
            ("answers 65,536", 4) => return says(4, 65_536),
            ("takes 1,048,577 characters", 4) if length == LIMIT + 1 => return says(0, 0),
            ("keeps 16 bits of a count", 0) => self.counts.iter_mut().for_each(|count| *count &= 0xFFFF),
            ("keeps 20 bits of a count", 0) => self.counts.iter_mut().for_each(|count| *count &= 0xF_FFFF),
            ("writes though refused", 4) => self.counts[255] = !self.counts[255],
            ("answers the length", 4) => return says(4, self.text.len()),
            ("raises the twelve", 0) => {
                for byte in reference::ALWAYS {
                    self.counts[usize::from(byte)] = self.counts[usize::from(byte)].max(1);
                }
            }
            _ => {}
        }
        answer
    }
}

thread_local! {
    /// Random bytes from which texts are cut, as those over the limit would take their time.
    static STOCK: Vec<u8> = Rng::new(0).bytes(LIMIT + 5_000);
}

fn make(rng: &mut Rng) -> Count {
    STOCK.with(|stock| {
        let length = match rng.below(32) {
            0 => rng.pick(&[LIMIT + 1, LIMIT + 1, LIMIT + 2, stock.len()]),
            1 => rng.near_16_bits(),
            2 => rng.pick(&[LIMIT, LIMIT, LIMIT - 1]),
            _ => rng.length(),
        };
        let from = rng.below(stock.len() - length + 1);
        let mut text = stock[from..from + length].to_vec();
        if rng.one_in(3) {
            let single = rng.byte();
            text.fill(single);
        }
        let entries = counts_length(rng);
        Count { text: text.into(), counts: rng.numbers(entries).into() }
    })
}
