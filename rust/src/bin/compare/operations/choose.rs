//! Choosing a table for counts.

use monterculo::sys::{self, Answer, Chosen, Table};
use monterculo_reference::library::{table_of, told};
use monterculo_reference::reference::{self, ALWAYS};

use crate::faults::counts_length;
use crate::lent::Lent;
use crate::operation::{Answered, Cases, Corners, Operation};
use crate::rng::Rng;
use crate::tables::bad_width;

#[derive(Clone, Debug, PartialEq)]
pub struct Choose {
    k: u8,
    counts: Lent<u32>,
}

impl Answered for Chosen {
    fn answer(&self) -> Answer {
        self.answer
    }
}

impl Operation for Choose {
    const NAME: &'static str = "choose";
    const LISTED: &'static [u32] = &[0, 1, 2];
    const CASES: Cases<Self> = &[(8, make)];
    type Answer = Chosen;

    fn archive(&mut self) -> Chosen {
        sys::choose(self.k, &self.counts)
    }

    fn reference(&mut self) -> Chosen {
        let (answer, table) = reference::choose(self.k, &self.counts);
        Chosen { answer: told(answer), table: table_of(&table) }
    }

    fn refused(&self, refusal: Answer) -> Chosen {
        Chosen { answer: refusal, table: Table { k: self.k, s: 0, sigma: 0, places: [0; 256] } }
    }

    fn corners(&self, chosen: &Chosen, met: &mut Corners) {
        if chosen.answer.number != 0 {
            return;
        }
        let counted = |byte: &&u8| self.counts[usize::from(**byte)] > 0;
        let twelve = ALWAYS.iter().filter(counted).count();
        let once = (0..=255).any(|byte| self.counts[usize::from(byte)] == 1 && !ALWAYS.contains(&byte));
        met.meet(self.counts.iter().all(|&count| count == 0), "tables for counts that are all 0");
        met.meet(twelve == 0, "tables for counts without any of the twelve");
        met.meet(0 < twelve && twelve < 12, "tables for counts with some of the twelve, but not all");
        met.meet(twelve == 11, "tables for counts with all of the twelve but one");
        met.meet(twelve == 12, "tables for counts with all of the twelve");
        met.meet(twelve < 12 && once, "tables for counts where a raised count ties with another");
    }

    #[cfg(test)]
    const ERRORS: &'static [&'static str] = &[
        "wraps at 32 bits",
        "takes the last of equals",
        "answers a table though refused",
        "raises nothing",
        "raises the digits alone",
        "raises all but one",
        "raises one more",
        "raises by 1",
        "raises after ranking",
        "raises the lent counts",
        "totals the lent counts",
    ];

    #[cfg(test)]
    fn with_error(&mut self, error: &str) -> Chosen {
        let mut chosen = self.reference();
        let accepted = chosen.answer.number == 0;
        // Chosen for counts that were raised in another way.
        let chosen_for = |raise: &dyn Fn(&mut [u32])| {
            let mut counts = self.counts.to_vec();
            raise(&mut counts);
            let (total, table) = reference::best(self.k, &counts);
            Chosen { answer: Answer { number: 0, value: total }, table: table_of(&table) }
        };
        let count = |byte: u8| self.counts[usize::from(byte)];
        let at_least_1 = |counts: &mut [u32], bytes: &[u8]| {
            for &byte in bytes {
                counts[usize::from(byte)] = counts[usize::from(byte)].max(1);
            }
        };
        match error {
            "wraps at 32 bits" => chosen.answer.value &= 0xFFFF_FFFF,
            // With as many stoppers as characters, or more, each takes one symbol.
            "takes the last of equals" if accepted && u32::from(chosen.table.sigma) < 1 << self.k => {
                chosen.table.s = (1 << self.k) - 1;
            }
            "answers a table though refused" if !accepted => chosen.table.s = 1,
            "raises nothing" if accepted => return chosen_for(&|_| {}),
            "raises the digits alone" if accepted => return chosen_for(&|counts| at_least_1(counts, &ALWAYS[..10])),
            "raises all but one" if accepted => return chosen_for(&|counts| at_least_1(counts, &ALWAYS[1..])),
            "raises one more" if accepted => {
                return chosen_for(&|counts| {
                    at_least_1(counts, &ALWAYS);
                    at_least_1(counts, b":");
                })
            }
            "raises by 1" if accepted => {
                return chosen_for(&|counts| {
                    for byte in ALWAYS {
                        counts[usize::from(byte)] = counts[usize::from(byte)].saturating_add(1);
                    }
                })
            }
            // Those raised come last, though the byte of another that is counted once is greater.
            "raises after ranking" if accepted => {
                let sigma = usize::from(chosen.table.sigma);
                chosen.table.places[..sigma].sort_by_key(|&byte| (u32::MAX - count(byte), byte));
            }
            "raises the lent counts" if accepted => at_least_1(&mut self.counts, &ALWAYS),
            "totals the lent counts" if accepted => {
                let list = reference::listing(self.k, chosen.table.s);
                let ranked = chosen.table.places.iter().zip(&list.codewords).take(chosen.table.sigma.into());
                chosen.answer.value =
                    ranked.map(|(&byte, codeword)| u64::from(count(byte)) * codeword.len() as u64).sum();
            }
            _ => {}
        }
        chosen
    }
}

fn make(rng: &mut Rng) -> Choose {
    let k = if rng.one_in(6) { bad_width(rng) } else { rng.pick(&[2, 4]) };
    let entries = counts_length(rng);
    let mut counts: Vec<u32> = vec![0; entries];
    let kind = rng.below(10);
    let share = rng.pick(&[1, 1, 2, 4, 16, 64]);
    let single = rng.next() as u32;
    let ratio = rng.between(101, 300) as f64 / 100.0;
    for (byte, count) in counts.iter_mut().enumerate() {
        if !rng.one_in(share) {
            continue;
        }
        *count = match kind {
            0 => 0,
            1 => single,
            2 => u32::MAX,
            3 => rng.next() as u32,
            4 => rng.below(3) as u32,
            // Falling by a ratio, so that every s is the best for some.
            5 => (f64::from(u32::MAX) / ratio.powi((byte % 64) as i32)) as u32,
            6 => 1 << rng.below(32),
            7 => rng.pick(&[0, 1, u32::MAX, u32::MAX - 1, 1 << 31]),
            8 => rng.below(2) as u32,
            _ => rng.below(2_000) as u32,
        };
    }
    if entries == 256 && rng.one_in(2) {
        change_twelve(rng, &mut counts);
    }
    Choose { k, counts: counts.into() }
}

/// Other counts of the twelve that count as at least 1: 0, 1, some of each, any for some, or 0 for a single one alone.
fn change_twelve(rng: &mut Rng, counts: &mut [u32]) {
    let kind = rng.below(5);
    let (any, single) = (rng.next() as u32, rng.pick(&ALWAYS));
    for byte in ALWAYS {
        counts[usize::from(byte)] = match kind {
            0 => 0,
            1 => 1,
            2 => rng.below(2) as u32,
            3 => rng.pick(&[0, 0, 1, 2, any]),
            _ if byte == single => 0,
            _ => counts[usize::from(byte)].max(rng.between(1, 2) as u32),
        };
    }
}
