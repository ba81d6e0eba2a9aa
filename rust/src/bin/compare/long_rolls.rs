//! Long rolls, which a reader may take a byte at a time: what is bad in them stands at a border of bytes or next to it.
//! The first symbols it may take one by one, so where bytes begin is such a border too.

use monterculo::sys::{Roll, Table};
use monterculo_reference::reference::{bytes_of, codeword_by_rule, listing};

use crate::faults::Fault;
use crate::rng::Rng;
use crate::rolls::{bytes_for, per_byte};
use crate::tables::{ranks_up_to, table_with};
use crate::texts::{continuers, strange_codeword};

/// From so many symbols on a roll is long.
pub const LONG: usize = 2_048;

/// So many symbols of a long roll come before those that are taken by bytes.
pub const FIRST: usize = 1_024;

/// From so many characters on a range is long.
pub const MANY: usize = 2_048;

/// A long roll and its buffer, or one just too short for that; sound, or with one fault.
pub fn long_roll(rng: &mut Rng) -> (Roll, Vec<u8>) {
    let h = long_length(rng);
    long_roll_of(rng, h)
}

/// One of so many symbols, which are 1,023 at least.
pub fn long_roll_of(rng: &mut Rng, h: usize) -> (Roll, Vec<u8>) {
    use Fault::*;
    let table = table_at_bounds(rng);
    let k = table.k;
    let fault = match rng.below(12) {
        0..=2 => None,
        _ => Some(rng.pick(&[Rank, Rank, Rank, Rank, Unfinished, Endless, Turned, Turned, Count, Unused])),
    };
    let habit = Habit::of(rng);
    let number = near_border(rng, k, h);
    let mut symbols = match fault {
        Some(Rank) => {
            let codeword = bad_codeword(rng, &table, h);
            // It starts there or ends there.
            let any_start = rng.pick(&[number, (number + 1).saturating_sub(codeword.len())]);
            around(rng, &table, habit, &codeword, any_start, h)
        }
        Some(Unfinished) | Some(Endless) => {
            let last = rng.between(1, 2 * per_byte(k) + 1);
            let start = if fault == Some(Endless) { number } else { h - last };
            let mut symbols = sound_symbols(rng, &table, habit, start);
            symbols.extend(continuers(rng, &table, h - start));
            symbols
        }
        // A codeword as long as any that is sound, over the symbol where bytes begin.
        _ if rng.one_in(3) => {
            let last = usize::from(table.sigma).saturating_sub(1);
            let codeword = &listing(k, table.s).codewords[last];
            let start = FIRST - rng.below(codeword.len());
            around(rng, &table, habit, codeword, start, h)
        }
        _ => sound_symbols(rng, &table, habit, h),
    };
    let stoppers = |symbols: &[u8]| symbols.iter().filter(|&&symbol| symbol < table.s).count() as u32;
    let mut n = stoppers(&symbols);
    if fault == Some(Turned) {
        symbols[number] = if symbols[number] < table.s {
            continuers(rng, &table, 1)[0]
        } else {
            rng.below(usize::from(table.s)) as u8
        };
        if rng.one_in(2) {
            n = stoppers(&symbols);
        }
    }
    if fault == Some(Count) {
        n = rng.pick(&[n + 1, n - 1]);
    }
    let mut buf = bytes_of(k, &symbols);
    let unused = buf.len() * per_byte(k) - h;
    if fault == Some(Unused) && unused > 0 {
        let bits = rng.between(1, (1 << (unused * usize::from(k))) - 1);
        *buf.last_mut().expect("a long roll has bytes") |= bits as u8;
    }
    let behind = rng.pick(&[0, 0, 0, 1, 2, 20]);
    buf.extend(rng.bytes(behind));
    (Roll { table, n, h: h as u32 }, buf)
}

/// Each code, and σ where codewords gain a symbol, next to that, or at an end of its range.
fn table_at_bounds(rng: &mut Rng) -> Table {
    let k = rng.pick(&[2, 4]);
    let s = rng.between(1, (1 << k) - 1) as u8;
    let sigma = match rng.below(12) {
        0 => 1,
        1 => 2,
        2 => usize::from(s) + rng.below(2),
        3..=7 => {
            let longest = listing(k, s).codewords[255].len();
            let ranks = ranks_up_to(k, s, rng.between(1, longest));
            (ranks + rng.below(3) - 1).min(256)
        }
        8..=9 => rng.pick(&[255, 256]),
        _ => rng.between(1, 256),
    };
    table_with(rng, k, s, sigma)
}

/// Around the first long one with each rest that two bytes leave, around where bytes begin, some thousands, or next to
/// where 16 bits wrap.
fn long_length(rng: &mut Rng) -> usize {
    match rng.below(30) {
        0 => rng.near_16_bits(),
        1..=7 => rng.between(LONG, 8_000),
        8..=9 => rng.between(FIRST - 1, FIRST + 1),
        _ => rng.between(LONG - 2, LONG + 17),
    }
}

/// Near the symbol where bytes begin; or the first or last symbol of a byte, or any: in the first bytes, the last ones, or any.
fn near_border(rng: &mut Rng, k: u8, h: usize) -> usize {
    let (per, bytes) = (per_byte(k), bytes_for(k, h));
    let byte = match rng.below(6) {
        0..=1 => return rng.between(FIRST - 8, FIRST + 8).min(h - 1),
        2 => rng.below(4),
        3 => bytes - 1 - rng.below(4),
        _ => rng.below(bytes),
    };
    let any = rng.below(per);
    (byte * per + rng.pick(&[0, per - 1, any])).min(h - 1)
}

/// A sound roll of so many characters in no more than so many symbols, and its buffer.
pub fn roll_of_characters(rng: &mut Rng, n: usize, most: usize) -> (Roll, Vec<u8>) {
    let (mut table, habit) = (table_at_bounds(rng), Habit::of(rng));
    table.sigma = table.sigma.max(1);
    let list = listing(table.k, table.s);
    let mut taken = 0;
    let mut ranks = Vec::with_capacity(n);
    for behind in (0..n).rev() {
        let rank = habit.rank(rng, usize::from(table.sigma));
        // Rank 0 takes one symbol: room for it is kept for each of those behind.
        let rank = if taken + list.codewords[rank].len() + behind > most { 0 } else { rank };
        taken += list.codewords[rank].len();
        ranks.push(rank);
    }
    for last in (1..n).rev() {
        ranks.swap(last, rng.below(last + 1));
    }
    let symbols: Vec<u8> = ranks.iter().flat_map(|&rank| list.codewords[rank].iter().copied()).collect();
    (Roll { table, n: n as u32, h: symbols.len() as u32 }, bytes_of(table.k, &symbols))
}

/// Which ranks a roll has.
#[derive(Clone, Copy)]
enum Habit {
    Any,
    /// The least and the greatest.
    Ends,
    /// The greatest three.
    Last,
    /// Mostly the least four.
    First,
}

impl Habit {
    fn of(rng: &mut Rng) -> Habit {
        rng.pick(&[Habit::Any, Habit::Any, Habit::Ends, Habit::Last, Habit::First])
    }

    fn rank(self, rng: &mut Rng, sigma: usize) -> usize {
        match self {
            Habit::Ends => rng.pick(&[0, sigma - 1]),
            Habit::Last => sigma - 1 - rng.below(sigma.min(3)),
            Habit::First if !rng.one_in(8) => rng.below(sigma.min(4)),
            Habit::Any | Habit::First => rng.below(sigma),
        }
    }
}

/// So many symbols of codewords of ranks below σ; of rank 0 where σ is 0, as there are none.
fn sound_symbols(rng: &mut Rng, table: &Table, habit: Habit, length: usize) -> Vec<u8> {
    let list = listing(table.k, table.s);
    let sigma = usize::from(table.sigma).max(1);
    let mut symbols = Vec::with_capacity(length);
    while symbols.len() < length {
        let codeword = &list.codewords[habit.rank(rng, sigma)];
        let left = length - symbols.len();
        if codeword.len() <= left {
            symbols.extend_from_slice(codeword);
        } else {
            // Filled up with rank 0, behind or in front.
            let front = rng.pick(&[0, symbols.len()]);
            symbols.splice(front..front, vec![0; left]);
        }
    }
    symbols
}

/// This codeword from there on, or earlier if h would cut it, and h symbols in all: sound ones before and behind it.
fn around(rng: &mut Rng, table: &Table, habit: Habit, codeword: &[u8], start: usize, h: usize) -> Vec<u8> {
    let mut symbols = sound_symbols(rng, table, habit, start.min(h - codeword.len()));
    symbols.extend(codeword);
    let rest = h - symbols.len();
    symbols.extend(sound_symbols(rng, table, habit, rest));
    symbols
}

/// A codeword of rank σ, one more, or mostly far more, of at most h symbols.
fn bad_codeword(rng: &mut Rng, table: &Table, h: usize) -> Vec<u8> {
    let over = match rng.below(4) {
        0 | 1 => 0,
        2 => 1,
        _ => {
            let codeword = strange_codeword(rng, table);
            if codeword.len() <= h {
                return codeword;
            }
            2
        }
    };
    codeword_by_rule(table.k, table.s, u128::from(table.sigma) + over)
}
