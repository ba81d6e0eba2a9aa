//! Rolls: a record and its buffer, sound or with faults, and what they take.

use monterculo::sys::{Roll, Table};
use monterculo_reference::reference::{bytes_of, listing, symbols_of, LIMIT, STRIDE};

use crate::faults::{wrong, Fault};
use crate::rng::{Rng, OVER_16_BITS};
use crate::tables::{good_table, other_table, spoil_table};
use crate::texts::{continuers, ranks, run_of_continuers, strange_codeword};

pub fn per_byte(k: u8) -> usize {
    8 / usize::from(k)
}

/// Whether the search that jumps has a window for so many symbols, one byte at least; fewer are sought by the plain one.
pub fn fills_window(k: u8, symbols: usize) -> bool {
    symbols >= per_byte(k)
}

pub fn bytes_for(k: u8, symbols: usize) -> usize {
    (symbols + per_byte(k) - 1) / per_byte(k)
}

pub fn room(k: u8, bytes: usize) -> usize {
    LIMIT.min(bytes * per_byte(k))
}

pub fn entries_for(characters: usize) -> usize {
    (characters + STRIDE - 1) / STRIDE
}

/// 0, and the symbol behind each stopper.
pub fn starts(roll: &Roll, buf: &[u8]) -> Vec<u32> {
    let symbols = symbols_of(roll.table.k, buf, roll.h as usize);
    let behind = (1..=roll.h).filter(|&number| symbols[number as usize - 1] < roll.table.s);
    std::iter::once(0).chain(behind).collect()
}

/// A record and its buffer.
pub struct Made {
    pub table: Table,
    pub n: u32,
    pub h: u32,
    pub buf: Vec<u8>,
    /// Symbols and table before numbers, bits and table were damaged.
    pub symbols: Vec<u8>,
    pub under: Table,
    /// Number of the codeword put in for Fault::Rank, or 0.
    pub strange: usize,
}

impl Made {
    pub fn roll(&self) -> Roll {
        Roll { table: self.table, n: self.n, h: self.h }
    }

    /// The text and where its codewords start, cut at the stoppers; byte 0 for a bad codeword.
    pub fn cut(&self) -> (Vec<u8>, Vec<u32>) {
        let list = listing(self.under.k, self.under.s);
        let (mut text, mut starts) = (Vec::new(), Vec::new());
        let mut start = 0;
        for (number, &symbol) in self.symbols.iter().enumerate() {
            if symbol < self.under.s {
                let rank = list.rank(&self.symbols[start..=number]);
                text.push(rank.map_or(0, |rank| self.under.places[rank]));
                starts.push(start as u32);
                start = number + 1;
            }
        }
        (text, starts)
    }
}

pub fn roll(rng: &mut Rng, faults: &[Fault]) -> Made {
    let (table, length) = (good_table(rng), rng.length());
    roll_of(rng, table, length, faults)
}

/// A roll as long as there may be.
pub fn roll_at_limit(rng: &mut Rng, faults: &[Fault]) -> Made {
    let table = good_table(rng);
    roll_of_limit(rng, table, faults)
}

/// A roll of about this many characters.
pub fn roll_of(rng: &mut Rng, table: Table, length: usize, faults: &[Fault]) -> Made {
    if rng.one_in(12) {
        return wild_roll(rng, table, length, faults);
    }
    if rng.one_in(500) {
        let symbols = rng.near_16_bits();
        return roll_of_symbols(rng, table, symbols, faults);
    }
    packed_roll(rng, table, length, faults)
}

/// A roll of so many characters, or of fewer where they would take over some 65,536 symbols; sound without faults.
pub fn packed_roll(rng: &mut Rng, table: Table, length: usize, faults: &[Fault]) -> Made {
    let list = listing(table.k, table.s);
    let ranks = ranks_within(rng, &table, length, OVER_16_BITS + 1).0;
    let codewords = ranks.iter().map(|&rank| &list.codewords[rank][..]).collect();
    roll_of_codewords(rng, table, codewords, faults)
}

/// A roll of so many symbols, or of none under a table without characters; sound without faults.
pub fn roll_of_symbols(rng: &mut Rng, table: Table, symbols: usize, faults: &[Fault]) -> Made {
    let list = listing(table.k, table.s);
    let (mut ranks, taken) = ranks_within(rng, &table, symbols, symbols);
    if table.sigma > 0 {
        // Rank 0 takes one symbol.
        ranks.resize(ranks.len() + symbols - taken, 0);
    }
    let codewords = ranks.iter().map(|&rank| &list.codewords[rank][..]).collect();
    roll_of_codewords(rng, table, codewords, faults)
}

/// A roll as long as there may be: of as many symbols or some fewer, or of some 65,536 bytes; with Rank or Unfinished
/// often a run of continuers as long.
pub fn roll_of_limit(rng: &mut Rng, mut table: Table, faults: &[Fault]) -> Made {
    table.sigma = table.sigma.max(1);
    let (rank, unfinished) = (faults.contains(&Fault::Rank), faults.contains(&Fault::Unfinished));
    if (rank || unfinished) && !rng.one_in(3) {
        let run = continuers(rng, &table, LIMIT - 1);
        let stopper = [rng.below(usize::from(table.s)) as u8];
        // Closed by the stopper, or open and behind a codeword of rank 0 or none.
        let codewords = match rng.below(2) {
            _ if rank => vec![&run[..], &stopper[..]],
            0 => vec![&[0][..], &run[..]],
            _ => vec![&run[..]],
        };
        let others: Vec<Fault> =
            faults.iter().copied().filter(|&fault| ![Fault::Rank, Fault::Unfinished].contains(&fault)).collect();
        return roll_of_codewords(rng, table, codewords, &others);
    }
    let in_bytes = OVER_16_BITS * per_byte(table.k) + rng.below(3) - 1;
    // With a codeword put in it may still have no more than the limit.
    let near = LIMIT - rng.below(600);
    let symbols = rng.pick(&[LIMIT, LIMIT, LIMIT, LIMIT, LIMIT - 1, in_bytes, near]);
    roll_of_symbols(rng, table, symbols, faults)
}

/// So many ranks, or as many as take no more than so many symbols; and the symbols that they take.
fn ranks_within(rng: &mut Rng, table: &Table, length: usize, most: usize) -> (Vec<usize>, usize) {
    let list = listing(table.k, table.s);
    let mut ranks = ranks(rng, usize::from(table.sigma), length);
    let (mut kept, mut taken) = (0, 0);
    while kept < ranks.len() && taken + list.codewords[ranks[kept]].len() <= most {
        taken += list.codewords[ranks[kept]].len();
        kept += 1;
    }
    ranks.truncate(kept);
    (ranks, taken)
}

/// A roll of these codewords; sound without faults.
pub fn roll_of_codewords(rng: &mut Rng, mut table: Table, codewords: Vec<&[u8]>, faults: &[Fault]) -> Made {
    let has = |fault| faults.contains(&fault);
    let put_in = if has(Fault::Rank) { strange_codeword(rng, &table) } else { Vec::new() };
    let (mut codewords, mut strange) = (codewords, 0);
    if has(Fault::Rank) {
        let any = rng.between(0, codewords.len());
        strange = rng.pick(&[0, codewords.len(), any]);
        codewords.insert(strange, &put_in);
    }
    let mut symbols = codewords.concat();
    if has(Fault::Unfinished) {
        if rng.one_in(3) && codewords.last().map_or(false, |codeword| codeword.len() > 1) {
            symbols.pop();
        } else {
            let mut run = run_of_continuers(rng, &table);
            if run.len() > 1 {
                run.pop();
            } else {
                run = vec![table.s];
            }
            symbols.extend(run);
        }
    }
    let k = table.k;
    let mut n = codewords.len() as u32;
    let mut h = symbols.len() as u32;
    let mut buf = bytes_of(k, &symbols);
    let used = buf.len();
    if has(Fault::Unused) && symbols.len() % per_byte(k) != 0 {
        let unused = used * per_byte(k) - symbols.len();
        let bits = rng.between(1, (1 << (unused * usize::from(k))) - 1);
        buf[used - 1] |= bits as u8;
    }
    if has(Fault::Bits) && used > 0 {
        for _ in 0..rng.between(1, 3) {
            buf[rng.below(used)] ^= 1 << rng.below(8);
        }
    }
    let behind = rng.pick(&[0, 0, 1, 3, 20]);
    buf.extend(rng.bytes(behind));
    if has(Fault::Length) {
        let any = rng.between(0, symbols.len()) as u32;
        h = rng.pick(&[any, h.saturating_sub(1), h.saturating_sub(1), h + 1, h + 2]);
        // With the right n for it, what is cut off stands in the unused symbols.
        if rng.one_in(2) {
            n = symbols.iter().take(h as usize).filter(|&&symbol| symbol < table.s).count() as u32;
        }
    }
    if has(Fault::Count) {
        n = wrong(rng, n);
    }
    if has(Fault::Room) {
        let cut = used > 0 && rng.one_in(2);
        if cut {
            let any = rng.below(used);
            let keep = rng.pick(&[used - 1, used - 1, any, 0]);
            buf.truncate(keep);
        } else {
            if rng.one_in(300) {
                buf.resize(bytes_for(k, LIMIT) + 8, 0);
            }
            let room = room(k, buf.len()) as u32;
            // It is h again in 16 or 20 bits, or, times 2 or 4, in 32; where that is within the room, one over the room.
            let lost = (h + (1 << rng.pick(&[16, 20, 30, 31]))).max(room + 1);
            h = rng.pick(&[room + 1, room + 1, room + 4, LIMIT as u32 + 1, lost, lost, u32::MAX]);
        }
    }
    let under = table;
    if has(Fault::OtherTable) {
        other_table(rng, &mut table);
    }
    if has(Fault::Table) {
        spoil_table(rng, &mut table);
    }
    Made { table, n, h, buf, symbols, under, strange }
}

/// Random symbols under any table, n as a reader would count it.
fn wild_roll(rng: &mut Rng, mut table: Table, h: usize, faults: &[Fault]) -> Made {
    if rng.one_in(2) {
        table.sigma = 256;
        for (place, byte) in table.places.iter_mut().zip(0..=255) {
            *place = byte;
        }
    }
    let (k, s) = (table.k, table.s);
    let mut symbols: Vec<u8> = (0..h).map(|_| rng.below(1 << k) as u8).collect();
    if let Some(last) = symbols.last_mut() {
        if rng.below(4) > 0 {
            *last = rng.below(usize::from(s)) as u8;
        }
    }
    let mut n = symbols.iter().filter(|&&symbol| symbol < s).count() as u32;
    if faults.contains(&Fault::Count) {
        n = wrong(rng, n);
    }
    let buf = bytes_of(k, &symbols);
    let under = table;
    if faults.contains(&Fault::Table) {
        spoil_table(rng, &mut table);
    }
    Made { table, n, h: h as u32, buf, symbols, under, strange: 0 }
}
