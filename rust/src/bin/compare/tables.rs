//! Code tables, good and bad ones.

use monterculo::sys::Table;
use monterculo_reference::library::table_of;
use monterculo_reference::reference::{self, listing, ALWAYS};

use crate::rng::Rng;

pub fn characters(table: &Table) -> &[u8] {
    &table.places[..usize::from(table.sigma)]
}

/// How many symbols each character has; a foreign one has none.
pub fn lengths(k: u8, s: u8, characters: &[u8]) -> [usize; 256] {
    let mut lengths = [0; 256];
    for (&character, codeword) in characters.iter().zip(&listing(k, s).codewords) {
        lengths[usize::from(character)] = codeword.len();
    }
    lengths
}

/// Symbols of a text, those of foreign characters left out.
pub fn symbols_in(table: &Table, text: &[u8]) -> usize {
    let lengths = lengths(table.k, table.s, characters(table));
    text.iter().map(|&character| lengths[usize::from(character)]).sum()
}

/// The greatest σ whose codewords have at most this length.
pub fn ranks_up_to(k: u8, s: u8, length: usize) -> usize {
    listing(k, s).codewords.iter().filter(|codeword| codeword.len() <= length).count()
}

pub fn good_table(rng: &mut Rng) -> Table {
    let k = rng.pick(&[2, 4]);
    let s = rng.between(1, (1 << k) - 1) as u8;
    let sigma = match rng.below(16) {
        0 => 0,
        1 => 1,
        2..=5 => rng.between(2, 24),
        6..=8 => {
            let length = rng.between(1, 8);
            let ranks = ranks_up_to(k, s, length);
            (ranks + rng.below(3)).saturating_sub(1).min(256)
        }
        9 => 255,
        10..=11 => 256,
        _ => rng.between(0, 256),
    };
    table_with(rng, k, s, sigma)
}

pub fn table_with(rng: &mut Rng, k: u8, s: u8, sigma: usize) -> Table {
    let mut places = [0; 256];
    for (place, byte) in places.iter_mut().zip(0..=255) {
        *place = byte;
    }
    if !rng.one_in(8) {
        for last in (1..256).rev() {
            places.swap(last, rng.below(last + 1));
        }
    }
    // Places past σ are free: other characters, zeros, or those before them again.
    match rng.below(4) {
        0 => places[sigma..].fill(0),
        1 if sigma > 0 => {
            for place in sigma..256 {
                places[place] = places[rng.below(sigma)];
            }
        }
        _ => {}
    }
    Table { k, s, sigma: sigma as u16, places }
}

/// Makes this the character of a rank; the rank that had it takes what that one had.
pub fn give(table: &mut Table, rank: usize, character: u8) {
    if let Some(had) = characters(table).iter().position(|&other| other == character) {
        table.places[had] = table.places[rank];
    }
    table.places[rank] = character;
}

/// Bytes 10 and 13 among the first ranks, so that a text has lines.
fn give_line_ends(rng: &mut Rng, table: &mut Table) {
    let few = usize::from(table.sigma).min(9);
    if few > 0 {
        give(table, rng.below(few), 10);
    }
    if few > 1 && rng.one_in(2) {
        give(table, rng.below(few), 13);
    }
}

/// Mostly few characters, so that patterns come again and codewords stand inside others; now and then with line ends.
pub fn table_to_search(rng: &mut Rng) -> Table {
    let mut table = any_table_to_search(rng);
    if rng.one_in(3) {
        give_line_ends(rng, &mut table);
    }
    table
}

fn any_table_to_search(rng: &mut Rng) -> Table {
    let k = rng.pick(&[2, 4]);
    match rng.below(8) {
        0..=2 => {
            let (s, sigma) = (rng.between(1, 3) as u8, rng.between(1, 8));
            table_with(rng, k, s, sigma)
        }
        3 => {
            let (s, sigma) = (rng.pick(&[1, (1 << k) - 1]), rng.between(2, 40));
            table_with(rng, k, s, sigma)
        }
        // The longest codewords there are.
        4 if rng.one_in(2) => {
            let k = rng.pick(&[2, 2, 2, k]);
            table_with(rng, k, (1 << k) - 1, 256)
        }
        _ => good_table(rng),
    }
}

/// One that was chosen for some counts, often without any of those that count as at least 1: it has them all.
pub fn chosen_table(rng: &mut Rng) -> Table {
    let mut counts = [0; 256];
    for _ in 0..rng.pick(&[0, 1, 3, 10, 30, 60]) {
        let often = rng.between(1, 2_000) as u32;
        counts[rng.below(256)] = rng.pick(&[1, 1, 2, often]);
    }
    if rng.one_in(3) {
        for byte in ALWAYS {
            counts[usize::from(byte)] = rng.below(40) as u32;
        }
    }
    table_of(&reference::choose(rng.pick(&[2, 4]), &counts).1)
}

/// Makes refusal 1 come, by one of its four causes.
pub fn spoil_table(rng: &mut Rng, table: &mut Table) {
    let sigma = usize::from(table.sigma);
    match rng.below(5) {
        0 => table.k = bad_width(rng),
        1 => table.s = 0,
        // A table may be spoilt twice.
        2 if matches!(table.k, 2 | 4) => {
            let any = rng.between(1 << table.k, 255) as u8;
            table.s = rng.pick(&[1 << table.k, (1 << table.k) + 1, 128, 255, any]);
        }
        3 => table.sigma = rng.pick(&[257, 258, 512, 0x8000, 0xFFFF, 0x0100 + table.sigma.max(1)]),
        _ if (2..=256).contains(&sigma) => {
            let first = rng.below(sigma - 1);
            let any = rng.between(first + 1, sigma - 1);
            let second = rng.pick(&[first + 1, sigma - 1, any]);
            table.places[second] = table.places[first];
        }
        _ => table.s = 0,
    }
}

pub fn bad_width(rng: &mut Rng) -> u8 {
    match rng.below(3) {
        0 => rng.pick(&[0, 1, 3, 5, 6, 8, 16, 255]),
        1 => rng.pick(&[2 + 128, 4 + 64, 7, 9]),
        _ => match rng.byte() {
            2 | 4 => 32,
            other => other,
        },
    }
}

/// A good table that is another: its s, σ or k is changed.
pub fn other_table(rng: &mut Rng, table: &mut Table) {
    match rng.below(4) {
        0 => table.s = rng.between(1, (1 << table.k) - 1) as u8,
        1 => table.sigma = rng.below(usize::from(table.sigma) + 1) as u16,
        2 => {
            table.k = 6 - table.k;
            table.s = table.s.min((1 << table.k) - 1);
        }
        _ => table.sigma = table.sigma.saturating_sub(1),
    }
}
