//! What planted errors of several operations share.

use monterculo::sys::{Answer, Roll, Table};
use monterculo_reference::reference::symbols_of;

use crate::tables::characters;
use crate::texts::is_over_lines;

pub fn says(number: u32, value: usize) -> Answer {
    Answer { number, value: value as u64 }
}

/// Whether this error passes over every byte 10 of a pattern that nothing else is bad in.
pub fn takes_byte_10(error: &str, table: &Table, pattern: &[u8]) -> bool {
    let known = || characters(table).contains(&10);
    let last = pattern.len().wrapping_sub(1);
    let passed = |place: usize| match error {
        "takes byte 10" => true,
        "takes byte 10 alone" => last == 0,
        "takes byte 10 at the front" => place == 0,
        "takes byte 10 at the end" => place == last,
        "takes byte 10 in the middle" => 0 < place && place < last,
        "takes byte 10 behind 63 others" => place == 63,
        "takes byte 10 behind byte 13" => place > 0 && pattern[place - 1] == 13,
        "takes byte 10 where the table has it" => known(),
        "takes byte 10 where the table has it not" => !known(),
        _ => false,
    };
    is_over_lines(pattern) && (0..pattern.len()).all(|place| pattern[place] != 10 || passed(place))
}

/// Whether the codeword that starts here has a rank below σ in a number of so many bits.
pub fn good_if_wrapped(roll: &Roll, buf: &[u8], start: usize, bits: u32) -> bool {
    let table = &roll.table;
    let symbols = symbols_of(table.k, buf, roll.h as usize);
    let last = match symbols[start..].iter().position(|&symbol| symbol < table.s) {
        Some(continuers) => start + continuers,
        None => return false,
    };
    let (s, c) = (u128::from(table.s), (1 << table.k) - u128::from(table.s));
    let wrap = |number: u128| number % (1 << bits);
    let (mut shorter, mut of_length, mut digits) = (0, s, 0);
    for &symbol in &symbols[start..last] {
        shorter = wrap(shorter + of_length);
        of_length = wrap(of_length * c);
        digits = wrap(digits * c + u128::from(symbol - table.s));
    }
    wrap(shorter + digits * s + u128::from(symbols[last])) < u128::from(table.sigma)
}
