//! What is made wrong with a sound case: none, one or several faults.

use monterculo_reference::reference::PATTERN;

use crate::rng::Rng;
use crate::texts::over_lines;

#[derive(Clone, Copy, PartialEq)]
pub enum Fault {
    /// 1, always.
    Table,
    /// Another good table than the one packed under.
    OtherTable,
    /// 5: h over the room, or the buffer too short.
    Room,
    /// 6: a codeword of rank σ or more.
    Rank,
    /// 6: no stopper before h.
    Unfinished,
    /// 6: continuers alone from some symbol on.
    Endless,
    /// 6 or 7, or none: a continuer for a stopper or the other way round.
    Turned,
    /// 7: wrong n.
    Count,
    /// 6, 7 or 8: another h in the same buffer.
    Length,
    /// 8: something in the unused symbols.
    Unused,
    /// Flipped bits anywhere.
    Bits,
    /// 10.
    Range,
    /// 10, of one character.
    Place,
    /// 9, or a wrong entry to follow.
    Entry,
    /// 11.
    Pattern,
    /// 12.
    Directory,
    /// 13.
    Output,
    /// 3.
    Foreign,
    /// 4.
    Short,
}

/// None, one, two or three of these.
pub fn faults(rng: &mut Rng, from: &[Fault]) -> Vec<Fault> {
    let number = match rng.below(20) {
        0..=7 => 0,
        8..=14 => 1,
        15..=18 => 2,
        _ => 3,
    };
    (0..number).map(|_| rng.pick(from)).collect()
}

/// A number that is not this one, mostly a near one, or the same once 16 or 20 bits have lost what is over.
pub fn wrong(rng: &mut Rng, n: u32) -> u32 {
    let any = rng.next() as u32;
    let over = n.wrapping_add(1 << rng.pick(&[16, 20]));
    let other = rng.pick(&[n.wrapping_add(1), n.wrapping_sub(1), over, 0, u32::MAX, any]);
    if other == n {
        n.wrapping_add(1)
    } else {
        other
    }
}

/// A range that refusal 10 names, from one that it does not.
pub fn bad_range(rng: &mut Rng, n: usize, start: usize, end: usize) -> (usize, usize) {
    match rng.below(8) {
        0 => (start + 1, start),
        1 => (start, n + 1),
        2 => (n + 1, n + 1),
        3 => (n + 1, n),
        4 => (start, usize::MAX - rng.below(2)),
        5 => (start + (1 << 32), end + (1 << 32)),
        6 => (usize::MAX, usize::MAX - rng.below(2)),
        _ => (end + 1, start),
    }
}

/// Another entry: near, inside a codeword, at h, over it, or the same once 16, 20 or 31 bits have lost what is over.
pub fn wrong_entry(rng: &mut Rng, entry: u32, h: u32) -> u32 {
    let any = rng.below(h.max(1) as usize) as u32;
    let below = [any, any, any, entry.wrapping_add(1), entry.wrapping_sub(1), 0, h.wrapping_sub(1)];
    let lost = entry.wrapping_add(1 << rng.pick(&[16, 20]));
    let over = [h, h, h.wrapping_add(1), u32::MAX, lost, entry.wrapping_add(1 << 31)];
    if rng.one_in(2) {
        rng.pick(&below)
    } else {
        rng.pick(&over)
    }
}

/// A pattern that refusal 11 names, from one that it does not and the text: with byte 10, or of a bad length.
pub fn bad_pattern(rng: &mut Rng, pattern: &[u8], text: &[u8]) -> Vec<u8> {
    if rng.below(5) < 3 {
        return over_lines(rng, pattern, text);
    }
    let any = rng.between(PATTERN + 1, 400);
    let length = rng.pick(&[0, 0, PATTERN + 1, PATTERN + 1, PATTERN + 2, 256 + pattern.len(), any]);
    pattern.iter().copied().cycle().take(length).collect()
}

/// The length of a counts slice, wrong one time in six.
pub fn counts_length(rng: &mut Rng) -> usize {
    let any = rng.below(256);
    if rng.one_in(6) {
        rng.pick(&[0, 1, 128, 255, 257, 258, 512, any])
    } else {
        256
    }
}
