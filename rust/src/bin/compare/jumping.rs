//! The search that jumps over packed bytes, with an error planted: wrong answers that no search from codeword to codeword gives.
//!
//! A window is as many whole bytes as the pattern's symbols fill, 255 at most. The pattern stands in it at one of 8/k
//! alignments: at alignment o it begins `free` - o symbols behind the window's first, or o - `free` before it. A table
//! says of the key of bytes at which place of the window they stand last, at any alignment and whatever the symbols before
//! the pattern are. The key of a window's last bytes moves it on, or each alignment is tried there.

use monterculo::sys::Roll;
use monterculo_reference::reference::symbols_of;

use crate::rolls::{fills_window, per_byte};

/// So many keys there are.
const KEYS: usize = 8192;

/// So many bytes are counted at once.
const BLOCK: usize = 48;

struct Window {
    per: usize,
    wide: usize,
    /// How far apart the two bytes of a key are; 0 where it is one byte.
    back: usize,
    /// Keys in a window.
    places: usize,
    free: usize,
}

impl Window {
    fn of(k: u8, length: usize, error: &str) -> Window {
        let per = per_byte(k);
        let widest = if error == "takes windows of over 255 bytes" { usize::MAX } else { 255 };
        let wide = (length / per).min(widest);
        let back = if wide <= 2 { 0 } else { 1 };
        Window { per, wide, back, places: wide - back, free: per - 1 - length % per }
    }

    fn key(&self, y: usize, z: usize) -> usize {
        match self.back {
            0 => y,
            _ => (((y + 256 * z) as u32).wrapping_mul(2_654_435_761) >> 19) as usize,
        }
    }

    /// For each key 0, or the last place where it stands and one.
    fn table(&self, k: u8, packed: &[u8], error: &str) -> Vec<usize> {
        let Window { per, back, places, free, .. } = *self;
        let mut order: Vec<usize> = (0..places * per).collect();
        if error == "marks keys at free symbols last" {
            order.rotate_left(free);
        }
        let mut table = vec![0; KEYS];
        for at in order {
            let (place, alignment) = (at / per, at % per);
            // The byte there begins with so many free symbols; behind them with this one of the pattern.
            let (frees, first) = (free.saturating_sub(at), at.saturating_sub(free));
            let second = first + per - frees;
            let left_out = match error {
                "leaves keys at free symbols out" => frees > 0,
                "makes its table for one alignment" => alignment > 0,
                "leaves an alignment out of its table" => alignment == per - 1,
                _ => false,
            };
            let entry = match error {
                "makes its entries one too small" => place,
                "makes an alignment's entries one too small" if alignment == per - 1 => place,
                "counts places from the pattern's first symbol" => first / per + 1,
                "takes windows of over 255 bytes" => (place + 1) % 256,
                _ => place + 1,
            };
            let values = if error == "takes free symbols to be 0" { 1 } else { 1 << (usize::from(k) * frees) };
            for value in (0..values).filter(|_| !left_out) {
                let z = if back == 0 { 0 } else { number(k, 0, &packed[second..second + per]) };
                let known = &mut table[self.key(number(k, value, &packed[first..second]), z)];
                if error != "keeps the first place of a key" || *known == 0 {
                    *known = entry;
                }
            }
        }
        table
    }

    /// The last byte of a window at this alignment.
    fn last(&self, k: u8, packed: &[u8], alignment: usize, error: &str) -> Option<usize> {
        let Window { per, wide, free, .. } = *self;
        let alignment = match error {
            "asks for the last byte of another alignment" => per - 1 - alignment,
            _ => alignment,
        };
        match wide {
            1 if error == "asks for the last byte where it may be free" => Some(0),
            1 => None,
            _ => Some(number(k, 0, &packed[(wide - 1) * per + alignment - free..][..per])),
        }
    }
}

/// Symbols behind others, as one number.
fn number(k: u8, before: usize, symbols: &[u8]) -> usize {
    symbols.iter().fold(before, |number, &symbol| (number << k) + usize::from(symbol))
}

/// How far codewords are counted: those that end before a byte.
struct Counting<'a> {
    symbols: &'a [u8],
    s: u8,
    per: usize,
    n: u32,
    h: usize,
    next: usize,
    ended: u32,
}

impl Counting<'_> {
    /// Codewords that end from this byte on and before that symbol.
    fn between(&self, byte: usize, end: usize, error: &str) -> u32 {
        let whole = end.saturating_sub(byte * self.per) / self.per;
        let counted = if error == "counts whole blocks alone" { whole / BLOCK * BLOCK } else { whole };
        let stoppers = |symbols: &[u8]| symbols.iter().filter(|&&symbol| symbol < self.s).count() as u32;
        let rest = (byte + whole) * self.per;
        let last_third =
            |block: usize| &self.symbols[(byte + block * BLOCK + BLOCK * 2 / 3) * self.per..][..BLOCK / 3 * self.per];
        let lost: u32 = match error {
            "leaves out the last third of a block" => (0..whole / BLOCK).map(|block| stoppers(last_third(block))).sum(),
            _ => 0,
        };
        stoppers(&self.symbols[byte * self.per..][..counted * self.per]) + stoppers(&self.symbols[rest..end.max(rest)])
            - lost
    }

    /// The number of the character that starts at symbol a: from the last one numbered, or from the end if that is nearer.
    fn number(&mut self, a: usize, error: &str) -> u32 {
        let byte = a / self.per;
        if self.h.saturating_sub(a) < a - self.next * self.per {
            let off = u32::from(error == "counts from the end one off");
            self.ended = self.n.wrapping_sub(self.between(byte, self.h, error)).wrapping_add(off);
        } else {
            self.ended = self.ended.wrapping_add(self.between(self.next, byte * self.per, error));
        }
        self.next = byte;
        match error {
            "numbers by whole bytes alone" => self.ended,
            _ => self.ended.wrapping_add(self.between(byte, a, error)),
        }
    }
}

/// The hits of a packed pattern in a sound roll, with this error: those that so many entries list, and the total. Nothing
/// where it does not fill a window.
pub fn hits(roll: &Roll, buf: &[u8], packed: &[u8], entries: usize, error: &str) -> Option<(Vec<u32>, usize)> {
    let (k, s, length) = (roll.table.k, roll.table.s, packed.len());
    if !fills_window(k, length) {
        return if error == "finds nothing of too few symbols" { Some((Vec::new(), 0)) } else { None };
    }
    let window = Window::of(k, length, error);
    let Window { per, wide, back, places, free } = window;
    let table = window.table(k, packed, error);
    let symbols = symbols_of(k, buf, buf.len() * per);
    let h = match error {
        "keeps h in 16 bits" => roll.h as usize % (1 << 16),
        "keeps h in 20 bits" => roll.h as usize % (1 << 20),
        "reads behind h" => symbols.len(),
        _ => roll.h as usize,
    };
    let full = match error {
        "leaves out the last byte" => (h / per).saturating_sub(1),
        "keeps 16 bits of a byte" => (h / per) % (1 << 16),
        _ => h / per,
    };
    let mut counting = Counting { symbols: &symbols, s, per, n: roll.n, h: roll.h as usize, next: 0, ended: 0 };

    let (mut listed, mut total) = (Vec::new(), 0);
    let mut f = usize::from(error == "leaves out the first window");
    let entry_at = |last: usize| table[window.key(usize::from(buf[last - back]), usize::from(buf[last]))];
    let step = if error == "jumps by a whole window" { wide } else { places };
    while f + wide <= full {
        let last = f + wide - 1;
        // Windows with keys of two bytes are jumped four at a time where none of the keys stands in the pattern.
        if back == 1 && last + 3 * places < full {
            let mut windows = match error {
                "asks the first of four windows" => 0..1,
                "asks three of four windows" => 0..3,
                "asks the last of four windows" => 3..4,
                _ => 0..4,
            };
            if windows.all(|ahead| entry_at(last + ahead * places) == 0) {
                f += 4 * step;
                continue;
            }
        }
        let entry = entry_at(last);
        if entry < places {
            f += match error {
                "jumps a byte too far" => places - entry + 1,
                _ if entry == 0 => step,
                _ => places - entry,
            };
            continue;
        }
        let end = f * per + free + 1;
        let found = total;
        for a in end.saturating_sub(per)..end {
            let alignment = end - 1 - a;
            let (first, behind) = (alignment.saturating_sub(free), wide * per + alignment - free);
            let compared = match error {
                "compares a window's symbols alone" => first..behind,
                "compares nothing before a window" => first..length,
                "compares nothing behind a window" => 0..behind,
                "leaves out the last symbol" => 0..length - 1,
                _ => 0..length,
            };
            let asked = window.last(k, packed, alignment, error);
            let stands = a + length <= h
                && asked.map_or(true, |asked| asked == usize::from(buf[last]))
                && symbols[a + compared.start..a + compared.end] == packed[compared];
            let begins = a == 0 || symbols[a - 1] < s || error == "takes a hit behind a continuer";
            let passed = match error {
                "does not try the first alignment" => alignment == 0,
                "does not try the last alignment" => alignment == per - 1,
                "passes over a match at the first symbol" => a == 0,
                "passes over a window with fewer alignments" => end < per,
                "begins with a byte alone" => a % per > 0,
                _ => false,
            };
            if !stands || !begins || passed {
                continue;
            }
            if total < entries {
                listed.push(match error {
                    "numbers by the window" => counting.between(0, f * per, error),
                    _ => counting.number(a, error),
                });
            }
            total += 1;
            if error == "takes one hit of a window" {
                break;
            }
        }
        f += if error == "goes on a window behind a hit" && total > found { places } else { 1 };
    }
    Some((listed, total))
}
