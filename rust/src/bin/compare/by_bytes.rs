//! A check and an unpacking that take what is long a byte at a time, to plant errors in.

use monterculo::sys::{Answer, Roll, Table};
use monterculo_reference::reference::{symbols_of, LIMIT};

use crate::long_rolls::{FIRST, LONG};
use crate::planted::says;
use crate::rolls::{bytes_for, per_byte, starts};

/// What check answers with this error, or with none, where it should answer so.
pub fn check(roll: &Roll, buf: &[u8], answer: Answer, error: &str) -> Answer {
    let (k, h) = (roll.table.k, roll.h as usize);
    if h < LONG || [1, 5].contains(&answer.number) {
        return answer;
    }
    match codewords(&roll.table, buf, h, error) {
        Err(first) if error == "names the first symbol of a byte" => says(6, first / per_byte(k) * per_byte(k)),
        Err(first) => says(6, first),
        Ok(n) if n != roll.n as usize => says(7, n),
        Ok(_) if error == "passes unused symbols" => says(0, 0),
        Ok(_) => {
            let symbols = symbols_of(k, buf, bytes_for(k, h) * per_byte(k));
            says(if symbols[h..].iter().all(|&symbol| symbol == 0) { 0 } else { 8 }, 0)
        }
    }
}

/// What a byte does to the state of a reading: one below the bound becomes so many times as much and so much more,
/// and so many codewords end. A stopper y ends the codeword of rank state·s + y, and the state is 0 behind it.
#[derive(Clone, Copy)]
struct Move {
    bound: u64,
    times: u64,
    plus: u64,
    ends: usize,
}

/// Worked out from the byte's last symbol to its first.
fn move_of(table: &Table, byte: u8, error: &str) -> Move {
    let (s, sigma) = (u64::from(table.s), u64::from(table.sigma));
    let c = (1 << table.k) - s;
    // How many states there are of which so many times as much is less than this.
    let states = |less: u64, times: u64| (less + times - 1) / times;
    // From a state of 256 on no rank is below σ.
    let greatest = if error == "keeps 8 bits of the state" { 65_536 } else { 256 };
    let mut all = Move { bound: greatest, times: 1, plus: 0, ends: 0 };
    for symbol in symbols_of(table.k, &[byte], per_byte(table.k)).into_iter().rev().map(u64::from) {
        all = if symbol < s {
            let good_behind = all.bound > 0 || error == "ranks the first codeword of a byte alone";
            let bound = if good_behind { states(sigma.saturating_sub(symbol), s) } else { 0 };
            Move { bound, times: 0, plus: all.plus, ends: all.ends + 1 }
        } else {
            let digit = symbol - s + 1;
            let bound = states(all.bound.saturating_sub(digit), c);
            Move { bound, times: all.times * c, plus: all.times * digit + all.plus, ends: all.ends }
        };
    }
    all
}

/// Before a symbol: the state of the codeword that is open there, and how many have ended.
struct Way {
    at: usize,
    state: u64,
    n: usize,
}

impl Way {
    /// Symbols one by one, as far as the open codeword may be good; from symbol `any` on every rank is.
    fn by_symbols(&mut self, table: &Table, symbols: &[u8], any: usize) {
        let (s, sigma) = (u64::from(table.s), u64::from(table.sigma));
        while self.at < symbols.len() {
            let symbol = u64::from(symbols[self.at]);
            if symbol < s {
                if self.state * s + symbol >= sigma && self.at < any {
                    return;
                }
                (self.state, self.n) = (0, self.n + 1);
            } else {
                let next = self.state * ((1 << table.k) - s) + symbol - s + 1;
                if next >= sigma {
                    return;
                }
                self.state = next;
            }
            self.at += 1;
        }
    }

    /// Whole bytes two by two, as far as their moves take the state.
    fn by_pairs(&mut self, table: &Table, buf: &[u8], pairs_end: usize, error: &str) {
        let per = per_byte(table.k);
        let moves: Vec<Move> = (0..=255).map(|byte| move_of(table, byte, error)).collect();
        while self.at < pairs_end {
            let (mut state, mut n) = (self.state, self.n);
            for second in [false, true] {
                let Move { bound, times, plus, ends } = moves[usize::from(buf[self.at / per + usize::from(second)])];
                let lost = match error {
                    "loses the state between two bytes" => second,
                    "loses the state behind two bytes" => !second && self.at > FIRST,
                    _ => false,
                };
                if lost {
                    state = 0;
                }
                let over = error == "takes a bound one too great" && state > 0;
                if state >= bound + u64::from(over) {
                    if error == "keeps the state of a refused pair" {
                        self.state = state;
                    }
                    return;
                }
                state = state * times + plus;
                if error == "keeps 8 bits of the state" {
                    state %= 256;
                }
                n += ends - usize::from(error == "counts one fewer where a byte ends two" && ends == 2);
            }
            *self = Way { at: self.at + 2 * per, state, n };
        }
    }
}

/// How many codewords the first h symbols are, or the first symbol of the first that is bad.
fn codewords(table: &Table, buf: &[u8], h: usize, error: &str) -> Result<usize, usize> {
    let per = per_byte(table.k);
    let h = match error {
        "takes 65,536 symbols for none" => h % 65_536,
        "takes 1,048,576 symbols for none" => h % LIMIT,
        _ => h,
    };
    let symbols = symbols_of(table.k, buf, h);
    // Behind the last stopper before this symbol.
    let opened = |at: usize, least: usize| {
        let stopper = symbols[least..at].iter().rposition(|&symbol| symbol < table.s);
        stopper.map_or(least, |place| least + place + 1)
    };
    let first = FIRST.min(h);
    let mut way = Way { at: 0, state: 0, n: 0 };
    way.by_symbols(table, &symbols[..first], h);
    if way.at < first {
        return Err(opened(way.at, 0));
    }
    match error {
        "loses the state where bytes begin" => way.state = 0,
        "loses the count where bytes begin" => way.n = 0,
        _ => {}
    }
    let pairs_end = first + (h - first) / (2 * per) * (2 * per);
    way.by_pairs(table, buf, pairs_end, error);
    if error == "leaves out the last odd byte" && way.at == pairs_end && h - pairs_end >= per {
        way.at += per;
    }
    let any = if error == "passes every rank in the last symbols" { pairs_end } else { h };
    way.by_symbols(table, &symbols, any);
    match error {
        _ if way.at == h && way.state == 0 => Ok(way.n),
        "passes an unfinished codeword" if way.at == h => Ok(way.n),
        "names no symbol before bytes begin" => Err(opened(way.at, first)),
        "names the symbol that is refused" => Err(way.at),
        _ => Err(opened(way.at, 0)),
    }
}

/// Writes what unpack writes of a long range of a sound roll with this error, or with none.
pub fn unpack(roll: &Roll, buf: &[u8], start: usize, many: usize, out: &mut [u8], error: &str) {
    let (table, h) = (&roll.table, roll.h as usize);
    let per = per_byte(table.k);
    let symbols = symbols_of(table.k, buf, h);
    let first = starts(roll, buf)[start] as usize;
    let border = ((first / per + 1) * per).min(h);
    let from = if error == "begins with the byte's first symbol" { first / per * per } else { first };
    let mut state = 0;
    let mut text = characters(table, &mut state, &symbols[from..border]);
    match error {
        "leaves out what is before the first border" => text.clear(),
        "loses the state at the first border" => state = 0,
        _ => {}
    }
    out[..text.len()].copy_from_slice(&text);
    let (mut at, mut n) = (border, text.len());
    // As long as four are to come, four are stored, and those too many are stored over.
    let least = if error == "stores four where three are to come" { 3 } else { 4 };
    while at + per <= h && n + least <= many {
        if error == "loses the state at a byte" {
            state = 0;
        }
        let mut given = characters(table, &mut state, &symbols[at..at + per]);
        let ends = given.len();
        if error == "turns the later characters of a byte" && ends > 1 {
            given[1..].reverse();
        }
        given.resize(4, 0);
        for (place, character) in out[n..].iter_mut().zip(given) {
            *place = character;
        }
        (at, n) = (at + per, n + ends);
    }
    match error {
        "leaves out the last symbols" => return,
        "loses the state behind the bytes" => state = 0,
        _ => {}
    }
    let to_come = many - n.min(many) + usize::from(error == "writes one character more");
    let rest = characters(table, &mut state, &symbols[at..]);
    for (place, character) in out[n..].iter_mut().zip(rest).take(to_come) {
        *place = character;
    }
}

/// The characters of the codewords that end in these symbols, from a state on.
fn characters(table: &Table, state: &mut usize, symbols: &[u8]) -> Vec<u8> {
    let s = usize::from(table.s);
    let mut text = Vec::new();
    for symbol in symbols.iter().map(|&symbol| usize::from(symbol)) {
        if symbol < s {
            text.push(table.places[*state * s + symbol]);
            *state = 0;
        } else {
            *state = *state * ((1 << table.k) - s) + symbol - s + 1;
        }
    }
    text
}
