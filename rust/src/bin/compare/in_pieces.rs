//! Feeding and finishing symbol by symbol, to plant errors in.

use monterculo::sys::{Answer, Fed, Judge, Progress, Searcher};
use monterculo_reference::library::done;
use monterculo_reference::reference::{self, symbols_of, LIMIT};

use crate::coming::held;
use crate::planted::{says, takes_byte_10};
use crate::rolls::{bytes_for, per_byte};
use crate::texts::is_over_lines;

/// What feeding answers and writes with this error, or with none.
pub fn feed(searcher: Searcher, piece: &[u8], slice: &mut [u32], error: &str) -> Fed {
    let as_it_came = |number: u32, value: usize| Fed { answer: says(number, value), hits: 0, searcher };
    if let Some(answer) = asked(&searcher, error) {
        let answer = if forgiven(&searcher, error) { says(0, 0) } else { answer };
        return Fed { answer, hits: 0, searcher };
    }
    let Judge { roll, progress } = searcher.judge;
    let (k, h) = (roll.table.k, roll.h as usize);
    let (read, needed) = (progress.read as usize, piece.len() * per_byte(k));
    let due = bytes_for(k, h) - bytes_for(k, read);
    let is_long = match error {
        "asks 5 of symbols" => read + needed > h,
        "refuses an empty piece at the end" => piece.len() > due || piece.is_empty() && due == 0,
        "takes a piece past the last byte" => false,
        _ => piece.len() > due,
    };
    let needed = match error {
        "asks 14 of symbols up to h" => needed.min(h - read),
        "asks one entry of an empty piece" => needed.max(1),
        _ => needed,
    };
    let is_short = slice.len() < needed && error != "asks 14 of the hits alone";
    let is_bad = progress.bad == 1 && error != "gives 6 once";
    let refusal = match error {
        "asks 5 before an earlier 6" if is_long => Some(5),
        "asks 14 before an earlier 6" if is_short && !is_long => Some(14),
        _ if is_bad => Some(6),
        "asks 14 before 5" if is_short => Some(14),
        _ if is_long => Some(5),
        _ if is_short => Some(14),
        _ => None,
    };
    let mut refused = match refusal {
        Some(6) if error == "writes under a later 6" => {
            slice.iter_mut().take(1).for_each(|entry| *entry = !*entry);
            return as_it_came(6, progress.first as usize);
        }
        Some(6) => as_it_came(6, progress.first as usize),
        Some(5) if error == "answers the bytes" => as_it_came(5, piece.len()),
        Some(5) => as_it_came(5, h),
        Some(14) if error == "answers the entries missing" => as_it_came(14, needed - slice.len()),
        Some(_) => as_it_came(14, needed),
        None => return read_piece(searcher, piece, slice, error),
    };
    if error == "counts a refused piece as fed" && refusal != Some(6) {
        refused.searcher.judge.progress.read = (read + needed).min(h) as u32;
    }
    refused
}

const FRESH: Progress =
    Progress { read: 0, count: 0, first: 0, past: 0, place: 0, shorter: 0, rows: 1, value: 0, bad: 0, stained: 0 };

fn read_piece(searcher: Searcher, piece: &[u8], slice: &mut [u32], error: &str) -> Fed {
    let before = slice.to_vec();
    let mut way = Way { searcher, hits: Vec::new(), met: false };
    let Judge { roll, progress } = &mut way.searcher.judge;
    let (table, h, entered) = (roll.table, roll.h, *progress);
    let fresh = Progress { read: entered.read, count: entered.count, first: entered.first, ..FRESH };
    match error {
        "loses the state at a border" => *progress = Progress { stained: entered.stained, ..fresh },
        "begins a codeword at a border" => progress.first = entered.read,
        "forgets past at a border" => progress.past = 0,
        "forgets beginnings at a border" => way.searcher.ends = 0,
        "gives 6 once" => progress.bad = 0,
        _ => {}
    }
    let per = per_byte(table.k);
    let symbols = symbols_of(table.k, piece, piece.len() * per);
    for (number, &symbol) in symbols.iter().enumerate() {
        let progress = &mut way.searcher.judge.progress;
        let behind = progress.read == h;
        if progress.bad == 1 {
            match error {
                "looks at unused symbols behind a bad codeword" if behind => progress.stained |= u32::from(symbol != 0),
                "counts the rest of a bad piece" if !behind => progress.read += 1,
                "reads on behind a bad codeword" if !behind => {
                    let first = progress.first;
                    progress.bad = 0;
                    way.take(symbol, error);
                    way.searcher.judge.progress.bad = 1;
                    way.searcher.judge.progress.first = first;
                }
                _ => {}
            }
        } else if behind {
            let looked_at = match error {
                "passes unused symbols" => false,
                "passes unused symbols of a byte alone" => piece.len() > 1,
                "looks at the last unused symbol alone" => number + 1 == symbols.len(),
                "looks at the first unused symbol alone" => number % per == h as usize % per,
                _ => true,
            };
            if error == "forgets a stain" {
                progress.stained = 0;
            }
            progress.stained |= u32::from(looked_at && symbol != 0);
            if error == "reads unused symbols as symbols" && symbol < table.s {
                progress.count += 1;
            }
        } else {
            let named = way.hits.len();
            way.take(symbol, error);
            match error {
                "names a hit a call late" if number + 1 == symbols.len() => way.hits.truncate(named),
                "names one hit of a piece" => way.hits.truncate(1),
                _ => {}
            }
        }
    }
    if error == "asks 14 of the hits alone" && way.hits.len() > slice.len() {
        return Fed { answer: says(14, symbols.len()), hits: 0, searcher };
    }
    way.answer(slice, &before, entered, error)
}

/// The searcher on its way through a piece, and the hits so far.
struct Way {
    searcher: Searcher,
    hits: Vec<u32>,
    /// A bad codeword.
    met: bool,
}

impl Way {
    /// One more symbol of the roll.
    fn take(&mut self, symbol: u8, error: &str) {
        let Judge { roll, progress } = &mut self.searcher.judge;
        let (s, sigma) = (u32::from(roll.table.s), u32::from(roll.table.sigma));
        let (symbol, c) = (u32::from(symbol), (1 << roll.table.k) - s);
        let state = *progress;
        let fresh =
            Progress { read: state.read + 1, count: state.count, first: state.first, stained: state.stained, ..FRESH };
        if symbol < s {
            let rank = state.shorter + state.value * s + symbol;
            let over = sigma + u32::from(error == "takes rank sigma" && rank == sigma && sigma < 256);
            if state.past == 1 || rank >= over {
                *progress = match error {
                    "keeps the state of a bad codeword" => Progress { bad: 1, read: fresh.read, ..state },
                    "stops before the bad codeword's stopper" => Progress { bad: 1, read: state.read, ..fresh },
                    _ => Progress { bad: 1, ..fresh },
                };
                self.met = true;
                return;
            }
            *progress = Progress { count: state.count + 1, first: fresh.read, ..fresh };
            let character = roll.table.places[rank as usize];
            return self.follow(character, error);
        }
        let (shorter, value) = (state.shorter + state.rows * s, state.value * c + symbol - s);
        let place = if error == "counts places as far as 3" { 3 } else { 2 };
        let open = Progress { place: (state.place + 1).min(place), ..fresh };
        *progress = if state.past == 1 || shorter + value >= sigma {
            Progress { past: 1, ..open }
        } else {
            Progress { shorter, rows: state.rows * c, value, ..open }
        };
        let ends = match error {
            "names an open codeword at finishing alone" => false,
            "names a run before its stopper" => progress.past == 1 || fresh.read == roll.h,
            _ => fresh.read == roll.h,
        };
        if ends {
            progress.bad = 1;
            self.met = true;
            if error == "forgets the state of a codeword open at h" {
                *progress = Progress { bad: 1, ..fresh };
            }
        }
    }

    /// One more character, which was counted.
    fn follow(&mut self, character: u8, error: &str) {
        let Searcher { judge, pattern, length, ends } = &mut self.searcher;
        let stands = |place: u32| pattern[place as usize] == character;
        let all: u64 = (0..*length).filter(|&place| stands(place)).map(|place| 1 << place).sum();
        let next = (*ends << 1 | 1) & all;
        let whole = 1 << (*length - 1);
        *ends = match error {
            "keeps the whole pattern among the beginnings" => next,
            "loses overlapping hits" if next & whole != 0 => 0,
            "keeps 32 bits of the beginnings" => next & !whole & 0xFFFF_FFFF,
            _ => next & !whole,
        };
        if next & whole != 0 {
            let count = judge.progress.count;
            self.hits.push(match error {
                "numbers hits by their last character" => count - 1,
                "numbers hits by symbols" => judge.progress.read,
                _ => count - *length,
            });
        }
    }

    /// Writes the hits; `before` is what was lent, and `entered` how far it had come before the piece.
    fn answer(self, slice: &mut [u32], before: &[u32], entered: Progress, error: &str) -> Fed {
        let Way { searcher, mut hits, met } = self;
        let progress = searcher.judge.progress;
        if error == "numbers hits within the piece" {
            hits.iter_mut().for_each(|hit| *hit = hit.wrapping_sub(entered.count));
        }
        if error == "writes hits backwards" {
            hits.reverse();
        }
        slice.iter_mut().zip(&hits).for_each(|(entry, &hit)| *entry = hit);
        let mut fed = Fed { answer: says(0, hits.len()), hits: hits.len(), searcher };
        if met {
            fed.answer = says(6, progress.first as usize);
        }
        match error {
            "clears what is behind" => slice[hits.len()..].fill(0),
            "answers no hits with 6" if met => fed.hits = 0,
            "writes no hits with 6" if met => {
                slice.copy_from_slice(before);
                fed.hits = 0;
            }
            "keeps the searcher with 6" if met => fed.searcher.judge.progress = entered,
            "answers no number of hits" if !met => fed.answer.value = 0,
            "answers the number of hits with 6" if met => fed.answer.value = hits.len() as u64,
            "answers the stopper" if met => fed.answer.value = u64::from(progress.read) - 1,
            "names 7 and 8 too" if !met && progress.read == searcher.judge.roll.h => {
                let finished = done(reference::finish(&searcher.into()));
                if finished.number != 0 {
                    fed.answer = finished;
                }
            }
            "keeps 16 bits of what was read" => fed.searcher.judge.progress.read &= 0xFFFF,
            "keeps 20 bits of what was read" => fed.searcher.judge.progress.read &= 0xF_FFFF,
            "counts two for a hit over a border" if hits.first().map_or(false, |&hit| hit < entered.count) => {
                fed.hits += 1
            }
            _ => {}
        }
        fed
    }
}

/// What finishing answers with this error, or with none.
pub fn finish(searcher: Searcher, error: &str) -> Answer {
    if let Some(answer) = asked(&searcher, error) {
        return if forgiven(&searcher, error) { says(0, 0) } else { answer };
    }
    let Judge { roll, progress } = searcher.judge;
    let (bad, too_soon) = (progress.bad == 1, progress.read < roll.h);
    let bits = match error {
        "asks 16 bits of n" => 0xFFFF,
        "asks 20 bits of n" => 0xF_FFFF,
        _ => u32::MAX,
    };
    let (n, stained) = ((progress.count ^ roll.n) & bits != 0, progress.stained == 1);
    match error {
        "passes every roll" => says(0, 0),
        "asks 7 before 6" if n => says(7, progress.count as usize),
        "asks 8 before 6" if stained => says(8, 0),
        "asks 8 before 7" if stained && n && !bad && !too_soon => says(8, 0),
        "answers the symbols read" if bad || too_soon => says(6, progress.read as usize),
        "answers h where it ends too soon" if too_soon && !bad => says(6, roll.h as usize),
        "names nothing that is missing" if !bad && too_soon && progress.first == progress.read => says(0, 0),
        _ if bad && error != "passes a bad codeword" => says(6, progress.first as usize),
        _ if too_soon && error != "passes what ends too soon" => says(6, progress.first as usize),
        "answers n" if n => says(7, roll.n as usize),
        "passes one character more" if progress.count == roll.n.wrapping_add(1) => says(0, 0),
        _ if n => says(7, progress.count as usize),
        _ if stained && error != "passes unused symbols" => says(8, 0),
        _ => says(0, 0),
    }
}

/// What is refused of the searcher itself, feeding and finishing alike.
fn asked(searcher: &Searcher, error: &str) -> Option<Answer> {
    let Searcher { judge: Judge { roll, progress }, length, .. } = searcher;
    let right = of_itself(searcher);
    let out_of_bounds = || {
        let mut started = *searcher;
        started.judge.roll.h = roll.h.min(LIMIT as u32);
        started.length = (*length).clamp(1, 64);
        started.pattern = [0; 64];
        of_itself(&started).number == 1
    };
    let (held, behind) = held(searcher);
    let over_lines = is_over_lines(held);
    let is_fresh = progress.place == 0 && progress.shorter == 0 && progress.rows == 1 && progress.value == 0;
    match (error, right.number) {
        ("keeps a limit of 65,536", 0) if roll.h > 65_536 => Some(says(5, roll.h as usize)),
        ("asks bounds before 11", 11) if out_of_bounds() => Some(says(1, 0)),
        ("asks bounds before 5", 5) if out_of_bounds() => Some(says(1, 0)),
        ("asks 11 before 5", 5) if *length == 0 || *length > 64 => Some(says(11, 0)),
        ("asks bounds before byte 10", 11) if over_lines && out_of_bounds() => Some(says(1, 0)),
        ("asks for byte 10 before 5", 5) if over_lines => Some(says(11, 0)),
        ("asks for byte 10 first", 1 | 5) if over_lines => Some(says(11, 0)),
        ("answers where byte 10 is", 11) if over_lines => {
            Some(says(11, held.iter().position(|&byte| byte == 10).unwrap_or(0)))
        }
        ("looks for byte 10 behind the pattern", 0) if behind.contains(&10) => Some(says(11, 0)),
        ("refuses byte 13", 0) if held.contains(&13) => Some(says(11, 0)),
        ("looks behind the pattern", 0) if behind.iter().any(|&byte| byte != 0) => Some(says(1, 0)),
        ("wants a fresh state where no codeword is open", 0) if progress.first == progress.read && !is_fresh => {
            Some(says(1, 0))
        }
        ("answers h with 1", 1) => Some(says(1, roll.h as usize)),
        (_, 0) => None,
        _ => Some(right),
    }
}

/// The same without an error; number 0 if nothing is refused.
fn of_itself(searcher: &Searcher) -> Answer {
    // An empty piece is refused nothing else but an earlier 6.
    match done(reference::feed(&(*searcher).into(), &[], &mut []).0) {
        Answer { number: 6, .. } => says(0, 0),
        answer => answer,
    }
}

/// Whether this error takes a searcher that is refused for a single number, or for its pattern.
fn forgiven(searcher: &Searcher, error: &str) -> bool {
    let mut right = *searcher;
    let Searcher { judge: Judge { roll, progress }, pattern, length, ends } = &mut right;
    let (few, short) = (progress.count.min(63), length.saturating_sub(1).min(63));
    match error {
        "asks no past" => progress.past = 0,
        "asks no place" => progress.place = 0,
        "asks no shorter" => progress.shorter = 0,
        "asks no rows" => progress.rows = 0,
        "asks no value" => progress.value = 0,
        "asks no bad" => progress.bad = 1,
        "asks no stained" => progress.stained = 0,
        "asks no count" => progress.count = progress.first,
        "asks no first" => progress.first = progress.read,
        "asks no read" => progress.read = progress.read.min(roll.h),
        "asks no whole bytes" if progress.bad == 0 => progress.bad = 1,
        "asks no beginnings of characters" if *ends < 1 << short => *ends = 0,
        "asks no beginnings of the pattern" if *ends < 1 << few => *ends = 0,
        "asks no limit" => roll.h = LIMIT as u32,
        // What lies behind a pattern may have byte 10.
        "asks no length" => (*pattern, *length) = ([0; 64], 64),
        _ if takes_byte_10(error, &roll.table, held(searcher).0) => pattern.fill(0),
        _ => return false,
    }
    of_itself(&right).number == 0
}
