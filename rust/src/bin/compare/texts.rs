//! What texts and rolls are made of: ranks, foreign characters, codewords that are none; and what is looked for in them,
//! with line ends or without.

use monterculo::sys::Table;
use monterculo_reference::reference::{codeword_by_rule, listing, ALWAYS, PATTERN};

use crate::operation::Corners;
#[cfg(test)]
use crate::operation::Operation;
use crate::rng::Rng;
use crate::tables::characters;

/// Ranks below σ: all, the first few, the last, or a single one.
pub fn ranks(rng: &mut Rng, sigma: usize, length: usize) -> Vec<usize> {
    if sigma == 0 {
        return Vec::new();
    }
    let kind = rng.below(5);
    let single = rng.below(sigma);
    (0..length)
        .map(|_| match kind {
            0 | 1 => rng.below(sigma),
            2 => rng.below(sigma.min(4)),
            3 => sigma - 1 - rng.below(sigma.min(3)),
            _ => single,
        })
        .collect()
}

/// Puts one or two characters in that are not in the table, if there are any.
pub fn put_foreign(rng: &mut Rng, table: &Table, text: &mut Vec<u8>) {
    let absent: Vec<u8> = (0..=255).filter(|byte| !characters(table).contains(byte)).collect();
    if absent.is_empty() {
        return;
    }
    for _ in 0..rng.between(1, 2) {
        let any = rng.between(0, text.len());
        let place = rng.pick(&[0, text.len(), any]);
        text.insert(place, rng.pick(&absent));
    }
}

/// Digits, with a + before them or the end of a line behind them now and then.
pub fn telephone_number(rng: &mut Rng) -> Vec<u8> {
    let digits = rng.pick(&[1, 6, 7, 7, 10, 33]);
    let mut number: Vec<u8> = (0..digits).map(|_| rng.pick(&ALWAYS[..10])).collect();
    if rng.one_in(2) {
        number.insert(0, b'+');
    }
    if rng.one_in(4) {
        number.push(b'\n');
    }
    number
}

/// A codeword, or nearly: a run of continuers and a stopper, of a rank that may be far over σ.
pub fn strange_codeword(rng: &mut Rng, table: &Table) -> Vec<u8> {
    let (k, s) = (table.k, table.s);
    let c = (1usize << k) - usize::from(s);
    let below = rng.below(usize::from(table.sigma) + 2) as u128;
    let rank = match rng.below(8) {
        0 | 1 => u128::from(table.sigma),
        2 => u128::from(table.sigma) + below,
        3 => rng.between(254, 258) as u128,
        4 => (1 << 8) + below,
        // Ranks that a number of this width cannot tell from one below σ.
        5 => (1 << rng.pick(&[16, 31, 32])) + below,
        6 => (1 << rng.pick(&[63, 64, 64])) + below,
        _ => return run_of_continuers(rng, table),
    };
    // With c = 1 a great rank is a run as long: seldom, and not over the limit.
    let longest = if rng.one_in(5) { 40_000 } else { 400 };
    if c == 1 && rank / u128::from(s) > longest {
        return run_of_continuers(rng, table);
    }
    codeword_by_rule(k, s, rank)
}

pub fn run_of_continuers(rng: &mut Rng, table: &Table) -> Vec<u8> {
    let length = match rng.below(200) {
        0..=99 => rng.below(20),
        100..=179 => rng.pick(&[7, 8, 9, 15, 16, 17, 30, 31, 32, 33, 62, 63, 64, 65, 84, 85, 86, 87, 127, 128, 129]),
        180..=197 => rng.pick(&[255, 256, 257, 258, 300, 511, 512, 513]),
        _ => rng.pick(&[1_024, 4_096, 21_845, 32_768, 65_534, 65_535]),
    };
    let mut run = continuers(rng, table, length);
    run.push(rng.below(usize::from(table.s)) as u8);
    run
}

/// So many continuers: the least, the greatest, or any.
pub fn continuers(rng: &mut Rng, table: &Table, length: usize) -> Vec<u8> {
    let c = (1usize << table.k) - usize::from(table.s);
    let kind = rng.below(3);
    (0..length)
        .map(|_| match kind {
            0 => table.s,
            1 => table.s + (c - 1) as u8,
            _ => table.s + rng.below(c) as u8,
        })
        .collect()
}

/// A piece of the text of 1 to 64 characters; the text is not empty.
fn piece(rng: &mut Rng, text: &[u8]) -> Vec<u8> {
    let longest = rng.pick(&[1, 2, 3, 8, PATTERN, PATTERN]).min(text.len());
    let any = rng.between(1, longest);
    let length = rng.pick(&[any, longest]);
    let last = text.len() - length;
    let inside = rng.between(0, last);
    let start = rng.pick(&[inside, inside, inside, 0, last]);
    text[start..start + length].to_vec()
}

/// A piece of the text of 1 to 64 characters that begins or ends with this byte or has it inside, if the text has it.
fn piece_with(rng: &mut Rng, text: &[u8], byte: u8) -> Option<Vec<u8>> {
    let places: Vec<usize> = (0..text.len()).filter(|&place| text[place] == byte).collect();
    if places.is_empty() {
        return None;
    }
    let place = rng.pick(&places);
    let before = rng.pick(&[0, 1, 3, 31]).min(place);
    let behind = rng.pick(&[0, 1, 3, PATTERN - 32]).min(text.len() - 1 - place);
    Some(text[place - before..=place + behind].to_vec())
}

/// A good pattern: 1 to 64 characters without byte 10, mostly one that stands in the text or nearly does.
pub fn pattern(rng: &mut Rng, table: &Table, text: &[u8]) -> Vec<u8> {
    let mut pattern = any_pattern(rng, table, text);
    // Byte 13 is a character as any other: where it stands in the text, or put in.
    if rng.one_in(16) {
        let put = rng.below(pattern.len());
        let place = rng.pick(&[0, pattern.len() - 1, put]);
        pattern[place] = 13;
        pattern = piece_with(rng, text, 13).unwrap_or(pattern);
    }
    // The longest of its lines.
    let line = pattern.split(|&byte| byte == 10).max_by_key(|line| line.len());
    match line.filter(|line| !line.is_empty()) {
        Some(line) => line.to_vec(),
        None => vec![13; pattern.len()],
    }
}

/// A pattern of 1 to 64 characters, perhaps with byte 10 among them.
fn any_pattern(rng: &mut Rng, table: &Table, text: &[u8]) -> Vec<u8> {
    let characters = characters(table);
    if text.is_empty() || characters.is_empty() {
        let length = rng.between(1, PATTERN);
        return rng.bytes(length);
    }
    let mut pattern = piece(rng, text);
    let length = pattern.len();
    let any = rng.below(length);
    match rng.below(16) {
        0 => pattern = text[..text.len().min(PATTERN)].to_vec(),
        // The whole text and more of the same.
        1 => pattern = text.iter().copied().cycle().take((text.len() + rng.between(1, 3)).min(PATTERN)).collect(),
        2 | 3 => pattern = vec![rng.pick(text); rng.between(1, 6)],
        4 => {
            let absent: Vec<u8> = (0..=255).filter(|byte| !characters.contains(byte)).collect();
            if !absent.is_empty() {
                let place = rng.pick(&[0, length - 1, any]);
                pattern[place] = rng.pick(&absent);
            }
        }
        // The first codeword cut to its end, so that the symbols stand there and the character does not.
        5..=7 => {
            let list = listing(table.k, table.s);
            let rank = characters.iter().position(|&character| character == pattern[0]);
            let codeword = &list.codewords[rank.unwrap_or(0)];
            let rank = list.rank(&codeword[rng.below(codeword.len())..]).unwrap_or(0);
            pattern[0] = table.places[rank];
        }
        8 => {
            let place = rng.pick(&[0, length - 1, length - 1, any]);
            pattern[place] = rng.pick(characters);
        }
        9 => pattern.fill_with(|| rng.pick(characters)),
        10 => {
            let pair = [rng.pick(text), rng.pick(text)];
            pattern = pair.iter().copied().cycle().take(rng.between(2, 7)).collect();
        }
        _ => {}
    }
    pattern
}

/// Byte 10 in a good pattern, or where the text has it: refused whatever stands around it.
pub fn over_lines(rng: &mut Rng, pattern: &[u8], text: &[u8]) -> Vec<u8> {
    let of_length = |length: usize| pattern.iter().copied().cycle().take(length);
    let (any, half) = (rng.below(pattern.len()), pattern.len().min(31));
    let mut over = pattern.to_vec();
    match rng.below(17) {
        0 => over = vec![10],
        1 => over = vec![10; rng.pick(&[2, 3, PATTERN, PATTERN + 1])],
        2 | 3 => over[0] = 10,
        4 | 5 => over[pattern.len() - 1] = 10,
        6 => over[any] = 10,
        // Two lines, with byte 13 or without.
        7 => over = [&pattern[..half], b"\n", &pattern[..half]].concat(),
        8 => over = [&pattern[..half], b"\r\n", &pattern[..half]].concat(),
        // The last of 64, and of 65.
        9 => over = of_length(PATTERN - 1).chain([10]).collect(),
        10 => over = of_length(PATTERN).chain([10]).collect(),
        _ => match piece_with(rng, text, 10) {
            Some(piece) => over = piece,
            None => over.insert(rng.pick(&[0, any, pattern.len()]), 10),
        },
    }
    over
}

/// Whether its length is good and a byte 10 is all that is bad in it.
pub fn is_over_lines(pattern: &[u8]) -> bool {
    pattern.len() <= PATTERN && pattern.contains(&10)
}

/// Names of corners: where the only byte 10 of a pattern stands.
pub struct LineEnds {
    pub alone: &'static str,
    pub first: &'static str,
    pub last: &'static str,
    pub between: &'static str,
    /// In a pattern of 64 characters, and of 65.
    pub last_of_64: &'static str,
    pub last_of_65: &'static str,
    pub behind_13: &'static str,
}

impl LineEnds {
    /// Of a pattern that is refused 11.
    pub fn meet(&self, pattern: &[u8], met: &mut Corners) {
        let places: Vec<usize> = (0..pattern.len()).filter(|&place| pattern[place] == 10).collect();
        let (place, length) = match places[..] {
            [place] => (place, pattern.len()),
            _ => return,
        };
        let (good, last) = (length <= PATTERN, place + 1 == length);
        met.meet(length == 1, self.alone);
        met.meet(good && length > 1 && place == 0, self.first);
        met.meet(good && length > 1 && last, self.last);
        met.meet(good && place > 0 && !last, self.between);
        met.meet(length == PATTERN && last, self.last_of_64);
        met.meet(length == PATTERN + 1 && last, self.last_of_65);
        met.meet(good && place > 0 && pattern[place - 1] == 13, self.behind_13);
    }

    /// That each of these and of other corners is met by so many cases, and that about one pattern in ten has byte 10.
    #[cfg(test)]
    pub fn hold<O: Operation>(&self, others: &[&str], make: fn(&mut Rng) -> O, pattern: fn(&O) -> &[u8]) {
        let (cases, mut over, mut met) = (6_000, 0, Corners::default());
        for call in 0..cases {
            let case = make(&mut Rng::of_call(5, call));
            over += u64::from(pattern(&case).contains(&10));
            case.corners(&case.clone().reference(), &mut met);
        }
        let LineEnds { alone, first, last, between, last_of_64, last_of_65, behind_13 } = self;
        for name in [alone, first, last, between, last_of_64, last_of_65, behind_13].into_iter().chain(others) {
            assert!(met.0.contains(name), "{}", name);
        }
        assert!((cases / 16..cases / 7).contains(&over), "{}", over);
    }
}
