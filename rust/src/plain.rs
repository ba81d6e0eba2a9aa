//! The roll's operations as ordinary safe Rust for speed, to measure the archive against.
//!
//! Nothing is allocated: all memory is lent, but for tables of a few kilobytes on the stack, for what is kept aside there
//! until a roll is checked (up to 128 kilobytes of entries, or a megabyte of text), and for the packed bytes that reading
//! frames keeps aside.
//!
//! Ranks come from one recurrence: x starts at 0, a continuer makes it x·c + (symbol − s) + 1,
//! and a stopper ends the codeword of rank x·s + symbol.

#![forbid(unsafe_code)]

use crate::reference::{Answer, Refused, Roll, Table, FRAME, HEAD, LIMIT, LONGEST, PATTERN, STRIDE};

fn refuse<T>(number: u32, value: usize) -> Answer<T> {
    Err(Refused { number, value: value as u64 })
}

fn check_table(table: &Table) -> Answer<()> {
    let good = (table.k == 2 || table.k == 4) && table.s >= 1 && table.s < 1 << table.k && table.sigma <= 256;
    if !good {
        return refuse(1, 0);
    }
    let mut seen = [false; 256];
    let mut twice = false;
    for &character in &table.places[..usize::from(table.sigma)] {
        twice |= seen[usize::from(character)];
        seen[usize::from(character)] = true;
    }
    if twice {
        return refuse(1, 0);
    }
    Ok(())
}

const fn per_byte(k: usize) -> usize {
    8 / k
}

fn room(k: usize, bytes: usize) -> usize {
    LIMIT.min(bytes.saturating_mul(per_byte(k)))
}

fn bytes_for(k: usize, symbols: usize) -> usize {
    (symbols + per_byte(k) - 1) / per_byte(k)
}

fn entries_for(characters: usize) -> usize {
    (characters + STRIDE - 1) / STRIDE
}

#[inline(always)]
fn symbol<const K: usize>(buf: &[u8], number: usize) -> u32 {
    let below = per_byte(K) - 1 - number % per_byte(K);
    (u32::from(buf[number / per_byte(K)]) >> (K * below)) & ((1 << K) - 1)
}

#[inline(always)]
fn store<const K: usize>(buf: &mut [u8], number: usize, symbol: u8) {
    let shift = K * (per_byte(K) - 1 - number % per_byte(K));
    let byte = &mut buf[number / per_byte(K)];
    *byte = (*byte & !(((1u8 << K) - 1) << shift)) | (symbol << shift);
}

// Codewords for writing.

/// Symbols of a codeword kept as bits; those before them are all s, as only c = 1 has longer ones.
const KEPT: usize = 8;

/// The codewords of a table by character: the length, 0 for none, and the last symbols as bits.
struct Codewords {
    lengths: [u8; 256],
    bits: [u32; 256],
}

impl Codewords {
    fn new(table: &Table) -> Codewords {
        let (k, s) = (u32::from(table.k), u32::from(table.s));
        let c = (1 << k) - s;
        let mut codewords = Codewords { lengths: [0; 256], bits: [0; 256] };
        for (rank, &character) in (0u32..).zip(&table.places[..usize::from(table.sigma)]) {
            let (mut x, mut bits, mut length) = (rank / s, rank % s, 1);
            while x > 0 {
                x -= 1;
                if length < KEPT as u32 {
                    bits |= (s + x % c) << (k * length);
                }
                x /= c;
                length += 1;
            }
            codewords.lengths[usize::from(character)] = length as u8;
            codewords.bits[usize::from(character)] = bits;
        }
        codewords
    }

    fn length(&self, character: u8) -> usize {
        usize::from(self.lengths[usize::from(character)])
    }

    /// The symbols of a text, or refusal 3.
    fn total(&self, text: &[u8]) -> Answer<usize> {
        let (mut total, mut missing) = (0, false);
        for &character in text {
            total += self.length(character);
            missing |= self.length(character) == 0;
        }
        if missing {
            let place = text.iter().position(|&character| self.length(character) == 0);
            return refuse(3, place.unwrap_or(0));
        }
        Ok(total)
    }

    /// The number of the first character that does not fit into so many symbols.
    fn first_over(&self, text: &[u8], room: usize) -> Option<usize> {
        let mut total = 0;
        text.iter().position(|&character| {
            total += self.length(character);
            total > room
        })
    }

    /// Hands out a text's symbols from first to last, in pieces of at most 8: the bits and how many.
    #[inline(always)]
    fn pieces(&self, table: &Table, text: &[u8], mut piece: impl FnMut(u32, usize)) {
        for &character in text {
            let length = self.length(character);
            for _ in KEPT..length {
                piece(u32::from(table.s), 1);
            }
            piece(self.bits[usize::from(character)], length.min(KEPT));
        }
    }
}

pub fn pack(table: &Table, text: &[u8], buf: &mut [u8]) -> Answer<Roll> {
    check_table(table)?;
    let codewords = Codewords::new(table);
    let k = usize::from(table.k);
    let h = codewords.total(text)?;
    if h > room(k, buf.len()) {
        return refuse(4, codewords.first_over(text, room(k, buf.len())).unwrap_or(0));
    }
    // The last `filled` bits of `bits` wait to be written.
    let (mut bits, mut filled, mut written) = (0u64, 0, 0);
    codewords.pieces(table, text, |piece, symbols| {
        bits = bits << (k * symbols) | u64::from(piece);
        filled += k * symbols;
        if filled >= 32 {
            filled -= 32;
            buf[written..written + 4].copy_from_slice(&((bits >> filled) as u32).to_be_bytes());
            written += 4;
        }
    });
    let rest = ((bits << (32 - filled)) as u32).to_be_bytes();
    let end = bytes_for(k, h);
    buf[written..end].copy_from_slice(&rest[..end - written]);
    Ok(Roll { table: table.clone(), n: text.len() as u32, h: h as u32 })
}

// Reading.

/// Reads codewords from a symbol number up to h. `codeword` is given each one's first symbol, its end and
/// its rank, and answers whether to go on.
#[inline(always)]
fn read<const K: usize>(
    table: &Table,
    buf: &[u8],
    from: usize,
    h: usize,
    mut codeword: impl FnMut(usize, usize, u32) -> bool,
) -> Answer<()> {
    let (s, sigma) = (u32::from(table.s), u32::from(table.sigma));
    let c = (1 << K) - s;
    let (mut x, mut first) = (0, from);
    for number in from..h {
        let symbol = symbol::<K>(buf, number);
        if symbol < s {
            let rank = x * s + symbol;
            if rank >= sigma {
                return refuse(6, first);
            }
            if !codeword(first, number + 1, rank) {
                return Ok(());
            }
            first = number + 1;
            x = 0;
        } else {
            x = x * c + (symbol - s) + 1;
            // No stopper can end it well any more; so x stays small.
            if x * s >= sigma {
                return refuse(6, first);
            }
        }
    }
    if first < h {
        return refuse(6, first);
    }
    Ok(())
}

/// Check's refusals; `codeword` is given each character's number and its first symbol.
#[inline(always)]
fn check_with<const K: usize>(roll: &Roll, buf: &[u8], mut codeword: impl FnMut(usize, usize)) -> Answer<()> {
    let h = roll.h as usize;
    if h > room(K, buf.len()) {
        return refuse(5, h);
    }
    let mut n = 0;
    read::<K>(&roll.table, buf, 0, h, |first, _, _| {
        codeword(n, first);
        n += 1;
        true
    })?;
    if n != roll.n as usize {
        return refuse(7, n);
    }
    let used = h % per_byte(K);
    if used != 0 && buf[h / per_byte(K)] << (K * used) != 0 {
        return refuse(8, 0);
    }
    Ok(())
}

pub fn check(roll: &Roll, buf: &[u8]) -> Answer<()> {
    check_table(&roll.table)?;
    match roll.table.k {
        2 => check_with::<2>(roll, buf, |_, _| ()),
        _ => check_with::<4>(roll, buf, |_, _| ()),
    }
}

pub fn unpack(roll: &Roll, buf: &[u8], start: usize, end: usize, out: &mut [u8]) -> Answer<()> {
    check_table(&roll.table)?;
    match roll.table.k {
        2 => unpack_in::<2>(roll, buf, start, end, out),
        _ => unpack_in::<4>(roll, buf, start, end, out),
    }
}

fn unpack_in<const K: usize>(roll: &Roll, buf: &[u8], start: usize, end: usize, out: &mut [u8]) -> Answer<()> {
    let mut from = 0;
    check_with::<K>(roll, buf, |number, first| {
        if number == start {
            from = first;
        }
    })?;
    if start > end || end > roll.n as usize {
        return refuse(10, 0);
    }
    if out.len() < end - start {
        return refuse(13, end - start);
    }
    let out = &mut out[..end - start];
    if out.is_empty() {
        return Ok(());
    }
    let mut done = 0;
    read::<K>(&roll.table, buf, from, roll.h as usize, |_, _, rank| {
        out[done] = roll.table.places[rank as usize & 255];
        done += 1;
        done < out.len()
    })
}

/// Symbols of a roll for which less is kept aside, as clearing what the longest one needs would count in it.
const SHORT: usize = 65_536;

pub fn make_directory(roll: &Roll, buf: &[u8], directory: &mut [u32]) -> Answer<()> {
    check_table(&roll.table)?;
    match (roll.table.k, roll.h as usize <= SHORT) {
        (2, true) => make_directory_in::<2, { SHORT / STRIDE }>(roll, buf, directory),
        (2, false) => make_directory_in::<2, { LIMIT / STRIDE }>(roll, buf, directory),
        (_, true) => make_directory_in::<4, { SHORT / STRIDE }>(roll, buf, directory),
        (_, false) => make_directory_in::<4, { LIMIT / STRIDE }>(roll, buf, directory),
    }
}

fn make_directory_in<const K: usize, const ASIDE: usize>(roll: &Roll, buf: &[u8], directory: &mut [u32]) -> Answer<()> {
    // Kept aside until the roll is known to be sound.
    let mut entries = [0; ASIDE];
    check_with::<K>(roll, buf, |number, first| {
        if number % STRIDE == 0 {
            entries[number / STRIDE] = first as u32;
        }
    })?;
    let needed = entries_for(roll.n as usize);
    if directory.len() < needed {
        return refuse(12, needed);
    }
    directory[..needed].copy_from_slice(&entries[..needed]);
    Ok(())
}

pub fn read_one(roll: &Roll, buf: &[u8], directory: &[u32], place: usize) -> Answer<u8> {
    check_table(&roll.table)?;
    match roll.table.k {
        2 => read_one_in::<2>(roll, buf, directory, place),
        _ => read_one_in::<4>(roll, buf, directory, place),
    }
}

fn read_one_in<const K: usize>(roll: &Roll, buf: &[u8], directory: &[u32], place: usize) -> Answer<u8> {
    let h = roll.h as usize;
    if h > room(K, buf.len()) {
        return refuse(5, h);
    }
    if place >= roll.n as usize {
        return refuse(10, 0);
    }
    let entry = match directory.get(place / STRIDE) {
        Some(&entry) if entry < roll.h => entry as usize,
        _ => return refuse(9, place / STRIDE),
    };
    let mut to_pass = place % STRIDE;
    let mut character = None;
    read::<K>(&roll.table, buf, entry, h, |_, _, rank| {
        if to_pass == 0 {
            character = Some(roll.table.places[rank as usize & 255]);
            return false;
        }
        to_pass -= 1;
        true
    })?;
    character.map_or(refuse(6, h), Ok)
}

// Searching.

fn good_pattern(pattern: &[u8]) -> bool {
    (1..=PATTERN).contains(&pattern.len()) && !pattern.contains(&b'\n')
}

pub fn search(roll: &Roll, buf: &[u8], pattern: &[u8], hits: &mut [u32]) -> Answer<u32> {
    check(roll, buf)?;
    if !good_pattern(pattern) {
        return refuse(11, 0);
    }
    Ok(search_sound(roll, buf, pattern, hits))
}

/// The searching alone, after the check: the roll is sound, the pattern good.
pub fn search_sound(roll: &Roll, buf: &[u8], pattern: &[u8], hits: &mut [u32]) -> u32 {
    match roll.table.k {
        2 => search_in::<2, false>(roll, buf, pattern, hits),
        _ => search_in::<4, false>(roll, buf, pattern, hits),
    }
}

/// Goes through a sound roll from codeword to codeword with its last symbols in a word of 64 bits.
/// Where a codeword ends and they are the pattern's last, the symbols before them are compared.
/// With STRAIGHT it does not branch on the symbol: only at a stopper can they be the pattern's last.
fn search_in<const K: usize, const STRAIGHT: bool>(roll: &Roll, buf: &[u8], pattern: &[u8], hits: &mut [u32]) -> u32 {
    let table = &roll.table;
    let codewords = Codewords::new(table);
    let total = match codewords.total(pattern) {
        Ok(total) => total,
        Err(_) => return 0,
    };
    let mut packed = [0; (PATTERN * LONGEST + 3) / 4];
    let (mut sought, mut length) = (0u64, 0);
    codewords.pieces(table, pattern, |piece, symbols| {
        sought = sought << (K * symbols) | u64::from(piece);
        for number in (0..symbols).rev() {
            store::<K>(&mut packed, length, (piece >> (K * number)) as u8 & ((1 << K) - 1));
            length += 1;
        }
    });
    let in_word = total.min(64 / K);
    let mask = u64::MAX >> (64 - K * in_word);
    let sought = sought & mask;
    let stands = |start: usize| {
        (start == 0 || symbol::<K>(buf, start - 1) < u32::from(table.s))
            && (0..total - in_word).all(|number| symbol::<K>(buf, start + number) == symbol::<K>(&packed, number))
    };

    let (mut word, mut ended, mut found) = (0u64, 0, 0);
    for number in 0..roll.h as usize {
        let symbol = symbol::<K>(buf, number);
        word = word << K | u64::from(symbol);
        if STRAIGHT {
            ended += usize::from(symbol < u32::from(table.s));
        } else if symbol < u32::from(table.s) {
            ended += 1;
        } else {
            continue;
        }
        if word & mask == sought && number + 1 >= total && stands(number + 1 - total) {
            if let Some(hit) = hits.get_mut(found) {
                *hit = (ended - pattern.len()) as u32;
            }
            found += 1;
        }
    }
    found as u32
}

/// The same search where the text lies unpacked.
pub fn search_text(text: &[u8], pattern: &[u8], hits: &mut [u32]) -> Answer<u32> {
    if !good_pattern(pattern) {
        return refuse(11, 0);
    }
    let mut found = 0;
    for (place, window) in text.windows(pattern.len()).enumerate() {
        if window == pattern {
            if let Some(hit) = hits.get_mut(found) {
                *hit = place as u32;
            }
            found += 1;
        }
    }
    Ok(found as u32)
}

// Editing.

pub fn edit(roll: &Roll, buf: &mut [u8], directory: &mut [u32], start: usize, end: usize, text: &[u8]) -> Answer<Roll> {
    check_table(&roll.table)?;
    match roll.table.k {
        2 => edit_in::<2>(roll, buf, directory, start, end, text),
        _ => edit_in::<4>(roll, buf, directory, start, end, text),
    }
}

fn edit_in<const K: usize>(
    roll: &Roll,
    buf: &mut [u8],
    directory: &mut [u32],
    start: usize,
    end: usize,
    text: &[u8],
) -> Answer<Roll> {
    let table = &roll.table;
    let (n, h) = (roll.n as usize, roll.h as usize);
    let mut wrong = usize::MAX;
    check_with::<K>(roll, buf, |number, first| {
        if number % STRIDE == 0 && directory.get(number / STRIDE) != Some(&(first as u32)) {
            wrong = wrong.min(number / STRIDE);
        }
    })?;
    if wrong != usize::MAX {
        return refuse(9, wrong);
    }
    if start > end || end > n {
        return refuse(10, 0);
    }
    let codewords = Codewords::new(table);
    let run = codewords.total(text)?;
    let from = first_symbol::<K>(roll, buf, directory, start);
    let to = first_symbol::<K>(roll, buf, directory, end);
    let new_n = n - (end - start) + text.len();
    let new_h = h - (to - from) + run;
    let room = room(K, buf.len());
    if new_h > room {
        if let Some(place) = codewords.first_over(text, room - from) {
            return refuse(4, start + place);
        }
        let mut place = start + text.len();
        read::<K>(table, buf, to, h, |_, ends, _| {
            let fits = ends - to + from + run <= room;
            place += usize::from(fits);
            fits
        })?;
        return refuse(4, place);
    }
    let needed = entries_for(new_n);
    if directory.len() < needed {
        return refuse(12, needed);
    }

    move_symbols::<K>(buf, to, from + run, h - to);
    let mut at = from;
    codewords.pieces(table, text, |piece, symbols| {
        for number in (0..symbols).rev() {
            store::<K>(buf, at, (piece >> (K * number)) as u8 & ((1 << K) - 1));
            at += 1;
        }
    });
    let used = new_h % per_byte(K);
    if used != 0 {
        buf[new_h / per_byte(K)] &= !(0xff >> (K * used));
    }
    let (old_bytes, new_bytes) = (bytes_for(K, h), bytes_for(K, new_h));
    if new_bytes < old_bytes {
        buf[new_bytes..old_bytes].fill(0);
    }

    if new_n == n {
        // The run's own entries are counted; those behind it move with it.
        mend::<K>(table, buf, new_h, directory, start, from, entries_for(end));
        for entry in &mut directory[entries_for(end)..needed] {
            *entry = *entry - to as u32 + (from + run) as u32;
        }
    } else {
        mend::<K>(table, buf, new_h, directory, start, from, needed);
    }
    let old_entries = entries_for(n);
    if needed < old_entries {
        directory[needed..old_entries].fill(0);
    }
    Ok(Roll { table: table.clone(), n: new_n as u32, h: new_h as u32 })
}

/// The first symbol of a character of a sound roll with a right directory, or h for character n.
fn first_symbol<const K: usize>(roll: &Roll, buf: &[u8], directory: &[u32], number: usize) -> usize {
    if number == roll.n as usize {
        return roll.h as usize;
    }
    let mut at = directory[number / STRIDE] as usize;
    for _ in 0..number % STRIDE {
        while symbol::<K>(buf, at) >= u32::from(roll.table.s) {
            at += 1;
        }
        at += 1;
    }
    at
}

/// Moves a run of symbols by shifting whole bytes of the new place out of two old ones.
fn move_symbols<const K: usize>(buf: &mut [u8], from: usize, to: usize, count: usize) {
    if count == 0 || from == to {
        return;
    }
    let per = per_byte(K);
    let last = to + count;
    // Whole bytes of the new place; the symbols before and behind them go one by one.
    let whole_start = bytes_for(K, to).min(last / per);
    let whole_end = last / per;
    let head_end = (whole_start * per).clamp(to, last);
    let tail_start = (whole_end * per).max(head_end);
    let one_by_one = |buf: &mut [u8], number: usize| {
        let symbol = symbol::<K>(buf, number + from - to) as u8;
        store::<K>(buf, number, symbol);
    };
    let whole = head_end..tail_start;
    let source = (whole.start + from - to) / per;
    let length = whole.len() / per;
    let shift = K * ((whole.start + from - to) % per);
    let place = whole.start / per;
    if to < from {
        (to..head_end).for_each(|number| one_by_one(buf, number));
        if shift == 0 {
            buf.copy_within(source..source + length, place);
        } else {
            for i in 0..length {
                buf[place + i] = buf[source + i] << shift | buf[source + i + 1] >> (8 - shift);
            }
        }
        (tail_start..last).for_each(|number| one_by_one(buf, number));
    } else {
        (tail_start..last).rev().for_each(|number| one_by_one(buf, number));
        if shift == 0 {
            buf.copy_within(source..source + length, place);
        } else {
            for i in (0..length).rev() {
                buf[place + i] = buf[source + i] << shift | buf[source + i + 1] >> (8 - shift);
            }
        }
        (to..head_end).rev().for_each(|number| one_by_one(buf, number));
    }
}

/// Writes the entries from character `number` on, whose first symbol is `at`, up to and not including `until`.
fn mend<const K: usize>(
    table: &Table,
    buf: &[u8],
    h: usize,
    directory: &mut [u32],
    number: usize,
    at: usize,
    until: usize,
) {
    let mut entry = entries_for(number);
    if entry >= until {
        return;
    }
    let s = u32::from(table.s);
    let mut stoppers = [0u8; 256];
    for (byte, stoppers) in (0..=255u8).zip(&mut stoppers) {
        *stoppers = (0..per_byte(K)).filter(|&number| symbol::<K>(&[byte], number) < s).count() as u8;
    }
    // Codewords to pass before the next entry.
    let mut to_pass = entry * STRIDE - number;
    let mut at = at;
    loop {
        if to_pass == 0 {
            directory[entry] = at as u32;
            entry += 1;
            to_pass = STRIDE;
            if entry == until {
                return;
            }
        }
        if at >= h {
            return;
        }
        let in_byte = usize::from(stoppers[usize::from(buf[at / per_byte(K)])]);
        if at % per_byte(K) == 0 && in_byte < to_pass {
            to_pass -= in_byte;
            at += per_byte(K);
        } else {
            to_pass -= usize::from(symbol::<K>(buf, at) < s);
            at += 1;
        }
    }
}

// Frames.

const DIGITS: &[u8; 16] = b"0123456789abcdef";
/// In the table of digits, for a byte that is none.
const NO_DIGIT: u8 = 0xFF;

const fn values() -> [u8; 256] {
    let mut values = [NO_DIGIT; 256];
    let mut value = 0;
    while value < 16 {
        values[DIGITS[value] as usize] = value as u8;
        value += 1;
    }
    values
}

/// What each byte is worth as a digit.
const VALUES: [u8; 256] = values();

/// Writes the digits of these bytes, and gives what is left of the output.
#[inline]
fn put<'a>(out: &'a mut [u8], bytes: &[u8]) -> &'a mut [u8] {
    let (digits, rest) = out.split_at_mut(2 * bytes.len());
    for (pair, &byte) in digits.chunks_exact_mut(2).zip(bytes) {
        pair[0] = DIGITS[usize::from(byte >> 4)];
        pair[1] = DIGITS[usize::from(byte & 15)];
    }
    rest
}

/// Ends a line.
fn end_line(out: &mut [u8]) -> &mut [u8] {
    out[0] = b'\n';
    &mut out[1..]
}

/// The bytes written.
pub fn write_frames(roll: &Roll, buf: &[u8], out: &mut [u8]) -> Answer<u64> {
    check(roll, buf)?;
    let table = &roll.table;
    let characters = &table.places[..usize::from(table.sigma)];
    let packed = &buf[..bytes_for(usize::from(table.k), roll.h as usize)];
    let needed = 2 * (HEAD + characters.len()) + 1 + 2 * packed.len() + 3 * ((packed.len() + FRAME - 1) / FRAME);
    if out.len() < needed {
        return refuse(13, needed);
    }
    let mut out = put(out, &[1, table.k, table.s]);
    out = put(out, &table.sigma.to_be_bytes());
    out = put(out, &roll.n.to_be_bytes());
    out = put(out, &roll.h.to_be_bytes());
    out = end_line(put(out, characters));
    for frame in packed.chunks(FRAME) {
        out = put(out, &[2]);
        out = end_line(put(out, frame));
    }
    Ok(needed as u64)
}

/// The first line of a text and what follows it, or nothing if it has no end.
fn first_line(text: &[u8]) -> Option<(&[u8], &[u8])> {
    let end = text.iter().position(|&byte| byte == b'\n')?;
    Some((&text[..end], &text[end + 1..]))
}

/// Puts the bytes of a line's digits behind those of the lines before; or says that they are no digits, or an odd number.
#[inline]
fn decode(digits: &[u8], bytes: &mut Vec<u8>) -> bool {
    let mut wrong = digits.len() % 2 != 0;
    bytes.extend(digits.chunks_exact(2).map(|pair| {
        let (high, low) = (VALUES[usize::from(pair[0])], VALUES[usize::from(pair[1])]);
        wrong |= (high | low) == NO_DIGIT;
        high << 4 | low
    }));
    !wrong
}

/// The record of a first line's digits.
fn record(digits: &[u8]) -> Option<Roll> {
    let mut frame = Vec::with_capacity(HEAD + 256);
    if !decode(digits, &mut frame) || frame.len() < HEAD || frame[0] != 1 {
        return None;
    }
    let number =
        |place: usize| u32::from_be_bytes([frame[place], frame[place + 1], frame[place + 2], frame[place + 3]]);
    let sigma = u16::from_be_bytes([frame[3], frame[4]]);
    let characters = &frame[HEAD..];
    if characters.len() != usize::from(sigma) {
        return None;
    }
    let mut places = [0; 256];
    for (place, &character) in places.iter_mut().zip(characters) {
        *place = character;
    }
    Some(Roll { table: Table { k: frame[1], s: frame[2], sigma, places }, n: number(5), h: number(9) })
}

pub fn read_frames(text: &[u8], buf: &mut [u8]) -> Answer<Roll> {
    let (roll, mut rest) = match first_line(text).and_then(|(line, rest)| Some((record(line)?, rest))) {
        Some(read) => read,
        None => return refuse(15, 0),
    };
    if roll.table.k != 2 && roll.table.k != 4 {
        return refuse(1, 0);
    }
    let (k, h) = (usize::from(roll.table.k), roll.h as usize);
    let due = bytes_for(k, h);
    let mut packed = Vec::with_capacity(due.min(rest.len() / 2));
    let mut number = 1;
    while packed.len() < due {
        let left = FRAME.min(due - packed.len());
        rest = match first_line(rest) {
            Some((line, rest))
                if line.len() == 2 + 2 * left && line.starts_with(b"02") && decode(&line[2..], &mut packed) =>
            {
                rest
            }
            _ => return refuse(15, number),
        };
        number += 1;
    }
    if !rest.is_empty() {
        return refuse(15, number);
    }
    check_table(&roll.table)?;
    if h > room(k, buf.len()) {
        return refuse(5, h);
    }
    check(&roll, &packed)?;
    buf[..due].copy_from_slice(&packed);
    Ok(roll)
}

// Three of them once more, tuned further than most would: no branch on each symbol, no second pass.

/// What a symbol does to x: x·times + plus, if x is at most `most`.
#[derive(Clone, Copy, Default)]
struct Step {
    times: u32,
    plus: u32,
    most: i32,
    ends: u32,
}

fn steps(table: &Table) -> [Step; 16] {
    let (s, sigma) = (i32::from(table.s), i32::from(table.sigma));
    let c = (1 << table.k) - s;
    let mut steps = [Step::default(); 16];
    for (symbol, step) in (0..1 << table.k).zip(&mut steps) {
        *step = if symbol < s {
            Step { times: 0, plus: 0, most: (sigma - 1 - symbol).div_euclid(s), ends: 1 }
        } else {
            // The last x that a stopper can follow is (σ − 1) div s.
            let plus = symbol - s + 1;
            let most = ((sigma - 1).div_euclid(s) - plus).div_euclid(c);
            Step { times: c as u32, plus: plus as u32, most, ends: 0 }
        };
    }
    steps
}

/// Check's refusals; `step` is given the number of codewords ended before each symbol, x there and the symbol.
#[inline(always)]
fn check_straight_in<const K: usize>(roll: &Roll, buf: &[u8], mut step: impl FnMut(usize, u32, u32)) -> Answer<()> {
    let h = roll.h as usize;
    if h > room(K, buf.len()) {
        return refuse(5, h);
    }
    let steps = steps(&roll.table);
    let (mut x, mut n, mut number) = (0u32, 0, 0);
    while number < h {
        let symbol = symbol::<K>(buf, number);
        let this = &steps[symbol as usize];
        if x as i32 > this.most {
            break;
        }
        step(n, x, symbol);
        x = x * this.times + this.plus;
        n += this.ends as usize;
        number += 1;
    }
    if x != 0 || number < h {
        let before = (0..number).rev().find(|&number| symbol::<K>(buf, number) < u32::from(roll.table.s));
        return refuse(6, before.map_or(0, |stopper| stopper + 1));
    }
    if n != roll.n as usize {
        return refuse(7, n);
    }
    let used = h % per_byte(K);
    if used != 0 && buf[h / per_byte(K)] << (K * used) != 0 {
        return refuse(8, 0);
    }
    Ok(())
}

pub fn check_straight(roll: &Roll, buf: &[u8]) -> Answer<()> {
    check_table(&roll.table)?;
    match roll.table.k {
        2 => check_straight_in::<2>(roll, buf, |_, _, _| ()),
        _ => check_straight_in::<4>(roll, buf, |_, _, _| ()),
    }
}

/// In one pass, with a byte of stack for each symbol, which a small box would not have.
pub fn unpack_straight(roll: &Roll, buf: &[u8], start: usize, end: usize, out: &mut [u8]) -> Answer<()> {
    check_table(&roll.table)?;
    if roll.h as usize <= SHORT {
        unpack_straight_in::<SHORT>(roll, buf, start, end, out)
    } else {
        unpack_straight_in::<LIMIT>(roll, buf, start, end, out)
    }
}

fn unpack_straight_in<const ASIDE: usize>(
    roll: &Roll,
    buf: &[u8],
    start: usize,
    end: usize,
    out: &mut [u8],
) -> Answer<()> {
    let table = &roll.table;
    let s = u32::from(table.s);
    let mut text = [0; ASIDE];
    // Each symbol writes its character's place; the stopper, the last to do so, is right.
    let write = |number: usize, x: u32, symbol: u32| {
        text[number] = table.places[(x * s + symbol) as usize & 255];
    };
    match table.k {
        2 => check_straight_in::<2>(roll, buf, write)?,
        _ => check_straight_in::<4>(roll, buf, write)?,
    }
    if start > end || end > roll.n as usize {
        return refuse(10, 0);
    }
    if out.len() < end - start {
        return refuse(13, end - start);
    }
    out[..end - start].copy_from_slice(&text[start..end]);
    Ok(())
}

pub fn search_straight(roll: &Roll, buf: &[u8], pattern: &[u8], hits: &mut [u32]) -> Answer<u32> {
    check_straight(roll, buf)?;
    if !good_pattern(pattern) {
        return refuse(11, 0);
    }
    match roll.table.k {
        2 => Ok(search_in::<2, true>(roll, buf, pattern, hits)),
        _ => Ok(search_in::<4, true>(roll, buf, pattern, hits)),
    }
}

#[cfg(test)]
mod tests {
    use super::*;
    use crate::reference;

    /// Numbers below a bound, always the same.
    struct Dice(u64);

    impl Dice {
        fn below(&mut self, bound: usize) -> usize {
            self.0 = self.0.wrapping_mul(6_364_136_223_846_793_005).wrapping_add(1_442_695_040_888_963_407);
            (self.0 >> 33) as usize % bound
        }

        fn one_in(&mut self, bound: usize) -> bool {
            self.below(bound) == 0
        }

        /// A table with any s, and with its characters in any order.
        fn table(&mut self) -> Table {
            let k = if self.one_in(2) { 2 } else { 4 };
            let mut places = [0; 256];
            for (place, byte) in places.iter_mut().zip(0..=255) {
                *place = byte;
            }
            for i in (1..256).rev() {
                places.swap(i, self.below(i + 1));
            }
            let most = if self.one_in(2) { 256 } else { 12 };
            let sigma = 1 + self.below(most);
            Table { k, s: 1 + self.below((1 << k) - 1) as u8, sigma: sigma as u16, places }
        }

        /// A text of the table's characters, the first ones the most, and once in a while a strange byte.
        fn text(&mut self, table: &Table, longest: usize) -> Vec<u8> {
            let strange = self.one_in(12);
            (0..self.below(longest + 1))
                .map(|_| {
                    let rank = self.below(usize::from(table.sigma)).min(self.below(usize::from(table.sigma)));
                    if strange && self.one_in(20) {
                        self.below(256) as u8
                    } else {
                        table.places[rank]
                    }
                })
                .collect()
        }
    }

    /// A roll, its buffer and its right directory, with room behind or not.
    fn rolled(dice: &mut Dice) -> (Roll, Vec<u8>, Vec<u32>) {
        loop {
            let table = dice.table();
            let text = dice.text(&table, 300);
            let mut buf = vec![0xAA; 14_000];
            let (answer, roll) = reference::pack(&table, &text, &mut buf);
            if answer.is_err() {
                continue;
            }
            buf.truncate(bytes_for(usize::from(table.k), roll.h as usize) + dice.below(40));
            let mut directory = vec![77; entries_for(text.len())];
            reference::make_directory(&roll, &buf, &mut directory).unwrap();
            directory.resize(directory.len() + dice.below(4), 77);
            return (roll, buf, directory);
        }
    }

    /// Makes something about a roll wrong.
    fn spoil(dice: &mut Dice, roll: &mut Roll, buf: &mut [u8], directory: &mut Vec<u32>) {
        match dice.below(10) {
            0 if !buf.is_empty() => buf[dice.below(buf.len())] ^= 1 << dice.below(8),
            8 if roll.h > 0 => buf[bytes_for(usize::from(roll.table.k), roll.h as usize) - 1] ^= 1,
            9 => roll.h += 500,
            1 => roll.n = (roll.n + 2).saturating_sub(dice.below(5) as u32),
            2 => roll.h = (roll.h + 4).saturating_sub(dice.below(9) as u32),
            3 => roll.table.sigma = dice.below(300) as u16,
            4 => roll.table.s = dice.below(18) as u8,
            5 if !directory.is_empty() => {
                let entry = dice.below(directory.len());
                directory[entry] = directory[entry].wrapping_add(dice.below(3) as u32).wrapping_sub(1);
            }
            6 => directory.truncate(dice.below(directory.len() + 1)),
            _ => roll.table.places[dice.below(20)] = roll.table.places[0],
        }
    }

    #[test]
    fn packing_is_the_reference() {
        let mut dice = Dice(1);
        let mut numbers = [0; 14];
        for _ in 0..600 {
            let mut table = dice.table();
            let text = dice.text(&table, 300);
            if dice.one_in(10) {
                table.s = dice.below(18) as u8;
            }
            if dice.one_in(10) {
                table.sigma = dice.below(300) as u16;
            }
            let mut buf = vec![0xAA; dice.below(600)];
            let mut expected = buf.clone();
            let (answer, roll) = reference::pack(&table, &text, &mut expected);
            let found = pack(&table, &text, &mut buf);
            numbers[answer.err().map_or(0, |refused| refused.number as usize)] += 1;
            assert_eq!(found, answer.map(|()| roll));
            assert_eq!(buf, expected);
        }
        assert!([0, 1, 3, 4].iter().all(|&number| numbers[number] > 5), "{:?}", numbers);
    }

    #[test]
    fn reading_is_the_reference() {
        let mut dice = Dice(2);
        let mut numbers = [0; 14];
        for _ in 0..900 {
            let (mut roll, mut buf, mut directory) = rolled(&mut dice);
            if dice.one_in(2) {
                spoil(&mut dice, &mut roll, &mut buf, &mut directory);
            }
            let checked = reference::check(&roll, &buf);
            numbers[checked.err().map_or(0, |refused| refused.number as usize)] += 1;
            assert_eq!(check(&roll, &buf), checked);
            assert_eq!(check_straight(&roll, &buf), checked);

            let n = roll.n as usize;
            let (start, end) = (dice.below(n + 2), dice.below(n + 2));
            for (start, end) in [(start, end), (start.min(end), start.max(end)), (0, n)] {
                let mut out = vec![7; dice.below(2 * n + 1)];
                let (mut expected, mut straight) = (out.clone(), out.clone());
                let answer = reference::unpack(&roll, &buf, start, end, &mut expected);
                numbers[answer.err().map_or(0, |refused| refused.number as usize)] += 1;
                assert_eq!(unpack(&roll, &buf, start, end, &mut out), answer);
                assert_eq!(out, expected);
                assert_eq!(unpack_straight(&roll, &buf, start, end, &mut straight), answer);
                assert_eq!(straight, expected);
            }

            for place in 0..n + 1 {
                let answer = reference::read_one(&roll, &buf, &directory, place);
                numbers[answer.err().map_or(0, |refused| refused.number as usize)] += 1;
                assert_eq!(read_one(&roll, &buf, &directory, place), answer);
            }

            let mut made = vec![7; dice.below(2 * entries_for(n) + 2)];
            let mut expected = made.clone();
            let answer = reference::make_directory(&roll, &buf, &mut expected);
            numbers[answer.err().map_or(0, |refused| refused.number as usize)] += 1;
            assert_eq!(make_directory(&roll, &buf, &mut made), answer);
            assert_eq!(made, expected);
        }
        assert!([0, 1, 5, 6, 7, 8, 9, 10, 12, 13].iter().all(|&number| numbers[number] > 5), "{:?}", numbers);
    }

    #[test]
    fn long_rolls_are_the_reference() {
        let mut dice = Dice(7);
        for symbols in [SHORT, SHORT + 1, LIMIT] {
            let mut table = dice.table();
            table.sigma = table.sigma.max(u16::from(table.s));
            // Of characters that take one symbol each.
            let text: Vec<u8> = (0..symbols).map(|_| table.places[dice.below(usize::from(table.s))]).collect();
            let k = usize::from(table.k);
            let (mut buf, mut expected) = (vec![0xAA; bytes_for(k, symbols)], vec![0xAA; bytes_for(k, symbols)]);
            let (_, roll) = reference::pack(&table, &text, &mut expected);
            assert!(pack(&table, &text, &mut buf) == Ok(roll.clone()) && buf == expected);
            assert_eq!((roll.h as usize, check(&roll, &buf), check_straight(&roll, &buf)), (symbols, Ok(()), Ok(())));
            for (start, end) in [(0, symbols), (symbols - 9, symbols)] {
                let (mut out, mut straight) = (vec![7; end - start], vec![7; end - start]);
                assert_eq!(unpack(&roll, &buf, start, end, &mut out), Ok(()));
                assert_eq!(unpack_straight(&roll, &buf, start, end, &mut straight), Ok(()));
                assert!(out == text[start..end] && straight == out);
            }
            let mut directory = vec![7; entries_for(symbols)];
            assert_eq!(make_directory(&roll, &buf, &mut directory), Ok(()));
            assert!(directory.iter().zip((0..).step_by(STRIDE)).all(|(&entry, first)| entry == first));
        }
    }

    #[test]
    fn frames_are_the_reference() {
        let mut dice = Dice(6);
        let mut numbers = [0; 16];
        for _ in 0..1_500 {
            let (mut roll, mut buf, mut directory) = rolled(&mut dice);
            let mut text = vec![7; 20_000];
            let length = reference::write_frames(&roll, &buf, &mut text).unwrap() as usize;
            text.truncate(length);
            if dice.one_in(3) {
                spoil(&mut dice, &mut roll, &mut buf, &mut directory);
            }
            let mut out = vec![7; if dice.one_in(4) { dice.below(length) } else { length + dice.below(5) }];
            let mut expected = out.clone();
            let answer = reference::write_frames(&roll, &buf, &mut expected);
            numbers[answer.err().map_or(0, |refused| refused.number as usize)] += 1;
            assert_eq!(write_frames(&roll, &buf, &mut out), answer);
            assert_eq!(out, expected);

            for _ in 0..dice.below(3) {
                let place = dice.below(text.len());
                match dice.below(8) {
                    0 => text.truncate(place),
                    1 => text.insert(place, b"0\n"[dice.below(2)]),
                    2 => drop(text.remove(place)),
                    3 => text.push(b'\n'),
                    // In the head.
                    4 => text[dice.below(place.min(26) + 1)] = DIGITS[dice.below(16)],
                    5 => text[place] = b"AFg \r\n:`"[dice.below(8)],
                    _ => text[place] = DIGITS[dice.below(16)],
                }
                if text.is_empty() {
                    break;
                }
            }
            let mut back = vec![0xAA; if dice.one_in(8) { dice.below(40) } else { buf.len() + 100 }];
            let mut expected = back.clone();
            let (answer, after) = reference::read_frames(&text, &mut expected);
            numbers[answer.err().map_or(0, |refused| refused.number as usize)] += 1;
            assert_eq!(read_frames(&text, &mut back), answer.map(|()| after));
            assert_eq!(back, expected);
        }
        assert!([0, 1, 5, 6, 7, 8, 13, 15].iter().all(|&number| numbers[number] > 5), "{:?}", numbers);
    }

    #[test]
    fn searching_is_the_reference() {
        let mut dice = Dice(3);
        let mut hits_found = 0;
        for round in 0..900 {
            let (mut roll, mut buf, mut directory) = rolled(&mut dice);
            let mut text = vec![0; roll.n as usize];
            reference::unpack(&roll, &buf, 0, text.len(), &mut text).unwrap();
            if dice.one_in(10) {
                spoil(&mut dice, &mut roll, &mut buf, &mut directory);
            }
            let start = dice.below(text.len() + 1);
            let longest = if round % 2 == 0 { 4 } else { 66 };
            let end = text.len().min(start + dice.below(longest));
            let mut pattern = text[start..end].to_vec();
            if dice.one_in(5) {
                pattern = dice.text(&roll.table, 3);
            }
            let mut hits = vec![7; dice.below(50)];
            let (mut expected, mut straight) = (hits.clone(), hits.clone());
            let answer = reference::search(&roll, &buf, &pattern, &mut expected);
            hits_found += answer.unwrap_or(0);
            assert_eq!(search(&roll, &buf, &pattern, &mut hits), answer);
            assert_eq!(hits, expected);
            assert_eq!(search_straight(&roll, &buf, &pattern, &mut straight), answer);
            assert_eq!(straight, expected);
            if reference::check(&roll, &buf).is_ok() {
                let mut text = vec![0; roll.n as usize];
                reference::unpack(&roll, &buf, 0, text.len(), &mut text).unwrap();
                let mut hits = vec![7; hits.len()];
                assert_eq!(search_text(&text, &pattern, &mut hits), answer);
                assert_eq!(hits, expected);
            }
        }
        assert!(hits_found > 5_000, "{}", hits_found);
    }

    #[test]
    fn editing_is_the_reference() {
        let mut dice = Dice(4);
        let mut numbers = [0; 14];
        for _ in 0..500 {
            let (mut roll, mut buf, mut directory) = rolled(&mut dice);
            // A chain on the same slices, and something spoilt in the end.
            for link in 0..8 {
                if link == 7 {
                    spoil(&mut dice, &mut roll, &mut buf, &mut directory);
                }
                let n = roll.n as usize;
                let start = dice.below(n + 1);
                let mut end = start + dice.below((n - start + 2).min(80));
                if dice.one_in(12) {
                    end = dice.below(n + 1);
                }
                let sigma = roll.table.sigma;
                roll.table.sigma = sigma.clamp(1, 256);
                let text = dice.text(&roll.table, 60);
                roll.table.sigma = sigma;
                let (mut expected, mut entries) = (buf.clone(), directory.clone());
                let (answer, after) = reference::edit(&roll, &mut expected, &mut entries, start, end, &text);
                numbers[answer.err().map_or(0, |refused| refused.number as usize)] += 1;
                let found = edit(&roll, &mut buf, &mut directory, start, end, &text);
                assert_eq!(found, answer.map(|()| after.clone()));
                assert_eq!(buf, expected);
                assert_eq!(directory, entries);
                roll = after;
            }
        }
        assert!([0, 1, 3, 4, 5, 6, 7, 8, 9, 10, 12].iter().all(|&number| numbers[number] > 3), "{:?}", numbers);
    }
}
