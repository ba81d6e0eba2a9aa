//! The paper's operations, by definition: codewords are listed by its rule, reading looks them up,
//! editing unpacks, splices and packs afresh, and search looks at every place. What comes in pieces is
//! kept whole, and read anew from its beginning for each answer.

use std::cell::RefCell;
use std::collections::HashMap;
use std::rc::Rc;

/// No symbol count, and no text to be counted, exceeds this.
pub const LIMIT: usize = 1_048_576;
/// Symbols of the longest codeword there is (P9).
pub const LONGEST: usize = 86;
/// Characters of a text for each directory entry.
pub const STRIDE: usize = 32;
/// Characters of the longest pattern.
pub const PATTERN: usize = 64;
/// Packed bytes of a frame that is full.
pub const FRAME: usize = 32;
/// Bytes of a first frame before its characters: kind, k, s, σ, n and h.
pub const HEAD: usize = 13;
/// Bytes of the program's buffer, and of its longest text.
pub const PROGRAM: usize = 16_384;
/// Characters that count as at least 1 in choosing: those of telephone numbers, and the end of a line.
pub const ALWAYS: [u8; 12] = *b"0123456789+\n";

#[derive(Clone, Debug, PartialEq, Eq)]
pub struct Table {
    pub k: u8,
    pub s: u8,
    pub sigma: u16,
    pub places: [u8; 256],
}

#[derive(Clone, Debug, PartialEq, Eq)]
pub struct Roll {
    pub table: Table,
    pub n: u32,
    pub h: u32,
}

#[derive(Clone, Debug, PartialEq, Eq)]
pub struct Codeword {
    pub length: usize,
    pub symbols: [u8; LONGEST],
}

#[derive(Clone, Copy, Debug, PartialEq, Eq)]
pub struct Refused {
    pub number: u32,
    pub value: u64,
}

pub type Answer<T> = Result<T, Refused>;

fn refuse<T>(number: u32, value: usize) -> Answer<T> {
    Err(Refused { number, value: value as u64 })
}

// The code.

/// The codeword of a rank: the shorter ones first; within a length, stopper and digits of q.
/// The caller keeps a rank small where c = 1, as the codeword is then about rank / s long.
pub fn codeword_by_rule(k: u8, s: u8, rank: u128) -> Vec<u8> {
    let stoppers = u128::from(s);
    let c = (1u128 << k) - stoppers;
    let mut length = 1;
    let mut shorter = 0;
    let mut of_length = stoppers;
    while rank - shorter >= of_length {
        shorter += of_length;
        of_length *= c;
        length += 1;
    }
    let q = rank - shorter;
    let mut rest = q / stoppers;
    let mut continuers = Vec::new();
    for _ in 1..length {
        continuers.push((rest % c) as u8 + s);
        rest /= c;
    }
    continuers.reverse();
    let mut codeword = continuers;
    codeword.push((q % stoppers) as u8);
    codeword
}

/// The codewords of ranks 0 to 255 and the way back.
pub struct Listing {
    pub codewords: Vec<Vec<u8>>,
    ranks: HashMap<Vec<u8>, usize>,
}

impl Listing {
    fn new(k: u8, s: u8) -> Listing {
        let codewords: Vec<Vec<u8>> = (0..256).map(|rank| codeword_by_rule(k, s, rank)).collect();
        let ranks = codewords.iter().cloned().enumerate().map(|(rank, word)| (word, rank)).collect();
        Listing { codewords, ranks }
    }

    /// The rank of these symbols if they are a codeword of rank below 256.
    pub fn rank(&self, symbols: &[u8]) -> Option<usize> {
        self.ranks.get(symbols).copied()
    }
}

thread_local! {
    static LISTINGS: RefCell<HashMap<(u8, u8), Rc<Listing>>> = RefCell::new(HashMap::new());
}

/// The listing of a good k and s, kept for the next time.
pub fn listing(k: u8, s: u8) -> Rc<Listing> {
    LISTINGS.with(|kept| kept.borrow_mut().entry((k, s)).or_insert_with(|| Rc::new(Listing::new(k, s))).clone())
}

fn good_width(k: u8) -> bool {
    k == 2 || k == 4
}

fn table_refusal(table: &Table) -> Answer<()> {
    if !good_width(table.k) {
        return refuse(1, 0);
    }
    if table.s < 1 || u32::from(table.s) > (1u32 << table.k) - 1 {
        return refuse(1, 0);
    }
    if table.sigma > 256 {
        return refuse(1, 0);
    }
    let mut seen = [false; 256];
    for &character in characters(table) {
        if seen[usize::from(character)] {
            return refuse(1, 0);
        }
        seen[usize::from(character)] = true;
    }
    Ok(())
}

/// The first σ places.
fn characters(table: &Table) -> &[u8] {
    &table.places[..usize::from(table.sigma)]
}

fn rank_of(table: &Table, character: u8) -> Option<usize> {
    characters(table).iter().position(|&c| c == character)
}

pub fn count(text: &[u8], counts: &mut [u32]) -> Answer<()> {
    if counts.len() != 256 {
        return refuse(2, counts.len());
    }
    if text.len() > LIMIT {
        return refuse(4, LIMIT);
    }
    counts.fill(0);
    for &character in text {
        counts[usize::from(character)] += 1;
    }
    Ok(())
}

/// The total of symbols of the raised counts; beside a refusal stands k with s 0, σ 0 and all places 0.
pub fn choose(k: u8, counts: &[u32]) -> (Answer<u64>, Table) {
    let table = Table { k, s: 0, sigma: 0, places: [0; 256] };
    if !good_width(k) {
        return (refuse(1, 0), table);
    }
    if counts.len() != 256 {
        return (refuse(2, counts.len()), table);
    }
    let (fewest, table) = best(k, &raised(counts));
    (Ok(fewest), table)
}

/// The counts that are ranked; those lent stay as they are.
fn raised(counts: &[u32]) -> Vec<u32> {
    let mut raised = counts.to_vec();
    for byte in ALWAYS {
        raised[usize::from(byte)] = raised[usize::from(byte)].max(1);
    }
    raised
}

/// The fewest symbols and their table, of 256 counts as they are and a good k.
pub fn best(k: u8, counts: &[u32]) -> (u64, Table) {
    let ranked = ranked(counts);
    let totals: Vec<(u64, u8)> = (1..=(1u8 << k) - 1).map(|s| (total(k, s, counts, &ranked), s)).collect();
    // The least pair is the fewest symbols and, of equals, the smallest s.
    let (fewest, s) = *totals.iter().min().expect("there is an s of 1");
    let mut places = [0; 256];
    places[..ranked.len()].copy_from_slice(&ranked);
    (fewest, Table { k, s, sigma: ranked.len() as u16, places })
}

/// The greater count first, of equal counts the smaller byte.
fn ranked(counts: &[u32]) -> Vec<u8> {
    let mut ranked: Vec<u8> = (0..=255).filter(|&byte| counts[usize::from(byte)] > 0).collect();
    ranked.sort_by_key(|&byte| (u32::MAX - counts[usize::from(byte)], byte));
    ranked
}

/// Symbols that these counts take with s stoppers.
fn total(k: u8, s: u8, counts: &[u32], ranked: &[u8]) -> u64 {
    let list = listing(k, s);
    ranked
        .iter()
        .zip(&list.codewords)
        .map(|(&byte, codeword)| u64::from(counts[usize::from(byte)]) * codeword.len() as u64)
        .sum()
}

/// Beside a refusal stands length 0 and 86 zeros.
pub fn codeword_of(table: &Table, character: u8) -> (Answer<()>, Codeword) {
    let mut codeword = Codeword { length: 0, symbols: [0; LONGEST] };
    if let Err(refused) = table_refusal(table) {
        return (Err(refused), codeword);
    }
    let rank = match rank_of(table, character) {
        Some(rank) => rank,
        None => return (refuse(3, 0), codeword),
    };
    let list = listing(table.k, table.s);
    let symbols = &list.codewords[rank];
    codeword.length = symbols.len();
    codeword.symbols[..symbols.len()].copy_from_slice(symbols);
    (Ok(()), codeword)
}

pub fn character_of(table: &Table, codeword: &Codeword) -> Answer<u8> {
    table_refusal(table)?;
    if codeword.length > LONGEST {
        return refuse(6, 0);
    }
    match listing(table.k, table.s).rank(&codeword.symbols[..codeword.length]) {
        Some(rank) if rank < usize::from(table.sigma) => Ok(table.places[rank]),
        _ => refuse(6, 0),
    }
}

// The roll.

/// Symbols in a byte, for a good k.
fn per_byte(k: u8) -> usize {
    8 / usize::from(k)
}

fn room(k: u8, bytes: usize) -> usize {
    LIMIT.min(bytes.saturating_mul(per_byte(k)))
}

fn bytes_for(k: u8, symbols: usize) -> usize {
    (symbols + per_byte(k) - 1) / per_byte(k)
}

fn entries_for(characters: usize) -> usize {
    (characters + STRIDE - 1) / STRIDE
}

/// The symbol of this number, the first in the highest bits of byte 0.
fn symbol(k: u8, buf: &[u8], number: usize) -> u8 {
    let below = per_byte(k) - 1 - number % per_byte(k);
    (buf[number / per_byte(k)] >> (usize::from(k) * below)) & ((1 << k) - 1)
}

/// The bytes of these symbols, filled up with symbols 0.
pub fn bytes_of(k: u8, symbols: &[u8]) -> Vec<u8> {
    symbols
        .chunks(per_byte(k))
        .map(|chunk| {
            let mut byte = 0;
            for place in 0..per_byte(k) {
                byte = (byte << k) | chunk.get(place).copied().unwrap_or(0);
            }
            byte
        })
        .collect()
}

/// The first h symbols; the buffer holds them.
pub fn symbols_of(k: u8, buf: &[u8], h: usize) -> Vec<u8> {
    (0..h).map(|number| symbol(k, buf, number)).collect()
}

/// A text's codewords, one for each character, or refusal 3.
fn codewords_for<'a>(table: &Table, list: &'a Listing, text: &[u8]) -> Answer<Vec<&'a [u8]>> {
    let mut by_character: [Option<&[u8]>; 256] = [None; 256];
    for (&character, codeword) in characters(table).iter().zip(&list.codewords) {
        by_character[usize::from(character)] = Some(codeword);
    }
    let mut codewords = Vec::new();
    for (place, &character) in text.iter().enumerate() {
        match by_character[usize::from(character)] {
            Some(codeword) => codewords.push(codeword),
            None => return refuse(3, place),
        }
    }
    Ok(codewords)
}

/// The symbols of these codewords one behind the other, or refusal 4.
fn symbols_within(room: usize, codewords: &[&[u8]]) -> Answer<Vec<u8>> {
    let mut symbols = Vec::new();
    for (number, codeword) in codewords.iter().enumerate() {
        if symbols.len() + codeword.len() > room {
            return refuse(4, number);
        }
        symbols.extend_from_slice(codeword);
    }
    Ok(symbols)
}

/// Beside a refusal stands the table as given with n 0 and h 0.
pub fn pack(table: &Table, text: &[u8], buf: &mut [u8]) -> (Answer<()>, Roll) {
    let mut roll = Roll { table: table.clone(), n: 0, h: 0 };
    match packed(table, text, buf.len()) {
        Ok(symbols) => {
            let bytes = bytes_of(table.k, &symbols);
            buf[..bytes.len()].copy_from_slice(&bytes);
            roll.n = text.len() as u32;
            roll.h = symbols.len() as u32;
            (Ok(()), roll)
        }
        Err(refused) => (Err(refused), roll),
    }
}

fn packed(table: &Table, text: &[u8], buf_len: usize) -> Answer<Vec<u8>> {
    table_refusal(table)?;
    let list = listing(table.k, table.s);
    let codewords = codewords_for(table, &list, text)?;
    symbols_within(room(table.k, buf_len), &codewords)
}

/// Where the codeword that starts here ends, and its character; or refusal 6.
fn read_codeword(table: &Table, list: &Listing, symbols: &[u8], start: usize) -> Answer<(usize, u8)> {
    let stopper = match symbols[start..].iter().position(|&symbol| symbol < table.s) {
        Some(continuers) => start + continuers,
        None => return refuse(6, start),
    };
    match list.rank(&symbols[start..=stopper]) {
        Some(rank) if rank < usize::from(table.sigma) => Ok((stopper + 1, table.places[rank])),
        _ => refuse(6, start),
    }
}

/// The text of a roll and where each character's codeword starts.
struct Read {
    text: Vec<u8>,
    starts: Vec<u32>,
}

impl Read {
    /// The directory: the first symbol of every thirty-second character.
    fn directory(&self) -> Vec<u32> {
        self.starts.iter().copied().step_by(STRIDE).collect()
    }
}

/// Check's refusals, or all there is to read.
fn read_all(roll: &Roll, buf: &[u8]) -> Answer<Read> {
    let table = &roll.table;
    table_refusal(table)?;
    let h = roll.h as usize;
    if h > room(table.k, buf.len()) {
        return refuse(5, h);
    }
    let symbols = symbols_of(table.k, buf, h);
    let list = listing(table.k, table.s);
    let mut read = Read { text: Vec::new(), starts: Vec::new() };
    let mut start = 0;
    while start < h {
        let (next, character) = read_codeword(table, &list, &symbols, start)?;
        read.text.push(character);
        read.starts.push(start as u32);
        start = next;
    }
    if read.text.len() != roll.n as usize {
        return refuse(7, read.text.len());
    }
    let last_byte_ends = bytes_for(table.k, h) * per_byte(table.k);
    if (h..last_byte_ends).any(|number| symbol(table.k, buf, number) != 0) {
        return refuse(8, 0);
    }
    Ok(read)
}

pub fn check(roll: &Roll, buf: &[u8]) -> Answer<()> {
    read_all(roll, buf).map(|_| ())
}

pub fn unpack(roll: &Roll, buf: &[u8], start: usize, end: usize, out: &mut [u8]) -> Answer<()> {
    let read = read_all(roll, buf)?;
    if start > end || end > roll.n as usize {
        return refuse(10, 0);
    }
    let range = &read.text[start..end];
    if out.len() < range.len() {
        return refuse(13, range.len());
    }
    out[..range.len()].copy_from_slice(range);
    Ok(())
}

pub fn make_directory(roll: &Roll, buf: &[u8], directory: &mut [u32]) -> Answer<()> {
    let entries = read_all(roll, buf)?.directory();
    if directory.len() < entries.len() {
        return refuse(12, entries.len());
    }
    directory[..entries.len()].copy_from_slice(&entries);
    Ok(())
}

pub fn read_one(roll: &Roll, buf: &[u8], directory: &[u32], place: usize) -> Answer<u8> {
    let table = &roll.table;
    table_refusal(table)?;
    let h = roll.h as usize;
    if h > room(table.k, buf.len()) {
        return refuse(5, h);
    }
    if place >= roll.n as usize {
        return refuse(10, 0);
    }
    let mut start = match directory.get(place / STRIDE) {
        Some(&entry) if (entry as usize) < h => entry as usize,
        _ => return refuse(9, place / STRIDE),
    };
    let symbols = symbols_of(table.k, buf, h);
    let list = listing(table.k, table.s);
    for _ in 0..place % STRIDE {
        start = read_codeword(table, &list, &symbols, start)?.0;
    }
    Ok(read_codeword(table, &list, &symbols, start)?.1)
}

/// 1 to 64 characters, and none of them byte 10.
fn good_pattern(pattern: &[u8]) -> bool {
    !pattern.is_empty() && pattern.len() <= PATTERN && !pattern.contains(&10)
}

/// The total of all hits.
pub fn search(roll: &Roll, buf: &[u8], pattern: &[u8], hits: &mut [u32]) -> Answer<u32> {
    let text = read_all(roll, buf)?.text;
    if !good_pattern(pattern) {
        return refuse(11, 0);
    }
    let mut total = 0;
    for place in 0..text.len() {
        if text[place..].starts_with(pattern) {
            if total < hits.len() {
                hits[total] = place as u32;
            }
            total += 1;
        }
    }
    Ok(total as u32)
}

/// Beside a refusal stands the record that came in.
pub fn edit(
    roll: &Roll,
    buf: &mut [u8],
    directory: &mut [u32],
    start: usize,
    end: usize,
    text: &[u8],
) -> (Answer<()>, Roll) {
    match edited(roll, buf, directory, start, end, text) {
        Ok((symbols, fresh)) => {
            let k = roll.table.k;
            let bytes = bytes_of(k, &symbols);
            let entries = fresh.directory();
            // What was used and is no longer is 0: clear the old extent, then write the new.
            buf[..bytes_for(k, roll.h as usize)].fill(0);
            buf[..bytes.len()].copy_from_slice(&bytes);
            directory[..entries_for(roll.n as usize)].fill(0);
            directory[..entries.len()].copy_from_slice(&entries);
            let n = fresh.text.len() as u32;
            (Ok(()), Roll { table: roll.table.clone(), n, h: symbols.len() as u32 })
        }
        Err(refused) => (Err(refused), roll.clone()),
    }
}

fn edited(
    roll: &Roll,
    buf: &[u8],
    directory: &[u32],
    start: usize,
    end: usize,
    text: &[u8],
) -> Answer<(Vec<u8>, Read)> {
    let table = &roll.table;
    let old = read_all(roll, buf)?;
    for (number, entry) in old.directory().iter().enumerate() {
        if directory.get(number) != Some(entry) {
            return refuse(9, number);
        }
    }
    if start > end || end > roll.n as usize {
        return refuse(10, 0);
    }
    let list = listing(table.k, table.s);
    codewords_for(table, &list, text)?;
    let mut whole = old.text[..start].to_vec();
    whole.extend_from_slice(text);
    whole.extend_from_slice(&old.text[end..]);
    let codewords = codewords_for(table, &list, &whole)?;
    let symbols = symbols_within(room(table.k, buf.len()), &codewords)?;
    let mut starts = Vec::new();
    let mut next = 0;
    for codeword in &codewords {
        starts.push(next as u32);
        next += codeword.len();
    }
    let needed = entries_for(whole.len());
    if directory.len() < needed {
        return refuse(12, needed);
    }
    Ok((symbols, Read { text: whole, starts }))
}

// A roll that comes in pieces.

/// How far a searcher has come: symbols and codewords read, the first symbol of the codeword that is
/// open or bad, and the reading of an open one.
#[derive(Clone, Copy, Debug, PartialEq, Eq)]
pub struct Progress {
    pub read: u32,
    pub count: u32,
    pub first: u32,
    /// 1 where σ is reached and the stopper not yet read.
    pub past: u32,
    /// Continuers read, counted as far as 2.
    pub place: u32,
    /// How many codewords are no longer than these continuers.
    pub shorter: u32,
    /// How many rows of so many continuers there are.
    pub rows: u32,
    /// What they spell.
    pub value: u32,
    /// 1 where a bad codeword was met.
    pub bad: u32,
    /// 1 where an unused symbol of the last byte was not 0.
    pub stained: u32,
}

/// Before the first symbol.
pub const FRESH: Progress =
    Progress { read: 0, count: 0, first: 0, past: 0, place: 0, shorter: 0, rows: 1, value: 0, bad: 0, stained: 0 };

#[derive(Clone, Debug, PartialEq, Eq)]
pub struct Searcher {
    pub roll: Roll,
    pub progress: Progress,
    /// 0 past its length.
    pub pattern: [u8; PATTERN],
    pub length: u32,
    /// Bit j: the first j + 1 characters of the pattern, which are not all, are the last read.
    pub ends: u64,
}

/// What start refuses, of a pattern that is good or not.
fn start_refusal(roll: &Roll, good: bool) -> Answer<()> {
    table_refusal(&roll.table)?;
    if roll.h as usize > LIMIT {
        return refuse(5, roll.h as usize);
    }
    if !good {
        return refuse(11, 0);
    }
    Ok(())
}

/// Beside a refusal stands the searcher of that roll for an empty pattern.
pub fn start(roll: &Roll, pattern: &[u8]) -> (Answer<()>, Searcher) {
    match start_refusal(roll, good_pattern(pattern)) {
        Ok(()) => (Ok(()), fresh(roll, pattern)),
        Err(refused) => (Err(refused), fresh(roll, b"")),
    }
}

/// A searcher that has read nothing.
fn fresh(roll: &Roll, pattern: &[u8]) -> Searcher {
    let mut searcher =
        Searcher { roll: roll.clone(), progress: FRESH, pattern: [0; PATTERN], length: pattern.len() as u32, ends: 0 };
    searcher.pattern[..pattern.len()].copy_from_slice(pattern);
    searcher
}

/// All that has come in of a roll. Each answer is worked out anew from the whole of it.
#[derive(Clone, Debug, PartialEq)]
pub struct Received {
    pub roll: Roll,
    pub pattern: Vec<u8>,
    pub bytes: Vec<u8>,
}

/// What was read of it.
struct SoFar {
    text: Vec<u8>,
    /// Symbols, the bad codeword's stopper too.
    read: usize,
    first: usize,
    /// The continuers of a codeword whose stopper was not read.
    open: Vec<u8>,
    bad: bool,
}

impl Received {
    pub fn new(roll: &Roll, pattern: &[u8]) -> Answer<Received> {
        start_refusal(roll, good_pattern(pattern))?;
        Ok(Received { roll: roll.clone(), pattern: pattern.to_vec(), bytes: Vec::new() })
    }

    /// The roll's own bytes, all together.
    fn due(&self) -> usize {
        bytes_for(self.roll.table.k, self.roll.h as usize)
    }

    fn so_far(&self) -> SoFar {
        let (table, h) = (&self.roll.table, self.roll.h as usize);
        let symbols = symbols_of(table.k, &self.bytes, h.min(self.bytes.len() * per_byte(table.k)));
        let list = listing(table.k, table.s);
        let mut text = Vec::new();
        let mut first = 0;
        while first < symbols.len() {
            match read_codeword(table, &list, &symbols, first) {
                Ok((next, character)) => {
                    text.push(character);
                    first = next;
                }
                Err(_) => break,
            }
        }
        match symbols[first..].iter().position(|&symbol| symbol < table.s) {
            Some(continuers) => SoFar { text, read: first + continuers + 1, first, open: Vec::new(), bad: true },
            None => {
                let open = symbols[first..].to_vec();
                SoFar { text, read: symbols.len(), first, bad: !open.is_empty() && symbols.len() == h, open }
            }
        }
    }

    /// The characters read.
    pub fn text(&self) -> Vec<u8> {
        self.so_far().text
    }

    /// How many hits it writes, beside 6 too.
    pub fn feed(&mut self, piece: &[u8], slice: &mut [u32]) -> (Answer<()>, usize) {
        let before = self.so_far();
        if before.bad {
            return (refuse(6, before.first), 0);
        }
        if self.bytes.len() + piece.len() > self.due() {
            return (refuse(5, self.roll.h as usize), 0);
        }
        let needed = piece.len() * per_byte(self.roll.table.k);
        if slice.len() < needed {
            return (refuse(14, needed), 0);
        }
        self.bytes.extend_from_slice(piece);
        let after = self.so_far();
        let mut hits = 0;
        for place in 0..after.text.len() {
            // One that ends in the text before this piece was named then.
            if after.text[place..].starts_with(&self.pattern) && place + self.pattern.len() > before.text.len() {
                slice[hits] = place as u32;
                hits += 1;
            }
        }
        (if after.bad { refuse(6, after.first) } else { Ok(()) }, hits)
    }

    /// The check's answer where all has come in.
    pub fn finish(&self) -> Answer<()> {
        if self.bytes.len() < self.due() {
            return refuse(6, self.so_far().first);
        }
        check(&self.roll, &self.bytes)
    }

    /// What a searcher that has read all this holds.
    pub fn searcher(&self) -> Searcher {
        let SoFar { text, read, first, open, bad } = self.so_far();
        let Roll { table, h, .. } = &self.roll;
        let mut unused = *h as usize..self.bytes.len() * per_byte(table.k);
        let stained = !bad && unused.any(|number| symbol(table.k, &self.bytes, number) != 0);
        let progress = Progress {
            read: read as u32,
            count: text.len() as u32,
            first: first as u32,
            bad: bad.into(),
            stained: stained.into(),
            ..FRESH
        };
        let progress = if open.is_empty() { progress } else { with_open(table, &open, progress) };
        let ended = (1..self.pattern.len()).filter(|&characters| text.ends_with(&self.pattern[..characters]));
        let ends = ended.map(|characters| 1 << (characters - 1)).sum();
        Searcher { progress, ends, ..fresh(&self.roll, &self.pattern) }
    }
}

/// With the reading of a codeword that begins with these continuers.
fn with_open(table: &Table, continuers: &[u8], progress: Progress) -> Progress {
    let open = Progress { place: continuers.len().min(2) as u32, ..progress };
    let past = Progress { past: 1, ..open };
    // Of the 256 listed; where no other is longer, no rank is left for one.
    let list = listing(table.k, table.s);
    let shorter = list.codewords.iter().filter(|codeword| codeword.len() <= continuers.len()).count();
    if shorter >= usize::from(table.sigma) {
        return past;
    }
    let c = (1 << table.k) - usize::from(table.s);
    let value = continuers.iter().fold(0, |value, &symbol| value * c + usize::from(symbol - table.s));
    if shorter + value >= usize::from(table.sigma) {
        return past;
    }
    let rows = c.pow(continuers.len() as u32);
    Progress { shorter: shorter as u32, rows: rows as u32, value: value as u32, ..open }
}

/// What feeding and finishing ask of a searcher, in which any numbers may stand.
fn searcher_refusal(searcher: &Searcher) -> Answer<()> {
    // With a length over 64 there is none.
    let held = searcher.pattern.get(..searcher.length as usize);
    start_refusal(&searcher.roll, held.map_or(false, good_pattern))?;
    let Progress { read, count, first, past, place, shorter, rows, value, bad, stained } = searcher.progress;
    let per_byte = per_byte(searcher.roll.table.k) as u32;
    let small = past <= 1 && place <= 2 && shorter <= 256 && rows <= 4_096 && value <= 256 && bad <= 1 && stained <= 1;
    let in_order = count <= first && first <= read && read <= searcher.roll.h;
    let whole = bad == 1 || read == searcher.roll.h || read % per_byte == 0;
    let beginnings = count.min(searcher.length - 1);
    if small && in_order && whole && searcher.ends < 1 << beginnings {
        Ok(())
    } else {
        refuse(1, 0)
    }
}

/// By the searcher's numbers alone, symbol by symbol: how many hits it writes, beside 6 too, and the
/// searcher afterwards.
pub fn feed(searcher: &Searcher, piece: &[u8], slice: &mut [u32]) -> (Answer<()>, usize, Searcher) {
    let mut after = searcher.clone();
    if let Err(refused) = feed_refusal(searcher, piece, slice) {
        return (Err(refused), 0, after);
    }
    let k = searcher.roll.table.k;
    let mut hits = 0;
    for symbol in symbols_of(k, piece, piece.len() * per_byte(k)) {
        if after.progress.bad == 1 {
            break;
        }
        if after.progress.read == after.roll.h {
            // One of the last byte that is unused.
            after.progress.stained |= u32::from(symbol != 0);
        } else if let Some(hit) = after.take(symbol) {
            slice[hits] = hit;
            hits += 1;
        }
    }
    let answer = if after.progress.bad == 1 { refuse(6, after.progress.first as usize) } else { Ok(()) };
    (answer, hits, after)
}

fn feed_refusal(searcher: &Searcher, piece: &[u8], slice: &[u32]) -> Answer<()> {
    searcher_refusal(searcher)?;
    let Searcher { roll: Roll { table, h, .. }, progress, .. } = searcher;
    if progress.bad == 1 {
        return refuse(6, progress.first as usize);
    }
    if bytes_for(table.k, progress.read as usize) + piece.len() > bytes_for(table.k, *h as usize) {
        return refuse(5, *h as usize);
    }
    let needed = piece.len() * per_byte(table.k);
    if slice.len() < needed {
        return refuse(14, needed);
    }
    Ok(())
}

pub fn finish(searcher: &Searcher) -> Answer<()> {
    searcher_refusal(searcher)?;
    let progress = &searcher.progress;
    if progress.bad == 1 || progress.read < searcher.roll.h {
        return refuse(6, progress.first as usize);
    }
    if progress.count != searcher.roll.n {
        return refuse(7, progress.count as usize);
    }
    if progress.stained == 1 {
        return refuse(8, 0);
    }
    Ok(())
}

impl Searcher {
    /// Reads one more symbol of the roll; the hit that it ends.
    fn take(&mut self, symbol: u8) -> Option<u32> {
        let Table { k, s, sigma, places } = self.roll.table;
        let (symbol, s, sigma) = (u32::from(symbol), u32::from(s), u32::from(sigma));
        let c = (1 << k) - s;
        let Progress { read, count, first, past, place, shorter, rows, value, .. } = self.progress;
        let next = Progress { read: read + 1, count, first, stained: self.progress.stained, ..FRESH };
        if symbol < s {
            let rank = shorter + value * s + symbol;
            if past == 1 || rank >= sigma {
                self.progress = Progress { bad: 1, ..next };
                return None;
            }
            self.progress = Progress { count: count + 1, first: read + 1, ..next };
            return self.follow(places[rank as usize]);
        }
        let open = Progress { place: (place + 1).min(2), bad: u32::from(read + 1 == self.roll.h), ..next };
        let (shorter, value) = (shorter + rows * s, value * c + symbol - s);
        self.progress = if past == 1 || shorter + value >= sigma {
            Progress { past: 1, ..open }
        } else {
            Progress { shorter, rows: rows * c, value, ..open }
        };
        None
    }

    /// Which beginnings of the pattern end at this character, the last one read; the hit if all of it does.
    fn follow(&mut self, character: u8) -> Option<u32> {
        let before = self.ends;
        let length = self.length as usize;
        let ended = |characters: usize| characters == 0 || before >> (characters - 1) & 1 == 1;
        let ends: Vec<bool> = (0..length).map(|place| ended(place) && self.pattern[place] == character).collect();
        self.ends = (0..length - 1).filter(|&place| ends[place]).map(|place| 1 << place).sum();
        if ends[length - 1] {
            Some(self.progress.count - self.length)
        } else {
            None
        }
    }
}

// Frames.

/// The record beside a refused reading.
const NO_ROLL: Roll = Roll { table: Table { k: 0, s: 0, sigma: 0, places: [0; 256] }, n: 0, h: 0 };

const DIGITS: [u8; 16] = *b"0123456789abcdef";

/// A frame as a line: two digits a byte, and byte 10.
fn line_of(frame: &[u8]) -> Vec<u8> {
    let mut line = Vec::new();
    for &byte in frame {
        line.push(DIGITS[usize::from(byte / 16)]);
        line.push(DIGITS[usize::from(byte % 16)]);
    }
    line.push(10);
    line
}

/// The bytes of this number, the high one first.
fn high_first(number: u32, bytes: u32) -> Vec<u8> {
    (0..bytes).rev().map(|place| (number >> (8 * place)) as u8).collect()
}

/// The frames of a sound roll.
fn frames_of(roll: &Roll, buf: &[u8]) -> Vec<Vec<u8>> {
    let table = &roll.table;
    let mut first = vec![1, table.k, table.s];
    first.extend(high_first(table.sigma.into(), 2));
    first.extend(high_first(roll.n, 4));
    first.extend(high_first(roll.h, 4));
    first.extend(characters(table));
    let mut frames = vec![first];
    for packed in buf[..bytes_for(table.k, roll.h as usize)].chunks(FRAME) {
        frames.push([&[2], packed].concat());
    }
    frames
}

/// The bytes written.
pub fn write_frames(roll: &Roll, buf: &[u8], out: &mut [u8]) -> Answer<u64> {
    check(roll, buf)?;
    let lines: Vec<Vec<u8>> = frames_of(roll, buf).iter().map(|frame| line_of(frame)).collect();
    let text = lines.concat();
    if out.len() < text.len() {
        return refuse(13, text.len());
    }
    out[..text.len()].copy_from_slice(&text);
    Ok(text.len() as u64)
}

/// The lines of a text: each up to a byte 10, which belongs to it, or to the text's end.
fn lines_of(text: &[u8]) -> Vec<&[u8]> {
    let mut lines = Vec::new();
    let mut start = 0;
    for (place, &byte) in text.iter().enumerate() {
        if byte == 10 {
            lines.push(&text[start..=place]);
            start = place + 1;
        }
    }
    if start < text.len() {
        lines.push(&text[start..]);
    }
    lines
}

/// The frame that a line spells, if the line is a good one.
fn frame_of(line: &[u8]) -> Option<Vec<u8>> {
    let (&last, digits) = line.split_last()?;
    if last != 10 || digits.is_empty() || digits.len() % 2 != 0 {
        return None;
    }
    let value = |byte: u8| DIGITS.iter().position(|&digit| digit == byte);
    let mut frame = Vec::new();
    for pair in digits.chunks(2) {
        frame.push((16 * value(pair[0])? + value(pair[1])?) as u8);
    }
    Some(frame)
}

/// The number of these bytes, the high one first.
fn number_of(bytes: &[u8]) -> u32 {
    bytes.iter().fold(0, |number, &byte| number << 8 | u32::from(byte))
}

/// A first frame, if the line is one that is well-formed.
fn first_frame(line: &[u8]) -> Option<Vec<u8>> {
    let frame = frame_of(line)?;
    if frame[0] == 1 && frame.len() >= HEAD && frame.len() == HEAD + number_of(&frame[3..5]) as usize {
        Some(frame)
    } else {
        None
    }
}

fn first_record(line: &[u8]) -> Answer<Roll> {
    let frame = match first_frame(line) {
        Some(frame) => frame,
        None => return refuse(15, 0),
    };
    let (k, s) = (frame[1], frame[2]);
    if !good_width(k) {
        return refuse(1, 0);
    }
    let mut places = [0; 256];
    for (place, &character) in places.iter_mut().zip(&frame[HEAD..]) {
        *place = character;
    }
    let sigma = number_of(&frame[3..5]) as u16;
    Ok(Roll { table: Table { k, s, sigma, places }, n: number_of(&frame[5..9]), h: number_of(&frame[9..13]) })
}

/// An answer with the record, or beside a refusal with one of zeros.
fn with_record(read: Answer<Roll>) -> (Answer<()>, Roll) {
    match read {
        Ok(roll) => (Ok(()), roll),
        Err(refused) => (Err(refused), NO_ROLL),
    }
}

/// The record of a first line, its byte 10 included.
pub fn read_first(line: &[u8]) -> (Answer<()>, Roll) {
    with_record(first_record(line))
}

/// The packed bytes of a later frame, if the line is one that is well-formed.
fn packed_bytes(line: &[u8]) -> Option<Vec<u8>> {
    let frame = frame_of(line)?;
    let packed = frame[1..].to_vec();
    if frame[0] == 2 && !packed.is_empty() && packed.len() <= FRAME {
        Some(packed)
    } else {
        None
    }
}

/// The packed bytes of a later line, its byte 10 included: how many.
pub fn read_frame(line: &[u8], out: &mut [u8]) -> Answer<u64> {
    let packed = match packed_bytes(line) {
        Some(packed) => packed,
        None => return refuse(15, 0),
    };
    if out.len() < packed.len() {
        return refuse(13, packed.len());
    }
    out[..packed.len()].copy_from_slice(&packed);
    Ok(packed.len() as u64)
}

/// The record and the packed bytes of a frame text for a buffer of so many bytes.
fn roll_of_frames(text: &[u8], buf_len: usize) -> Answer<(Roll, Vec<u8>)> {
    let lines = lines_of(text);
    let roll = first_record(lines.first().unwrap_or(&text))?;
    let (table, h) = (&roll.table, roll.h as usize);
    let due = bytes_for(table.k, h);
    let mut packed = Vec::new();
    let mut number = 1;
    while packed.len() < due {
        let wanted = FRAME.min(due - packed.len());
        match lines.get(number).and_then(|line| packed_bytes(line)) {
            Some(bytes) if bytes.len() == wanted => packed.extend(bytes),
            _ => return refuse(15, number),
        }
        number += 1;
    }
    if number < lines.len() {
        return refuse(15, number);
    }
    table_refusal(table)?;
    if h > room(table.k, buf_len) {
        return refuse(5, h);
    }
    check(&roll, &packed)?;
    Ok((roll, packed))
}

pub fn read_frames(text: &[u8], buf: &mut [u8]) -> (Answer<()>, Roll) {
    with_record(roll_of_frames(text, buf.len()).map(|(roll, packed)| {
        buf[..packed.len()].copy_from_slice(&packed);
        roll
    }))
}

// The program.

/// What the program writes for what it reads.
pub fn report(input: &[u8]) -> Vec<u8> {
    match report_lines(input) {
        Ok(lines) => lines,
        Err(refused) => format!("refused {} {}\n", refused.number, refused.value).into_bytes(),
    }
}

fn report_lines(input: &[u8]) -> Answer<Vec<u8>> {
    let (pattern, text) = match input.iter().position(|&byte| byte == 10) {
        Some(newline) => (&input[..newline], &input[newline + 1..]),
        None => (input, &input[input.len()..]),
    };
    if !good_pattern(pattern) {
        return refuse(11, 0);
    }
    if text.len() > PROGRAM {
        return refuse(4, PROGRAM);
    }
    let mut counts = [0; 256];
    count(text, &mut counts)?;
    let (answer, table) = choose(2, &counts);
    answer?;
    let mut buf = vec![0; PROGRAM];
    let (answer, roll) = pack(&table, text, &mut buf);
    answer?;
    let mut hits = vec![0; text.len()];
    let total = search(&roll, &buf, pattern, &mut hits)?;

    let mut lines = format!("best {} symbols {}\n", roll.table.s, roll.h);
    for line in buf[..bytes_for(2, roll.h as usize)].chunks(32) {
        for byte in line {
            lines.push_str(&format!("{:02x}", byte));
        }
        lines.push('\n');
    }
    for hit in &hits[..total as usize] {
        lines.push_str(&format!("{}\n", hit));
    }
    lines.push_str(&format!("hits {}\n", total));
    Ok(lines.into_bytes())
}

#[cfg(test)]
mod tests {
    use super::*;

    fn chosen(k: u8, text: &[u8]) -> (u64, Table) {
        let mut counts = [7; 256];
        count(text, &mut counts).unwrap();
        let (answer, table) = choose(k, &counts);
        (answer.unwrap(), table)
    }

    fn with_places(k: u8, s: u8, sigma: u16) -> Table {
        let mut places = [0; 256];
        for (place, byte) in places.iter_mut().zip(0..=255) {
            *place = byte;
        }
        Table { k, s, sigma, places }
    }

    /// A table of these characters, in rank order.
    fn given(k: u8, s: u8, characters: &[u8]) -> Table {
        let mut places = [0; 256];
        places[..characters.len()].copy_from_slice(characters);
        Table { k, s, sigma: characters.len() as u16, places }
    }

    /// The table of P1, which choosing gave before the twelve counted as at least 1.
    fn of_word() -> Table {
        given(2, 3, b"abrcd")
    }

    /// Packed behind guard bytes' worth of 0xAA, to see what stays.
    fn rolled(table: &Table, text: &[u8], bytes: usize) -> (Roll, Vec<u8>) {
        let mut buf = vec![0xAA; bytes];
        let (answer, roll) = pack(table, text, &mut buf);
        answer.unwrap();
        (roll, buf)
    }

    fn found(roll: &Roll, buf: &[u8], pattern: &[u8]) -> Vec<u32> {
        let mut hits = vec![9999; roll.n as usize + 1];
        let total = search(roll, buf, pattern, &mut hits).unwrap() as usize;
        assert!(hits[total..].iter().all(|&hit| hit == 9999));
        hits.truncate(total);
        assert_eq!(hits, found_in_symbols(roll, buf, pattern));
        hits
    }

    /// The paper's other words for a hit: the packed pattern stands there, behind a stopper or nothing.
    fn found_in_symbols(roll: &Roll, buf: &[u8], pattern: &[u8]) -> Vec<u32> {
        let table = &roll.table;
        let symbols = symbols_of(table.k, buf, roll.h as usize);
        let sought = match codewords_for(table, &listing(table.k, table.s), pattern) {
            Ok(codewords) => codewords.concat(),
            Err(_) => return Vec::new(),
        };
        let stoppers_before = |at: usize| symbols[..at].iter().filter(|&&symbol| symbol < table.s).count();
        (0..symbols.len())
            .filter(|&at| symbols[at..].starts_with(&sought) && (at == 0 || symbols[at - 1] < table.s))
            .map(|at| stoppers_before(at) as u32)
            .collect()
    }

    fn directory_of(roll: &Roll, buf: &[u8]) -> Vec<u32> {
        let mut directory = vec![0; entries_for(roll.n as usize)];
        make_directory(roll, buf, &mut directory).unwrap();
        directory
    }

    const WORD: &[u8] = b"abracadabra";

    fn refused<T: std::fmt::Debug>(answer: Answer<T>) -> (u32, u64) {
        let refused = answer.unwrap_err();
        (refused.number, refused.value)
    }

    #[test]
    fn p1() {
        // Of the counts as they are.
        let mut counts = [7; 256];
        count(WORD, &mut counts).unwrap();
        assert_eq!(ranked(&counts), b"abrcd");
        let totals: Vec<u64> = (1..=3).map(|s| total(2, s, &counts, b"abrcd")).collect();
        assert_eq!(totals, [18, 15, 13]);
        assert_eq!(best(2, &counts), (13, of_word()));

        // Raised, they are 5, 2, 2 and fourteen times 1. Codewords of one symbol, two and so on there are:
        // with s 1: 1, 3, 9, 27; the total is 5 + (2 + 2 + 1) · 2 + 9 · 3 + 4 · 4 = 58;
        // with s 2: 2, 4, 8, 16; it is 5 + 2 + (2 + 1 + 1 + 1) · 2 + 8 · 3 + 3 · 4 = 53;
        // with s 3: 3 of each length; it is 5 + 2 + 2 + 3 · (2 + 3 + 4 + 5) + 2 · 6 = 63.
        assert_eq!(chosen(2, WORD), (53, given(2, 2, b"abr\n+0123456789cd")));
        let totals: Vec<u64> = (1..=3).map(|s| total(2, s, &raised(&counts), b"abr\n+0123456789cd")).collect();
        assert_eq!(totals, [58, 53, 63]);
    }

    #[test]
    fn p2() {
        let (roll, buf) = rolled(&of_word(), WORD, 6);
        assert_eq!((roll.n, roll.h), (11, 13));
        assert_eq!(symbols_of(2, &buf, 13), [0, 1, 2, 0, 3, 0, 0, 3, 1, 0, 1, 2, 0]);
        assert_eq!(buf, [0x18, 0xC3, 0x46, 0x00, 0xAA, 0xAA]);
        let mut text = [7; 12];
        unpack(&roll, &buf, 0, 11, &mut text).unwrap();
        assert_eq!(&text, b"abracadabra\x07");
        for (place, &character) in WORD.iter().enumerate() {
            assert_eq!(read_one(&roll, &buf, &[0], place), Ok(character));
        }
    }

    #[test]
    fn p3() {
        let (roll, buf) = rolled(&of_word(), WORD, 4);
        assert_eq!(found(&roll, &buf, b"b"), [1, 8]);
        let (answer, b) = codeword_of(&roll.table, b'b');
        assert!(answer.is_ok());
        assert_eq!(b.symbols[..b.length], symbols_of(2, &buf, 13)[8..9]);
    }

    #[test]
    fn p4() {
        let (roll, buf) = rolled(&of_word(), WORD, 4);
        assert_eq!(found(&roll, &buf, b"a"), [0, 3, 5, 7, 10]);
        let mut hits = [7; 2];
        assert_eq!(search(&roll, &buf, b"a", &mut hits), Ok(5));
        assert_eq!(hits, [0, 3]);
        assert_eq!(search(&roll, &buf, b"x", &mut hits), Ok(0));
    }

    #[test]
    fn p5() {
        let (roll, buf) = rolled(&given(4, 3, b"anb"), b"banana", 3);
        assert_eq!(symbols_of(4, &buf, 6), [2, 0, 1, 0, 1, 0]);
        assert_eq!(buf, [0x20, 0x10, 0x10]);
        assert_eq!(found(&roll, &buf, b"ana"), [1, 3]);
        // Chosen, 15 characters take a symbol each with s 15 and no smaller s: 3 + 2 + 13. The last of them is b.
        let (fewest, table) = chosen(4, b"banana");
        assert_eq!((fewest, &table), (18, &given(4, 15, b"an\n+0123456789b")));
        let (roll, buf) = rolled(&table, b"banana", 3);
        assert_eq!((roll.h, &buf[..]), (6, &[0xE0, 0x10, 0x10][..]));
        assert_eq!(found(&roll, &buf, b"ana"), [1, 3]);
    }

    fn word(k: u8, s: u8, rank: usize) -> Vec<u8> {
        let (answer, codeword) = codeword_of(&with_places(k, s, 256), rank as u8);
        answer.unwrap();
        assert_eq!(character_of(&with_places(k, s, 256), &codeword), Ok(rank as u8));
        assert!(codeword.symbols[codeword.length..].iter().all(|&symbol| symbol == 0));
        codeword.symbols[..codeword.length].to_vec()
    }

    #[test]
    fn p6() {
        assert_eq!(word(4, 14, 13), [0xD]);
        assert_eq!(word(4, 14, 14), [0xE, 0]);
        assert_eq!(word(4, 14, 27), [0xE, 0xD]);
        assert_eq!(word(4, 14, 28), [0xF, 0]);
    }

    #[test]
    fn p7() {
        assert_eq!(word(4, 14, 41), [0xF, 0xD]);
        assert_eq!(word(4, 14, 42), [0xE, 0xE, 0]);
        assert_eq!(word(4, 14, 255), [0xE, 0xE, 0xF, 0xF, 3]);
    }

    #[test]
    fn p8() {
        assert_eq!(word(2, 2, 255), [2, 2, 2, 2, 2, 2, 2, 1]);
    }

    #[test]
    fn p9() {
        assert_eq!(word(4, 15, 255), [vec![0xF; 17], vec![0]].concat());
        assert_eq!(word(2, 3, 255), [vec![3; 85], vec![0]].concat());
    }

    #[test]
    fn p10() {
        let (roll, mut buf) = rolled(&of_word(), WORD, 5);
        let mut directory = vec![0, 77];
        let (answer, after) = edit(&roll, &mut buf, &mut directory, 4, 5, b"dd");
        assert!(answer.is_ok());
        assert_eq!((after.n, after.h), (12, 15));
        assert_eq!(after.table, roll.table);
        assert_eq!(buf, [0x18, 0xDD, 0x34, 0x60, 0xAA]);
        assert_eq!(directory, [0, 77]);
    }

    #[test]
    fn p11() {
        let (roll, mut buf) = rolled(&of_word(), WORD, 5);
        let mut directory = vec![0];
        let (answer, after) = edit(&roll, &mut buf, &mut directory, 4, 7, b"");
        assert!(answer.is_ok());
        assert_eq!((after.n, after.h), (8, 8));
        assert_eq!(buf, [0x18, 0x18, 0x00, 0x00, 0xAA]);
    }

    #[test]
    fn p12() {
        // Twelve of 1. With k 2 and s 2 two of them take one symbol, four two and six three: 2 + 8 + 18; with s 1 it is
        // 1 + 6 + 24, and with s 3 it is 3 + 6 + 9 + 12. With k 4 s 12 is the smallest under which each takes one.
        for (k, s, symbols) in [(2, 2, 28), (4, 12, 12)] {
            let (fewest, table) = chosen(k, b"");
            assert_eq!((fewest, &table), (symbols, &given(k, s, b"\n+0123456789")));
            let (roll, buf) = rolled(&table, b"", 2);
            assert_eq!((roll.n, roll.h), (0, 0));
            assert_eq!(buf, [0xAA, 0xAA]);
            assert_eq!(make_directory(&roll, &buf, &mut []), Ok(()));
            assert_eq!(check(&roll, &buf), Ok(()));
            assert_eq!(check(&roll, &[]), Ok(()));
        }
    }

    #[test]
    fn p13() {
        let buf = [0xE0];
        let roll = Roll { table: with_places(4, 14, 14), n: 1, h: 2 };
        assert_eq!(refused(check(&roll, &buf)), (6, 0));
        let roll = Roll { table: with_places(4, 14, 15), n: 1, h: 2 };
        assert_eq!(check(&roll, &buf), Ok(()));
    }

    #[test]
    fn p14() {
        let text = vec![b'a'; LIMIT + 1];
        for k in [2, 4] {
            let mut table = with_places(k, 1, 1);
            table.places[0] = b'a';
            let mut buf = vec![0xAA; bytes_for(k, LIMIT) + 9];
            let (answer, roll) = pack(&table, &text[..LIMIT], &mut buf);
            assert!(answer.is_ok());
            assert_eq!((roll.n, roll.h), (1_048_576, 1_048_576));
            assert_eq!(check(&roll, &buf), Ok(()));
            let before = buf.clone();
            let (answer, roll) = pack(&table, &text, &mut buf);
            assert_eq!(refused(answer), (4, 1_048_576));
            assert_eq!((roll.n, roll.h), (0, 0));
            assert_eq!(buf, before);
        }
        let mut counts = [7; 256];
        assert_eq!(refused(count(&text, &mut counts)), (4, 1_048_576));
        assert_eq!(counts, [7; 256]);
        assert!(count(&text[..LIMIT], &mut counts).is_ok());
        assert_eq!(counts[usize::from(b'a')], 1_048_576);
    }

    #[test]
    fn rolls_at_the_limit() {
        for k in [2, 4] {
            // As many codewords of one symbol, and in a longer buffer; one symbol over it.
            let full = Roll { table: with_places(k, 1, 2), n: 1_048_576, h: 1_048_576 };
            let over = Roll { n: 1_048_577, h: 1_048_577, ..full.clone() };
            let mut buf = vec![0; bytes_for(k, LIMIT)];
            assert_eq!([check(&full, &buf), start(&full, b"a").0], [Ok(()), Ok(())]);
            assert_eq!(refused(check(&over, &buf)), (5, 1_048_577));
            buf.push(0);
            assert_eq!(check(&full, &buf), Ok(()));
            assert_eq!([refused(check(&over, &buf)), refused(start(&over, b"a").0)], [(5, 1_048_577); 2]);

            // One for another at the front leaves as many; there is no room for more.
            let mut directory = directory_of(&full, &buf);
            assert_eq!((directory.len(), directory[32_767]), (32_768, 1_048_544));
            let before = buf.clone();
            let (answer, after) = edit(&full, &mut buf, &mut directory, 0, 2, &[1]);
            assert_eq!((answer, after.n, after.h), (Ok(()), 1_048_575, 1_048_576));
            assert_eq!(check(&after, &buf), Ok(()));
            assert_eq!(refused(edit(&after, &mut buf, &mut directory, 9, 9, &[0]).0), (4, 1_048_575));
            let (answer, again) = edit(&after, &mut buf, &mut directory, 0, 1, &[0, 0]);
            assert_eq!((answer, again, &buf), (Ok(()), full.clone(), &before));

            // Continuers, closed and open.
            let run = vec![1; LIMIT - 1];
            let closed = bytes_of(k, &[&run[..], &[0]].concat());
            let open = bytes_of(k, &[&[0], &run[..]].concat());
            assert_eq!(refused(check(&full, &closed)), (6, 0));
            assert_eq!(refused(check(&full, &open)), (6, 1));
        }
    }

    #[test]
    fn p15() {
        let text = vec![b'a'; 70];
        let (roll, buf) = rolled(&chosen(2, &text).1, &text, 18);
        assert_eq!(search(&roll, &buf, &text[..64], &mut []), Ok(7));
        assert_eq!(refused(search(&roll, &buf, &text[..65], &mut [])), (11, 0));
        assert_eq!(refused(search(&roll, &buf, b"", &mut [])), (11, 0));
    }

    #[test]
    fn p16() {
        let (roll, buf) = rolled(&given(2, 3, b"abc"), b"abc", 1);
        assert_eq!(unpack(&roll, &buf, 3, 3, &mut []), Ok(()));
        assert_eq!(refused(unpack(&roll, &buf, 4, 4, &mut [])), (10, 0));
        let mut buf = buf;
        assert!(edit(&roll, &mut buf, &mut [0], 3, 3, b"").0.is_ok());
        assert_eq!(refused(edit(&roll, &mut buf, &mut [0], 4, 4, b"").0), (10, 0));
    }

    #[test]
    fn the_program() {
        // Under P1's chosen table: a 0, b 1, r 2 0, c 2 2 2 1, d 2 2 3 0. The total of 53 is not what the text takes.
        assert_eq!(report(b"abra\nabracadabra"), b"best 2 symbols 19\n182a4ac180\n0\n7\nhits 2\n");
        assert_eq!(report(b"abc"), b"best 2 symbols 0\nhits 0\n");
        assert_eq!(report(b""), b"refused 11 0\n");
        assert_eq!(report(b"\nabc"), b"refused 11 0\n");
        let over = [b"a\n".to_vec(), vec![b'a'; 16_385]].concat();
        assert_eq!(report(&over), b"refused 4 16384\n");
        assert_eq!(report(&[vec![b'a'; 65], over].concat()), b"refused 11 0\n");
        // Every byte 64 times is 16,384 bytes and about 5 symbols each: the room of 65,536 ends first.
        let many: Vec<u8> = (0..16_384u32).map(|i| (i % 256) as u8).collect();
        let answer = report(&[b"a\n".to_vec(), many].concat());
        assert!(answer.starts_with(b"refused 4 "), "{}", String::from_utf8_lossy(&answer));
    }

    #[test]
    fn codewords_are_all_there_are() {
        // Rank order runs through every codeword of a length before the next length.
        for k in [2u8, 4] {
            for s in 1..=(1u8 << k) - 1 {
                let list = listing(k, s);
                let c = (1usize << k) - usize::from(s);
                let longest = list.codewords.last().unwrap().len();
                let mut shorter = 0;
                let mut of_length = usize::from(s);
                for length in 1..=longest {
                    let found = list.codewords.iter().filter(|word| word.len() == length).count();
                    assert_eq!(found, of_length.min(256 - shorter));
                    shorter += of_length;
                    of_length *= c;
                }
                assert!(longest <= LONGEST);
                for (rank, word) in list.codewords.iter().enumerate() {
                    let (stopper, continuers) = word.split_last().unwrap();
                    assert!(*stopper < s && continuers.iter().all(|&symbol| symbol >= s && symbol < 1 << k));
                    assert_eq!(list.rank(word), Some(rank));
                }
            }
        }
    }

    #[test]
    fn refusals_in_order() {
        let table = of_word();
        let (good, buf) = rolled(&table, WORD, 4);
        let roll = |n, h| Roll { table: table.clone(), n, h };
        assert_eq!(refused(check(&roll(11, 17), &buf)), (5, 17));
        assert_eq!(refused(check(&roll(9, 8), &buf)), (6, 7));
        assert_eq!(refused(check(&roll(12, 13), &buf)), (7, 11));
        assert_eq!(refused(check(&good, &[0x18, 0xC3, 0x46, 0x01])), (8, 0));
        assert_eq!(refused(check(&roll(12, 13), &[0x18, 0xC3, 0x46, 0x01])), (7, 11));
        assert_eq!(refused(unpack(&good, &buf, 2, 1, &mut [])), (10, 0));
        assert_eq!(refused(unpack(&good, &buf, 1, 3, &mut [0])), (13, 2));
        assert_eq!(refused(make_directory(&good, &buf, &mut [])), (12, 1));
        let mut bad = good.clone();
        bad.table.places[1] = b'a';
        assert_eq!(refused(check(&bad, &buf)), (1, 0));
        bad = good.clone();
        bad.table.places[5] = b'a';
        assert_eq!(check(&bad, &buf), Ok(()));
        bad.table.s = 4;
        assert_eq!(refused(check(&bad, &buf)), (1, 0));
        let mut counts = [7; 255];
        assert_eq!(refused(count(WORD, &mut counts)), (2, 255));
        let (answer, beside) = choose(3, &counts);
        assert_eq!((refused(answer), beside.k, beside.s), ((1, 0), 3, 0));
        assert_eq!(refused(choose(2, &counts).0), (2, 255));
        let mut small = [0xAA; 2];
        assert_eq!(refused(pack(&table, b"abracadabrax", &mut small).0), (3, 11));
        assert_eq!(refused(pack(&table, WORD, &mut small).0), (4, 6));
        assert_eq!(small, [0xAA; 2]);
        let (answer, beside) = codeword_of(&table, b'x');
        assert_eq!((refused(answer), beside), ((3, 0), Codeword { length: 0, symbols: [0; LONGEST] }));
        for length in [0, 2, 87, usize::MAX] {
            assert_eq!(refused(character_of(&table, &Codeword { length, symbols: [0; LONGEST] })), (6, 0));
        }
    }

    #[test]
    fn read_one_follows_what_the_entry_says() {
        let (roll, buf) = rolled(&of_word(), WORD, 4);
        assert_eq!(refused(read_one(&roll, &buf, &[0], 11)), (10, 0));
        assert_eq!(refused(read_one(&roll, &buf, &[], 0)), (9, 0));
        assert_eq!(refused(read_one(&roll, &buf, &[13], 0)), (9, 0));
        // Symbol 8 is the second of d's two: read there, it is b.
        assert_eq!(read_one(&roll, &buf, &[8], 0), Ok(b'b'));
        assert_eq!(refused(read_one(&roll, &buf, &[8], 5)), (6, 13));
        assert_eq!(refused(read_one(&roll, &buf, &[8], 9)), (6, 13));
        let empty = Roll { table: roll.table, n: 1, h: 0 };
        assert_eq!(refused(read_one(&empty, &buf, &[0], 0)), (9, 0));
    }

    #[test]
    fn edit_refuses_in_order_and_clears() {
        let (roll, buf) = rolled(&of_word(), WORD, 4);
        let try_edit = |directory: &[u32], start, end, text: &[u8]| {
            let (mut after, mut entries) = (buf.clone(), directory.to_vec());
            let (answer, record) = edit(&roll, &mut after, &mut entries, start, end, text);
            assert_eq!((&after, &entries[..], &record), (&buf, directory, &roll));
            refused(answer)
        };
        assert_eq!(try_edit(&[], 2, 1, b"x"), (9, 0));
        assert_eq!(try_edit(&[1], 2, 1, b"x"), (9, 0));
        assert_eq!(try_edit(&[0], 2, 1, b"x"), (10, 0));
        assert_eq!(try_edit(&[0], 0, 12, b"x"), (10, 0));
        assert_eq!(try_edit(&[0], 0, 11, b"aax"), (3, 2));
        // Four symbols more than the buffer's sixteen have room for: the last character falls off.
        assert_eq!(try_edit(&[0], 0, 0, b"dd"), (4, 12));
        assert_eq!(try_edit(&[0], 11, 11, &[b'a'; 40]), (4, 14));

        let table = roll.table.clone();
        let text = vec![b'a'; 70];
        let (roll, mut buf) = rolled(&table, &text, 40);
        let mut directory = directory_of(&roll, &buf);
        assert_eq!(directory, [0, 32, 64]);
        let (answer, record) = edit(&roll, &mut buf, &mut directory, 70, 70, &[b'a'; 27]);
        assert_eq!((refused(answer), &record), ((12, 4), &roll));
        directory.push(55);
        let (answer, after) = edit(&roll, &mut buf, &mut directory, 0, 60, b"d");
        assert!(answer.is_ok());
        assert_eq!((after.n, after.h), (11, 12));
        assert_eq!(directory, [0, 0, 0, 55]);
        assert_eq!(buf[..18], [vec![0xD0], vec![0; 17]].concat());
        assert_eq!(buf[18..], [0xAA; 22]);
        assert_eq!(check(&after, &buf), Ok(()));
    }

    /// A few numbers below a bound, always the same.
    struct Dice(u64);

    impl Dice {
        fn below(&mut self, bound: usize) -> usize {
            self.0 = self.0.wrapping_mul(6_364_136_223_846_793_005).wrapping_add(1_442_695_040_888_963_407);
            (self.0 >> 33) as usize % bound
        }

        fn text(&mut self, longest: usize, alphabet: usize) -> Vec<u8> {
            (0..self.below(longest + 1)).map(|_| self.below(alphabet) as u8).collect()
        }

        /// 1 to 4 characters, and 13 for byte 10.
        fn pattern(&mut self, alphabet: usize) -> Vec<u8> {
            let mut pattern = self.text(3, alphabet);
            pattern.push(self.below(alphabet) as u8);
            pattern.iter().map(|&byte| if byte == 10 { 13 } else { byte }).collect()
        }
    }

    /// Of each width what is chosen for these counts, which is what these others would be without the rule.
    fn chosen_as(counts: &[u32; 256], others: &[u32; 256]) -> [Table; 2] {
        [2, 4].map(|k| {
            let (answer, table) = choose(k, counts);
            assert_eq!((answer.unwrap(), table.clone()), best(k, others));
            table
        })
    }

    #[test]
    fn each_of_the_twelve_missing_in_turn() {
        // From '0' 2 to the line's end 13, and a letter 1.
        let mut all = [0; 256];
        for (times, byte) in (2..).zip(ALWAYS) {
            all[usize::from(byte)] = times;
        }
        all[usize::from(b'a')] = 1;
        for missing in ALWAYS {
            let (mut counts, mut raised) = (all, all);
            counts[usize::from(missing)] = 0;
            raised[usize::from(missing)] = 1;
            // It stands behind the other eleven, and before the letter as the smaller byte.
            let mut order: Vec<u8> = ALWAYS.iter().copied().rev().filter(|&byte| byte != missing).collect();
            order.extend([missing, b'a']);
            for table in chosen_as(&counts, &raised) {
                assert_eq!(characters(&table), order);
            }
        }
    }

    #[test]
    fn what_is_not_0_is_not_raised() {
        for times in [1, 2, 65_536, u32::MAX] {
            let mut counts = [0; 256];
            for byte in ALWAYS {
                counts[usize::from(byte)] = times;
            }
            chosen_as(&counts, &counts);
            // Nor a count of any other, be it 0.
            counts[usize::from(b'/')] = 1;
            for table in chosen_as(&counts, &counts) {
                assert_eq!((table.sigma, rank_of(&table, b'/').is_some()), (13, true));
            }
        }
        // Between bytes of equal counts the smaller comes first, whether it was raised or counted.
        let (mut counts, mut raised) = ([0; 256], [0; 256]);
        for byte in [b'\t', b'*', b'5', b':', b'z'] {
            (counts[usize::from(byte)], raised[usize::from(byte)]) = (1, 1);
        }
        for byte in ALWAYS {
            raised[usize::from(byte)] = 1;
        }
        for table in chosen_as(&counts, &raised) {
            assert_eq!(characters(&table), b"\t\n*+0123456789:z");
        }
    }

    /// The total is over the text's symbols by a codeword of each of the twelve that it does not hold; so a buffer for
    /// it is enough. Telephone numbers can always come.
    #[test]
    fn the_total_and_the_symbols() {
        let mut dice = Dice(3);
        for round in 0..400 {
            let k = 2 + 2 * (round % 2) as u8;
            let alphabet = 1 + dice.below(if round % 4 < 2 { 5 } else { 120 });
            let text = dice.text(150, alphabet);
            let mut counts = [7; 256];
            count(&text, &mut counts).unwrap();
            assert_eq!(counts.iter().sum::<u32>() as usize, text.len());
            let (fewest, table) = chosen(k, &text);
            let (roll, buf) = rolled(&table, &text, bytes_for(k, fewest as usize));
            let not_held = ALWAYS.iter().filter(|byte| !text.contains(byte));
            let more: usize = not_held.map(|&byte| codeword_of(&table, byte).1.length).sum();
            assert_eq!(fewest, u64::from(roll.h) + more as u64);

            let number: Vec<u8> = (0..dice.below(20)).map(|_| ALWAYS[dice.below(12)]).collect();
            let (start, mut directory) = (dice.below(text.len() + 1), directory_of(&roll, &buf));
            let (mut buf, old) = (buf, directory.len());
            buf.resize(8_000, 0);
            directory.resize(old + 1, 0);
            let (answer, after) = edit(&roll, &mut buf, &mut directory, start, text.len(), &number);
            assert_eq!((answer, after.n as usize), (Ok(()), start + number.len()));
        }
    }

    #[test]
    fn the_demands_on_search_read_one_and_edit() {
        let mut dice = Dice(1);
        for round in 0..600 {
            let alphabet = 1 + dice.below(if round % 2 == 0 { 5 } else { 120 });
            let k = 2 + 2 * (round % 2) as u8;
            let text = dice.text(150, alphabet);
            let table = chosen(k, &text).1;
            let (roll, mut buf) = rolled(&table, &text, 8_000);
            let mut directory = directory_of(&roll, &buf);
            for (place, &character) in text.iter().enumerate() {
                assert_eq!(read_one(&roll, &buf, &directory, place), Ok(character));
            }
            found(&roll, &buf, &dice.pattern(alphabet));

            let start = dice.below(text.len() + 1);
            let end = start + dice.below(text.len() - start + 1);
            let new: Vec<u8> = dice.text(60, alphabet).into_iter().filter(|byte| text.contains(byte)).collect();
            let whole = [&text[..start], &new, &text[end..]].concat();
            let (before, old_entries) = (buf.clone(), directory.len());
            directory.resize(20, 77);
            let (answer, after) = edit(&roll, &mut buf, &mut directory, start, end, &new);
            assert_eq!(answer, Ok(()));

            let (fresh, fresh_buf) = rolled(&table, &whole, 8_000);
            let entries = directory_of(&fresh, &fresh_buf);
            assert_eq!(after, fresh);
            let (old_bytes, new_bytes) = (bytes_for(k, roll.h as usize), bytes_for(k, fresh.h as usize));
            assert_eq!(buf[..new_bytes], fresh_buf[..new_bytes]);
            assert!(buf[new_bytes..old_bytes.max(new_bytes)].iter().all(|&byte| byte == 0));
            assert!(buf[old_bytes.max(new_bytes)..].iter().all(|&byte| byte == 0xAA));
            assert_eq!(directory[..entries.len()], entries);
            assert!(directory[entries.len()..old_entries.max(entries.len())].iter().all(|&entry| entry == 0));
            assert!(directory[old_entries.max(entries.len())..].iter().all(|&entry| entry == 77));

            let symbols = |part: &[u8]| packed(&table, part, 8_000).unwrap().len();
            let run_start = symbols(&text[..start]);
            let kept = run_start / per_byte(k);
            assert_eq!(buf[..kept], before[..kept]);
            if symbols(&new) == symbols(&text[start..end]) {
                let run_end = bytes_for(k, run_start + symbols(&new));
                assert_eq!(buf[run_end..], before[run_end..]);
            }
        }
    }

    #[test]
    fn byte_10_in_a_pattern() {
        let text = b"ab\r\nab\n\n";
        let (roll, buf) = rolled(&given(2, 3, b"ab\r\n"), text, 8);
        let mut last_of_64 = [b'a'; 64];
        last_of_64[63] = b'\n';
        for pattern in [&b"\n"[..], b"\nab", b"b\n", b"\r\na", b"x\n", b"\n\n", &last_of_64, &[b'\n'; 64]] {
            let mut hits = [7; 4];
            assert_eq!((refused(search(&roll, &buf, pattern, &mut hits)), hits), ((11, 0), [7; 4]));
            assert_eq!(refused(start(&roll, pattern).0), (11, 0));
            assert_eq!(start(&roll, pattern).1, start(&roll, b"").1);
            // What is asked before it.
            assert_eq!(refused(search(&Roll { n: 7, ..roll.clone() }, &buf, pattern, &mut hits)), (7, 8));
            assert_eq!(refused(start(&Roll { h: 1_048_577, ..roll.clone() }, pattern).0), (5, 1_048_577));
        }
        // Byte 13 is a character as any other.
        assert_eq!([found(&roll, &buf, b"b\r"), found(&roll, &buf, b"ab")], [vec![1], vec![0, 4]]);
        assert_eq!(start(&roll, b"\r").0, Ok(()));
    }

    /// A searcher fed in both ways: all kept and read anew, and by its numbers alone.
    struct Both {
        received: Received,
        searcher: Searcher,
        hits: Vec<u32>,
    }

    impl Both {
        fn start(roll: &Roll, pattern: &[u8]) -> Both {
            let (answer, searcher) = start(roll, pattern);
            assert_eq!(answer, Ok(()));
            let received = Received::new(roll, pattern).unwrap();
            assert_eq!(received.searcher(), searcher);
            Both { received, searcher, hits: Vec::new() }
        }

        /// The answer's number and value, 0 and the hits if accepted.
        fn feed_into(&mut self, piece: &[u8], entries: usize) -> (u32, u64) {
            let (mut slice, mut again) = (vec![9_999; entries], vec![9_999; entries]);
            let (answer, hits) = self.received.feed(piece, &mut slice);
            let (same, as_many, after) = feed(&self.searcher, piece, &mut again);
            assert_eq!((answer, hits, &slice), (same, as_many, &again));
            assert_eq!(self.received.searcher(), after);
            assert!(slice[hits..].iter().all(|&entry| entry == 9_999));
            self.searcher = after;
            self.hits.extend(&slice[..hits]);
            answer.map_or_else(|refused| (refused.number, refused.value), |()| (0, hits as u64))
        }

        fn feed(&mut self, piece: &[u8]) -> (u32, u64) {
            let entries = piece.len() * per_byte(self.searcher.roll.table.k);
            self.feed_into(piece, entries)
        }

        fn finish(&self) -> Answer<()> {
            assert_eq!(self.received.finish(), finish(&self.searcher));
            finish(&self.searcher)
        }
    }

    #[test]
    fn the_word_in_pieces() {
        let (roll, buf) = rolled(&of_word(), WORD, 4);
        let mut both = Both::start(&roll, b"abra");
        assert_eq!((both.searcher.progress, both.searcher.ends), (FRESH, 0));
        assert_eq!(refused(both.finish()), (6, 0));
        assert_eq!(both.feed(&buf[..1]), (0, 1));
        // abra, whose last a may be the first of another.
        let progress = Progress { read: 4, count: 4, first: 4, ..FRESH };
        assert_eq!((both.searcher.progress, both.searcher.ends), (progress, 1));
        assert_eq!(both.feed(&buf[1..2]), (0, 0));
        // The first symbol of d is read.
        let progress = Progress { read: 8, count: 6, first: 7, place: 1, shorter: 3, ..FRESH };
        assert_eq!((both.searcher.progress, both.searcher.ends), (progress, 1));
        assert_eq!(refused(both.finish()), (6, 7));
        assert_eq!(both.feed(b""), (0, 0));
        assert_eq!(both.feed(&buf[2..3]), (0, 0));
        assert_eq!(both.searcher.ends, 4);
        assert_eq!(refused(both.finish()), (6, 12));
        assert_eq!(both.feed(&buf[3..]), (0, 1));
        assert_eq!(both.hits, [0, 7]);
        assert_eq!(both.finish(), Ok(()));
        assert_eq!(both.feed(b""), (0, 0));
        assert_eq!(both.feed(&[0]), (5, 13));
        for first in 0..=4 {
            for second in first..=4 {
                let mut cut = Both::start(&roll, b"abra");
                for piece in [&buf[..first], &buf[first..second], &buf[second..]] {
                    assert_eq!(cut.feed(piece).0, 0);
                }
                assert_eq!((&cut.hits, &cut.searcher), (&both.hits, &both.searcher));
            }
        }
    }

    #[test]
    fn banana_in_pieces() {
        let (roll, buf) = rolled(&given(4, 3, b"anb"), b"banana", 3);
        let mut both = Both::start(&roll, b"ana");
        assert_eq!([both.feed(&buf[..1]), both.feed(&buf[1..2]), both.feed(&buf[2..])], [(0, 0), (0, 1), (0, 1)]);
        assert_eq!((both.hits, both.searcher.ends), (vec![1, 3], 1));
        // A character not in the table stands nowhere.
        let mut both = Both::start(&roll, b"anx");
        assert_eq!(both.feed(&buf), (0, 0));
        assert_eq!(both.finish(), Ok(()));
        assert_eq!(both.searcher.ends, 1);
    }

    #[test]
    fn a_bad_codeword_in_pieces() {
        let fed = |sigma, h, pieces: &[&[u8]]| {
            let mut both = Both::start(&Roll { table: with_places(4, 14, sigma), n: 9, h }, &[0]);
            let answers: Vec<(u32, u64)> = pieces.iter().map(|piece| both.feed(piece)).collect();
            (answers, both)
        };
        // P13: the rank of E 0 is 14.
        let (answers, both) = fed(15, 2, &[&[0xE0]]);
        assert_eq!((answers, refused(both.finish())), (vec![(0, 0)], (7, 1)));
        let (answers, both) = fed(14, 4, &[&[0xE0], &[0x00], &[0x00; 3], &[]]);
        assert_eq!((answers, refused(both.finish())), (vec![(6, 0); 4], (6, 0)));
        assert_eq!(both.searcher.progress, Progress { read: 2, bad: 1, ..FRESH });
        // The hits before it are named, what follows it is not read.
        let (answers, both) = fed(14, 8, &[&[0x01, 0x0E, 0x00, 0xF1], &[0x00]]);
        assert_eq!((answers, refused(both.finish())), (vec![(6, 3), (6, 3)], (6, 3)));
        assert_eq!(both.hits, [0, 2]);
        assert_eq!(both.searcher.progress, Progress { read: 5, count: 3, first: 3, bad: 1, ..FRESH });
        // Open at h, in the feeding that reads the last symbol; unused symbols behind it are not read.
        let (answers, both) = fed(20, 3, &[&[0x0E], &[0xE5]]);
        assert_eq!((answers, refused(both.finish())), (vec![(0, 1), (6, 1)], (6, 1)));
        let open = Progress { read: 3, count: 1, first: 1, past: 1, place: 2, bad: 1, ..FRESH };
        assert_eq!(both.searcher.progress, open);
        // A run too long for any rank is bad at its stopper.
        let (answers, both) = fed(256, 9, &[&[0xEE], &[0xFF], &[0xFF], &[0xF0], &[0x00]]);
        assert_eq!((answers, refused(both.finish())), (vec![(0, 0), (0, 0), (0, 0), (6, 0), (6, 0)], (6, 0)));
        assert_eq!(both.searcher.progress, Progress { read: 8, bad: 1, ..FRESH });
        // Unused symbols are read with the last byte, and 7 comes before 8.
        let (answers, mut both) = fed(20, 3, &[&[0x00], &[0x05]]);
        assert_eq!((answers, refused(both.finish())), (vec![(0, 2), (0, 1)], (7, 3)));
        both.searcher.roll.n = 3;
        assert_eq!(refused(finish(&both.searcher)), (8, 0));
    }

    #[test]
    fn refusals_of_pieces_in_order() {
        let (roll, buf) = rolled(&of_word(), WORD, 5);
        let mut bad = roll.clone();
        bad.table.places[1] = b'a';
        bad.h = 1_048_577;
        let empty = |roll: &Roll| Searcher { length: 0, pattern: [0; PATTERN], ..start(roll, b"a").1 };
        assert_eq!((refused(start(&bad, b"").0), start(&bad, b"a").1), ((1, 0), empty(&bad)));
        bad.table = roll.table.clone();
        assert_eq!((refused(start(&bad, b"").0), start(&bad, b"a").1), ((5, 1_048_577), empty(&bad)));
        bad.h = 1_048_576;
        assert_eq!(start(&bad, &[b'x'; 64]).0, Ok(()));
        assert_eq!((refused(start(&bad, b"").0), start(&bad, &[b'x'; 65]).1), ((11, 0), empty(&bad)));
        bad.table.k = 0;
        assert_eq!((refused(start(&bad, b"").0), start(&bad, b"a").1), ((1, 0), empty(&bad)));

        // What is refused is not fed.
        let mut both = Both::start(&roll, b"a");
        assert_eq!(both.feed_into(&buf, 0), (5, 13));
        assert_eq!(both.feed_into(&buf[..4], 15), (14, 16));
        assert_eq!(both.feed_into(&buf[..1], 7), (0, 2));
        assert_eq!(both.feed_into(&buf[1..], 99), (5, 13));
        assert_eq!(both.feed_into(&buf[1..2], 3), (14, 4));
        assert_eq!(both.feed_into(&buf[1..4], 12), (0, 3));
        assert_eq!((&both.hits[..], both.finish()), (&[0, 3, 5, 7, 10][..], Ok(())));

        // An earlier 6 comes before 5, and 5 before 14.
        let mut both = Both::start(&Roll { h: 8, ..roll.clone() }, b"a");
        assert_eq!(both.feed(&buf[..2]), (6, 7));
        assert_eq!(both.feed_into(&buf, 0), (6, 7));
        assert_eq!(both.hits, [0, 3, 5]);

        // No piece but the empty one.
        for (n, answer) in [(0, Ok(())), (1, Err(Refused { number: 7, value: 0 }))] {
            let mut both = Both::start(&Roll { n, h: 0, ..roll.clone() }, b"a");
            assert_eq!([both.feed(b""), both.feed(&[0])], [(0, 0), (5, 0)]);
            assert_eq!(both.finish(), answer);
        }
    }

    #[test]
    fn any_numbers_may_stand_in_a_searcher() {
        let (roll, buf) = rolled(&of_word(), WORD, 4);
        let mut both = Both::start(&roll, b"abra");
        assert_eq!(both.feed(&buf[..2]).0, 0);
        let good = both.searcher;
        let asked = |searcher: &Searcher| {
            let mut slice = [9_999; 16];
            let (answer, hits, after) = feed(searcher, &buf[2..3], &mut slice);
            let number = |answer: Answer<()>| answer.map_or_else(|refused| refused.number, |()| 0);
            if [1, 5, 11].contains(&number(answer)) || searcher.progress.bad == 1 {
                assert_eq!((hits, &after, slice), (0, searcher, [9_999; 16]));
            }
            (number(answer), number(finish(searcher)))
        };
        assert_eq!(asked(&good), (0, 6));
        let with = |change: fn(&mut Searcher)| {
            let mut searcher = good.clone();
            change(&mut searcher);
            asked(&searcher)
        };
        assert_eq!(with(|searcher| searcher.progress.past = 2), (1, 1));
        assert_eq!(with(|searcher| searcher.progress.place = 3), (1, 1));
        assert_eq!(with(|searcher| searcher.progress.shorter = 257), (1, 1));
        assert_eq!(with(|searcher| searcher.progress.rows = 4_097), (1, 1));
        assert_eq!(with(|searcher| searcher.progress.value = 257), (1, 1));
        assert_eq!(with(|searcher| searcher.progress.bad = 2), (1, 1));
        assert_eq!(with(|searcher| searcher.progress.stained = 2), (1, 1));
        assert_eq!(with(|searcher| searcher.progress.count = 8), (1, 1));
        assert_eq!(with(|searcher| searcher.progress.first = 9), (1, 1));
        assert_eq!(with(|searcher| searcher.progress.read = 14), (1, 1));
        assert_eq!(with(|searcher| searcher.progress.read = 9), (1, 1));
        assert_eq!(with(|searcher| searcher.ends = 8), (1, 1));
        assert_eq!(with(|searcher| (searcher.progress.count, searcher.ends) = (2, 4)), (1, 1));
        assert_eq!(with(|searcher| searcher.roll.table.s = 4), (1, 1));
        assert_eq!(with(|searcher| (searcher.roll.h, searcher.length) = (1_048_577, 0)), (5, 5));
        assert_eq!(with(|searcher| (searcher.length, searcher.progress.past) = (0, 2)), (11, 11));
        assert_eq!(with(|searcher| searcher.length = 65), (11, 11));
        assert_eq!(with(|searcher| searcher.pattern[0] = 10), (11, 11));
        assert_eq!(with(|searcher| searcher.pattern[3] = 10), (11, 11));
        assert_eq!(with(|searcher| (searcher.pattern[3], searcher.progress.past) = (10, 2)), (11, 11));
        assert_eq!(with(|searcher| (searcher.pattern[3], searcher.roll.h) = (10, 1_048_577)), (5, 5));
        assert_eq!(with(|searcher| (searcher.pattern[3], searcher.roll.table.s) = (10, 4)), (1, 1));
        // Within their bounds all are taken as they are.
        assert_eq!(with(|searcher| (searcher.progress.read, searcher.progress.bad) = (9, 1)), (6, 6));
        assert_eq!(with(|searcher| searcher.progress.read = 13), (5, 7));
        assert_eq!(with(|searcher| (searcher.progress.read, searcher.roll.n) = (13, 6)), (5, 0));
        assert_eq!(with(|searcher| searcher.ends = 7), (0, 6));
        // The open codeword ends with 1: of rank 2 · 3 + 1, so it is bad; of rank 256 it is no less so.
        assert_eq!(with(|searcher| (searcher.progress.shorter, searcher.progress.value) = (0, 2)), (6, 6));
        assert_eq!(with(|searcher| (searcher.progress.shorter, searcher.progress.value) = (255, 0)), (6, 6));
        assert_eq!(with(|searcher| (searcher.progress.past, searcher.progress.shorter) = (1, 0)), (6, 6));
        // The pattern's places past its length are kept, and not looked at.
        assert_eq!(with(|searcher| searcher.pattern[4..].fill(b'a')), (0, 6));
        assert_eq!(with(|searcher| searcher.pattern[4..].fill(10)), (0, 6));
    }

    /// What reading a frame text answers, and that a refusal writes nothing and answers zeros.
    fn read_into(text: &[u8], bytes: usize) -> Result<(Roll, Vec<u8>), (u32, u64)> {
        let mut buf = vec![0xAA; bytes];
        match read_frames(text, &mut buf) {
            (Ok(()), roll) => Ok((roll, buf)),
            (answer, roll) => {
                assert_eq!((roll, buf), (NO_ROLL, vec![0xAA; bytes]));
                Err(refused(answer))
            }
        }
    }

    fn framed(roll: &Roll, buf: &[u8]) -> Vec<u8> {
        let mut out = vec![0xAA; 80_000];
        let length = write_frames(roll, buf, &mut out).unwrap() as usize;
        assert!(out[length..].iter().all(|&byte| byte == 0xAA));
        out.truncate(length);
        out
    }

    #[test]
    fn the_word_in_frames() {
        let (roll, buf) = rolled(&of_word(), WORD, 6);
        let text = framed(&roll, &buf);
        assert_eq!(text, b"01020300050000000b0000000d6162726364\n0218c34600\n");
        assert_eq!(read_into(&text, 6), Ok((roll.clone(), vec![0x18, 0xC3, 0x46, 0x00, 0xAA, 0xAA])));
        assert_eq!(read_into(&text, 4).unwrap().0, roll);
        assert_eq!(read_into(&text, 3), Err((5, 13)));
        let mut short = [7; 47];
        assert_eq!(refused(write_frames(&roll, &buf, &mut short)), (13, 48));
        assert_eq!(refused(write_frames(&Roll { n: 10, ..roll }, &buf, &mut short)), (7, 11));
        assert_eq!(short, [7; 47]);
        let (empty, buf) = rolled(&of_word(), b"", 0);
        let text = framed(&empty, &buf);
        assert_eq!(text, b"010203000500000000000000006162726364\n");
        assert_eq!(read_into(&text, 0), Ok((empty, buf)));
    }

    #[test]
    fn lines_of_frames() {
        let of = |text: &str, bytes| read_into(text.as_bytes(), bytes).map(|(roll, _)| (roll.n, roll.h));
        let first = "01040300030000000600000006616e62\n";
        let with = |rest: &str| of(&[first, rest].concat(), 3);
        assert_eq!(with("02201010\n"), Ok((6, 6)));
        // The first line.
        for bad in ["", "\n", "0", "0\n", "01\n", "02201010\n", &first[..32], &first.to_uppercase()] {
            assert_eq!(of(bad, 3), Err((15, 0)), "{}", bad);
        }
        for (from, to) in [("01", "02"), ("0003", "0002"), ("0003", "0103"), ("62\n", "\n"), ("62\n", "62\r\n")] {
            assert_eq!(of(&first.replacen(from, to, 1), 3), Err((15, 0)), "{}", to);
        }
        assert_eq!(of(&first.replacen("04", "03", 1), 3), Err((1, 0)));
        assert_eq!(of(&first.replacen("0104", "0004", 1), 3), Err((15, 0)));
        // The second, wrong or missing.
        for bad in ["", "02201010", "0220101\n", "0220 10\n", "022010\n", "0220101000\n", "02\n", "\n", "01201010\n"] {
            assert_eq!(with(bad), Err((15, 1)), "{}", bad);
        }
        assert_eq!(with("0220101A\n"), Err((15, 1)));
        assert_eq!(with("022010\n0210\n"), Err((15, 1)));
        // A third.
        for more in ["\n", "0", "02201010\n", "02\n"] {
            assert_eq!(with(&["02201010\n", more].concat()), Err((15, 2)), "{}", more);
        }
        // What is asked of lines comes before what is asked of the roll, and the table before h.
        assert_eq!(of(&(first.replacen("0403", "0400", 1) + "\n"), 0), Err((15, 1)));
        assert_eq!(of(&(first.replacen("0403", "0400", 1) + "02201010\n"), 0), Err((1, 0)));
        assert_eq!(of(&(first.replacen("6e62", "6e6e", 1) + "02201010\n"), 0), Err((1, 0)));
        assert_eq!(with("02201020\n"), Ok((6, 6)));
        assert_eq!(with("0220103f\n"), Err((6, 4)));
        assert_eq!(of(&(first.replacen("0000000661", "0000000561", 1) + "02201011\n"), 2), Err((5, 5)));
        assert_eq!(of(&(first.replacen("0000000661", "0000000561", 1) + "02201011\n"), 3), Err((7, 5)));
    }

    #[test]
    fn a_first_frame_of_over_256_characters() {
        let mut text = b"01020301020000000000000000".to_vec();
        text.extend(b"61".repeat(257));
        text.push(10);
        assert_eq!(refused(read_first(&text).0), (15, 0));
        text.splice(text.len() - 1.., *b"62\n");
        let (answer, roll) = read_first(&text);
        assert_eq!((answer, roll.table.sigma, roll.table.places), (Ok(()), 258, [b'a'; 256]));
        assert_eq!(read_into(&text, 9), Err((1, 0)));
        // So many that 16 bits are full.
        text.splice(6..10, *b"ffff");
        text.splice(text.len() - 1.., [&b"00".repeat(65_535 - 258)[..], b"\n"].concat());
        assert_eq!((read_first(&text).0, read_first(&text).1.table.sigma), (Ok(()), 65_535));
    }

    #[test]
    fn frames_there_and_back() {
        let mut dice = Dice(5);
        for round in 0..400 {
            let k = 2 + 2 * (round % 2) as u8;
            let alphabet = 1 + dice.below(if round % 4 < 2 { 5 } else { 200 });
            let text = dice.text(150, alphabet);
            let (roll, buf) = rolled(&chosen(k, &text).1, &text, 2_000);
            let used = bytes_for(k, roll.h as usize);
            let frames = framed(&roll, &buf);
            let in_frames = (used + FRAME - 1) / FRAME;
            assert_eq!(frames.len(), 27 + 2 * usize::from(roll.table.sigma) + 2 * used + 3 * in_frames);
            let lines = lines_of(&frames);
            assert_eq!((lines.len(), lines.concat()), (1 + in_frames, frames.clone()));
            let (read, back) = read_into(&frames, used + dice.below(3)).unwrap();
            assert_eq!((&read, &back[..used]), (&roll, &buf[..used]));
            assert!(back[used..].iter().all(|&byte| byte == 0xAA));
            assert_eq!(read_first(lines[0]), (Ok(()), roll));
            for (line, packed) in lines[1..].iter().zip(buf[..used].chunks(FRAME)) {
                let mut out = [7; 40];
                assert_eq!(read_frame(line, &mut out), Ok(packed.len() as u64));
                assert_eq!((&out[..packed.len()], &out[packed.len()..]), (packed, &[7; 40][packed.len()..]));
                assert_eq!(refused(read_frame(line, &mut out[..packed.len() - 1])), (13, packed.len() as u64));
            }
            // A line less, or twice.
            let number = dice.below(lines.len());
            let without = [&lines[..number], &lines[number + 1..]].concat().concat();
            let twice = [&lines[..=number], &lines[number..]].concat().concat();
            assert_eq!(read_into(&without, 2_000).unwrap_err().0, 15);
            assert_eq!(read_into(&twice, 2_000).unwrap_err().0, 15);
            // Whatever a byte becomes, what is read is what is written.
            for _ in 0..20 {
                let mut damaged = frames.clone();
                let place = dice.below(damaged.len());
                damaged[place] = b"0123456789abcdefA \r\n"[dice.below(20)];
                if let Ok((roll, buf)) = read_into(&damaged, 2_000) {
                    assert_eq!(framed(&roll, &buf), damaged);
                }
            }
        }
    }

    #[test]
    fn pieces_are_searched_as_the_whole() {
        let mut dice = Dice(2);
        for round in 0..400 {
            let k = 2 + 2 * (round % 2) as u8;
            let alphabet = 1 + dice.below(if round % 4 < 2 { 3 } else { 60 });
            let text = dice.text(90, alphabet);
            let (mut roll, mut buf) = rolled(&chosen(k, &text).1, &text, 700);
            buf.truncate(bytes_for(k, roll.h as usize));
            // A flipped bit, a symbol less, or a wrong n, each now and then.
            if dice.below(3) == 0 && !buf.is_empty() {
                let byte = dice.below(buf.len());
                buf[byte] ^= 1 << dice.below(8);
            }
            if dice.below(4) == 0 && roll.h > 0 {
                roll.h -= 1;
                buf.truncate(bytes_for(k, roll.h as usize));
            }
            roll.n += (dice.below(6) == 0) as u32;
            let pattern = dice.pattern(alphabet);
            let mut ends: Option<Both> = None;
            for cutting in 0..4 {
                let mut both = Both::start(&roll, &pattern);
                let mut met = None;
                let mut rest = &buf[..];
                while !rest.is_empty() {
                    let most = [rest.len(), 1, 5, 40][cutting].min(rest.len());
                    let (piece, behind) = rest.split_at(dice.below(most + 1).max(usize::from(cutting < 2) * most));
                    rest = behind;
                    let (number, value) = both.feed(piece);
                    assert!(number == 0 && met.is_none() || number == 6 && met.unwrap_or(value) == value);
                    met = met.or(if number == 6 { Some(value) } else { None });
                }
                let checked = check(&roll, &buf);
                assert_eq!(both.finish(), checked);
                assert_eq!(met.is_some(), checked.map_or_else(|refused| refused.number == 6, |()| false));
                if checked.is_ok() {
                    assert_eq!(both.hits, found(&roll, &buf, &pattern));
                }
                if let Some(first) = &ends {
                    assert_eq!((&first.hits, &first.searcher), (&both.hits, &both.searcher));
                }
                ends = Some(both);
            }
        }
    }
}
