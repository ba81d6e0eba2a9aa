//! Times the archive's operations against plain Rust, in turn and on the same buffers: on full rolls, and on short ones,
//! which were full when a roll had 65,536 symbols.
//!
//! `bench [SVG]` prints tables in Markdown and, with a file name, draws the ratios of the full rolls into it. `bench
//! sizes` times the archive alone on rolls of five sizes. `bench tool COMMAND FOLDER` times the clerk's command beside grep
//! (`tool`), with files that it writes there. `bench texts FOLDER` writes the texts of the short rolls with k = 2 there, and
//! measures nothing.

#![forbid(unsafe_code)]

mod tool;

use std::fmt::Write;
use std::fs;
use std::path::Path;
use std::process::exit;
use std::time::Instant;

use monterculo::sys;
use monterculo_reference::library::roll_of;
use monterculo_reference::memory;
use monterculo_reference::plain;
use monterculo_reference::reference::{self, Roll, Table, FRAME, LIMIT, STRIDE};

/// The most symbols of a roll, and how often each call is measured on it.
struct Size {
    symbols: usize,
    /// Measured calls of each operation, on either side.
    repetitions: usize,
    /// Rounds of a search that jumps: more of them, as it takes little beside its check.
    rounds: usize,
}

static FULL: Size = Size { symbols: LIMIT, repetitions: 101, rounds: 201 };
/// What a full roll was before LIMIT was raised.
static SHORT: Size = Size { symbols: 65_536, repetitions: 201, rounds: 401 };
/// Rolls of these sizes show what a symbol costs as they grow; no search is measured in rounds of its own there.
static GROWING: [Size; 5] = [growing(65_536), growing(131_072), growing(262_144), growing(524_288), growing(LIMIT)];

const fn growing(symbols: usize) -> Size {
    Size { symbols, repetitions: 201, rounds: 0 }
}

const WIDTHS: [u8; 2] = [2, 4];
/// Calls before the measured ones.
const WARM_UP: usize = 5;
/// Places read for one figure of reading one character.
const PLACES: usize = 2_000;
/// What lies in a lent buffer before a call that writes it.
const FILL: u8 = 0xAA;
const MARK: f64 = 1.5;
/// Characters of the patterns searched for.
const PATTERNS: [usize; 4] = [4, 8, 16, 32];
/// Bytes of the pieces that a roll comes in.
const PIECES: [usize; 2] = [64, 1_024];
/// A roll searched as it comes in, beside the whole search of the archive.
const MARK_IN_PIECES: f64 = 1.0;
/// Patterns of each length that are sought by jumping: so many stand in the text, and so many do not.
const STANDING: usize = 6;
const ABSENT: usize = 2;
/// The search that jumps, beside the plain one of the archive and beside plain Rust.
const MARK_JUMPING: f64 = 0.5;
const MARK_JUMPING_RUST: f64 = 1.5;

/// The search that jumps for a pattern of so many characters, beside the C library's memmem in the unpacked text.
fn mark_memmem(length: usize) -> Option<f64> {
    match length {
        0..=7 => None,
        8..=15 => Some(1.35),
        _ => Some(1.0),
    }
}

// The texts.

/// splitmix64.
struct Rng(u64);

impl Rng {
    fn next(&mut self) -> u64 {
        self.0 = self.0.wrapping_add(0x9e37_79b9_7f4a_7c15);
        let mut z = self.0;
        z = (z ^ (z >> 30)).wrapping_mul(0xbf58_476d_1ce4_e5b9);
        z = (z ^ (z >> 27)).wrapping_mul(0x94d0_49bb_1331_11eb);
        z ^ (z >> 31)
    }

    fn below(&mut self, bound: usize) -> usize {
        (self.next() % bound as u64) as usize
    }

    fn pick<'a>(&mut self, from: &[&'a str]) -> &'a str {
        from[self.below(from.len())]
    }
}

const FIRST: [&str; 24] = [
    "Anna", "Bruno", "Carla", "Dario", "Elena", "Franc", "Gina", "Hana", "Ivan", "Jana", "Klara", "Luka", "Marija",
    "Nino", "Olga", "Pavel", "Rosa", "Stefan", "Tina", "Urban", "Vida", "Zoran", "Alojz", "Breda",
];

const LAST: [&str; 24] = [
    "Novak", "Horvat", "Kranjc", "Zupan", "Potok", "Kovac", "Mlakar", "Vidmar", "Golob", "Turk", "Bozic", "Kralj",
    "Korosec", "Bizjak", "Hribar", "Kotnik", "Rozman", "Kavcic", "Petek", "Kastelic", "Oblak", "Zagar", "Hocevar",
    "Fonda",
];

/// Lines of pan number, name and telephone number. Behind some 150,000 characters a pan has five digits.
fn member_roll() -> Vec<u8> {
    let mut rng = Rng(1);
    let mut text = String::new();
    let mut pan = 100;
    while text.len() < LIMIT {
        pan += 1 + rng.below(3);
        let (first, last) = (rng.pick(&FIRST), rng.pick(&LAST));
        let (block, number) = (30 + rng.below(40), rng.below(1_000_000));
        let _ = writeln!(text, "{:04} {} {} 0{} {:03} {:03}", pan, first, last, block, number / 1000, number % 1000);
    }
    text.into_bytes()
}

/// The commonest first.
const WORDS: [&str; 96] = [
    "the",
    "of",
    "and",
    "to",
    "a",
    "in",
    "is",
    "that",
    "it",
    "was",
    "for",
    "on",
    "with",
    "as",
    "by",
    "at",
    "from",
    "be",
    "this",
    "which",
    "or",
    "not",
    "are",
    "salt",
    "water",
    "pan",
    "sea",
    "wind",
    "they",
    "were",
    "had",
    "but",
    "all",
    "one",
    "when",
    "there",
    "their",
    "brine",
    "crystal",
    "summer",
    "master",
    "channel",
    "before",
    "after",
    "through",
    "between",
    "every",
    "morning",
    "evening",
    "rake",
    "wooden",
    "gather",
    "white",
    "heap",
    "house",
    "keeper",
    "notice",
    "board",
    "number",
    "written",
    "member",
    "without",
    "against",
    "because",
    "during",
    "weather",
    "shallow",
    "warm",
    "stone",
    "bottom",
    "clean",
    "carry",
    "boat",
    "harbour",
    "village",
    "winter",
    "repair",
    "dike",
    "gate",
    "measure",
    "thick",
    "quiet",
    "bright",
    "evaporate",
    "question",
    "journey",
    "exactly",
    "thousand",
    "year",
    "people",
    "work",
    "until",
    "again",
    "never",
    "young",
    "old",
];

/// Sentences in lines of about seventy characters; the word of number i comes about as often as 1/(i + 1).
fn english_like() -> Vec<u8> {
    let mut rng = Rng(2);
    let mut text = String::new();
    let (mut line, mut in_sentence, mut sentence) = (0, 0, 9);
    while text.len() < LIMIT {
        let word = loop {
            let number = rng.below(WORDS.len());
            if rng.below(number + 1) < 1 + number / 12 {
                break WORDS[number];
            }
        };
        let mut word = word.to_string();
        if in_sentence == 0 {
            word[..1].make_ascii_uppercase();
        }
        in_sentence += 1;
        if in_sentence == sentence {
            word.push('.');
            in_sentence = 0;
            sentence = 5 + rng.below(14);
        } else if rng.below(11) == 0 {
            word.push(',');
        }
        line += word.len() + 1;
        word.push(if line >= 66 { '\n' } else { ' ' });
        if line >= 66 {
            line = 0;
        }
        text.push_str(&word);
    }
    text.into_bytes()
}

/// The table chosen for a text, and the symbols that the text takes under it; the total may be more than these.
fn chosen(k: u8, text: &[u8]) -> (usize, Table) {
    let mut counts = [0; 256];
    reference::count(text, &mut counts).expect("a text within the limit");
    let (answer, table) = reference::choose(k, &counts);
    answer.expect("a good width");
    let list = reference::listing(k, table.s);
    let ranked = table.places.iter().zip(&list.codewords).take(usize::from(table.sigma));
    let symbols = ranked.map(|(&byte, codeword)| counts[usize::from(byte)] as usize * codeword.len()).sum();
    (symbols, table)
}

/// A roll with all that is measured on it.
struct Case {
    name: String,
    size: &'static Size,
    text: Vec<u8>,
    roll: Roll,
    buf: Vec<u8>,
    directory: Vec<u32>,
}

impl Case {
    /// The longest beginning of the text that leaves one symbol of the size free.
    fn new(name: &str, k: u8, long: &[u8], size: &'static Size) -> Case {
        let (mut fits, mut over) = (0, long.len().min(size.symbols) + 1);
        while over - fits > 1 {
            let middle = (fits + over) / 2;
            if chosen(k, &long[..middle]).0 < size.symbols {
                fits = middle;
            } else {
                over = middle;
            }
        }
        let text = long[..fits].to_vec();
        let table = chosen(k, &text).1;
        let mut buf = vec![FILL; size.symbols * usize::from(k) / 8];
        let (answer, roll) = reference::pack(&table, &text, &mut buf);
        answer.expect("it was seen to fit");
        let mut directory = vec![0; (text.len() + STRIDE - 1) / STRIDE + 1];
        reference::make_directory(&roll, &buf, &mut directory).expect("a sound roll");
        Case { name: format!("{}, k {}", name, k), size, text, roll, buf, directory }
    }

    /// The run of so many characters of one line that is nearest to a place, as no pattern has byte 10.
    fn run(&self, place: usize, length: usize) -> &[u8] {
        let starts = (0..self.text.len()).flat_map(|away| [place.checked_sub(away), place.checked_add(away)]).flatten();
        let mut runs = starts.filter_map(|start| self.text.get(start..start + length));
        runs.find(|run| !run.contains(&b'\n')).expect("some line is long enough")
    }

    /// A run of its text, at two thirds of it.
    fn pattern(&self, length: usize) -> &[u8] {
        self.run(self.text.len() * 2 / 3, length)
    }

    /// The runs of its text nearest to places spread over it; and some that stand nowhere: two runs of half the length,
    /// the later first. Few lines of the short member rolls have 32 characters, so runs of 32 come again there, and not
    /// near their places; in the full ones all differ, and none is more than 12,000 characters away.
    fn patterns(&self, length: usize) -> Vec<Vec<u8>> {
        let last = self.text.len() - length;
        let run = |place: usize| self.run(place, length).to_vec();
        let mut patterns: Vec<Vec<u8>> = (1..=STANDING).map(|number| run(last * number / STANDING - 9)).collect();
        let half = length / 2;
        let turned = |place: usize| [self.run(place + half, half), self.run(place, half)].concat();
        let stands = |pattern: &Vec<u8>| self.text.windows(length).any(|at| at == pattern);
        for number in 1..=ABSENT {
            let absent = (last * number / (ABSENT + 1)..last).map(turned).find(|pattern| !stands(pattern));
            patterns.push(absent.expect("some order of characters stands nowhere"));
        }
        patterns
    }

    fn symbols(&self, text: &[u8]) -> usize {
        let list = reference::listing(self.roll.table.k, self.roll.table.s);
        let rank = |&byte: &u8| self.roll.table.places.iter().position(|&place| place == byte);
        text.iter().map(|byte| list.codewords[rank(byte).expect("a character of the table")].len()).sum()
    }
}

// Measuring.

/// Microseconds of a call.
fn timed<T>(call: impl FnOnce() -> T) -> (f64, T) {
    let start = Instant::now();
    let answer = call();
    (start.elapsed().as_nanos() as f64 / 1_000.0, answer)
}

fn mean(times: impl ExactSizeIterator<Item = f64>) -> f64 {
    let count = times.len() as f64;
    times.sum::<f64>() / count
}

fn median(mut times: Vec<f64>) -> f64 {
    times.sort_by(|a, b| a.partial_cmp(b).expect("times are numbers"));
    times[times.len() / 2]
}

/// A measured call answers its time and what it found.
type Call<'a, T> = &'a mut dyn FnMut() -> (f64, T);

impl Case {
    /// The medians of calls made in turn, each time another one first. What they find must be the same of all
    /// and always.
    fn medians<const N: usize, T: PartialEq + std::fmt::Debug>(&self, calls: [Call<T>; N]) -> [f64; N] {
        let mut times = vec![Vec::new(); N];
        let expected = calls[0]().1;
        for round in 0..WARM_UP + self.size.repetitions {
            for turn in 0..N {
                let which = (round + turn) % N;
                let (time, answer) = calls[which]();
                assert_eq!(answer, expected, "answers differ");
                if round >= WARM_UP {
                    times[which].push(time);
                }
            }
        }
        let mut medians = [0.0; N];
        for (median_of, times) in medians.iter_mut().zip(times) {
            *median_of = median(times);
        }
        medians
    }
}

struct Row {
    name: String,
    archive: f64,
    plain: f64,
    /// Plain Rust tuned further.
    tuned: Option<f64>,
    /// The plain search of the unpacked text.
    unpacked: Option<f64>,
}

impl Row {
    fn new(name: &str, [archive, plain]: [f64; 2]) -> Row {
        Row { name: name.to_string(), archive, plain, tuned: None, unpacked: None }
    }

    fn ratio(&self) -> f64 {
        self.archive / self.plain
    }
}

fn number_of<T>(answer: &reference::Answer<T>) -> u32 {
    answer.as_ref().err().map_or(0, |refused| refused.number)
}

/// A sum of bytes, to hold what was written on either side to the other without keeping it.
fn sum(bytes: impl Iterator<Item = u64>) -> u64 {
    bytes.fold(0, |sum, byte| sum.wrapping_mul(31).wrapping_add(byte))
}

fn sum_bytes(bytes: &[u8]) -> u64 {
    sum(bytes.iter().map(|&byte| u64::from(byte)))
}

fn sum_entries(entries: &[u32]) -> u64 {
    sum(entries.iter().map(|&entry| u64::from(entry)))
}

fn measure(case: &Case) -> Vec<Row> {
    let (roll, text, buf, directory) = (&case.roll, &case.text, &case.buf, &case.directory);
    let (record, n) = (roll_of(roll), roll.n);
    let mut rows = Vec::new();

    let (mut ours, mut theirs) = (vec![FILL; buf.len()], vec![FILL; buf.len()]);
    let times = case.medians([
        &mut || {
            ours.fill(FILL);
            let (time, packed) = timed(|| sys::pack(record.table, text, &mut ours));
            (time, (packed.answer.number, packed.roll.n, packed.roll.h, sum_bytes(&ours)))
        },
        &mut || {
            theirs.fill(FILL);
            let (time, answer) = timed(|| plain::pack(&roll.table, text, &mut theirs));
            let answer = answer.expect("it was seen to fit");
            (time, (0, answer.n, answer.h, sum_bytes(&theirs)))
        },
    ]);
    assert_eq!(&ours, buf);
    rows.push(Row::new("pack", times));

    let [ours, theirs, tuned] = case.medians([
        &mut || timed(|| sys::check(record, buf).number),
        &mut || timed(|| number_of(&plain::check(roll, buf))),
        &mut || timed(|| number_of(&plain::check_straight(roll, buf))),
    ]);
    rows.push(Row { tuned: Some(tuned), ..Row::new("check", [ours, theirs]) });

    let (mut ours, mut theirs, mut tuned) = (vec![FILL; text.len()], vec![FILL; text.len()], vec![FILL; text.len()]);
    let times = case.medians([
        &mut || {
            ours.fill(FILL);
            let (time, number) = timed(|| sys::unpack(record, buf, 0, n as usize, &mut ours).number);
            (time, (number, sum_bytes(&ours)))
        },
        &mut || {
            theirs.fill(FILL);
            let (time, answer) = timed(|| plain::unpack(roll, buf, 0, n as usize, &mut theirs));
            (time, (number_of(&answer), sum_bytes(&theirs)))
        },
        &mut || {
            tuned.fill(FILL);
            let (time, answer) = timed(|| plain::unpack_straight(roll, buf, 0, n as usize, &mut tuned));
            (time, (number_of(&answer), sum_bytes(&tuned)))
        },
    ]);
    assert_eq!(&ours, text);
    let [ours, theirs, tuned] = times;
    rows.push(Row { tuned: Some(tuned), ..Row::new("unpack, whole", [ours, theirs]) });

    let (mut ours, mut theirs) = (vec![9; directory.len()], vec![9; directory.len()]);
    let times = case.medians([
        &mut || {
            ours.fill(9);
            let (time, number) = timed(|| sys::make_directory(record, buf, &mut ours).number);
            (time, (number, sum_entries(&ours)))
        },
        &mut || {
            theirs.fill(9);
            let (time, answer) = timed(|| plain::make_directory(roll, buf, &mut theirs));
            (time, (number_of(&answer), sum_entries(&theirs)))
        },
    ]);
    rows.push(Row::new("make a directory", times));

    let mut rng = Rng(3);
    let to_read: Vec<usize> = (0..PLACES).map(|_| rng.below(text.len())).collect();
    let times = case.medians([
        &mut || timed(|| sum(to_read.iter().map(|&place| sys::read_one(record, buf, directory, place).value))),
        &mut || {
            timed(|| {
                sum(to_read
                    .iter()
                    .map(|&place| plain::read_one(roll, buf, directory, place).map_or(u64::MAX, u64::from)))
            })
        },
    ]);
    rows.push(Row::new("read one", times.map(|time| time / PLACES as f64)));

    let mut after = Vec::new();
    for length in PATTERNS {
        let pattern = case.pattern(length);
        let mut ours = vec![9; text.len()];
        let (mut theirs, mut tuned, mut unpacked) = (ours.clone(), ours.clone(), ours.clone());
        // The checks are measured once more among the searches they are taken from.
        let hits = reference::search(roll, buf, pattern, &mut ours).expect("a sound roll");
        let found = (0, u64::from(hits), sum_entries(&ours[..hits as usize]));
        let seen = |hits: u32, list: &[u32]| (0, u64::from(hits), sum_entries(&list[..hits as usize]));
        let checked = |(time, number): (f64, u32)| (time, (number, found.1, found.2));
        let [ours, theirs, tuned, unpacked, our_check, their_check, tuned_check] = case.medians([
            &mut || {
                let (time, answer) = timed(|| sys::search(record, buf, pattern, &mut ours));
                (time, (answer.number, answer.value, sum_entries(&ours[..answer.value as usize])))
            },
            &mut || {
                let (time, hits) = timed(|| plain::search(roll, buf, pattern, &mut theirs));
                (time, seen(hits.expect("a sound roll"), &theirs))
            },
            &mut || {
                let (time, hits) = timed(|| plain::search_straight(roll, buf, pattern, &mut tuned));
                (time, seen(hits.expect("a sound roll"), &tuned))
            },
            &mut || {
                let (time, hits) = timed(|| plain::search_text(text, pattern, &mut unpacked));
                (time, seen(hits.expect("a good pattern"), &unpacked))
            },
            &mut || checked(timed(|| sys::check(record, buf).number)),
            &mut || checked(timed(|| number_of(&plain::check(roll, buf)))),
            &mut || checked(timed(|| number_of(&plain::check_straight(roll, buf)))),
        ]);
        rows.push(Row {
            name: format!("search for {} characters ({} {})", length, hits, if hits == 1 { "hit" } else { "hits" }),
            archive: ours,
            plain: theirs,
            tuned: Some(tuned),
            unpacked: Some(unpacked),
        });
        after.push(Row {
            name: format!("search for {} characters, less the check", length),
            archive: ours - our_check,
            plain: theirs - their_check,
            tuned: Some(tuned - tuned_check),
            unpacked: Some(unpacked),
        });
    }
    rows.append(&mut after);

    for (name, start, end, new) in edits(case) {
        // The copies that are edited; making them is not timed.
        let (mut ours, mut our_entries) = (buf.clone(), directory.clone());
        let (mut theirs, mut their_entries) = (buf.clone(), directory.clone());
        let times = case.medians([
            &mut || {
                ours.copy_from_slice(buf);
                our_entries.copy_from_slice(directory);
                let (time, edited) = timed(|| sys::edit(record, &mut ours, &mut our_entries, start, end, &new));
                let (number, after) = (edited.answer.number, edited.roll);
                (time, (number, after.n, after.h, sum_bytes(&ours), sum_entries(&our_entries)))
            },
            &mut || {
                theirs.copy_from_slice(buf);
                their_entries.copy_from_slice(directory);
                let (time, answer) = timed(|| plain::edit(roll, &mut theirs, &mut their_entries, start, end, &new));
                let after = answer.expect("an edit that fits");
                (time, (0, after.n, after.h, sum_bytes(&theirs), sum_entries(&their_entries)))
            },
        ]);
        rows.push(Row::new(name, times));
    }
    rows
}

/// Starts a search, feeds it the roll's bytes in pieces of this size, and finishes: the finishing's number and how many
/// hits there are, one behind the other.
fn fed(record: sys::Roll, bytes: &[u8], pattern: &[u8], size: usize, hits: &mut [u32]) -> (u32, usize) {
    let mut searcher = sys::start(record, pattern).searcher;
    let mut total = 0;
    for piece in bytes.chunks(size) {
        let fed = sys::feed(searcher, piece, &mut hits[total..]);
        total += fed.hits;
        searcher = fed.searcher;
    }
    (sys::finish(searcher).number, total)
}

/// A pattern's whole search by the archive, and the same in pieces of each size.
struct InPieces {
    length: usize,
    whole: f64,
    fed: [f64; PIECES.len()],
}

fn measure_in_pieces(case: &Case) -> Vec<InPieces> {
    let (record, k) = (roll_of(&case.roll), usize::from(case.roll.table.k));
    let bytes = &case.buf[..bytes_of(&case.roll)];
    let mut rows = Vec::new();
    for length in PATTERNS {
        let pattern = case.pattern(length);
        // No piece has more hits than symbols.
        let mut whole = vec![9; case.text.len() + PIECES[1] * 8 / k];
        let (mut small, mut great) = (whole.clone(), whole.clone());
        let feed = |size: usize, hits: &mut [u32]| {
            let (time, (number, total)) = timed(|| fed(record, bytes, pattern, size, hits));
            (time, (number, total, sum_entries(&hits[..total])))
        };
        let [whole, small, great] = case.medians([
            &mut || {
                let (time, answer) = timed(|| sys::search(record, bytes, pattern, &mut whole));
                let total = answer.value as usize;
                (time, (answer.number, total, sum_entries(&whole[..total])))
            },
            &mut || feed(PIECES[0], &mut small),
            &mut || feed(PIECES[1], &mut great),
        ]);
        rows.push(InPieces { length, whole, fed: [small, great] });
    }
    rows
}

/// A search for a pattern by all that are compared: microseconds after the check, where there is one.
#[derive(Clone, Copy)]
struct Jumping {
    jumping: f64,
    plain: f64,
    /// Plain Rust over the packed symbols.
    rust: f64,
    /// The plain search of the unpacked text, and memmem.
    unpacked: f64,
    memmem: f64,
}

impl Jumping {
    fn means(patterns: &[Jumping]) -> Jumping {
        let mean = |time: fn(&Jumping) -> f64| mean(patterns.iter().map(time));
        Jumping {
            jumping: mean(|one| one.jumping),
            plain: mean(|one| one.plain),
            rust: mean(|one| one.rust),
            unpacked: mean(|one| one.unpacked),
            memmem: mean(|one| one.memmem),
        }
    }

    /// Beside the plain search, plain Rust, and memmem.
    fn ratios(&self) -> [f64; 3] {
        [self.plain, self.rust, self.memmem].map(|other| self.jumping / other)
    }
}

type Search = fn(sys::Roll, &[u8], &[u8], &mut [u32]) -> sys::Answer;

/// What a search of the archive takes after its check, and how many hits it has: the difference of the search and of a
/// check that comes right behind it, of which the median is taken. The search that jumps takes little beside its check,
/// and a difference of two medians would have too much of the check's own wavering in it.
fn after_check(case: &Case, search: Search, pattern: &[u8], list: &mut [u32]) -> (f64, usize) {
    let record = roll_of(&case.roll);
    let (whole, answer) = timed(|| search(record, &case.buf, pattern, list));
    let (check, checked) = timed(|| sys::check(record, &case.buf));
    assert_eq!((answer.number, checked.number), (0, 0), "a sound roll");
    (whole - check, answer.value as usize)
}

/// One pattern, by all in turn.
fn measure_jump(case: &Case, pattern: &[u8]) -> Jumping {
    let (roll, text, buf) = (&case.roll, &case.text, &case.buf);
    let mut lists = vec![vec![9; text.len()]; 5];
    let total = reference::search(roll, buf, pattern, &mut lists[0]).expect("a sound roll") as usize;
    let expected = (total, sum_entries(&lists[0][..total]));
    let mut times = vec![Vec::new(); lists.len()];
    for round in 0..WARM_UP + case.size.rounds {
        for turn in 0..lists.len() {
            let which = (round + turn) % lists.len();
            let list = &mut lists[which];
            let (time, found) = match which {
                0 => after_check(case, sys::search_jumping, pattern, list),
                1 => after_check(case, sys::search, pattern, list),
                2 => timed(|| plain::search_sound(roll, buf, pattern, list) as usize),
                3 => timed(|| plain::search_text(text, pattern, list).expect("a good pattern") as usize),
                _ => timed(|| memory::search_text(text, pattern, list) as usize),
            };
            assert_eq!((found, sum_entries(&list[..found])), expected, "answers differ");
            if round >= WARM_UP {
                times[which].push(time);
            }
        }
    }
    let medians: Vec<f64> = times.into_iter().map(median).collect();
    Jumping { jumping: medians[0], plain: medians[1], rust: medians[2], unpacked: medians[3], memmem: medians[4] }
}

/// The patterns of each length, one by one.
fn measure_jumping(case: &Case) -> Vec<(usize, Vec<Jumping>)> {
    let of_length = |length| case.patterns(length).iter().map(|pattern| measure_jump(case, pattern)).collect();
    PATTERNS.iter().map(|&length| (length, of_length(length))).collect()
}

/// The packed bytes of a roll.
fn bytes_of(roll: &Roll) -> usize {
    (roll.h as usize * usize::from(roll.table.k) + 7) / 8
}

/// The bytes of its frame text.
fn frame_text(roll: &Roll) -> usize {
    let bytes = bytes_of(roll);
    27 + 2 * usize::from(roll.table.sigma) + 2 * bytes + 3 * ((bytes + FRAME - 1) / FRAME)
}

/// A roll written as a frame text, or read from one, and what of it is the check.
struct Framed {
    name: &'static str,
    archive: f64,
    plain: f64,
    /// What of it is the archive's check of the same roll, or in reading its judging; and plain Rust's check.
    our_check: f64,
    their_check: f64,
}

/// Both, in turn with the checks. What judging takes is what is left of a reading without its passes over the lines: their shape alone
/// is read where the last line is wrong, and their bytes once more, unjudged, where the first codeword is bad. A reading that is
/// accepted reads them once more to store them.
fn measure_frames(case: &Case) -> Vec<Framed> {
    let (roll, buf) = (&case.roll, &case.buf);
    let record = roll_of(roll);
    let bytes = &buf[..bytes_of(roll)];
    let mut text = vec![FILL; frame_text(roll)];
    let length = reference::write_frames(roll, buf, &mut text).expect("a sound roll");
    assert_eq!(length as usize, text.len());
    let our_check = || timed(|| sys::check(record, buf).number);
    let their_check = || timed(|| number_of(&plain::check(roll, buf)));

    let (mut ours, mut theirs) = (vec![FILL; text.len()], vec![FILL; text.len()]);
    let found = (0, length, sum_bytes(&text));
    let checked = |(time, number): (f64, u32)| (time, (number, found.1, found.2));
    let [archive, plain, our_time, their_time] = case.medians([
        &mut || {
            ours.fill(FILL);
            let (time, answer) = timed(|| sys::write_frames(record, buf, &mut ours));
            (time, (answer.number, answer.value, sum_bytes(&ours)))
        },
        &mut || {
            theirs.fill(FILL);
            let (time, answer) = timed(|| plain::write_frames(roll, buf, &mut theirs));
            (time, (number_of(&answer), answer.unwrap_or(0), sum_bytes(&theirs)))
        },
        &mut || checked(our_check()),
        &mut || checked(their_check()),
    ]);
    assert_eq!(ours, text);
    let name = "write as frames";
    let written = Framed { name, archive, plain, our_check: our_time, their_check: their_time };

    let first = text.iter().position(|&byte| byte == 10).expect("a first line") + 1;
    let (mut shapeless, mut bad) = (text.clone(), text.clone());
    shapeless[text.len() - 2] = b'x';
    let line = first + 2..first + 2 + 2 * FRAME;
    bad[line].fill(b'f');
    let (mut ours, mut theirs) = (vec![FILL; buf.len()], vec![FILL; buf.len()]);
    let after = [bytes, &vec![FILL; buf.len() - bytes.len()]].concat();
    let found = (0, roll.n, roll.h, sum_bytes(&after));
    let checked = |(time, number): (f64, u32)| (time, (number, found.1, found.2, found.3));
    let refused = |text: &[u8], number: u32| {
        let mut lent = vec![FILL; buf.len()];
        let (time, read) = timed(|| sys::read_frames(text, &mut lent));
        checked((time, read.answer.number - number))
    };
    let [archive, plain, their_time, shape, unjudged] = case.medians([
        &mut || {
            ours.fill(FILL);
            let (time, read) = timed(|| sys::read_frames(&text, &mut ours));
            (time, (read.answer.number, read.roll.n, read.roll.h, sum_bytes(&ours)))
        },
        &mut || {
            theirs.fill(FILL);
            let (time, read) = timed(|| plain::read_frames(&text, &mut theirs));
            let read = read.expect("a sound roll");
            (time, (0, read.n, read.h, sum_bytes(&theirs)))
        },
        &mut || checked(their_check()),
        &mut || refused(&shapeless, 15),
        &mut || refused(&bad, 6),
    ]);
    let name = "read from frames";
    let judging = archive - (2.0 * unjudged - shape);
    vec![written, Framed { name, archive, plain, our_check: judging, their_check: their_time }]
}

/// Name, range and run of each edit measured.
fn edits(case: &Case) -> Vec<(&'static str, usize, usize, Vec<u8>)> {
    let (text, table) = (&case.text, &case.roll.table);
    let middle = text.len() / 2;
    let turned: Vec<u8> = text[middle..middle + 16].iter().rev().copied().collect();
    assert_ne!(turned, &text[middle..middle + 16]);
    let longer = table.places.iter().copied().take(usize::from(table.sigma));
    let longer = longer.into_iter().find(|&byte| case.symbols(&[byte]) == case.symbols(&text[..1]) + 1);
    let line = text.iter().position(|&byte| byte == b'\n').expect("there are lines") + 1;
    vec![
        ("edit: 16 characters in the middle, same length", middle, middle + 16, turned),
        (
            "edit: first character to one of one symbol more",
            0,
            1,
            vec![longer.expect("no character is one symbol longer than the first")],
        ),
        ("edit: a character of one symbol put in front", 0, 0, vec![table.places[0]]),
        ("edit: first line removed", 0, line, Vec::new()),
    ]
}

/// All that is measured of a roll by default.
struct Measured {
    rows: Vec<Row>,
    framed: Vec<Framed>,
    in_pieces: Vec<InPieces>,
    jumping: Vec<(usize, Vec<Jumping>)>,
}

impl Measured {
    fn new(case: &Case) -> Measured {
        Measured {
            rows: measure(case),
            framed: measure_frames(case),
            in_pieces: measure_in_pieces(case),
            jumping: measure_jumping(case),
        }
    }
}

/// An operation of the archive and the same of plain Rust, where there is one: picoseconds for each symbol of the roll,
/// or nanoseconds for a call where it does not go through the roll.
struct Cost {
    name: String,
    archive: f64,
    plain: Option<f64>,
}

fn costs(case: &Case, measured: &Measured) -> Vec<Cost> {
    let each = |micros: f64| micros * 1e6 / f64::from(case.roll.h);
    let cost = |name: &str, archive, plain: Option<f64>| Cost {
        name: name.to_string(),
        archive: each(archive),
        plain: plain.map(each),
    };
    let mut costs = Vec::new();
    for row in &measured.rows {
        match &row.name[..] {
            "read one" => costs.push(Cost {
                name: "read one, ns a call".to_string(),
                archive: row.archive * 1e3,
                plain: Some(row.plain * 1e3),
            }),
            // Its searching is shown without the check, which has a row of its own.
            name if name.starts_with("search") && !name.ends_with("less the check") => (),
            name => costs.push(cost(name, row.archive, Some(row.plain))),
        }
    }
    for (length, patterns) in &measured.jumping {
        let Jumping { jumping, rust, .. } = Jumping::means(patterns);
        costs.push(cost(&format!("search by jumps for {} characters, less the check", length), jumping, Some(rust)));
    }
    for (number, &size) in PIECES.iter().enumerate() {
        let fed = mean(measured.in_pieces.iter().map(|pattern| pattern.fed[number]));
        costs.push(cost(&format!("fed in pieces of {} bytes", grouped(size)), fed, None));
    }
    costs.extend(measured.framed.iter().map(|row| cost(row.name, row.archive, Some(row.plain))));
    costs
}

const GROWING_CALLS: [&str; 8] = [
    "check",
    "unpack, whole",
    "make a directory",
    "plain search",
    "search by jumps",
    "the same, less the check",
    "read from frames",
    "edit: a character of one symbol put in front",
];

/// The archive's calls of these names.
fn measure_growing(case: &Case, pattern: &[u8]) -> [f64; GROWING_CALLS.len()] {
    let (roll, buf, directory) = (&case.roll, &case.buf, &case.directory);
    let record = roll_of(roll);
    let (mut text, mut entries) = (vec![FILL; case.text.len()], vec![9; directory.len()]);
    let mut lists = [vec![9; text.len()], vec![9; text.len()], vec![9; text.len()]];
    let [plain, jumping, difference] = &mut lists;
    let mut frames = vec![FILL; frame_text(roll)];
    reference::write_frames(roll, buf, &mut frames).expect("a sound roll");
    let (mut read, mut edited, mut edited_entries) = (buf.clone(), buf.clone(), directory.clone());
    let first = &roll.table.places[..1];
    case.medians([
        &mut || timed(|| sys::check(record, buf).number),
        &mut || timed(|| sys::unpack(record, buf, 0, roll.n as usize, &mut text).number),
        &mut || timed(|| sys::make_directory(record, buf, &mut entries).number),
        &mut || timed(|| sys::search(record, buf, pattern, plain).number),
        &mut || timed(|| sys::search_jumping(record, buf, pattern, jumping).number),
        &mut || (after_check(case, sys::search_jumping, pattern, difference).0, 0),
        &mut || timed(|| sys::read_frames(&frames, &mut read).answer.number),
        &mut || {
            edited.copy_from_slice(buf);
            edited_entries.copy_from_slice(directory);
            timed(|| sys::edit(record, &mut edited, &mut edited_entries, 0, 0, first).answer.number)
        },
    ])
}

// What is shown.

/// A number with a comma before each three digits.
fn grouped(number: usize) -> String {
    match number {
        0..=999 => number.to_string(),
        _ => format!("{},{:03}", grouped(number / 1_000), number % 1_000),
    }
}

fn table_of(case: &Case, rows: &[Row]) -> String {
    let table = &case.roll.table;
    let mut lines = format!(
        "{}, up to {} symbols: {} characters, {} in the table, s {}, {} symbols\n\n",
        case.name,
        grouped(case.size.symbols),
        case.roll.n,
        table.sigma,
        table.s,
        case.roll.h
    );
    lines.push_str("| operation | archive µs | plain Rust µs | ratio | tuned Rust µs | ratio | unpacked text µs |\n");
    lines.push_str("|---|--:|--:|--:|--:|--:|--:|\n");
    for row in rows {
        let digits = if row.archive < 10.0 { 3 } else { 1 };
        let shown = |ratio: f64| if ratio > MARK { format!("**{:.2}**", ratio) } else { format!("{:.2}", ratio) };
        let time = |time: Option<f64>| time.map_or(String::new(), |time| format!("{:.*}", digits, time));
        let _ = writeln!(
            lines,
            "| {} | {} | {} | {} | {} | {} | {} |",
            row.name,
            time(Some(row.archive)),
            time(Some(row.plain)),
            shown(row.ratio()),
            time(row.tuned),
            row.tuned.map_or(String::new(), |tuned| shown(row.archive / tuned)),
            time(row.unpacked)
        );
    }
    lines
}

fn table_in_pieces(rows: &[InPieces]) -> String {
    let mut lines = String::from("| as it comes in | archive µs | whole search µs | ratio |\n|---|--:|--:|--:|\n");
    for (number, &size) in PIECES.iter().enumerate() {
        for InPieces { length, whole, fed } in rows {
            let ratio = fed[number] / whole;
            let bold = if ratio > MARK_IN_PIECES { "**" } else { "" };
            let _ = writeln!(
                lines,
                "| search for {} characters, fed in pieces of {} bytes, finishing included | {:.1} | {:.1} | {}{:.2}{} |",
                length,
                grouped(size),
                fed[number],
                whole,
                bold,
                ratio,
                bold
            );
        }
    }
    lines
}

fn table_of_frames(rows: &[Framed]) -> String {
    let mut lines = String::from(
        "| frames | archive µs | plain Rust µs | ratio | its check µs | plain check µs | less the checks µs | plain Rust µs | ratio |\n\
         |---|--:|--:|--:|--:|--:|--:|--:|--:|\n",
    );
    for row in rows {
        let Framed { archive, plain, our_check, their_check, .. } = *row;
        let shown = |ratio: f64| if ratio > MARK { format!("**{:.2}**", ratio) } else { format!("{:.2}", ratio) };
        let (ours, theirs) = (archive - our_check, plain - their_check);
        let _ = writeln!(
            lines,
            "| {} | {:.1} | {:.1} | {} | {:.1} | {:.1} | {:.1} | {:.1} | {} |",
            row.name,
            archive,
            plain,
            shown(archive / plain),
            our_check,
            their_check,
            ours,
            theirs,
            shown(ours / theirs)
        );
    }
    lines
}

/// A row for each length: the means over its patterns, the ratios of these means, and the greatest ratio of one pattern.
fn table_of_jumping(rows: &[(usize, Vec<Jumping>)]) -> String {
    let mut lines = String::from(
        "| a search that jumps | jumping µs | plain search µs | plain Rust µs | unpacked text µs | memmem µs | \
         of plain search | greatest | of plain Rust | greatest | of memmem | greatest |\n\
         |---|--:|--:|--:|--:|--:|--:|--:|--:|--:|--:|--:|\n",
    );
    for (length, patterns) in rows {
        let means = Jumping::means(patterns);
        let _ = write!(
            lines,
            "| {} patterns of {} characters | {:.2} | {:.1} | {:.1} | {:.1} | {:.2} |",
            patterns.len(),
            length,
            means.jumping,
            means.plain,
            means.rust,
            means.unpacked,
            means.memmem
        );
        let marks = [Some(MARK_JUMPING), Some(MARK_JUMPING_RUST), mark_memmem(*length)];
        for (number, mark) in marks.into_iter().enumerate() {
            let greatest = patterns.iter().map(|one| one.ratios()[number]).fold(f64::MIN, f64::max);
            for ratio in [means.ratios()[number], greatest] {
                let bold = if mark.map_or(false, |mark| ratio > mark) { "**" } else { "" };
                let _ = write!(lines, " {}{:.2}{} |", bold, ratio, bold);
            }
        }
        lines.push('\n');
    }
    lines
}

/// What a symbol costs in the short roll and in the full one, of a text with each width; the full roll's costs come first.
fn table_of_costs(name: &str, widths: &[[Vec<Cost>; 2]]) -> String {
    let mut lines = format!("| {}, ps a symbol |", name);
    for k in WIDTHS {
        let (short, full) = (grouped(SHORT.symbols), grouped(FULL.symbols));
        let _ = write!(lines, " k {}: {} | {} | ratio | plain Rust's ratio |", k, short, full);
    }
    lines.push_str("\n|---|");
    lines.push_str(&"--:|".repeat(4 * WIDTHS.len()));
    lines.push('\n');
    for number in 0..widths[0][0].len() {
        let _ = write!(lines, "| {} |", widths[0][0][number].name);
        for [full, short] in widths {
            let (full, short) = (&full[number], &short[number]);
            for cost in [short.archive, full.archive] {
                let _ = write!(lines, " {:.*} |", if cost < 100.0 { 1 } else { 0 }, cost);
            }
            let plain = full.plain.zip(short.plain).map(|(full, short)| format!("{:.2}", full / short));
            let _ = write!(lines, " {:.2} | {} |", full.archive / short.archive, plain.unwrap_or_default());
        }
        lines.push('\n');
    }
    lines
}

/// A row for each roll: microseconds of each call, and nanoseconds for each symbol.
fn table_of_growing(name: &str, rows: &[(Roll, [f64; GROWING_CALLS.len()])]) -> String {
    let mut lines = format!("| {}, symbols | s | {} |\n|--:|--:|", name, GROWING_CALLS.join(" | "));
    lines.push_str(&"--:|".repeat(GROWING_CALLS.len()));
    lines.push('\n');
    for (roll, times) in rows {
        let _ = write!(lines, "| {} | {} |", grouped(roll.h as usize), roll.table.s);
        for time in times {
            let _ = write!(lines, " {:.1} ({:.3}) |", time, time * 1e3 / f64::from(roll.h));
        }
        lines.push('\n');
    }
    lines
}

const COLOURS: [&str; 4] = ["#1f5a8a", "#7fb2d9", "#b5541c", "#f0b07a"];
const BAR: usize = 11;
const LEFT: usize = 360;
const WIDTH: usize = 560;
const TOP: usize = 100;

/// The machine that this runs on, as it calls itself, in letters that a picture can hold.
fn machine() -> String {
    let told = std::fs::read_to_string("/proc/cpuinfo").unwrap_or_default();
    let model = told.lines().find(|line| line.starts_with("model name")).and_then(|line| line.split(':').nth(1));
    let name = model.map_or(String::new(), |model| format!(", {}", model.trim()));
    format!("{}{}", std::env::consts::ARCH, name).replace(['&', '<'], " ")
}

/// Groups of bars, one bar for each case, the machine, and a line at the mark.
fn drawing(cases: &[Case], rows: &[Vec<Row>]) -> String {
    let groups = rows[0].len();
    let group = cases.len() * BAR + 12;
    let height = TOP + groups * group + 30;
    let most = rows.iter().flatten().map(Row::ratio).fold(2.0, f64::max);
    let scale = WIDTH as f64 / most;
    let x = |ratio: f64| LEFT as f64 + ratio * scale;
    let mut svg = format!(
        "<svg xmlns=\"http://www.w3.org/2000/svg\" viewBox=\"0 0 {0} {1}\" width=\"{0}\" height=\"{1}\" \
         font-family=\"sans-serif\" font-size=\"12\">\n<rect width=\"100%\" height=\"100%\" fill=\"white\"/>\n",
        LEFT + WIDTH + 60,
        height
    );
    let _ = writeln!(
        svg,
        "<text x=\"16\" y=\"28\" font-size=\"16\">Time of the archive divided by that of plain Rust (lower is better)</text>"
    );
    for (number, (case, colour)) in cases.iter().zip(COLOURS).enumerate() {
        let left = 16 + number * 200;
        let _ = writeln!(svg, "<rect x=\"{}\" y=\"46\" width=\"12\" height=\"12\" fill=\"{}\"/>", left, colour);
        let _ = writeln!(svg, "<text x=\"{}\" y=\"57\">{}</text>", left + 18, case.name);
    }
    let _ = writeln!(
        svg,
        "<text x=\"16\" y=\"80\" fill=\"#555555\">Rolls of {} symbols or just under. Measured on {}.</text>",
        grouped(FULL.symbols),
        machine()
    );
    let step = if most > 12.0 { 2.0 } else { 1.0 };
    let mut tick = 0.0;
    while tick <= most {
        let _ = writeln!(
            svg,
            "<line x1=\"{0:.1}\" y1=\"{1}\" x2=\"{0:.1}\" y2=\"{2}\" stroke=\"#dddddd\"/>\
             <text x=\"{0:.1}\" y=\"{3}\" text-anchor=\"middle\" fill=\"#555555\">{4}</text>",
            x(tick),
            TOP - 6,
            height - 24,
            height - 8,
            tick
        );
        tick += step;
    }
    // Drawn last, over the line at the mark.
    let mut figures = String::new();
    for number in 0..groups {
        let top = TOP + number * group;
        // The hits differ from case to case and are left to the tables.
        let name = rows[0][number].name.split(" (").next().unwrap_or("");
        let _ = writeln!(
            svg,
            "<text x=\"{}\" y=\"{}\" text-anchor=\"end\">{}</text>",
            LEFT - 8,
            top + cases.len() * BAR / 2 + 4,
            name
        );
        for (bar, (of_case, colour)) in rows.iter().zip(COLOURS).enumerate() {
            let ratio = of_case[number].ratio().max(0.0);
            let y = top + bar * BAR;
            let _ = writeln!(
                svg,
                "<rect x=\"{}\" y=\"{}\" width=\"{:.1}\" height=\"{}\" fill=\"{}\"/>",
                LEFT,
                y,
                ratio * scale,
                BAR - 1,
                colour
            );
            let _ = writeln!(
                figures,
                "<text x=\"{:.1}\" y=\"{}\" font-size=\"9\" stroke=\"white\" stroke-width=\"3\" \
                 paint-order=\"stroke\">{:.2}</text>",
                x(ratio) + 3.0,
                y + BAR - 2,
                ratio
            );
        }
    }
    let _ = writeln!(
        svg,
        "<line x1=\"{0:.1}\" y1=\"{1}\" x2=\"{0:.1}\" y2=\"{2}\" stroke=\"#c00000\" stroke-width=\"1.5\" \
         stroke-dasharray=\"5 3\"/><text x=\"{0:.1}\" y=\"{3}\" text-anchor=\"middle\" fill=\"#c00000\">the mark, {4}</text>",
        x(MARK),
        TOP - 6,
        height - 24,
        TOP - 10,
        MARK
    );
    svg.push_str(&figures);
    svg.push_str("</svg>\n");
    svg
}

fn written(path: &Path, content: impl AsRef<[u8]>) {
    if let Err(error) = fs::write(path, content) {
        eprintln!("bench: {}: {}", path.display(), error);
        exit(2);
    }
}

type Texts = [(&'static str, Vec<u8>); 2];

/// Prints what the default run measures; the full rolls and their rows are for the picture.
fn run(texts: &Texts) -> (Vec<Case>, Vec<Vec<Row>>) {
    println!(
        "Rolls of up to {} symbols, and of up to {}: the short ones, from the beginnings of the same texts. Medians of {}\n\
         calls on either side, and of {} in the short rolls, in turn, after {} that were not measured. Outputs of pack, unpack,\n\
         make a directory and frames were not cleared but filled with other values before each call, and each edit had a fresh\n\
         copy of buffer and directory; neither is timed. A hit list keeps the hits of the call before. Reading one is the\n\
         mean over {} places. Less the check: the median of the search less that of the check, both measured in turn.\n\
         Unpacked text: its plain search. Bold: over {}. As it comes in: started, fed and finished, in turn with the\n\
         archive's whole search of the same roll, its check included; bold: over {:.1}.\n\
         A search that jumps: means over {} patterns that stand in the text and {} that do not; of each pattern the\n\
         median of {} rounds, and of {} in the short rolls. Of the archive's searches that of the differences of a search and\n\
         of a check right behind it; plain Rust searches the packed symbols without a check; memmem goes on one byte behind\n\
         each hit. Ratios are of the means, and the greatest of one pattern is beside them. Bold: over {} of the plain search,\n\
         {} of plain Rust, and of memmem over {:?} for 8 characters and {:?} for 16 and 32.\n\
         Frames: plain Rust's check, and in writing the archive's, measured in turn. In reading the archive judges the bytes\n\
         as they come: its check is what is left without its passes over the lines, of which one is a text with a wrong last\n\
         line, two one with a bad first codeword, and three a reading.\n\
         A symbol's cost, at the end: picoseconds of the archive's calls in these tables for each symbol of the roll, in either\n\
         size, and the ratio of the two; beside it that of plain Rust. Searches that jump, whose patterns are others in either\n\
         size, and feeding: of the means over all patterns. Frames: with their checks.\n",
        grouped(FULL.symbols),
        grouped(SHORT.symbols),
        FULL.repetitions,
        SHORT.repetitions,
        WARM_UP,
        PLACES,
        MARK,
        MARK_IN_PIECES,
        STANDING,
        ABSENT,
        FULL.rounds,
        SHORT.rounds,
        MARK_JUMPING,
        MARK_JUMPING_RUST,
        mark_memmem(8).unwrap_or(0.0),
        mark_memmem(16).unwrap_or(0.0)
    );
    let (mut cases, mut rows, mut tables) = (Vec::new(), Vec::new(), Vec::new());
    for (name, text) in texts {
        let mut widths = Vec::new();
        for k in WIDTHS {
            // One size right behind the other, so that the machine is the same for both.
            let [full, short] = [&FULL, &SHORT].map(|size| {
                let case = Case::new(name, k, text, size);
                let measured = Measured::new(&case);
                println!("{}", table_of(&case, &measured.rows));
                println!("{}", table_of_frames(&measured.framed));
                println!("{}", table_in_pieces(&measured.in_pieces));
                println!("{}", table_of_jumping(&measured.jumping));
                (case, measured)
            });
            widths.push([costs(&full.0, &full.1), costs(&short.0, &short.1)]);
            cases.push(full.0);
            rows.push(full.1.rows);
        }
        tables.push(table_of_costs(name, &widths));
    }
    println!("{}", tables.join("\n"));
    (cases, rows)
}

/// Prints what the archive's calls take as a roll grows.
fn run_growing(texts: &Texts) {
    println!(
        "Microseconds of a call of the archive, and in brackets nanoseconds for each symbol: medians of {} calls in turn, after {}\n\
         that were not measured. Both searches are for the same {} characters in all rolls of a text and a width, their check\n\
         included but where it is said; there of the differences of a search and of a check right behind it.\n",
        GROWING[0].repetitions, WARM_UP, PATTERNS[1]
    );
    for (name, text) in texts {
        for k in WIDTHS {
            let pattern = Case::new(name, k, text, &GROWING[0]).pattern(PATTERNS[1]).to_vec();
            let rows = GROWING.iter().map(|size| {
                let case = Case::new(name, k, text, size);
                let times = measure_growing(&case, &pattern);
                (case.roll, times)
            });
            println!("{}", table_of_growing(&format!("{}, k {}", name, k), &rows.collect::<Vec<_>>()));
        }
    }
}

fn main() {
    let texts = [("member roll", member_roll()), ("English-like text", english_like())];
    let words: Vec<String> = std::env::args().skip(1).collect();
    let words: Vec<&str> = words.iter().map(String::as_str).collect();
    match words[..] {
        [] => {
            run(&texts);
        }
        ["sizes"] => run_growing(&texts),
        ["tool", command, folder] => tool::run(&texts, Path::new(command), Path::new(folder)),
        ["texts", folder] => {
            for (name, text) in &texts {
                written(&Path::new(folder).join(name), Case::new(name, 2, text, &SHORT).text);
            }
        }
        [picture] if !["tool", "texts"].contains(&picture) => {
            let (cases, rows) = run(&texts);
            written(Path::new(picture), drawing(&cases, &rows));
        }
        _ => {
            eprintln!("usage: bench [SVG] | bench sizes | bench tool COMMAND FOLDER | bench texts FOLDER");
            exit(2);
        }
    }
}
