//! Rolls that come in pieces: what comes and how it is cut, and searchers that nothing made.

use monterculo::sys::{Judge, Progress, Roll, Searcher, Table};
use monterculo_reference::library::searcher_of;
use monterculo_reference::reference::{self, Received, LIMIT, PATTERN};

use crate::faults::{bad_pattern, faults, Fault};
use crate::long_rolls::{long_roll, long_roll_of};
use crate::rng::Rng;
use crate::rolls::{self, bytes_for, per_byte, roll_of_limit, Made};
use crate::tables::{good_table, spoil_table, table_to_search};
use crate::texts::pattern;

/// What a searcher is started with, and the bytes that then come: the roll's own, or fewer.
pub struct Coming {
    pub roll: Roll,
    pub pattern: Vec<u8>,
    pub bytes: Vec<u8>,
}

/// A roll of about so many characters and what comes of it; with none, one or several faults.
pub fn coming(rng: &mut Rng, length: usize) -> Coming {
    coming_of(rng, |rng, table, faults| rolls::roll_of(rng, table, length, faults))
}

/// The same of a roll made in some way.
fn coming_of(rng: &mut Rng, make: impl Fn(&mut Rng, Table, &[Fault]) -> Made) -> Coming {
    use Fault::*;
    // Room twice, so that 5 comes in a few thousand calls too.
    #[rustfmt::skip]
    let faults = faults(rng, &[Table, OtherTable, Room, Room, Rank, Rank, Rank, Unfinished, Unfinished, Count, Length, Unused, Unused, Unused, Bits, Pattern]);
    let table = table_to_search(rng);
    let made = make(rng, table, &faults);
    let text = made.cut().0;
    let mut pattern = pattern(rng, &made.under, &text);
    if faults.contains(&Pattern) {
        pattern = bad_pattern(rng, &pattern, &text);
    }
    cut_off(rng, made.roll(), made.buf, pattern)
}

/// The same of a long roll.
pub fn coming_long(rng: &mut Rng) -> Coming {
    let (roll, buf) = long_roll(rng);
    of_long(rng, roll, buf)
}

/// The same of one as long as there may be.
pub fn coming_at_limit(rng: &mut Rng) -> Coming {
    if rng.one_in(2) {
        return coming_of(rng, roll_of_limit);
    }
    let (roll, buf) = long_roll_of(rng, LIMIT);
    of_long(rng, roll, buf)
}

fn of_long(rng: &mut Rng, roll: Roll, buf: Vec<u8>) -> Coming {
    let whole = Received { roll: roll.into(), pattern: Vec::new(), bytes: buf.clone() };
    let pattern = pattern(rng, &roll.table, &whole.text());
    cut_off(rng, roll, buf, pattern)
}

/// What comes of this buffer: no byte behind the roll's own, and seldom not all of those.
fn cut_off(rng: &mut Rng, roll: Roll, mut bytes: Vec<u8>, pattern: Vec<u8>) -> Coming {
    // Under a bad width start refuses, and nothing is fed.
    if let 2 | 4 = roll.table.k {
        bytes.truncate(bytes_for(roll.table.k, roll.h as usize));
    }
    if rng.one_in(10) && !bytes.is_empty() {
        let any = rng.below(bytes.len());
        let short = rng.pick(&[bytes.len() - 1, any]);
        bytes.truncate(short);
    }
    Coming { roll, pattern, bytes }
}

impl Coming {
    /// All of it received, unless start refuses.
    pub fn received(&self) -> Option<Received> {
        let mut received = Received::new(&self.roll.into(), &self.pattern).ok()?;
        received.bytes.extend(&self.bytes);
        Some(received)
    }

    /// Places among the bytes next to which something happens: where a codeword is bad or open, a hit, the end.
    pub fn borders(&self) -> Vec<usize> {
        let mut borders = vec![0, self.bytes.len()];
        if let Some(mut received) = self.received() {
            let per = per_byte(self.roll.table.k);
            let reference::Progress { first, read, .. } = received.searcher().progress;
            borders.extend([first as usize / per, (read as usize).saturating_sub(1) / per]);
            let mut hits = vec![0; self.bytes.len() * per];
            received.bytes.clear();
            let (_, found) = received.feed(&self.bytes, &mut hits);
            let starts = rolls::starts(&self.roll, &padded(self));
            for &hit in hits[..found].iter().take(3) {
                let behind = hit as usize + self.pattern.len();
                borders.extend([hit as usize, behind].map(|character| starts[character] as usize / per));
            }
        }
        borders
    }

    /// Places at which the bytes are cut, ascending; two alike are an empty piece.
    pub fn cuts(&self, rng: &mut Rng, most: usize) -> Vec<usize> {
        let bytes = self.bytes.len();
        let mut cuts: Vec<usize> = match rng.below(8) {
            0 => Vec::new(),
            // Single bytes, with empty pieces between.
            1 | 2 if 2 * bytes <= most => (0..=bytes).flat_map(|cut| [cut, cut]).collect(),
            1 | 2 => {
                let size = rng.pick(&[1, 2, 3, 8, 64]).max(bytes / most + 1);
                (size..bytes).step_by(size).collect()
            }
            3..=5 => {
                let borders = self.borders();
                let near = |rng: &mut Rng| (rng.pick(&borders) + rng.below(3)).saturating_sub(1).min(bytes);
                (0..rng.between(1, most.min(4))).map(|_| near(rng)).collect()
            }
            _ => (0..rng.between(1, most.min(6))).map(|_| rng.between(0, bytes)).collect(),
        };
        cuts.sort_unstable();
        cuts
    }
}

/// The bytes that come, and zeros for those of the roll that do not.
fn padded(coming: &Coming) -> Vec<u8> {
    let mut bytes = coming.bytes.clone();
    bytes.resize(bytes_for(coming.roll.table.k, coming.roll.h as usize), 0);
    bytes
}

/// The parts of a row that is cut there.
pub fn cut<'a>(bytes: &'a [u8], cuts: &[usize]) -> Vec<&'a [u8]> {
    let starts = std::iter::once(0).chain(cuts.iter().copied());
    let ends = cuts.iter().copied().chain(std::iter::once(bytes.len()));
    starts.zip(ends).map(|(start, end)| &bytes[start..end]).collect()
}

/// A searcher that was fed all that comes, or so much of it.
pub fn fed_searcher(rng: &mut Rng) -> Searcher {
    let length = rng.length();
    let coming = coming(rng, length);
    match coming.received() {
        Some(mut received) => {
            if rng.one_in(3) {
                let any = rng.between(0, received.bytes.len());
                received.bytes.truncate(any);
            }
            searcher_of(&received.searcher())
        }
        None => searcher_of(&reference::start(&coming.roll.into(), &coming.pattern).1),
    }
}

/// The pattern that a searcher holds, and what lies behind it; of a length over 64 none.
pub fn held(searcher: &Searcher) -> (&[u8], &[u8]) {
    let length = searcher.length as usize;
    searcher.pattern.split_at(if length <= PATTERN { length } else { 0 })
}

/// A searcher that nothing made: each of its numbers within its bounds, or one or two not; seldom one that was fed.
pub fn any_searcher(rng: &mut Rng) -> Searcher {
    let mut searcher = if rng.one_in(4) { fed_searcher(rng) } else { small_searcher(rng) };
    for _ in 0..rng.pick(&[0, 0, 0, 1, 1, 2]) {
        spoil(rng, &mut searcher);
    }
    searcher
}

/// Each number within its bounds.
fn small_searcher(rng: &mut Rng) -> Searcher {
    let table = if rng.one_in(3) { good_table(rng) } else { table_to_search(rng) };
    let (any, most) = (rng.between(0, LIMIT), rng.pick(&[1, 9, 40, 40, 300]));
    let h = if rng.one_in(5) { rng.pick(&[any, LIMIT]) } else { rng.between(0, most) };
    // Mostly so that few bytes are missing.
    let due = bytes_for(table.k, h);
    let missing = rng.pick(&[0, 1, 2, 3, 9, due]).min(due);
    let bad = rng.one_in(10);
    let read = if bad { rng.between(0, h) } else { h.min((due - missing) * per_byte(table.k)) };
    let first = read - rng.pick(&[0, 0, 1, 5, read]).min(read);
    let count = first - rng.pick(&[0, 0, 1, 5, first]).min(first);
    let length = rng.pick(&[1, 1, 2, 3, 4, 8, 63, 64]);
    let mut pattern = [0; PATTERN];
    let few = rng.between(1, 3).min(usize::from(table.sigma).max(1));
    pattern.fill_with(|| table.places[rng.below(few)]);
    // A good pattern has no byte 10.
    pattern.iter_mut().filter(|character| **character == 10).for_each(|character| *character = 13);
    let (bits, fewer) = (rng.next(), rng.next() & rng.next());
    let ends = rng.pick(&[u64::MAX, bits, fewer, 0]) & ((1 << count.min(length - 1)) - 1);
    // The same in 16 or 20 bits.
    let over = count + (1 << rng.pick(&[16, 20]));
    let near = rng.pick(&[count, count, count, count + 1, over, over]) as u32;
    let any = rng.next() as u32;
    let n = rng.pick(&[near, near, near, any]);
    let mut progress = Progress {
        read: read as u32,
        count: count as u32,
        first: first as u32,
        past: 0,
        place: 0,
        shorter: 0,
        rows: 1,
        value: 0,
        bad: u32::from(bad),
        stained: u32::from(rng.one_in(6)),
    };
    if !rng.one_in(4) {
        let most = rng.pick(&[3, 30, 256]);
        progress.past = u32::from(rng.one_in(6));
        progress.place = rng.below(3) as u32;
        progress.shorter = rng.between(0, most) as u32;
        progress.rows = rng.pick(&[0, 1, 1, 2, 16, 256, 4_096]);
        let any = rng.between(0, most) as u32;
        progress.value = rng.pick(&[0, 0, 1, any]);
    }
    Searcher { judge: Judge { roll: Roll { table, n, h: h as u32 }, progress }, pattern, length: length as u32, ends }
}

/// Puts one of its numbers out of its bounds, or gives it a record or a pattern that start refuses.
fn spoil(rng: &mut Rng, searcher: &mut Searcher) {
    let far = rng.next() as u32;
    // Over a bound, unless it is spoilt already.
    let over = |rng: &mut Rng, most: u32| most.saturating_add(rng.pick(&[1, 1, 1, 2, 256, far, u32::MAX]));
    let Searcher { judge: Judge { roll, progress }, pattern, length, ends } = searcher;
    let beginnings = progress.count.min(length.saturating_sub(1)).min(63);
    match rng.below(25) {
        0 => progress.past = over(rng, 1),
        1 => progress.place = over(rng, 2),
        2 => progress.shorter = over(rng, 256),
        3 => progress.rows = over(rng, 4_096),
        4 => progress.value = over(rng, 256),
        5 => progress.bad = over(rng, 1),
        6 => progress.stained = over(rng, 1),
        7 => progress.count = over(rng, progress.first),
        8 => progress.first = over(rng, progress.read),
        9 => progress.read = over(rng, roll.h),
        // Inside a byte, or into the unused symbols of the last.
        10 | 11 => progress.read = progress.read.wrapping_add(rng.pick(&[1, 2, 3, u32::MAX])),
        12 | 13 => *ends |= 1 << beginnings,
        14 => *ends |= 1 << rng.between(beginnings as usize, 63),
        15 => spoil_table(rng, &mut roll.table),
        16 => roll.h = over(rng, LIMIT as u32),
        17 => *length = rng.pick(&[0, 0, 65, 66, 256, length.wrapping_add(256), u32::MAX]),
        18..=21 => {
            if rng.one_in(3) {
                *length = PATTERN as u32;
            }
            let last = (*length as usize).clamp(1, PATTERN) - 1;
            let (any, before) = (rng.between(0, last), last.saturating_sub(1));
            pattern[rng.pick(&[0, last, last, any, any, before])] = 10;
        }
        // No fault: it is not looked at.
        22 => pattern[PATTERN.min(*length as usize)..].fill_with(|| rng.byte()),
        23 => pattern[PATTERN.min(*length as usize)..].fill(10),
        _ => {
            progress.count = 0;
            *ends |= 1;
        }
    }
}
