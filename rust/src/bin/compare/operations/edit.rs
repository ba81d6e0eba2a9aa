//! Editing a roll and its directory, also in chains: one edit after another on the same slices and record.

use monterculo::sys::{self, Answer, Roll, Rolled, Table};
use monterculo_reference::library::rolled;
use monterculo_reference::reference::{self, listing, ALWAYS, LIMIT, STRIDE};
#[cfg(test)]
use monterculo_reference::reference::{bytes_of, symbols_of};

use crate::faults::{bad_range, faults, wrong_entry, Fault};
use crate::lent::Lent;
use crate::operation::{Cases, Corners, Operation};
#[cfg(test)]
use crate::planted::{good_if_wrapped, says};
use crate::rng::{Rng, OVER_16_BITS};
use crate::rolls::{bytes_for, entries_for, packed_roll, per_byte, roll_of, roll_of_symbols, room, starts, Made};
use crate::tables::{characters, chosen_table, lengths, symbols_in, table_to_search};
use crate::texts::{put_foreign, ranks, telephone_number};

#[derive(Clone, Debug, PartialEq)]
pub struct Edit {
    roll: Roll,
    buf: Lent<u8>,
    directory: Lent<u32>,
    /// Several are a chain.
    changes: Vec<Change>,
    /// The number of the change to be made now.
    now: usize,
}

/// The range of an edit and the text put in for it.
#[derive(Clone, Debug, PartialEq)]
struct Change {
    start: usize,
    end: usize,
    text: Lent<u8>,
}

const TO_LIMIT: &str = "edits to a roll of 1,048,576 symbols";
const BY_LIMIT: &str = "edits refused 4 by the limit and not the buffer";
const AT_FRONT: &str = "edits of a roll of 1,048,576 symbols at its front";
const AS_MANY: &str = "edits of a roll of 1,048,576 symbols that leave as many";
const FEWER: &str = "edits of a roll of 1,048,576 symbols that leave fewer";

impl Operation for Edit {
    const NAME: &'static str = "edit";
    const LISTED: &'static [u32] = &[0, 1, 3, 4, 5, 6, 7, 8, 9, 10, 12];
    const CASES: Cases<Self> = &[(15, make), (5, make_chain)];
    const AT_LIMIT: Cases<Self> = &[(4, make_at_limit)];
    const DUE: &'static [&'static str] = &[TO_LIMIT, BY_LIMIT, AT_FRONT, AS_MANY, FEWER];
    type Answer = Rolled;

    fn archive(&mut self) -> Rolled {
        let Change { start, end, text } = &self.changes[self.now];
        sys::edit(self.roll, &mut self.buf, &mut self.directory, *start, *end, text)
    }

    fn reference(&mut self) -> Rolled {
        let Change { start, end, text } = &self.changes[self.now];
        by_reference(self.roll, &mut self.buf, &mut self.directory, *start, *end, text)
    }

    fn refused(&self, refusal: Answer) -> Rolled {
        Rolled { answer: refusal, roll: self.roll }
    }

    fn calls(&self) -> usize {
        self.changes.len()
    }

    fn go_on(&mut self, edited: &Rolled) {
        self.roll = edited.roll;
        self.now += 1;
    }

    fn corners(&self, edited: &Rolled, met: &mut Corners) {
        let Edit { roll, buf, directory, changes, now } = self;
        met.meet(changes.len() > 1 && *now == 0, "chains of edits");
        met.meet(changes.len() > 1, "edits in chains");
        let (table, n, h) = (&roll.table, roll.n as usize, roll.h as usize);
        let (number, value) = (edited.answer.number, edited.answer.value as usize);
        // The other refusals come before these numbers mean anything.
        if !matches!(number, 0 | 3 | 4 | 8 | 9 | 10 | 12) {
            return;
        }
        let (k, per) = (table.k, per_byte(table.k));
        let Change { start, end, text } = &changes[*now];
        let bounds = starts(roll, buf);
        let right: Vec<u32> = bounds[..n].iter().copied().step_by(STRIDE).collect();
        let wrong_entry = right.iter().enumerate().any(|(number, entry)| directory.get(number) != Some(entry));
        let lengths = lengths(k, table.s, characters(table));
        let foreign = text.iter().any(|&character| lengths[usize::from(character)] == 0);
        let bad_range = start > end || *end > n;
        match number {
            8 => met.meet(wrong_entry, "edits refused 8 with a wrong entry too"),
            9 => {
                met.meet(value == 0, "edits refused 9 at the first entry");
                met.meet(value > 0 && value + 1 < right.len(), "edits refused 9 at an entry in the middle");
                met.meet(value > 0 && value + 1 == right.len(), "edits refused 9 at the last entry of several");
                met.meet(value == directory.len(), "edits refused 9 for an entry missing");
                met.meet(bad_range, "edits refused 9 with a bad range too");
            }
            10 => {
                met.meet(*end > u32::MAX as usize, "edits refused 10 with a range over 32 bits");
                met.meet(foreign, "edits refused 10 with a foreign character too");
            }
            _ => {}
        }
        if bad_range || !matches!(number, 0 | 3 | 4 | 12) {
            return;
        }
        let (from, to) = (bounds[*start] as usize, bounds[*end] as usize);
        let put_in: usize = text.iter().map(|&character| lengths[usize::from(character)]).sum();
        let (new_n, new_h) = (n - (end - start) + text.len(), h - (to - from) + put_in);
        let (old_bytes, new_bytes) = (bytes_for(k, h), bytes_for(k, new_h));
        let (old_entries, new_entries) = (entries_for(n), entries_for(new_n));
        let room = room(k, buf.len());
        match number {
            0 => {
                let tail = to < h;
                met.meet(end > start && put_in == to - from, "edits of as many symbols as before");
                met.meet(tail && new_h == h + 1, "edits that move what is behind by one symbol on");
                met.meet(tail && new_h + 1 == h, "edits that move what is behind by one symbol back");
                met.meet(tail && new_h != h && new_h % per == h % per, "edits that move what is behind by whole bytes");
                met.meet(tail && new_h % per != h % per, "edits that move what is behind by parts of a byte");
                met.meet(to > from && from / per == (to - 1) / per, "edits of a run inside one byte");
                met.meet(to > from && (to - 1) / per > from / per + 8, "edits of a run over more than eight bytes");
                met.meet(start == end && !text.is_empty(), "edits that only put in");
                met.meet(start < end && text.is_empty(), "edits that only take out");
                met.meet(n > 0 && end - start == n, "edits of a whole roll");
                met.meet(n == 0, "edits of an empty roll");
                met.meet(new_bytes < old_bytes, "edits with bytes no longer used");
                met.meet(new_entries < old_entries, "edits with entries no longer used");
                met.meet(new_entries > old_entries, "edits with further entries");
                met.meet(new_h > h && new_h == room, "edits that grow up to the room");
                let takes_last = new_entries > old_entries && new_entries == directory.len();
                met.meet(takes_last, "edits that take the last entry lent");
                met.meet(directory.len() > old_entries, "edits with entries behind the used ones");
                met.meet(h < LIMIT && new_h == LIMIT, TO_LIMIT);
                met.meet(new_h > OVER_16_BITS && h <= OVER_16_BITS, "edits from up to 65,536 symbols to more");
                met.meet(h == LIMIT && *end > *start && *start == 0 && tail, AT_FRONT);
                met.meet(h == LIMIT && new_h == LIMIT && put_in > 0, AS_MANY);
                met.meet(h == LIMIT && new_h < LIMIT, FEWER);
                let of_twelve = |text: &[u8]| text.iter().all(|character| ALWAYS.contains(character));
                met.meet(text.len() > 6 && of_twelve(text), "edits that put in a telephone number");
                met.meet(text.len() > 6 && of_twelve(text) && end > start, "edits of a run by a telephone number");
            }
            3 => met.meet(new_h > room, "edits refused 3 with the room too small too"),
            4 => {
                met.meet(value < start + text.len(), "edits refused 4 in the text put in");
                met.meet(value >= start + text.len(), "edits refused 4 behind the text put in");
                met.meet(new_h == room + 1, "edits refused 4 for one symbol");
                met.meet(buf.len() > bytes_for(k, LIMIT), BY_LIMIT);
                met.meet(h == LIMIT, "edits of a roll of 1,048,576 symbols refused 4");
                met.meet(new_entries > directory.len(), "edits refused 4 with the directory too short too");
            }
            _ => met.meet(value == directory.len() + 1, "edits refused 12 for one entry"),
        }
    }

    #[cfg(test)]
    const ERRORS: &'static [&'static str] = &[
        "refuses everything",
        "returns the roll untouched",
        "answers an empty roll always",
        "leaves the symbols",
        "shifts by whole bytes",
        "rounds a shift to whole bytes",
        "leaves removed digits",
        "leaves removed digits in the last byte",
        "leaves unused symbols on growth",
        "leaves the directory",
        "leaves entries no longer used",
        "moves entries and counts none",
        "moves the entry at the run",
        "clears the byte before the run",
        "clears symbols before the run",
        "clears the byte behind the run",
        "clears bytes beyond use",
        "clears the byte beyond use",
        "clears entries beyond use",
        "leaves n",
        "leaves h",
        "answers n",
        "refuses to fill the room",
        "refuses to fill the directory",
        "asks 9 of unused entries",
        "refuses the empty range at n",
        "asks 12 before 4",
        "asks 4 before 3",
        "asks 3 before 10",
        "asks 3 before 9",
        "asks 10 before 9",
        "asks 9 before 8",
        "asks no 9",
        "asks 9 of the first entry alone",
        "asks 9 of missing entries alone",
        "asks 9 of the run's entry alone",
        "answers the entry",
        "answers the last wrong entry",
        "answers 3 in the edited text",
        "answers 4 in the text put in",
        "answers 4 in the old text",
        "answers 4 behind the text at its end",
        "answers the entries lent",
        "answers the entries missing",
        "keeps a room of 65,536",
        "swaps start and end",
        "cuts the end to n",
        "cuts numbers to 32 bits",
        "passes unused symbols",
        "wraps at 32 bits",
        "writes symbols before it refuses",
        "writes entries before it refuses",
        "writes n though refused",
        "writes h though refused",
        "panics",
    ];

    #[cfg(test)]
    const ERRORS_AT_LIMIT: &'static [&'static str] = &[
        "knows no limit",
        "refuses to fill 1,048,576 symbols",
        "refuses a roll of 1,048,576 symbols",
        "keeps 16 bits of an entry",
        "keeps 20 bits of h",
        "moves 65,536 bytes at most",
    ];

    #[rustfmt::skip]
    #[cfg(test)]
    fn with_error(&mut self, error: &str) -> Rolled {
        let Edit { roll, buf, directory, changes, now } = self;
        let Change { start, end, text } = &changes[*now];
        let (roll, start, end) = (*roll, *start, *end);
        let (buf, directory): (&mut [u8], &mut [u32]) = (buf, directory);
        let Roll { table, n, .. } = roll;
        let refused = |number: u32, value: usize| Rolled { answer: says(number, value), roll };
        match error {
            "refuses everything" => return refused(10, 0),
            "answers an empty roll always" => return Rolled { answer: says(0, 0), roll: Roll { table, n: 0, h: 0 } },
            "keeps a room of 65,536" => {
                let bytes = buf.len().min(bytes_for(if table.k == 4 { 4 } else { 2 }, 65_536));
                return by_reference(roll, &mut buf[..bytes], directory, start, end, text);
            }
            _ => {}
        }
        let (old_buf, old_directory) = (buf.to_vec(), directory.to_vec());
        let edited = by_reference(roll, buf, directory, start, end, text);
        let answer = edited.answer;
        if answer.number == 0 {
            let before = (&old_buf[..], &old_directory[..]);
            return wrong_edit(error, roll, before, (start, end), edited, buf, directory);
        }
        let value = answer.value as usize;
        let bad_range = start > end || end > n as usize;
        let foreign = text.iter().position(|byte| !table.places.iter().take(usize::from(table.sigma)).any(|place| place == byte));
        // These two for a roll that is sound but for refusal 8.
        let right = || -> Vec<u32> { starts(&roll, buf)[..n as usize].iter().copied().step_by(STRIDE).collect() };
        let edited_n = || n as usize - (end - start) + text.len();
        match (error, answer.number) {
            ("asks 12 before 4", 4) if entries_for(edited_n()) > directory.len() => refused(12, entries_for(edited_n())),
            ("asks 4 before 3", 3) => {
                let known: Vec<u8> = text.iter().copied().filter(|byte| characters(&table).contains(byte)).collect();
                let (mut buf, mut directory) = (old_buf, old_directory);
                match by_reference(roll, &mut buf, &mut directory, start, end, &known) {
                    other if other.answer.number == 4 => other,
                    _ => edited,
                }
            }
            ("asks 3 before 10", 10) => foreign.map_or(edited, |place| refused(3, place)),
            ("asks 3 before 9", 9) => foreign.map_or(edited, |place| refused(3, place)),
            ("asks 10 before 9", 9) if bad_range => refused(10, 0),
            ("asks 9 before 8", 8) => {
                let right = right();
                let first = (0..right.len()).find(|&number| directory.get(number) != Some(&right[number]));
                first.map_or(edited, |number| refused(9, number))
            }
            // A directory of its own stands in for the one lent.
            ("asks no 9", 9) | ("asks 9 of the first entry alone", 9) | ("asks 9 of missing entries alone", 9) | ("asks 9 of the run's entry alone", 9)
                if match error {
                    "asks 9 of the first entry alone" => value > 0,
                    "asks 9 of missing entries alone" => directory.len() >= entries_for(n as usize),
                    "asks 9 of the run's entry alone" => value != start / STRIDE,
                    _ => true,
                } =>
            {
                let mut own = right();
                own.resize(own.len().max(directory.len()), 0);
                let answer = by_reference(roll, buf, &mut own, start, end, text);
                if answer.answer.number == 0 {
                    directory.copy_from_slice(&own[..directory.len()]);
                }
                edited
            }
            ("answers the entry", 9) => refused(9, directory.get(value).map_or(value, |&entry| entry as usize)),
            ("answers the last wrong entry", 9) => {
                let right = right();
                let last = (0..right.len()).rev().find(|&number| directory.get(number) != Some(&right[number]));
                refused(9, last.unwrap_or(value))
            }
            ("answers 3 in the edited text", 3) => refused(3, start + value),
            ("answers 4 in the text put in", 4) => refused(4, value - start),
            ("answers 4 in the old text", 4) if value >= start + text.len() => refused(4, value - text.len() + (end - start)),
            ("answers 4 behind the text at its end", 4) if value > start + text.len() => refused(4, start + text.len()),
            ("answers the entries lent", 12) => refused(12, directory.len()),
            ("answers the entries missing", 12) => refused(12, value - directory.len()),
            ("knows no limit", 4) if buf.len() > bytes_for(table.k, LIMIT) => refused(0, 0),
            ("swaps start and end", 10) if start > end && start <= n as usize => {
                by_reference(roll, buf, directory, end, start, text)
            }
            ("cuts the end to n", 10) if start <= n as usize && start <= end => {
                by_reference(roll, buf, directory, start, n as usize, text)
            }
            ("cuts numbers to 32 bits", 10) => {
                let (start, end) = (start & 0xFFFF_FFFF, end & 0xFFFF_FFFF);
                by_reference(roll, buf, directory, start, end, text)
            }
            ("passes unused symbols", 8) => refused(0, 0),
            ("wraps at 32 bits", 6) if good_if_wrapped(&roll, buf, value, 32) => refused(0, 0),
            ("writes symbols before it refuses", 4 | 12) if !buf.is_empty() => {
                buf[0] = !buf[0];
                edited
            }
            ("writes entries before it refuses", 12) if !directory.is_empty() => {
                directory[0] = !directory[0];
                edited
            }
            ("writes n though refused", 4) => Rolled { answer, roll: Roll { n: edited_n() as u32, ..roll } },
            ("writes h though refused", _) => Rolled { answer, roll: Roll { h: 0, ..roll } },
            ("panics", 9) => panic!("on purpose"),
            _ => edited,
        }
    }
}

/// The reference behind the archive's door.
fn by_reference(roll: Roll, buf: &mut [u8], directory: &mut [u32], start: usize, end: usize, text: &[u8]) -> Rolled {
    rolled(reference::edit(&roll.into(), buf, directory, start, end, text))
}

/// A range of a text; the bounds are where its codewords start, and h.
fn range(rng: &mut Rng, k: u8, bounds: &[u32]) -> (usize, usize) {
    let n = bounds.len() - 1;
    let any = rng.between(0, n);
    let one = rng.below(n.max(1));
    match rng.below(16) {
        0..=2 => {
            let place = rng.pick(&[0, n, any]);
            (place, place)
        }
        3 | 4 if n > 0 => {
            let place = rng.pick(&[0, n - 1, one, one]);
            (place, place + 1)
        }
        5 => (0, n),
        6 => (0, any),
        7 => (any, n),
        // As many as end in the byte where the first one starts.
        8 | 9 if n > 0 => {
            let byte_ends = (bounds[one] as usize / per_byte(k) + 1) * per_byte(k);
            let inside = bounds[one + 1..].iter().take_while(|&&bound| bound as usize <= byte_ends).count();
            (one, one + if inside > 0 { rng.between(1, inside) } else { 1 })
        }
        // Next to where entries stand.
        10 => {
            let near = (any / STRIDE * STRIDE + rng.below(3)).saturating_sub(1).min(n);
            (near, (near + rng.pick(&[0, 1, 2, 31, 32, 33])).min(n))
        }
        11 | 12 => (any, (any + rng.below(9)).min(n)),
        _ => (any, rng.between(any, n)),
    }
}

/// A text of exactly so many symbols; an empty one under a table without characters.
fn text_of_symbols(rng: &mut Rng, table: &Table, symbols: usize) -> Vec<u8> {
    let list = listing(table.k, table.s);
    let codewords = &list.codewords[..usize::from(table.sigma)];
    let kind = rng.below(4);
    let (mut text, mut left) = (Vec::new(), symbols);
    while left > 0 && !codewords.is_empty() {
        // Rank 0 has one symbol, so that some rank always fits.
        let fitting = codewords.partition_point(|codeword| codeword.len() <= left);
        let rank = match kind {
            0 => rng.below(fitting.min(4)),
            1 => fitting - 1 - rng.below(fitting.min(3)),
            _ => rng.below(fitting),
        };
        text.push(table.places[rank]);
        left -= codewords[rank].len();
    }
    text
}

/// One time in four a chosen table.
fn table_to_edit(rng: &mut Rng) -> Table {
    if rng.one_in(4) {
        chosen_table(rng)
    } else {
        table_to_search(rng)
    }
}

/// A range of this text and what to put in for it; the bounds are where its codewords start, and h.
fn change(rng: &mut Rng, table: &Table, text: &[u8], bounds: &[u32], faults: &[Fault]) -> Change {
    let (k, n, h) = (table.k, text.len(), bounds[text.len()] as usize);
    let (start, end) = range(rng, k, bounds);
    let run = (bounds[end] - bounds[start]) as usize;
    let behind = h - bounds[end] as usize;
    let of_characters = |rng: &mut Rng, length: usize| -> Vec<u8> {
        ranks(rng, characters(table).len(), length).iter().map(|&rank| table.places[rank]).collect()
    };
    let mut new = if faults.contains(&Fault::Directory) {
        // One character more than the entries now used stand for, or some.
        let edited = entries_for(n) * STRIDE + rng.pick(&[1, 1, 2, 32, 33]);
        of_characters(rng, edited - (n - (end - start)))
    } else if faults.contains(&Fault::Short) {
        // With these symbols the edited text ends where a byte ends; one more needs another byte.
        let even = run + bytes_for(k, h) * per_byte(k) - h + rng.pick(&[0, 0, 1, 5, 30]) * per_byte(k);
        let over = match rng.below(4) {
            0 | 1 => 1,
            2 => rng.between(1, per_byte(k)),
            // What is over stands in the text put in if the room is the least.
            _ => behind + rng.between(1, 40),
        };
        text_of_symbols(rng, table, even + over)
    } else if rng.one_in(2) && ALWAYS.iter().all(|character| characters(table).contains(character)) {
        telephone_number(rng)
    } else if rng.one_in(200) {
        // Up to where 16 bits wrap, or over it.
        let most = OVER_16_BITS.saturating_sub(h - run);
        let symbols = rng.pick(&[most, most, most + 1, most + 1, most + 2, OVER_16_BITS + 1]);
        text_of_symbols(rng, table, symbols)
    } else {
        let symbols = match rng.below(16) {
            0 | 1 => 0,
            2..=4 => run,
            5 => run + 1,
            6 => run.saturating_sub(1),
            7 => run + per_byte(k),
            8 => run.saturating_sub(per_byte(k)),
            9 => run + rng.between(1, 3 * per_byte(k)),
            10 => run.saturating_sub(rng.between(1, 3 * per_byte(k))),
            11 => run + rng.between(20, 400),
            12 => run / rng.between(2, 16),
            _ => usize::MAX,
        };
        match rng.below(4) {
            _ if symbols < usize::MAX => text_of_symbols(rng, table, symbols),
            0 => text[start..end].to_vec(),
            1 => {
                let length = rng.length();
                of_characters(rng, length)
            }
            // As many characters as the run, or an entry's more or fewer.
            2 => {
                let length = end - start + rng.pick(&[0, 1, 31, 32, 33]);
                of_characters(rng, length)
            }
            _ => {
                let length = (end - start).saturating_sub(rng.pick(&[0, 1, 31, 32, 33]));
                of_characters(rng, length)
            }
        }
    };
    if faults.contains(&Fault::Foreign) {
        put_foreign(rng, table, &mut new);
    }
    Change { start, end, text: new.into() }
}

/// As for the others, or two that stand side by side in the order of an edit.
fn edit_faults(rng: &mut Rng) -> Vec<Fault> {
    use Fault::*;
    if rng.one_in(6) {
        let pairs = [[Unused, Entry], [Entry, Range], [Range, Foreign], [Foreign, Short], [Short, Directory]];
        return rng.pick(&pairs).to_vec();
    }
    #[rustfmt::skip]
    let from = [Table, OtherTable, Room, Rank, Unfinished, Count, Length, Unused, Bits, Entry, Entry, Range, Range, Foreign, Foreign, Short, Short, Directory, Directory];
    faults(rng, &from)
}

/// What may stand in an entry that is not used.
fn any_entry(rng: &mut Rng, h: u32) -> u32 {
    let any = rng.next() as u32;
    rng.pick(&[any, any, any, u32::MAX, 1, 0, h, h.wrapping_add(1)])
}

/// Lengthens or cuts to so many bytes, the further ones mostly not 0.
fn resize_buf(rng: &mut Rng, buf: &mut Vec<u8>, length: usize) {
    let kind = rng.below(6);
    while buf.len() < length {
        buf.push(match kind {
            0 => 0,
            1 => 0xFF,
            _ => rng.byte(),
        });
    }
    buf.truncate(length);
}

/// How a change is made for a table, a text and where its codewords start.
type Changing = fn(&mut Rng, &Table, &[u8], &[u32], &[Fault]) -> Change;

fn make(rng: &mut Rng) -> Edit {
    let faults = edit_faults(rng);
    let (table, length) = (table_to_edit(rng), rng.border_length());
    let made = roll_of(rng, table, length, &faults);
    of(rng, made, &faults, change)
}

/// A roll that has all the symbols there may be or some fewer, or a short one; edited, it often has just as many, or more.
fn make_at_limit(rng: &mut Rng) -> Edit {
    use Fault::*;
    let faults: &[Fault] = if rng.one_in(4) { rng.pick(&[&[Entry], &[Range], &[Foreign], &[Directory]]) } else { &[] };
    let mut table = table_to_edit(rng);
    table.sigma = table.sigma.max(1);
    let (near, few) = (LIMIT - rng.below(600), rng.below(2_000));
    let symbols = rng.pick(&[LIMIT, LIMIT, LIMIT, near, near, few]);
    let made = roll_of_symbols(rng, table, symbols, faults);
    of(rng, made, faults, change_at_limit)
}

/// As `change` for a roll at the limit; the front comes often, as all behind it then moves.
fn change_at_limit(rng: &mut Rng, table: &Table, text: &[u8], bounds: &[u32], faults: &[Fault]) -> Change {
    let h = bounds[text.len()] as usize;
    let front = (0, rng.below(40).min(text.len()));
    let any = range(rng, table.k, bounds);
    let (start, end) = if rng.one_in(2) { front } else { any };
    let run = (bounds[end] - bounds[start]) as usize;
    // As many symbols as there may be, one or two more, as many as before, or fewer.
    let fewer = h.saturating_sub(rng.below(200));
    let edited = rng.pick(&[LIMIT, LIMIT, LIMIT + 1, LIMIT + 1, LIMIT + 2, h, h, fewer]);
    let mut new = text_of_symbols(rng, table, edited.saturating_sub(h - run));
    if faults.contains(&Fault::Foreign) {
        put_foreign(rng, table, &mut new);
    }
    Change { start, end, text: new.into() }
}

/// An edit of a roll, for which the change is made, with buffer and directory.
fn of(rng: &mut Rng, mut made: Made, faults: &[Fault], change: Changing) -> Edit {
    use Fault::*;
    let has = |fault| faults.contains(&fault);
    let (text, mut bounds) = made.cut();
    let mut directory: Vec<u32> = bounds.iter().copied().step_by(STRIDE).collect();
    bounds.push(made.symbols.len() as u32);
    let k = made.under.k;
    let mut change = change(rng, &made.under, &text, &bounds, faults);
    let run = (bounds[change.end] - bounds[change.start]) as usize;

    // Room for the edited text and perhaps more, or with Short for the old one and perhaps more.
    let used = bytes_for(k, made.symbols.len());
    let edited = made.symbols.len() - run + symbols_in(&made.under, &change.text);
    let needed = bytes_for(k, edited.min(LIMIT + 1));
    let bytes = if has(Short) && needed > used {
        let any = rng.between(used, needed - 1);
        rng.pick(&[needed - 1, needed - 1, used, any])
    } else {
        needed.max(used) + rng.pick(&[0, 0, 1, 7, 30])
    };
    if !has(Room) {
        resize_buf(rng, &mut made.buf, bytes);
    }

    // The same for the entries.
    let used = directory.len();
    let needed = entries_for(text.len() - (change.end - change.start) + change.text.len());
    let entries = if has(Directory) && needed > used {
        let any = rng.between(used, needed - 1);
        rng.pick(&[needed - 1, needed - 1, used, any])
    } else {
        needed.max(used) + rng.pick(&[0, 0, 1, 5])
    };
    directory.resize_with(entries, || any_entry(rng, made.h));
    if has(Entry) && used > 0 {
        let any = rng.below(used);
        let number = rng.pick(&[0, used / 2, used - 1, any]);
        let mut spoil = |rng: &mut Rng, number: usize| {
            let entry = wrong_entry(rng, directory[number], made.h);
            directory[number] = if entry == directory[number] { entry ^ 1 } else { entry };
        };
        match rng.below(6) {
            0 | 1 => directory.truncate(number),
            2 => {
                let second = rng.between(number, used - 1);
                spoil(rng, second);
                if second != number {
                    spoil(rng, number);
                }
            }
            _ => spoil(rng, number),
        }
    }
    if has(Range) {
        (change.start, change.end) = bad_range(rng, made.n as usize, change.start, change.end);
    }
    Edit { roll: made.roll(), buf: made.buf.into(), directory: directory.into(), changes: vec![change], now: 0 }
}

/// A sound roll with a right directory and 2 to 12 edits one after another.
fn make_chain(rng: &mut Rng) -> Edit {
    use Fault::*;
    let table = table_to_edit(rng);
    let length = rng.border_length().min(3_000);
    let made = packed_roll(rng, table, length, &[]);
    let (record, table) = (made.roll(), made.table);
    let (mut text, starts) = made.cut();
    let mut directory: Vec<u32> = starts.iter().copied().step_by(STRIDE).collect();
    let entries = directory.len() + rng.pick(&[0, 1, 2, 5, 20, 20]);
    directory.resize_with(entries, || any_entry(rng, made.h));
    let mut buf = made.buf;
    let bytes = bytes_for(table.k, made.symbols.len()) + rng.pick(&[0, 1, 7, 100, 1_000, 1_000]);
    resize_buf(rng, &mut buf, bytes);

    // What the edits before leave, so that the next is made for it.
    let mut roll = record;
    let (mut buf_now, mut directory_now) = (buf.clone(), directory.clone());
    let mut changes = Vec::new();
    for _ in 0..rng.between(2, 12) {
        let faults: &[Fault] = match rng.below(16) {
            0 => &[Range],
            1 => &[Foreign],
            2 => &[Short],
            3 => &[Directory],
            _ => &[],
        };
        let lengths = lengths(table.k, table.s, characters(&table));
        let mut bounds = vec![0];
        for &character in &text {
            bounds.push(bounds[bounds.len() - 1] + lengths[usize::from(character)] as u32);
        }
        let mut change = change(rng, &table, &text, &bounds, faults);
        if faults.contains(&Range) {
            (change.start, change.end) = bad_range(rng, text.len(), change.start, change.end);
        }
        let (start, end) = (change.start, change.end);
        let (buf, directory) = (&mut buf_now, &mut directory_now);
        let edited = by_reference(roll, buf, directory, start, end, &change.text);
        roll = edited.roll;
        if edited.answer.number == 0 {
            text.splice(start..end, change.text.iter().copied());
        }
        changes.push(change);
    }
    Edit { roll: record, buf: buf.into(), directory: directory.into(), changes, now: 0 }
}

#[cfg(test)]
/// Those bits of a byte's unused symbols that stood there before; h symbols end in the byte.
fn with_old_unused(k: u8, h: u32, byte: u8, before: u8) -> u8 {
    let unused = bytes_for(k, h as usize) * per_byte(k) - h as usize;
    byte | (before & ((1u32 << (unused * usize::from(k))) - 1) as u8)
}

#[cfg(test)]
/// An edit with this error, of a record, slices and range as they came in; `answer` and the slices
/// are what the reference made of them, and it has accepted.
#[rustfmt::skip]
#[allow(clippy::too_many_arguments)]
fn wrong_edit(name: &str, roll: Roll, before: (&[u8], &[u32]), range: (usize, usize), edited: Rolled, buf: &mut [u8], directory: &mut [u32]) -> Rolled {
    let (Roll { table, n, h }, Roll { n: new_n, h: new_h, .. }) = (roll, edited.roll);
    let answer = |number, value, n, h| Rolled { answer: Answer { number, value }, roll: Roll { table, n, h } };
    let (k, per) = (table.k, per_byte(table.k));
    let (old_bytes, new_bytes) = (bytes_for(k, h as usize), bytes_for(k, new_h as usize));
    let (old_entries, new_entries) = (entries_for(n as usize), entries_for(new_n as usize));
    let (most_bytes, most_entries) = (old_bytes.max(new_bytes), old_entries.max(new_entries));
    let bounds = starts(&roll, before.0);
    let (from, to) = (bounds[range.0] as usize, bounds[range.1] as usize);
    // Where the text put in ends.
    let put_to = to + new_h as usize - h as usize;
    let room = room(k, buf.len());
    let restore = |buf: &mut [u8], directory: &mut [u32]| {
        buf.copy_from_slice(before.0);
        directory.copy_from_slice(before.1);
    };
    match name {
        "returns the roll untouched" => {
            restore(buf, directory);
            return answer(0, 0, n, h);
        }
        "leaves the symbols" => buf.copy_from_slice(before.0),
        // All behind the run stays where it was if it should move by less than a byte.
        "shifts by whole bytes" if new_h != h && new_h.max(h) - new_h.min(h) < per as u32 => {
            let mut symbols = symbols_of(k, before.0, h as usize);
            symbols.resize(symbols.len().max(new_h as usize), 0);
            symbols[from..put_to].copy_from_slice(&symbols_of(k, buf, put_to)[from..]);
            symbols.truncate(new_h as usize);
            buf[..new_bytes].copy_from_slice(&bytes_of(k, &symbols));
        }
        // The same for any shift that is not of whole bytes: it is rounded down to them.
        "rounds a shift to whole bytes" if new_h > h => {
            let shift = (new_h - h) as usize / per * per;
            let mut symbols = symbols_of(k, buf, new_h as usize);
            let tail = symbols_of(k, before.0, h as usize);
            symbols[to + shift..h as usize + shift].copy_from_slice(&tail[to..]);
            symbols[from..put_to].copy_from_slice(&symbols_of(k, buf, put_to)[from..]);
            buf[..new_bytes].copy_from_slice(&bytes_of(k, &symbols));
        }
        "leaves removed digits" => buf[new_bytes..most_bytes].copy_from_slice(&before.0[new_bytes..most_bytes]),
        "leaves removed digits in the last byte" if 0 < new_bytes && new_bytes <= old_bytes => {
            buf[new_bytes - 1] = with_old_unused(k, new_h, buf[new_bytes - 1], before.0[new_bytes - 1]);
        }
        "leaves unused symbols on growth" if new_bytes > old_bytes => {
            buf[new_bytes - 1] = with_old_unused(k, new_h, buf[new_bytes - 1], before.0[new_bytes - 1]);
        }
        "leaves the directory" => directory.copy_from_slice(before.1),
        "leaves entries no longer used" => {
            directory[new_entries..most_entries].copy_from_slice(&before.1[new_entries..most_entries]);
        }
        // Entries of characters behind the run are moved with them, but stay those of the same characters.
        "moves entries and counts none" => {
            for (entry, &old) in directory.iter_mut().zip(before.1).take(old_entries.min(new_entries)) {
                *entry = if (old as usize) < to { old } else { old + new_h - h };
            }
        }
        "moves the entry at the run" if range.0 % STRIDE == 0 && range.0 / STRIDE < new_entries => {
            directory[range.0 / STRIDE] = put_to as u32;
        }
        "clears the byte before the run" if from >= per => buf[from / per - 1] = 0,
        "clears symbols before the run" if from % per != 0 && from / per < buf.len() => {
            let kept = per - from % per;
            buf[from / per] &= ((1u32 << (kept * usize::from(k))) - 1) as u8;
        }
        "clears the byte behind the run" if bytes_for(k, put_to) < new_bytes => buf[bytes_for(k, put_to)] = 0,
        "clears bytes beyond use" => buf[most_bytes..].fill(0),
        "clears the byte beyond use" if most_bytes < buf.len() => buf[most_bytes] = 0,
        "clears entries beyond use" => directory[most_entries..].fill(0),
        "leaves n" => return answer(0, 0, n, new_h),
        "leaves h" => return answer(0, 0, new_n, h),
        "answers n" => return answer(0, u64::from(new_n), new_n, new_h),
        "refuses to fill the room" if new_h > h && new_h as usize == room => {
            restore(buf, directory);
            return answer(4, u64::from(new_n) - 1, n, h);
        }
        "refuses to fill 1,048,576 symbols" if new_h > h && new_h as usize == LIMIT => {
            restore(buf, directory);
            return answer(4, u64::from(new_n) - 1, n, h);
        }
        "refuses a roll of 1,048,576 symbols" if h as usize == LIMIT => {
            restore(buf, directory);
            return answer(5, u64::from(h), n, h);
        }
        "keeps 16 bits of an entry" => directory[..new_entries].iter_mut().for_each(|entry| *entry &= 0xFFFF),
        "keeps 20 bits of h" => return answer(0, 0, new_n, new_h & 0xF_FFFF),
        // Those behind stay as they were.
        "moves 65,536 bytes at most" if new_bytes > put_to / per + 65_536 => {
            let kept = put_to / per + 65_536..new_bytes;
            buf[kept.clone()].copy_from_slice(&before.0[kept]);
        }
        "refuses to fill the directory" if new_entries > old_entries && new_entries == directory.len() => {
            restore(buf, directory);
            return answer(12, new_entries as u64, n, h);
        }
        "asks 9 of unused entries" if before.1[old_entries..].iter().any(|&entry| entry != 0) => {
            restore(buf, directory);
            return answer(9, old_entries as u64, n, h);
        }
        "refuses the empty range at n" if range == (n as usize, n as usize) => {
            restore(buf, directory);
            return answer(10, 0, n, h);
        }
        _ => {}
    }
    edited
}

#[cfg(test)]
mod tests {
    use super::*;
    use crate::operation::{Case, Library};
    use crate::{compare_calls, operations};

    /// The chain's calls by the reference: what each answers, and the case that it leaves.
    fn steps(mut case: Edit) -> Vec<(Rolled, Edit)> {
        let mut steps = Vec::new();
        for _ in 0..case.calls() {
            let edited = case.reference();
            steps.push((edited, case.clone()));
            case.go_on(&edited);
        }
        steps
    }

    #[test]
    fn a_chain_goes_on_from_what_the_edit_before_left() {
        // abracadabra of the paper: P10, a refusal, then P11 with both d away.
        let mut places = [0; 256];
        places[..5].copy_from_slice(b"abrcd");
        let change = |start, end, text: &[u8]| Change { start, end, text: text.to_vec().into() };
        let case = Edit {
            roll: Roll { table: Table { k: 2, s: 3, sigma: 5, places }, n: 11, h: 13 },
            buf: vec![0x18, 0xC3, 0x46, 0x00, 0xAA].into(),
            directory: vec![0, 77].into(),
            changes: vec![change(4, 5, b"dd"), change(4, 13, b""), change(4, 8, b"")],
            now: 0,
        };
        let steps = steps(case.clone());
        let answers = steps.iter().map(|(edited, _)| (edited.answer.number, edited.roll.n, edited.roll.h));
        assert_eq!(answers.collect::<Vec<_>>(), [(0, 12, 15), (10, 12, 15), (0, 8, 8)]);
        let (longer, shorter) = ([0x18, 0xDD, 0x34, 0x60, 0xAA], [0x18, 0x18, 0, 0, 0xAA]);
        for ((_, left), buf) in steps.iter().zip([longer, longer, shorter]) {
            assert_eq!(left.buf[..], buf);
            assert_eq!(left.directory[..], [0, 77]);
        }
        let met = case.compare(Library::Reference).unwrap();
        assert_eq!(met.iter().map(|met| met.number).collect::<Vec<_>>(), [0, 10, 0]);
        // Each edit is compared, and a difference names its own.
        for (error, number) in
            [("shifts by whole bytes", 1), ("writes h though refused", 2), ("leaves removed digits", 3)]
        {
            let text = case.compare(Library::WithError(error)).err().unwrap();
            assert!(text.starts_with(&format!("edit {} of 3\n", number)), "{}: {}", error, text);
        }
    }

    #[test]
    fn telephone_numbers_come_into_chosen_tables() {
        let mut rng = Rng::new(3);
        for _ in 0..400 {
            let (table, length) = (chosen_table(&mut rng), rng.length());
            let made = packed_roll(&mut rng, table, length, &[]);
            let (_, starts) = made.cut();
            let (record, mut buf) = (made.roll(), made.buf);
            let mut directory: Vec<u32> = starts.into_iter().step_by(STRIDE).collect();
            let place = rng.between(0, record.n as usize);
            let number = telephone_number(&mut rng);
            let edited = by_reference(record, &mut buf, &mut directory, place, place, &number);
            // Whatever else: buffer and directory may be too short.
            assert!(matches!(edited.answer.number, 0 | 4 | 12), "{:?}", edited);
        }
        let (_, reached) = compare_calls(&operations::all(), Library::Reference, 2_000, 3).unwrap();
        for corner in ["edits that put in a telephone number", "edits of a run by a telephone number"] {
            assert!(reached.contains_key(corner), "{}", corner);
        }
    }

    #[test]
    fn two_refusals_that_stand_side_by_side_come_together() {
        let (_, reached) = compare_calls(&operations::all(), Library::Reference, 6_000, 3).unwrap();
        for corner in [
            "edits refused 8 with a wrong entry too",
            "edits refused 9 with a bad range too",
            "edits refused 10 with a foreign character too",
            "edits refused 3 with the room too small too",
            "edits refused 4 with the directory too short too",
        ] {
            assert!(reached.contains_key(corner), "{}", corner);
        }
    }
}
