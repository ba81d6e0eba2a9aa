//! Searching by jumping: rolls made of a pattern and of what nearly is it, at every symbol of a byte and at both ends.

use monterculo::sys::{Answer, Table};
use monterculo_reference::reference::{bytes_of, listing, LIMIT, PATTERN};

use super::search::{entries_lent, Both, Search};
use crate::faults::{bad_pattern, faults, Fault};
#[cfg(test)]
use crate::jumping;
use crate::operation::{Cases, Corners, Operation};
#[cfg(test)]
use crate::planted::says;
use crate::rng::Rng;
use crate::rolls::{bytes_for, per_byte, roll_of_codewords};
use crate::tables::{characters, give, ranks_up_to, table_with};
use crate::texts::ranks;

/// Answered by both engines, as every search.
#[derive(Clone, Debug, PartialEq)]
pub struct SearchJumping(Search);

impl Operation for SearchJumping {
    const NAME: &'static str = "search_jumping";
    const LISTED: &'static [u32] = Search::LISTED;
    const CASES: Cases<Self> = &[(7, make)];
    const AT_LIMIT: Cases<Self> = &[(2, make_at_limit)];
    type Answer = Both;

    fn archive(&mut self) -> Both {
        self.0.archive()
    }

    fn reference(&mut self) -> Both {
        self.0.reference()
    }

    fn refused(&self, refusal: Answer) -> Both {
        self.0.refused(refusal)
    }

    fn corners(&self, both: &Both, met: &mut Corners) {
        self.0.corners(both, met);
    }

    #[cfg(test)]
    const ERRORS: &'static [&'static str] = &[
        "takes any match of symbols",
        "goes on behind a hit",
        "counts one hit more",
        "counts one hit fewer",
        "cuts the total to the list",
        "misses the first hit",
        "misses the last hit",
        "lists a hit twice",
        "lists one hit fewer",
        "lists backwards",
        "lists symbol numbers",
        "finds a near miss at the front",
        "finds a near miss in the middle",
        "finds a near miss at the end",
        "compares 63 characters",
        "passes over the first place",
        "passes over the last place",
        "clears what is behind",
        "writes an entry behind the list",
        "asks 11 first",
        "asks 11 before 8",
        "refuses a foreign character",
        "refuses 64 characters",
        "finds the empty pattern",
        "takes byte 10",
        "takes byte 10 alone",
        "takes byte 10 at the front",
        "takes byte 10 at the end",
        "takes byte 10 in the middle",
        "takes byte 10 behind 63 others",
        "takes byte 10 behind byte 13",
        "takes byte 10 where the table has it",
        "takes byte 10 where the table has it not",
        "asks for byte 10 first",
        "asks for byte 10 before 8",
        "answers where byte 10 is",
        "refuses byte 13",
        "refuses byte 13 at the end",
        "writes though refused",
        "passes what is refused",
        "by jumps: jumps a byte too far",
        "by jumps: jumps by a whole window",
        "by jumps: asks the first of four windows",
        "by jumps: asks three of four windows",
        "by jumps: asks the last of four windows",
        "by jumps: makes its table for one alignment",
        "by jumps: leaves an alignment out of its table",
        "by jumps: leaves keys at free symbols out",
        "by jumps: takes free symbols to be 0",
        "by jumps: marks keys at free symbols last",
        "by jumps: keeps the first place of a key",
        "by jumps: makes its entries one too small",
        "by jumps: makes an alignment's entries one too small",
        "by jumps: counts places from the pattern's first symbol",
        "by jumps: takes windows of over 255 bytes",
        "by jumps: does not try the first alignment",
        "by jumps: does not try the last alignment",
        "by jumps: begins with a byte alone",
        "by jumps: takes one hit of a window",
        "by jumps: leaves out the first window",
        "by jumps: passes over a match at the first symbol",
        "by jumps: passes over a window with fewer alignments",
        "by jumps: leaves out the last byte",
        "by jumps: leaves out the last symbol",
        "by jumps: compares a window's symbols alone",
        "by jumps: compares nothing before a window",
        "by jumps: compares nothing behind a window",
        "by jumps: asks for the last byte of another alignment",
        "by jumps: asks for the last byte where it may be free",
        "by jumps: takes a hit behind a continuer",
        "by jumps: goes on a window behind a hit",
        "by jumps: numbers by the window",
        "by jumps: numbers by whole bytes alone",
        "by jumps: leaves out the last third of a block",
        "by jumps: counts whole blocks alone",
        "by jumps: counts from the end one off",
        "by jumps: reads behind h",
        "by jumps: keeps h in 16 bits",
        "by jumps: finds nothing of too few symbols",
    ];

    #[cfg(test)]
    const ERRORS_AT_LIMIT: &'static [&'static str] =
        &["by jumps: keeps h in 20 bits", "by jumps: keeps 16 bits of a byte", "keeps 16 bits of a hit"];

    /// The error is in the one that jumps; the plain search is right.
    #[cfg(test)]
    fn with_error(&mut self, error: &str) -> Both {
        let mut slice = self.0.jumping.clone();
        let by_jumps = error.strip_prefix("by jumps: ");
        let mut jumping = self.0.wrong(error, &mut slice);
        if let (Some(error), 0) = (by_jumps, jumping.number) {
            let Search { roll, buf, jumping: lent, .. } = &self.0;
            let packed = self.0.packed();
            if let Some((listed, total)) =
                packed.and_then(|packed| jumping::hits(roll, buf, &packed, lent.len(), error))
            {
                slice = lent.clone();
                slice[..listed.len()].copy_from_slice(&listed);
                jumping = says(0, total);
            }
        }
        let both = self.0.reference();
        self.0.jumping = slice;
        Both { jumping, ..both }
    }
}

/// Every code; few characters, so that much is nearly the pattern, or many.
fn table(rng: &mut Rng) -> Table {
    let k = rng.pick(&[2, 4]);
    let s = rng.between(1, (1 << k) - 1) as u8;
    let sigma = match rng.below(8) {
        0 => 1,
        1..=3 => rng.between(2, 6),
        4 => {
            let length = rng.between(1, 4);
            (ranks_up_to(k, s, length) + rng.below(2)).min(256)
        }
        5 => 256,
        _ => rng.between(2, 256),
    };
    table_with(rng, k, s, sigma)
}

/// What is sought, by ranks: of 1 to 8 symbols, or of 1, 2, 3, 64 or any number of characters; all alike, two by turns,
/// of the longest codewords, or any.
fn sought(rng: &mut Rng, table: &Table) -> Vec<usize> {
    let sigma = usize::from(table.sigma);
    if rng.one_in(4) {
        return of_few_symbols(rng, table);
    }
    let any = rng.between(1, PATTERN);
    let few = rng.between(4, 12);
    let length = rng.pick(&[1, 2, 3, few, few, any, any, PATTERN]);
    let mut sought = ranks(rng, sigma, length);
    match rng.below(6) {
        0 => sought.fill(rng.below(sigma)),
        1 => {
            let pair = [rng.below(sigma), rng.below(sigma)];
            sought = pair.iter().copied().cycle().take(length).collect();
        }
        // Its first codeword is the end of a longer one, so that its symbols can stand inside that.
        2..=3 => {
            let list = listing(table.k, table.s);
            let codeword = &list.codewords[sigma - 1 - rng.below(sigma.min(3))];
            sought[0] = list.rank(&codeword[rng.below(codeword.len())..]).expect("the end of a codeword is one");
        }
        // The longest codewords, which may fill more than the widest window.
        4 => sought.iter_mut().for_each(|rank| *rank = sigma - 1 - rng.below(sigma.min(3))),
        _ => {}
    }
    sought
}

/// Ranks of 1 to 8 symbols: too few for a window, or windows of one byte to four.
fn of_few_symbols(rng: &mut Rng, table: &Table) -> Vec<usize> {
    let list = listing(table.k, table.s);
    let mut left = rng.between(1, 8);
    let mut sought = Vec::new();
    while left > 0 {
        // Rank 0 takes one symbol, later ones as many or more.
        let rank = rng.below(ranks_up_to(table.k, table.s, left).min(usize::from(table.sigma)));
        left -= list.codewords[rank].len();
        sought.push(rank);
    }
    sought
}

/// Makes byte 10 the character of a rank that is not sought, or of none, and byte 13 now and then that of one that is.
/// The symbols of a text are the same whatever the characters are.
fn place_line_ends(rng: &mut Rng, table: &mut Table, sought: &[usize]) {
    if rng.one_in(8) {
        give(table, rng.pick(sought), 13);
    }
    let others: Vec<usize> = (0..usize::from(table.sigma)).filter(|rank| !sought.contains(rank)).collect();
    let is_sought = |table: &Table, byte| sought.iter().any(|&rank| table.places[rank] == byte);
    if !others.is_empty() && rng.one_in(2) {
        give(table, rng.pick(&others), 10);
    } else if let Some(rank) = sought.iter().copied().find(|&rank| table.places[rank] == 10) {
        let free = (0..=255).find(|&byte| !is_sought(table, byte)).expect("no more than 64 are sought");
        give(table, rank, free);
    }
}

/// The pattern, what nearly is it, or what lies between.
fn piece(rng: &mut Rng, table: &Table, sought: &[usize], longest: usize) -> Vec<usize> {
    let (sigma, length) = (usize::from(table.sigma), sought.len());
    let mut piece = sought.to_vec();
    match rng.below(16) {
        0..=3 => {}
        // One character is another: at the front, in the middle, at the end.
        4..=6 => {
            let place = rng.pick(&[0, length / 2, length - 1]);
            piece[place] = rng.below(sigma);
        }
        // Its first codeword is the end of that of another character.
        7..=8 => {
            let list = listing(table.k, table.s);
            let ends = |&rank: &usize| list.codewords[rank].ends_with(&list.codewords[sought[0]]);
            let longer: Vec<usize> = (0..sigma).filter(ends).collect();
            piece[0] = rng.pick(&longer);
        }
        // It stands twice, and the second time as early as it can.
        9..=10 => {
            let again = (1..=length).find(|&by| sought[by..] == sought[..length - by]).unwrap_or(length);
            piece.extend(&sought[length - again..]);
        }
        11 => piece.truncate(rng.between(1, length)),
        12 => drop(piece.drain(..rng.below(length))),
        // Rank 0 takes one symbol.
        13 => piece = vec![0; rng.between(0, 4)],
        _ => {
            let length = rng.between(1, longest);
            piece = ranks(rng, sigma, length);
        }
    }
    piece
}

fn make(rng: &mut Rng) -> SearchJumping {
    let full = if rng.one_in(30) { Some(rng.near_16_bits()) } else { None };
    of(rng, full)
}

fn make_at_limit(rng: &mut Rng) -> SearchJumping {
    let symbols = rng.pick(&[LIMIT - 1, LIMIT, LIMIT]);
    of(rng, Some(symbols))
}

/// Of a roll of so many symbols, or mostly a short one.
fn of(rng: &mut Rng, full: Option<usize>) -> SearchJumping {
    use Fault::*;
    let mut table = table(rng);
    let (k, list) = (table.k, listing(table.k, table.s));
    let taken = |ranks: &[usize]| ranks.iter().map(|&rank| list.codewords[rank].len()).sum::<usize>();
    let sought = sought(rng, &table);
    place_line_ends(rng, &mut table, &sought);
    let most = full.unwrap_or_else(|| match rng.below(20) {
        0 => rng.between(1_000, 6_000),
        1..=4 => rng.below(1_000),
        _ => rng.below(120),
    });

    // At the front the pattern or one to three symbols, and then any pieces.
    let mut text = if rng.one_in(2) { sought.clone() } else { vec![0; rng.below(4)] };
    let mut length = taken(&text);
    // At the end the pattern, or a beginning of it whose other symbols lie behind the roll.
    let cut = match rng.below(8) {
        0..=2 => sought.len(),
        3 => rng.below(sought.len()),
        _ => 0,
    };
    let end = &sought[..cut];
    while length + taken(end) < most {
        let piece = piece(rng, &table, &sought, if full.is_some() { 2_000 } else { 40 });
        let more = taken(&piece);
        if full.map_or(false, |most| length + more + taken(end) > most) {
            break;
        }
        length += more;
        text.extend(piece);
    }
    // Filled up by rank 0: as far as was said, or to the end of a byte if something is to go on behind it.
    let goes_on = 0 < cut && cut < sought.len();
    let mut fill = full.map_or(0, |most| most.saturating_sub(length + taken(end)));
    if goes_on {
        let per = per_byte(k);
        fill += (per - (length + fill + taken(end)) % per) % per;
    }
    text.resize(text.len() + fill, 0);
    text.extend(end);

    #[rustfmt::skip]
    let mut faults = faults(rng, &[Table, OtherTable, Room, Rank, Unfinished, Count, Length, Unused, Unused, Bits, Pattern, Pattern, Pattern, Pattern]);
    // More of them sound than of other searches.
    if rng.one_in(3) {
        faults.clear();
    }
    let codewords = |ranks: &[usize]| ranks.iter().map(|&rank| &list.codewords[rank][..]).collect::<Vec<_>>();
    let mut made = roll_of_codewords(rng, table, codewords(&text), &faults);
    if goes_on && faults.is_empty() {
        made.buf.truncate(bytes_for(k, made.symbols.len()));
        made.buf.extend(bytes_of(k, &codewords(&sought[cut..]).concat()));
    }

    let mut pattern: Vec<u8> = sought.iter().map(|&rank| table.places[rank]).collect();
    if rng.one_in(30) {
        let first = rng.pick(&[0, 13]);
        let absent = (first..=255).chain(0..first).find(|byte| *byte != 10 && !characters(&table).contains(byte));
        let any = rng.below(pattern.len());
        let place = rng.pick(&[0, pattern.len() - 1, any]);
        pattern[place] = absent.unwrap_or(pattern[place]);
    }
    if faults.contains(&Pattern) {
        let characters: Vec<u8> = text.iter().map(|&rank| table.places[rank]).collect();
        pattern = bad_pattern(rng, &pattern, &characters);
    }
    let total = text.windows(sought.len()).filter(|&at| at == sought).count();
    let entries = entries_lent(rng, total);
    SearchJumping(Search::new(made.roll(), made.buf, pattern, rng.numbers(entries)))
}

#[cfg(test)]
mod tests {
    use std::collections::{BTreeMap, BTreeSet};

    use super::super::search::{LINE_ENDS, OTHERS};
    use super::*;
    use crate::operation::{Case, Library};
    use crate::rolls::{fills_window, starts};

    #[test]
    fn byte_10_comes_in_every_way() {
        LINE_ENDS.hold(OTHERS, make, |case| &case.0.pattern);
    }

    #[test]
    fn by_jumps_without_an_error_it_is_the_reference() {
        for call in 0..2_000 {
            let case = make(&mut Rng::of_call(5, call));
            case.compare(Library::WithError("by jumps: ")).unwrap_or_else(|text| panic!("{}: {}", call, text));
        }
    }

    #[test]
    fn hits_come_in_every_way() {
        let (mut codes, mut places, mut lengths, mut ends) =
            (BTreeSet::new(), BTreeSet::new(), BTreeSet::new(), BTreeSet::new());
        let mut few = BTreeMap::new();
        for call in 0..3_000 {
            let SearchJumping(mut case) = make(&mut Rng::of_call(5, call));
            let before = case.clone();
            let Both { plain, .. } = case.reference();
            if plain.number != 0 || plain.value == 0 {
                continue;
            }
            let (table, n, length) = (case.roll.table, case.roll.n as usize, case.pattern.len());
            let per = per_byte(table.k);
            let symbols = before.packed().map_or(0, |packed| packed.len());
            let long = fills_window(table.k, symbols);
            *few.entry((table.k, symbols)).or_insert(0) += 1;
            let starts = starts(&case.roll, &case.buf);
            let mut all = vec![0; n];
            let found = plain.value as usize;
            monterculo_reference::reference::search(&case.roll.into(), &case.buf, &case.pattern, &mut all).unwrap();
            codes.insert((table.k, table.s, long));
            lengths.insert((table.k, length));
            for &hit in &all[..found] {
                // The symbols of a byte at which it begins and ends.
                let place = |character: usize| starts[character] as usize % per;
                let (first, last) = (hit as usize, hit as usize + length);
                if long {
                    places.insert((table.k, place(first), place(last)));
                    ends.insert((table.k, first == 0, last == n));
                }
            }
        }
        // Each code, with patterns to jump by and with shorter ones.
        assert_eq!(codes.len(), 2 * 18);
        assert!([2, 4]
            .iter()
            .all(|&k| (1..=8).all(|symbols| few.get(&(k, symbols)).map_or(false, |&times| times >= 20))));
        assert_eq!(places.len(), 4 * 4 + 2 * 2);
        assert!([2, 4].iter().all(|&k| [1, 2, 3, 63, PATTERN].iter().all(|&length| lengths.contains(&(k, length)))));
        assert_eq!(ends.len(), 2 * 4);
    }
}
