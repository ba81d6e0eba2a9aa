//! What every operation answers where it does not accept.

use std::error::Error;
use std::fmt;

use crate::sys::{self, Answer};
use crate::{PATTERN, PLACES, SYMBOLS};

/// A refusal: what is bad, and where or how much.
///
/// Each has the paper's [number](Refusal::number) and [value](Refusal::value); a number with two causes has two names.
/// The refusals of an operation stand in its documentation in their order: the first that applies is answered. A refused
/// call changes nothing that was lent to it, but for a 6 that [feeding a piece](crate::Searcher::feed) meets: it names
/// the hits before it.
///
/// `Display` and `Debug` both write the words, so that a `main` that gives a refusal back prints them.
///
/// ```
/// use monterculo::{Refusal, Roll, Table};
///
/// let table = Table::new(2, 3, b"abrcd");
/// match Roll::pack(&table, b"abraxas", &mut [0; 16]) {
///     Err(Refusal::NotInTable { place, character }) => assert_eq!((place, character), (4, b'x')),
///     other => panic!("{:?}", other),
/// }
///
/// let refusal = Table::choose(3, &[0; 256]).unwrap_err();
/// assert_eq!((refusal.number(), refusal.value()), (1, 0));
/// assert_eq!(refusal.to_string(), "refusal 1: the table is not good: k is 3, and must be 2 or 4");
/// ```
#[derive(Clone, Copy, PartialEq, Eq, Hash)]
#[non_exhaustive]
pub enum Refusal {
    /// 1: the table is not good.
    BadTable {
        /// What is bad in it.
        fault: TableFault,
    },
    /// 2: the counts are not 256.
    BadCounts {
        /// How many they are.
        length: usize,
    },
    /// 3: the text, for an edit the text put in, has a character that is not in the table.
    NotInTable {
        /// Where the first such stands.
        place: usize,
        /// Which one it is.
        character: u8,
    },
    /// 4: the packed text takes more symbols than the buffer has room for.
    NoRoom {
        /// The first character that does not fit; for an edit, in the edited text.
        character: usize,
    },
    /// 4, of counting: the text has more than 1,048,576 characters.
    LongText {
        /// How many it has.
        length: usize,
    },
    /// 5: the record says more symbols than the buffer has room for.
    BadSymbolCount {
        /// How many it says.
        h: usize,
    },
    /// 5, of [`Searcher::new`](crate::Searcher::new) and [`OwnedRoll::from_frames`](crate::OwnedRoll::from_frames): the
    /// record says more symbols than a roll may have.
    LongRoll {
        /// How many it says.
        h: usize,
    },
    /// 5, of a piece: it reaches past the roll's last byte.
    LongPiece {
        /// How many bytes it has.
        length: usize,
        /// How many bytes of the roll had not come in.
        missing: usize,
        /// How many symbols the record says.
        h: usize,
    },
    /// 6: reading meets a codeword unfinished at h, or of rank σ or more.
    BadCodeword {
        /// The first symbol of it.
        symbol: usize,
    },
    /// 6, of [`Table::character_of`](crate::Table::character_of): the symbols are not exactly one codeword of rank
    /// below σ.
    NotOneCodeword,
    /// 6, of [`Searcher::finish`](crate::Searcher::finish): not all of the roll has come in.
    EndsTooSoon {
        /// The first symbol of the unfinished codeword, or how many were read if none is open.
        symbol: usize,
        /// How many bytes are missing.
        missing: usize,
    },
    /// 7: the symbols read as another number of characters than the record says.
    BadCharacterCount {
        /// How many were read.
        read: usize,
        /// How many the record says.
        n: usize,
    },
    /// 8: an unused symbol of the last byte is not 0.
    BadUnused,
    /// 9: an entry of the directory is missing or wrong.
    BadEntry {
        /// The number of the first such.
        entry: usize,
        /// Whether it is missing.
        missing: bool,
    },
    /// 10: the range starts behind its end, or ends behind the text.
    BadRange {
        /// Where it starts.
        start: usize,
        /// Where it ends.
        end: usize,
        /// How many characters the text has.
        n: usize,
    },
    /// 10, of a single place: the text has no character there.
    BadPlace {
        /// The place.
        place: usize,
        /// How many characters the text has.
        n: usize,
    },
    /// 11: the pattern is empty, or has more than 64 characters.
    BadPattern {
        /// How many it has.
        length: usize,
    },
    /// 11, of a pattern of 1 to 64 characters: one of them is byte 10, the newline.
    NewlineInPattern {
        /// Where the first such stands.
        place: usize,
    },
    /// 12: the directory is shorter than the result needs.
    ShortDirectory {
        /// The entries needed.
        needed: usize,
    },
    /// 13: the output is shorter than the range, the frame text or the frame's bytes.
    ShortOutput {
        /// The bytes needed.
        needed: usize,
    },
    /// 14: the hit slice is shorter than a piece needs.
    ShortHits {
        /// The entries needed.
        needed: usize,
    },
    /// 15: a line of a frame text is wrong, missing or too many.
    BadLine {
        /// The number of the first such, from 0.
        line: usize,
        /// Whether it is missing.
        missing: bool,
    },
    /// 15, of a single line: it is not the frame that was to be read.
    NotTheFrame,
    /// An answer that this crate does not know; an archive of its own version gives none.
    Other {
        /// The answer's number.
        number: u32,
        /// The answer's value.
        value: u64,
    },
}

/// What is bad in a table.
#[derive(Clone, Copy, Debug, PartialEq, Eq, Hash)]
#[non_exhaustive]
pub enum TableFault {
    /// k is not 2 or 4.
    Width {
        /// What it is.
        k: u8,
    },
    /// s is below 1 or above 2^k − 1.
    Stoppers {
        /// What it is.
        s: u8,
        /// The most it may be.
        most: u8,
    },
    /// σ is above 256.
    Characters {
        /// What it is.
        sigma: u16,
    },
    /// A character stands twice among the first σ places.
    Twice {
        /// Which one.
        character: u8,
    },
    /// None of these: the archive asks something that this crate does not know.
    Unknown,
}

/// What a call was given, as far as a refusal tells it.
#[derive(Clone, Copy, Default)]
pub(crate) struct Given<'a> {
    pub table: Option<&'a sys::Table>,
    /// The text or the pattern.
    pub text: &'a [u8],
    pub n: u32,
    /// The directory's entries.
    pub entries: usize,
    /// The lines of a frame text.
    pub lines: usize,
    pub start: usize,
    pub end: usize,
}

impl Answer {
    /// The value of accepted work, or the refusal.
    pub(crate) fn result(self, given: Given<'_>) -> Result<u64, Refusal> {
        match self.number {
            0 => Ok(self.value),
            _ => Err(self.refusal(given)),
        }
    }

    /// The same for a value of fewer bits.
    pub(crate) fn narrow<T: TryFrom<u64>>(self, given: Given<'_>) -> Result<T, Refusal> {
        let value = self.result(given)?;
        T::try_from(value).map_err(|_| Refusal::Other { number: self.number, value })
    }

    fn refusal(self, given: Given<'_>) -> Refusal {
        let other = Refusal::Other { number: self.number, value: self.value };
        let value = match usize::try_from(self.value) {
            Ok(value) => value,
            Err(_) => return other,
        };
        let n = given.n as usize;
        match self.number {
            1 => Refusal::BadTable { fault: given.table.map_or(TableFault::Unknown, TableFault::of) },
            2 => Refusal::BadCounts { length: value },
            3 => match given.text.get(value) {
                Some(&character) => Refusal::NotInTable { place: value, character },
                None => other,
            },
            4 => Refusal::NoRoom { character: value },
            5 => Refusal::BadSymbolCount { h: value },
            6 => Refusal::BadCodeword { symbol: value },
            7 => Refusal::BadCharacterCount { read: value, n },
            8 => Refusal::BadUnused,
            9 => Refusal::BadEntry { entry: value, missing: value >= given.entries },
            10 => Refusal::BadRange { start: given.start, end: given.end, n },
            11 => match given.text.iter().position(|&character| character == b'\n') {
                Some(place) if given.text.len() <= PATTERN => Refusal::NewlineInPattern { place },
                _ => Refusal::BadPattern { length: given.text.len() },
            },
            12 => Refusal::ShortDirectory { needed: value },
            13 => Refusal::ShortOutput { needed: value },
            14 => Refusal::ShortHits { needed: value },
            15 => Refusal::BadLine { line: value, missing: value >= given.lines },
            _ => other,
        }
    }
}

impl Refusal {
    /// The paper's number, 1 to 15.
    pub fn number(&self) -> u32 {
        match *self {
            Refusal::BadTable { .. } => 1,
            Refusal::BadCounts { .. } => 2,
            Refusal::NotInTable { .. } => 3,
            Refusal::NoRoom { .. } | Refusal::LongText { .. } => 4,
            Refusal::BadSymbolCount { .. } | Refusal::LongRoll { .. } | Refusal::LongPiece { .. } => 5,
            Refusal::BadCodeword { .. } | Refusal::NotOneCodeword | Refusal::EndsTooSoon { .. } => 6,
            Refusal::BadCharacterCount { .. } => 7,
            Refusal::BadUnused => 8,
            Refusal::BadEntry { .. } => 9,
            Refusal::BadRange { .. } | Refusal::BadPlace { .. } => 10,
            Refusal::BadPattern { .. } | Refusal::NewlineInPattern { .. } => 11,
            Refusal::ShortDirectory { .. } => 12,
            Refusal::ShortOutput { .. } => 13,
            Refusal::ShortHits { .. } => 14,
            Refusal::BadLine { .. } | Refusal::NotTheFrame => 15,
            Refusal::Other { number, .. } => number,
        }
    }

    /// The paper's value: where it is, or how much; 0 where the number says all.
    pub fn value(&self) -> u64 {
        let value = match *self {
            Refusal::BadTable { .. }
            | Refusal::NotOneCodeword
            | Refusal::BadUnused
            | Refusal::BadRange { .. }
            | Refusal::BadPlace { .. }
            | Refusal::BadPattern { .. }
            | Refusal::NewlineInPattern { .. }
            | Refusal::NotTheFrame => 0,
            Refusal::BadCounts { length } => length,
            Refusal::NotInTable { place, .. } => place,
            Refusal::NoRoom { character } => character,
            Refusal::LongText { .. } => SYMBOLS,
            Refusal::BadSymbolCount { h } | Refusal::LongRoll { h } | Refusal::LongPiece { h, .. } => h,
            Refusal::BadCodeword { symbol } | Refusal::EndsTooSoon { symbol, .. } => symbol,
            Refusal::BadCharacterCount { read, .. } => read,
            Refusal::BadEntry { entry, .. } => entry,
            Refusal::ShortDirectory { needed } | Refusal::ShortOutput { needed } | Refusal::ShortHits { needed } => {
                needed
            }
            Refusal::BadLine { line, .. } => line,
            Refusal::Other { value, .. } => return value,
        };
        value as u64
    }
}

impl fmt::Display for Refusal {
    fn fmt(&self, f: &mut fmt::Formatter<'_>) -> fmt::Result {
        write!(f, "refusal {}: ", self.number())?;
        match *self {
            Refusal::BadTable { fault } => write!(f, "the table is not good: {fault}"),
            Refusal::BadCounts { length } => write!(f, "the length of the counts is {length}, and must be {PLACES}"),
            Refusal::NotInTable { place, character } => {
                write!(f, "the character '{}' at place {place} is not in the table", character.escape_ascii())
            }
            Refusal::NoRoom { character } => {
                write!(f, "the packed text has no room in the buffer, from its character {character} on")
            }
            Refusal::LongText { length } => {
                write!(f, "a text of {length} characters is too long to be counted: at most {SYMBOLS} can be")
            }
            Refusal::BadSymbolCount { h } => write!(f, "h is {h}, more symbols than the buffer has room for"),
            Refusal::LongRoll { h } => write!(f, "h is {h}, and a roll has at most {SYMBOLS} symbols"),
            Refusal::LongPiece { length, missing, .. } => {
                write!(f, "a piece of {length} bytes reaches past the roll's last: {missing} had not come in")
            }
            Refusal::BadCodeword { symbol } => write!(
                f,
                "the codeword at symbol {symbol} is bad: unfinished at the roll's end, or of a rank not in the table"
            ),
            Refusal::NotOneCodeword => write!(f, "the symbols are not exactly one codeword of a rank in the table"),
            Refusal::EndsTooSoon { symbol, missing } => {
                write!(f, "the roll ends too soon, at symbol {symbol}: {missing} bytes have not come in")
            }
            Refusal::BadCharacterCount { read, n } => {
                write!(f, "n is {n}, and the characters read are {read}")
            }
            Refusal::BadUnused => write!(f, "an unused symbol of the last byte is not 0"),
            Refusal::BadEntry { entry, missing } => {
                write!(f, "entry {entry} of the directory is {}", if missing { "missing" } else { "wrong" })
            }
            Refusal::BadRange { start, end, .. } if start > end => {
                write!(f, "the range {start}..{end} starts behind its end")
            }
            Refusal::BadRange { start, end, n } => {
                write!(f, "the range {start}..{end} ends behind the text, whose length is {n}")
            }
            Refusal::BadPlace { place, n } => write!(f, "place {place} is behind the text, whose length is {n}"),
            Refusal::BadPattern { length: 0 } => write!(f, "the pattern is empty"),
            Refusal::BadPattern { length } => write!(f, "the pattern has {length} characters, more than {PATTERN}"),
            Refusal::NewlineInPattern { place } => write!(f, "the pattern has a newline, at place {place}"),
            Refusal::ShortDirectory { needed } => write!(f, "the directory is too short: entries needed are {needed}"),
            Refusal::ShortOutput { needed } => write!(f, "the output is too short: bytes needed are {needed}"),
            Refusal::ShortHits { needed } => write!(f, "the hit slice is too short: entries needed are {needed}"),
            Refusal::BadLine { line, missing: true } => write!(f, "line {line} of the frame text is missing"),
            Refusal::BadLine { line, .. } => write!(f, "line {line} of the frame text is wrong, or one too many"),
            Refusal::NotTheFrame => write!(f, "the line is not the frame that was to be read"),
            Refusal::Other { value, .. } => write!(f, "not known to this crate; its value is {value}"),
        }
    }
}

/// The words again: what `main` prints of a refusal that it gives back.
impl fmt::Debug for Refusal {
    fn fmt(&self, f: &mut fmt::Formatter<'_>) -> fmt::Result {
        fmt::Display::fmt(self, f)
    }
}

impl Error for Refusal {}

impl TableFault {
    /// The first fault of a table that was refused, in the order in which the paper names them.
    fn of(table: &sys::Table) -> TableFault {
        let most = match table.k {
            2 => 3,
            4 => 15,
            k => return TableFault::Width { k },
        };
        if table.s < 1 || table.s > most {
            return TableFault::Stoppers { s: table.s, most };
        }
        if usize::from(table.sigma) > PLACES {
            return TableFault::Characters { sigma: table.sigma };
        }
        let mut characters = table.places.iter().take(table.sigma.into());
        while let Some(&character) = characters.next() {
            if characters.clone().any(|&later| later == character) {
                return TableFault::Twice { character };
            }
        }
        TableFault::Unknown
    }
}

impl fmt::Display for TableFault {
    fn fmt(&self, f: &mut fmt::Formatter<'_>) -> fmt::Result {
        match *self {
            TableFault::Width { k } => write!(f, "k is {k}, and must be 2 or 4"),
            TableFault::Stoppers { s, most } => write!(f, "s is {s}, and must be from 1 to {most}"),
            TableFault::Characters { sigma } => write!(f, "it has {sigma} characters, more than {PLACES}"),
            TableFault::Twice { character } => write!(f, "it has the character '{}' twice", character.escape_ascii()),
            TableFault::Unknown => write!(f, "the archive refuses it"),
        }
    }
}

#[cfg(test)]
mod tests {
    use super::*;

    /// Numbers and values go through, known or not, whatever the call was given.
    #[test]
    fn numbers_and_values() {
        let given = Given { text: b"abc", ..Given::default() };
        for number in 1..=40 {
            for value in [0, 2, 3, u64::MAX] {
                let refusal = Answer { number, value }.result(given).unwrap_err();
                assert_eq!(refusal.number(), number);
                let said = if [1, 8, 10, 11].contains(&number) { 0 } else { value };
                assert_eq!(refusal.value(), said, "{refusal}");
                assert!(refusal.to_string().starts_with(&format!("refusal {number}: ")));
                assert_eq!(matches!(refusal, Refusal::Other { .. }), number > 15 || number == 3 && value > 2);
            }
        }
    }

    /// The length is named first; a newline only in a pattern that is good but for it.
    #[test]
    fn what_is_bad_in_a_pattern() {
        let refusal = |text: &[u8]| Answer { number: 11, value: 0 }.refusal(Given { text, ..Given::default() });
        assert_eq!(refusal(b""), Refusal::BadPattern { length: 0 });
        assert_eq!(refusal(b"\n"), Refusal::NewlineInPattern { place: 0 });
        assert_eq!(refusal(b"a\r\nb\n"), Refusal::NewlineInPattern { place: 2 });
        assert_eq!(refusal(&[b'\n'; 64]), Refusal::NewlineInPattern { place: 0 });
        assert_eq!(refusal(&[b'\n'; 65]), Refusal::BadPattern { length: 65 });
    }

    #[test]
    fn a_value_too_great() {
        let accepted = |value| Answer { number: 0, value }.narrow::<u8>(Given::default());
        assert_eq!(accepted(255), Ok(255));
        assert_eq!(accepted(256), Err(Refusal::Other { number: 0, value: 256 }));
    }
}
