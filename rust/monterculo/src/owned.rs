//! A roll that has its buffer and its directory itself.

use std::ops::{Range, RangeBounds};

use crate::frames::first_line;
use crate::roll::bounds;
use crate::{bytes_for, count, entries_for, frame_text_for, Refusal, Roll, Table, Width, PLACES, SYMBOLS};

/// A roll together with its buffer and its directory, both with spare room where it was asked for.
///
/// It is sound and its directory right, always: it comes from a text, or from parts or frames that were checked, and only
/// accepted edits change it. Where an edit needs more room it is made, up to the 1,048,576 symbols that a roll may have.
///
/// ```
/// use monterculo::{OwnedRoll, Width};
///
/// let members = b"pan 7 Oda 5550143\npan 12 Jory 5550128\n";
/// // No further characters: digits, + and the line end are in every chosen table. Room for 40 symbols more.
/// let mut roll = OwnedRoll::with_spare(Width::Two, members, b"", 40)?;
/// assert_eq!(roll.find(b"pan 12 ")?, [18]);
/// let line = roll.line_of(18)?;
/// assert_eq!((line.range, &line.text[..]), (18..37, &b"pan 12 Jory 5550128"[..]));
/// roll.replace(30..37, b"0445550196")?;
/// assert_eq!(roll.text(), b"pan 7 Oda 5550143\npan 12 Jory 0445550196\n");
/// # Ok::<(), monterculo::Refusal>(())
/// ```
#[derive(Clone, Debug)]
pub struct OwnedRoll {
    roll: Roll,
    /// Zero behind the packed bytes.
    buf: Vec<u8>,
    /// Has entries for as many characters as the buffer can hold; zero behind those in use.
    directory: Vec<u32>,
}

/// A line of a text: the characters between two bytes 10, or between one and the text's beginning or end.
#[derive(Clone, Debug, PartialEq, Eq, Hash)]
pub struct Line {
    /// Where it stands, without the byte 10 that ends it.
    pub range: Range<usize>,
    /// What it says.
    pub text: Vec<u8>,
}

/// Spare room plays no part.
impl PartialEq for OwnedRoll {
    fn eq(&self, other: &OwnedRoll) -> bool {
        self.as_parts() == other.as_parts()
    }
}

impl Eq for OwnedRoll {}

impl OwnedRoll {
    /// Packs a text under the best table for it, with no room to spare.
    ///
    /// Only the text's own characters, the ten digits, + and byte 10 can come by [`OwnedRoll::replace`];
    /// [`OwnedRoll::with_spare`] takes further ones.
    ///
    /// Refusals, in their order: 4 (1,048,576; the text is longer), 4 (number of the first character behind the
    /// 1,048,576 symbols of a roll).
    ///
    /// ```
    /// use monterculo::{OwnedRoll, Width};
    ///
    /// let roll = OwnedRoll::new(Width::Two, b"abracadabra")?;
    /// assert_eq!(roll.as_parts().1, [0x18, 0x2a, 0x4a, 0xc1, 0x80]);
    /// # Ok::<(), monterculo::Refusal>(())
    /// ```
    pub fn new(width: Width, text: &[u8]) -> Result<OwnedRoll, Refusal> {
        OwnedRoll::with_spare(width, text, b"", 0)
    }

    /// Packs a text under the best table for it, in which these `characters` have a place too, such as all letters; the
    /// ten digits, + and byte 10 always have one. There is room for so many `symbols` more than the text takes. A
    /// character takes 1 to 86 of them.
    ///
    /// Refusals: those of [`OwnedRoll::new`].
    ///
    /// ```
    /// use monterculo::{OwnedRoll, Refusal, Width};
    ///
    /// let mut roll = OwnedRoll::with_spare(Width::Four, b"tel 5550143", b"fax", 16)?;
    /// roll.replace(.., b"fax +445550289")?;
    /// assert_eq!(roll.text(), b"fax +445550289");
    /// assert_eq!(roll.replace(7..7, b"-"), Err(Refusal::NotInTable { place: 0, character: b'-' }));
    /// # Ok::<(), monterculo::Refusal>(())
    /// ```
    pub fn with_spare(width: Width, text: &[u8], characters: &[u8], symbols: usize) -> Result<OwnedRoll, Refusal> {
        OwnedRoll::make(width.k(), text, characters, symbols)
    }

    fn make(k: u8, text: &[u8], characters: &[u8], symbols: usize) -> Result<OwnedRoll, Refusal> {
        let mut counts = [0; PLACES];
        count(text, &mut counts)?;
        for &character in characters {
            if let Some(counted) = counts.get_mut(usize::from(character)) {
                *counted = (*counted).max(1);
            }
        }
        let (table, total) = Table::choose(k, &counts)?;
        // Enough, and more where the text holds not all that the table has.
        let mut buf = vec![0; bytes_for(k, total.min(SYMBOLS as u64))];
        let roll = Roll::pack(&table, text, &mut buf)?;
        let mut owned = OwnedRoll { roll, buf, directory: Vec::new() };
        owned.set_room(owned.symbols().saturating_add(symbols));
        owned.roll.make_directory(&owned.buf, &mut owned.directory)?;
        Ok(owned)
    }

    /// The roll of these parts, such as [`OwnedRoll::as_parts`] gave and were stored. A buffer or a directory that is
    /// longer than the roll needs is spare room; what it holds there is cleared.
    ///
    /// The parts are checked, the directory too. This finds what breaks the form, and not every change of the text: keep
    /// a checksum of your own.
    ///
    /// Refusals, in their order: those of [`Roll::check`], then 9 (the first missing or wrong entry).
    ///
    /// ```
    /// use monterculo::{OwnedRoll, Refusal, Roll, Table};
    ///
    /// let record = || Roll::new(Table::new(4, 3, b"anb"), 6, 6);
    /// let roll = OwnedRoll::from_parts(record(), vec![0x20, 0x10, 0x10], vec![0])?;
    /// assert_eq!(roll.text(), b"banana");
    /// let refusal = OwnedRoll::from_parts(record(), vec![0x20, 0x10, 0x10], vec![1]).unwrap_err();
    /// assert_eq!(refusal, Refusal::BadEntry { entry: 0, missing: false });
    /// # Ok::<(), monterculo::Refusal>(())
    /// ```
    pub fn from_parts(roll: Roll, buf: Vec<u8>, directory: Vec<u32>) -> Result<OwnedRoll, Refusal> {
        let mut owned = OwnedRoll { roll, buf, directory };
        // An edit looks at everything, and this one changes nothing.
        owned.roll.edit(&mut owned.buf, &mut owned.directory, 0..0, b"")?;
        let room = owned.room();
        owned.trim();
        owned.set_room(room);
        Ok(owned)
    }

    /// The record, the bytes in use and the directory's entries in use: what is to be stored.
    ///
    /// ```
    /// use monterculo::{OwnedRoll, Width};
    ///
    /// let roll = OwnedRoll::with_spare(Width::Four, b"banana", b"", 100)?;
    /// let (record, buf, directory) = roll.as_parts();
    /// assert_eq!((record.n(), record.h(), buf, directory), (6, 6, &[0xe0, 0x10, 0x10][..], &[0][..]));
    /// # Ok::<(), monterculo::Refusal>(())
    /// ```
    pub fn as_parts(&self) -> (&Roll, &[u8], &[u32]) {
        let (bytes, entries) = self.in_use();
        (
            &self.roll,
            self.buf.get(..bytes).unwrap_or(&self.buf),
            self.directory.get(..entries).unwrap_or(&self.directory),
        )
    }

    /// The same parts, handed over.
    pub fn into_parts(mut self) -> (Roll, Vec<u8>, Vec<u32>) {
        self.trim();
        (self.roll, self.buf, self.directory)
    }

    /// The roll of a frame text, such as [`OwnedRoll::to_frames`] gave and was sent; with no room to spare.
    ///
    /// The roll is checked. This finds what breaks the form, and not every change of a digit: send a checksum of your own.
    ///
    /// Refusals, in their order: 15 (0; the first line), 1 (0; the width), 15 (the first line that is wrong, missing or
    /// too many), then those of [`Roll::check`]: 5 where h is over 1,048,576.
    ///
    /// ```
    /// use monterculo::{OwnedRoll, Refusal};
    ///
    /// let roll = OwnedRoll::from_frames(b"01040300030000000600000006616e62\n02201010\n")?;
    /// assert_eq!(roll.text(), b"banana");
    /// let refusal = OwnedRoll::from_frames(b"01040300030000000600000006616e62\n022010\n").unwrap_err();
    /// assert_eq!(refusal, Refusal::BadLine { line: 1, missing: false });
    /// # Ok::<(), monterculo::Refusal>(())
    /// ```
    pub fn from_frames(text: &[u8]) -> Result<OwnedRoll, Refusal> {
        // Where the first line is refused the whole text is, whatever the buffer; and where the text has too few digits for
        // the bytes that h says, a line is missing.
        let room = Roll::from_first_line(first_line(text))
            .map_or(0, |roll| bytes_for(roll.table().k(), u64::from(roll.h()).min(SYMBOLS as u64)));
        let mut buf = vec![0; room.min(text.len() / 2)];
        let roll = match Roll::from_frames(text, &mut buf) {
            Err(Refusal::BadSymbolCount { h }) => return Err(Refusal::LongRoll { h }),
            read => read?,
        };
        let mut owned = OwnedRoll { roll, buf, directory: Vec::new() };
        owned.set_room(owned.symbols());
        owned.roll.make_directory(&owned.buf, &mut owned.directory)?;
        Ok(owned)
    }

    /// The roll as a frame text: lines of lower-case hexadecimal digits, each ended by byte 10, that can be sent one by
    /// one. Spare room and directory are no part of it.
    ///
    /// ```
    /// use monterculo::{OwnedRoll, Width};
    ///
    /// let roll = OwnedRoll::new(Width::Four, b"banana")?;
    /// assert_eq!(roll.to_frames(), b"01040f000f0000000600000006616e0a2b3031323334353637383962\n02e01010\n");
    /// assert_eq!(OwnedRoll::from_frames(&roll.to_frames())?, roll);
    /// # Ok::<(), monterculo::Refusal>(())
    /// ```
    pub fn to_frames(&self) -> Vec<u8> {
        let table = self.table();
        let mut out = vec![0; frame_text_for(table.k(), table.sigma(), self.roll.h())];
        // The roll is sound and the output as long as its text: nothing is refused.
        let length = self.roll.to_frames(&self.buf, &mut out).map_or(0, <[u8]>::len);
        out.truncate(length);
        out
    }

    /// The table.
    pub fn table(&self) -> &Table {
        self.roll.table()
    }

    /// How many characters the text has.
    pub fn len(&self) -> usize {
        self.roll.n() as usize
    }

    /// Whether the text has none.
    pub fn is_empty(&self) -> bool {
        self.len() == 0
    }

    /// The whole text.
    pub fn text(&self) -> Vec<u8> {
        // The roll is sound and the range its own: nothing is refused.
        self.text_of(..).unwrap_or_default()
    }

    /// The characters of a range.
    ///
    /// Refusals: 10 (0).
    ///
    /// ```
    /// use monterculo::{OwnedRoll, Width};
    ///
    /// let roll = OwnedRoll::new(Width::Two, b"abracadabra")?;
    /// assert_eq!(roll.text_of(..=3)?, b"abra");
    /// let refusal = roll.text_of(4..=11).unwrap_err();
    /// assert_eq!(refusal.to_string(), "refusal 10: the range 4..12 ends behind the text, whose length is 11");
    /// # Ok::<(), monterculo::Refusal>(())
    /// ```
    pub fn text_of(&self, range: impl RangeBounds<usize>) -> Result<Vec<u8>, Refusal> {
        let (start, end) = bounds(range, self.roll.n());
        // Never longer than the text, whatever was asked; what is no range of it is refused before the output is.
        let mut out = vec![0; end.min(self.len()).saturating_sub(start)];
        self.roll.unpack(&self.buf, start..end, &mut out)?;
        Ok(out)
    }

    /// The character at a place, read by the directory.
    ///
    /// Refusals: 10 (0).
    pub fn read_one(&self, place: usize) -> Result<u8, Refusal> {
        self.roll.read_one(&self.buf, &self.directory, place)
    }

    /// All places where a pattern of 1 to 64 characters without byte 10 stands, ascending, overlapping ones too.
    ///
    /// This one goes from character to character. [`OwnedRoll::find_jumping`] gives the same: take that one for long rolls
    /// and patterns of four characters or more.
    ///
    /// Refusals: 11 (0).
    ///
    /// ```
    /// use monterculo::{OwnedRoll, Refusal, Width};
    ///
    /// let roll = OwnedRoll::new(Width::Four, b"banana")?;
    /// assert_eq!(roll.find(b"ana")?, [1, 3]);
    /// assert!(roll.find(b"anna")?.is_empty());
    /// assert_eq!(roll.find(b"ana\n"), Err(Refusal::NewlineInPattern { place: 3 }));
    /// # Ok::<(), monterculo::Refusal>(())
    /// ```
    pub fn find(&self, pattern: &[u8]) -> Result<Vec<usize>, Refusal> {
        self.roll.find(&self.buf, pattern)
    }

    /// The same places by another way: it answers what [`OwnedRoll::find`] does, and jumps over most of the bytes.
    ///
    /// Take it for long rolls and patterns of four characters or more, and [`OwnedRoll::find`] where stack is scarce, as
    /// this one takes more of it. A pattern of too few symbols to jump by, fewer than 4 with k 2 and one with k 4, is
    /// sought by the plain search inside.
    ///
    /// Refusals: 11 (0).
    ///
    /// ```
    /// use monterculo::{OwnedRoll, Width};
    ///
    /// let roll = OwnedRoll::new(Width::Two, b"pan 7 Oda\npan 12 Jory\n")?;
    /// assert_eq!(roll.find_jumping(b"pan 12 ")?, [10]);
    /// assert_eq!(roll.find_jumping(b"pan")?, roll.find(b"pan")?);
    /// # Ok::<(), monterculo::Refusal>(())
    /// ```
    pub fn find_jumping(&self, pattern: &[u8]) -> Result<Vec<usize>, Refusal> {
        self.roll.find_jumping(&self.buf, pattern)
    }

    /// The line in which a character stands. A byte 10 stands in the line that it ends.
    ///
    /// Refusals: 10 (0).
    ///
    /// ```
    /// use monterculo::{OwnedRoll, Width};
    ///
    /// let roll = OwnedRoll::new(Width::Two, b"pan 7 Oda\npan 12 Jory\n")?;
    /// for hit in roll.find(b"pan")? {
    ///     let line = roll.line_of(hit)?;
    ///     println!("{}: {}", line.range.start, String::from_utf8_lossy(&line.text));
    /// }
    /// assert_eq!(roll.line_of(21)?.range, 10..21);
    /// # Ok::<(), monterculo::Refusal>(())
    /// ```
    pub fn line_of(&self, place: usize) -> Result<Line, Refusal> {
        // Says that the place is one of the text.
        self.read_one(place)?;
        // A line is mostly short: what lies around the place is unpacked, and more of it until both its ends are there.
        let mut reach = 128_usize;
        loop {
            let start = place.saturating_sub(reach);
            let end = place.saturating_add(reach).min(self.len());
            let around = self.text_of(start..end)?;
            let (before, behind) = around.split_at(place.saturating_sub(start).min(around.len()));
            let first = before.iter().rposition(|&character| character == b'\n');
            let last = behind.iter().position(|&character| character == b'\n');
            if (first.is_some() || start == 0) && (last.is_some() || end == self.len()) {
                let from = first.map_or(0, |line_feed| line_feed.saturating_add(1));
                let upto = before.len().saturating_add(last.unwrap_or(behind.len()));
                let range = start.saturating_add(from)..start.saturating_add(upto);
                return Ok(Line { range, text: around.get(from..upto).unwrap_or_default().to_vec() });
            }
            reach = reach.saturating_mul(8);
        }
    }

    /// Replaces the characters of a range by a text. Where room is missing it is made, up to 1,048,576 symbols.
    ///
    /// Refusals, in their order: 10 (0), 3 (place in the text put in), 4 (number, in the edited text, of the first
    /// character behind the 1,048,576 symbols). The roll is then as it was.
    ///
    /// ```
    /// use monterculo::{OwnedRoll, Width};
    ///
    /// let mut roll = OwnedRoll::new(Width::Two, b"abracadabra")?;
    /// roll.replace(4..7, b"")?;
    /// assert_eq!(roll.text(), b"abraabra");
    /// roll.replace(8.., b"cadabra")?;
    /// assert_eq!(roll.text(), b"abraabracadabra");
    /// # Ok::<(), monterculo::Refusal>(())
    /// ```
    pub fn replace(&mut self, range: impl RangeBounds<usize>, text: &[u8]) -> Result<(), Refusal> {
        let (start, end) = bounds(range, self.roll.n());
        let before = self.room();
        loop {
            let room = self.room();
            match self.roll.edit(&mut self.buf, &mut self.directory, start..end, text) {
                Err(Refusal::NoRoom { .. } | Refusal::ShortDirectory { .. }) if room < SYMBOLS => {
                    self.set_room(room.saturating_mul(2).max(64));
                }
                Err(refusal) => {
                    if room > before {
                        self.set_room(before);
                        self.buf.shrink_to_fit();
                        self.directory.shrink_to_fit();
                    }
                    return Err(refusal);
                }
                Ok(()) => return Ok(()),
            }
        }
    }

    /// Replaces the characters of a range by a text of any characters: where the table has not all of them, the edited
    /// text is packed anew under the best table for it, in which the old table's characters keep a place.
    ///
    /// Refusals, in their order: 10 (0), 4 (1,048,576; the edited text is longer), 4 (number, in the edited text, of the
    /// first character behind the 1,048,576 symbols). The roll is then as it was.
    ///
    /// ```
    /// use monterculo::{OwnedRoll, Width};
    ///
    /// let mut roll = OwnedRoll::new(Width::Two, b"tel 5550143")?;
    /// roll.replace_any(4..4, b"+44-")?;
    /// assert_eq!(roll.text(), b"tel +44-5550143");
    /// # Ok::<(), monterculo::Refusal>(())
    /// ```
    pub fn replace_any(&mut self, range: impl RangeBounds<usize>, text: &[u8]) -> Result<(), Refusal> {
        let (start, end) = bounds(range, self.roll.n());
        match self.replace(start..end, text) {
            Err(Refusal::NotInTable { .. }) => {
                let edited = [&self.text_of(..start)?[..], text, &self.text_of(end..)?[..]].concat();
                let table = self.table();
                let spare = self.room().saturating_sub(self.symbols());
                *self = OwnedRoll::make(table.k(), &edited, table.characters(), spare)?;
                Ok(())
            }
            answer => answer,
        }
    }

    /// h.
    fn symbols(&self) -> usize {
        self.roll.h() as usize
    }

    /// How many symbols the buffer has room for.
    fn room(&self) -> usize {
        let per_byte = if self.table().k() == Width::Two.k() { 4 } else { 2 };
        self.buf.len().saturating_mul(per_byte).min(SYMBOLS)
    }

    /// Makes buffer and directory those for so many symbols, which are no fewer than the roll has.
    fn set_room(&mut self, symbols: usize) {
        let symbols = symbols.min(SYMBOLS);
        self.buf.resize(bytes_for(self.table().k(), symbols as u64), 0);
        // A character takes a symbol at least.
        self.directory.resize(entries_for(u32::try_from(symbols).unwrap_or(u32::MAX)), 0);
    }

    /// The bytes and the entries in use.
    fn in_use(&self) -> (usize, usize) {
        (bytes_for(self.table().k(), self.roll.h().into()), entries_for(self.roll.n()))
    }

    /// Lets the spare room go.
    fn trim(&mut self) {
        let (bytes, entries) = self.in_use();
        self.buf.truncate(bytes);
        self.directory.truncate(entries);
    }
}

#[cfg(test)]
mod tests {
    use super::*;

    /// The room is that asked for, and nothing is left in what is not in use.
    fn hold(roll: &OwnedRoll, room: usize) {
        assert_eq!(roll.room(), room);
        assert_eq!(roll.directory.len(), entries_for(u32::try_from(room).unwrap()));
        let (bytes, entries) = roll.in_use();
        assert!(roll.buf.iter().skip(bytes).all(|&byte| byte == 0));
        assert!(roll.directory.iter().skip(entries).all(|&entry| entry == 0));
    }

    #[test]
    fn spare_room() {
        for width in [Width::Two, Width::Four] {
            // One symbol for each of 40 characters.
            let text = [b'a'; 40];
            hold(&OwnedRoll::new(width, &text).unwrap(), 40);
            assert!(OwnedRoll::new(width, &text).unwrap().buf.capacity() < 100);
            hold(&OwnedRoll::with_spare(width, &text, b"b", 24).unwrap(), 64);
            hold(&OwnedRoll::with_spare(width, &text, b"", usize::MAX).unwrap(), SYMBOLS);

            let mut roll = OwnedRoll::new(width, &text).unwrap();
            // A refused edit keeps no room that it made.
            roll.replace(.., &vec![b'a'; SYMBOLS + 1]).unwrap_err();
            hold(&roll, 40);
            assert!(roll.buf.capacity() < 100 && roll.directory.capacity() < 100);
            roll.replace(40.., b"a").unwrap();
            hold(&roll, 80);
            roll.replace(1.., b"").unwrap();
            hold(&roll, 80);
            // 79 spare symbols beside those of a and b, to the byte's end. Both stand behind the twelve that every
            // table has, and with k = 2 take three symbols each.
            roll.replace_any(1.., b"b").unwrap();
            hold(&roll, if width == Width::Two { 88 } else { 82 });

            let (record, mut buf, mut directory) = OwnedRoll::new(width, &text).unwrap().into_parts();
            buf.extend([0xff; 8]);
            directory.extend([0xff; 9]);
            hold(
                &OwnedRoll::from_parts(record.clone(), buf.clone(), directory.clone()).unwrap(),
                40 + 64 / usize::from(width.k()),
            );
            buf.resize(600_000, 0xff);
            hold(&OwnedRoll::from_parts(record, buf, directory).unwrap(), SYMBOLS);
        }
    }
}
