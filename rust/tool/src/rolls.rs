//! Rolls out of texts and frames: calls of the archive, and which of two is taken.

use std::ffi::OsStr;
use std::str;

use monterculo::{frame_text_for, read_frame, OwnedRoll, Refusal, Roll, Width, SYMBOLS};

use crate::failure::Failure;
use crate::keep;

/// More than any frame text has: of a longer file no more is read, and what is read the archive refuses.
pub const FRAMES: usize = frame_text_for(4, 256, 1_048_576) + 1;

/// More than any line of a frame text has.
pub const LINE: usize = frame_text_for(4, 256, 0) + 1;

/// More than any text of a roll has, and a line end behind it that is not of the text.
pub const TEXT: usize = SYMBOLS + 2;

/// How much is unpacked behind a character at first, to have the end of its line.
const NEAR: usize = 4096;

/// A roll that is read and not changed: its record, and its buffer.
pub struct Reading {
    pub record: Roll,
    pub buf: Vec<u8>,
}

impl Reading {
    /// The roll of a frame text. Refusals: those of `OwnedRoll::from_frames`.
    pub fn from_frames(frames: &[u8]) -> Result<Reading, Refusal> {
        if let Some(roll) = Reading::by_lines(frames) {
            return Ok(roll);
        }
        let mut buf = room(frames);
        match Roll::from_frames(frames, &mut buf) {
            Ok(record) => Ok(Reading { record, buf }),
            Err(Refusal::BadSymbolCount { h }) => Err(Refusal::LongRoll { h }),
            Err(refusal) => Err(refusal),
        }
    }

    /// The same in less time, where nothing is to be refused: `Roll::from_frames` judges symbol by symbol. Here each line
    /// is read by itself, and the roll is taken if the archive, which checks it, writes these very frames of it: it is
    /// proved that reading what it writes gives the roll back.
    fn by_lines(frames: &[u8]) -> Option<Reading> {
        let mut lines = str::from_utf8(frames).ok()?.split_inclusive('\n').map(str::as_bytes);
        let record = Roll::from_first_line(lines.next()?).ok()?;
        let mut buf = room(frames);
        let mut end = 0_usize;
        for line in lines {
            end = end.saturating_add(read_frame(line, buf.get_mut(end..)?).ok()?.len());
        }
        let mut written = vec![0; frames.len()];
        let same = record.to_frames(&buf, &mut written).ok()? == frames;
        same.then_some(Reading { record, buf })
    }

    /// The roll of a file, or of standard input.
    pub fn from_file(name: &OsStr) -> Result<Reading, Failure> {
        let frames = keep::read(name, FRAMES)?;
        Reading::from_frames(&frames).map_err(|refusal| refused(name, &frames, refusal))
    }

    /// The whole text.
    pub fn text(&self) -> Result<Vec<u8>, Refusal> {
        let mut out = vec![0; self.record.n() as usize];
        self.record.unpack(&self.buf, .., &mut out)?;
        Ok(out)
    }

    /// The text up to a character and at least to the end of its line.
    pub fn text_through(&self, place: usize) -> Result<Vec<u8>, Refusal> {
        let end = place.saturating_add(NEAR);
        if end >= self.record.n() as usize {
            return self.text();
        }
        let mut out = vec![0; end];
        self.record.unpack(&self.buf, ..end, &mut out)?;
        if out.get(place..).map_or(false, |behind| behind.contains(&b'\n')) {
            Ok(out)
        } else {
            self.text()
        }
    }
}

/// Room for all packed bytes that a frame text has, as two digits are a byte.
fn room(frames: &[u8]) -> Vec<u8> {
    vec![0; frames.len() / 2]
}

/// What is refused of a file that was read up to `FRAMES` bytes.
pub fn refused(name: &OsStr, frames: &[u8], refusal: Refusal) -> Failure {
    let failure = Failure::refused(name, refusal);
    if frames.len() < FRAMES {
        return failure;
    }
    failure.and("it is longer than any roll, and was not read further")
}

/// A text packed under the best table for it, in this width, or in that of the two whose frame text is shorter.
pub fn pack(width: Option<Width>, text: &[u8]) -> Result<OwnedRoll, Refusal> {
    let of = |width| OwnedRoll::new(width, text);
    match width {
        Some(width) => of(width),
        None => match (of(Width::Two), of(Width::Four)) {
            // Of two as short the wider, which is read in less time.
            (Ok(two), Ok(four)) if length(&two) < length(&four) => Ok(two),
            // What has no room in symbols of four bits has none in those of two, of which it takes as many or more.
            (_, four) => four,
        },
    }
}

/// The bytes of a roll's frame text.
fn length(roll: &OwnedRoll) -> usize {
    let (record, ..) = roll.as_parts();
    frame_text_for(record.table().k(), record.table().sigma(), record.h())
}

#[cfg(test)]
mod tests {
    use super::*;

    /// Holds what is read of a frame text, or the refusal, to the archive's own reading.
    fn hold(frames: &[u8]) {
        let read = Reading::from_frames(frames).map(|roll| (roll.record.clone(), roll.text().unwrap()));
        let owned = OwnedRoll::from_frames(frames).map(|roll| (roll.as_parts().0.clone(), roll.text()));
        assert_eq!(read, owned, "{}", String::from_utf8_lossy(frames));
    }

    #[test]
    fn by_lines() {
        for width in [Width::Two, Width::Four] {
            // No line, one, one that is full, one byte more, and some.
            for characters in [0, 1, 64, 65, 128, 129, 130, 300] {
                let frames = OwnedRoll::new(width, &vec![b'1'; characters]).unwrap().to_frames();
                assert!(Reading::by_lines(&frames).is_some());
                hold(&frames);
                for place in 0..frames.len() {
                    let (before, behind) = frames.split_at(place);
                    let (first, rest) = behind.split_first().unwrap();
                    hold(before);
                    hold(behind);
                    hold(&[before, rest].concat());
                    for other in [b"", &b"0"[..], b"1", b"5", b"a", b"F", b"\n", b" ", b"\xff", b"02\n", b"0200\n"] {
                        hold(&[before, other, rest].concat());
                        hold(&[before, other, behind].concat());
                        hold(&[before, &[*first], other].concat());
                    }
                }
                let lines: Vec<&[u8]> = frames.split_inclusive(|&character| character == b'\n').collect();
                for from in 0..lines.len() {
                    for to in 0..=lines.len() {
                        let mut moved = lines.clone();
                        moved.insert(to, lines[from]);
                        hold(&moved.concat());
                        moved.remove(if to <= from { from + 1 } else { from });
                        hold(&moved.concat());
                    }
                }
            }
        }
    }

    #[test]
    fn through_a_line() {
        let text =
            [&b"a\n\n"[..], &vec![b'b'; 3 * NEAR], b"\nc\n", &vec![b'd'; NEAR], b"\n", &vec![b'e'; NEAR]].concat();
        let roll = Reading::from_frames(&OwnedRoll::new(Width::Four, &text).unwrap().to_frames()).unwrap();
        for place in 0..text.len() {
            if text[place] == b'b' && place % 97 != 0 {
                continue;
            }
            let through = roll.text_through(place).unwrap();
            assert!(text.starts_with(&through) && through.len() > place, "{place}");
            assert!(through.len() == text.len() || through[place..].contains(&b'\n'), "{place}");
        }
        assert_eq!(roll.text_through(0).unwrap().len(), NEAR);
        assert_eq!(roll.text_through(4).unwrap(), text);
    }
}
