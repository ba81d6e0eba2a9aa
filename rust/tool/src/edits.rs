//! The commands that change a roll: each is one replacement of characters by the archive's edit in place.

use std::ffi::OsStr;
use std::ops::Range;
use std::os::unix::ffi::OsStrExt;

use monterculo::{OwnedRoll, Refusal};

use crate::arguments::{self, Arguments};
use crate::commands::{lines_named, no_line, print, Done};
use crate::failure::{quoted, Failure};
use crate::keep::{self, Place, STANDARD};
use crate::lines::Lines;
use crate::rolls;

pub fn set(arguments: &Arguments, name: &OsStr, line: &OsStr, new: &OsStr) -> Done {
    let (line, new) = (line_named(arguments, line)?, new_lines(arguments, name, new)?);
    edit(arguments, name, |roll| {
        let text = roll.text();
        let lines = Lines::of(&text);
        Ok((lines.within(line).ok_or_else(|| no_line(name, &lines))?, new))
    })
}

pub fn insert(arguments: &Arguments, name: &OsStr, line: &OsStr, new: &OsStr) -> Done {
    let (line, new) = (line_named(arguments, line)?, new_lines(arguments, name, new)?);
    edit(arguments, name, |roll| {
        let text = roll.text();
        let lines = Lines::of(&text);
        let (place, new) = lines.insertion(line, &new).ok_or_else(|| {
            no_line(name, &lines).and(&format!("a new one is line {} at most", lines.count().saturating_add(1)))
        })?;
        Ok((place..place, new))
    })
}

pub fn remove(arguments: &Arguments, name: &OsStr, lines: &OsStr) -> Done {
    let (first, last) = lines_named(arguments, lines)?;
    edit(arguments, name, |roll| {
        let text = roll.text();
        let lines = Lines::of(&text);
        Ok((lines.range(first, last).ok_or_else(|| no_line(name, &lines))?, Vec::new()))
    })
}

pub fn replace(arguments: &Arguments, name: &OsStr, range: &OsStr, new: &OsStr) -> Done {
    let (start, end) =
        arguments::range(range).ok_or_else(|| arguments.wrong(&format!("{} is no START..END", quoted(range))))?;
    let new = new_text(arguments, name, new)?;
    edit(arguments, name, |_| Ok((start..end, new)))
}

fn line_named(arguments: &Arguments, line: &OsStr) -> Result<usize, Failure> {
    match arguments::line(line) {
        Some(0) => Err(arguments.wrong("lines are counted from 1")),
        Some(line) => Ok(line),
        None => Err(arguments.wrong(&format!("{} is no LINE", quoted(line)))),
    }
}

/// The text to put in: the argument itself, or standard input.
fn new_text(arguments: &Arguments, name: &OsStr, new: &OsStr) -> Result<Vec<u8>, Failure> {
    match (new == STANDARD, name == STANDARD) {
        (true, true) => Err(arguments.wrong("standard input cannot be both the roll and the text")),
        (true, false) => keep::read(new, rolls::TEXT),
        _ => Ok(new.as_bytes().to_vec()),
    }
}

/// The same for whole lines: the byte 10 that ends the last of them on standard input is not of the text.
fn new_lines(arguments: &Arguments, name: &OsStr, new: &OsStr) -> Result<Vec<u8>, Failure> {
    let mut text = new_text(arguments, name, new)?;
    if new == STANDARD && text.ends_with(b"\n") {
        text.pop();
    }
    Ok(text)
}

/// Puts a text in the place of a range, both told by the roll as it stands.
fn edit(
    arguments: &Arguments,
    name: &OsStr,
    change: impl FnOnce(&OwnedRoll) -> Result<(Range<usize>, Vec<u8>), Failure>,
) -> Done {
    let edited = |frames: &[u8]| {
        let mut roll = OwnedRoll::from_frames(frames).map_err(|refusal| rolls::refused(name, frames, refusal))?;
        let (range, new) = change(&roll)?;
        match roll.replace(range.clone(), &new) {
            Err(Refusal::NotInTable { .. } | Refusal::NoRoom { .. }) if arguments.has("--repack") => {
                roll = repacked(&roll, range, &new).map_err(|refusal| Failure::refused(name, refusal))?;
            }
            Err(refusal @ (Refusal::NotInTable { .. } | Refusal::NoRoom { .. })) => {
                return Err(Failure::refused(name, refusal).and("--repack chooses a new table"))
            }
            answer => answer.map_err(|refusal| Failure::refused(name, refusal))?,
        }
        Ok(roll.to_frames())
    };
    if name == STANDARD {
        print(&edited(&keep::read(name, rolls::FRAMES)?)?)?;
    } else {
        let place = Place::take(name)?;
        let frames = edited(&place.read(rolls::FRAMES)?)?;
        place.keep(&frames)?;
    }
    Ok(true)
}

/// The edited text packed afresh.
fn repacked(roll: &OwnedRoll, range: Range<usize>, new: &[u8]) -> Result<OwnedRoll, Refusal> {
    rolls::pack(None, &[&roll.text_of(..range.start)?, new, &roll.text_of(range.end..)?].concat())
}
