//! The commands that make a roll or read it. Each answers whether it found anything, or did what it was to do.

use std::ffi::{OsStr, OsString};
use std::io::{self, Write};
use std::os::unix::ffi::OsStrExt;

use monterculo::{bytes_for, frame_text_for, Refusal, Width, SYMBOLS};

use crate::arguments::{self, Arguments};
use crate::failure::{quoted, shown, Failure};
use crate::keep::{self, Place, STANDARD};
use crate::lines::{self, Lines};
use crate::rolls::{self, Reading};

pub type Done = Result<bool, Failure>;

/// Writes on standard output.
pub fn print(bytes: &[u8]) -> Result<(), Failure> {
    let mut out = io::stdout();
    out.write_all(bytes).and_then(|()| out.flush()).map_err(Failure::output)
}

pub fn help(words: &str) -> Done {
    print(words.as_bytes())?;
    Ok(true)
}

pub fn pack(arguments: &Arguments, text: &OsStr, name: &OsStr) -> Done {
    // Asked before a text is typed in, and once more when it is kept.
    if name != STANDARD {
        new_place(arguments, name)?;
    }
    let frames = match rolls::pack(arguments.width(), &keep::read(text, rolls::TEXT)?) {
        Ok(roll) => roll.to_frames(),
        Err(refusal @ Refusal::NoRoom { .. }) if arguments.width() == Some(Width::Two) => {
            return Err(Failure::refused(text, refusal).and("--width 4 takes fewer"))
        }
        Err(refusal) => return Err(Failure::refused(text, refusal)),
    };
    if name == STANDARD {
        print(&frames)?;
    } else {
        new_place(arguments, name)?.keep(&frames)?;
    }
    Ok(true)
}

/// The place of a new roll: where none stands, or where it may be replaced.
pub fn new_place<'a>(arguments: &Arguments, name: &'a OsStr) -> Result<Place<'a>, Failure> {
    let place = Place::take(name)?;
    if place.is_taken() {
        if !arguments.has("--force") {
            return Err(Failure::of(name, "it is there already, and only --force writes over it"));
        }
        place.open()?;
    }
    Ok(place)
}

pub fn text(name: &OsStr) -> Done {
    let text = Reading::from_file(name)?.text().map_err(|refusal| Failure::refused(name, refusal))?;
    print(&text)?;
    Ok(true)
}

pub fn check(name: &OsStr) -> Done {
    Reading::from_file(name)?;
    print(format!("{}: sound\n", shown(name)).as_bytes())?;
    Ok(true)
}

pub fn info(name: &OsStr) -> Done {
    let roll = Reading::from_file(name)?;
    let text = roll.text().map_err(|refusal| Failure::refused(name, refusal))?;
    let (table, n, h) = (roll.record.table(), roll.record.n(), roll.record.h());
    let rows = [
        ("width", u64::from(table.k())),
        ("stoppers", table.s().into()),
        ("characters in the table", table.sigma().into()),
        ("characters", n.into()),
        ("symbols", h.into()),
        ("lines", Lines::of(&text).count() as u64),
        ("bytes of the plain text", text.len() as u64),
        ("bytes packed", bytes_for(table.k(), h.into()) as u64),
        ("bytes of the file", frame_text_for(table.k(), table.sigma(), h) as u64),
        ("symbols left to the limit", (SYMBOLS as u64).saturating_sub(h.into())),
    ];
    print(rows.iter().map(|(what, number)| format!("{what}: {number}\n")).collect::<String>().as_bytes())?;
    Ok(true)
}

pub fn find(arguments: &Arguments, rolls: &[OsString], pattern: &OsStr) -> Done {
    if arguments.has("--count") && arguments.has("--at") {
        return Err(arguments.wrong("--count and --at do not go together"));
    }
    let (mut found, mut failed) = (false, false);
    for name in rolls {
        let label = if rolls.len() > 1 { [keep::label(name).as_bytes(), b":"].concat() } else { Vec::new() };
        match find_in(arguments, name, pattern.as_bytes(), &label) {
            Ok((any, out)) => {
                found |= any;
                print(&out)?;
            }
            // One roll that is refused keeps no other from being searched.
            Err(failure) => {
                failed = true;
                failure.tell();
            }
        }
    }
    if failed {
        return Err(Failure::Silent);
    }
    Ok(found)
}

/// Whether anything is found in a roll, and what is to be written of it, with a label in front of each line.
fn find_in(arguments: &Arguments, name: &OsStr, pattern: &[u8], label: &[u8]) -> Result<(bool, Vec<u8>), Failure> {
    let refused = |refusal| Failure::refused(name, refusal);
    let roll = Reading::from_file(name)?;
    let hits = roll.record.find_jumping(&roll.buf, pattern).map_err(refused)?;
    let mut out = Vec::new();
    let mut line = |number: usize, text: &[&[u8]]| {
        out.extend_from_slice(label);
        out.extend_from_slice(number.to_string().as_bytes());
        text.iter().for_each(|part| out.extend_from_slice(part));
        out.push(b'\n');
    };
    if arguments.has("--count") {
        line(hits.len(), &[]);
    } else if arguments.has("--at") {
        hits.iter().for_each(|&hit| line(hit, &[]));
    } else if let Some(&last) = hits.last() {
        let text = roll.text_through(last).map_err(refused)?;
        lines::with_hits(&text, &hits, |number, text| line(number, &[b":", text]));
    }
    Ok((!hits.is_empty(), out))
}

pub fn show(arguments: &Arguments, name: &OsStr, lines: &OsStr) -> Done {
    let (first, last) = lines_named(arguments, lines)?;
    let text = Reading::from_file(name)?.text().map_err(|refusal| Failure::refused(name, refusal))?;
    let held = Lines::of(&text);
    let range = held.range(first, last).ok_or_else(|| no_line(name, &held))?;
    let mut shown = text.get(range).unwrap_or_default().to_vec();
    if !shown.ends_with(b"\n") {
        shown.push(b'\n');
    }
    print(&shown)?;
    Ok(true)
}

pub fn lines_named(arguments: &Arguments, lines: &OsStr) -> Result<(usize, usize), Failure> {
    match arguments::lines(lines) {
        Some((first, last)) if 1 <= first && first <= last => Ok((first, last)),
        Some((first, last)) if first > last => Err(arguments.wrong("the last line stands before the first")),
        Some(_) => Err(arguments.wrong("lines are counted from 1")),
        None => Err(arguments.wrong(&format!("{} is no LINE and no LINE..LINE", quoted(lines)))),
    }
}

pub fn no_line(name: &OsStr, lines: &Lines<'_>) -> Failure {
    Failure::of(name, &format!("there are not so many lines: it has {}", lines.count()))
}
