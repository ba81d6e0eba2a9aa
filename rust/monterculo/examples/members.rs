//! A roll of members on disk. docs/BOX.md tells its story, and has all of this file behind this comment. Commands, files
//! and what it writes are those of examples/members.c.

use std::error::Error;
use std::fs::{self, File};
use std::io::{self, Write};
use std::ops::Range;
use std::path::{Path, PathBuf};
use std::{env, process};

use monterculo::{bytes_for, entries_for, OwnedRoll, Refusal, Roll, Table, Width};

/// Characters that may come by a correction, whether the text has them today or not. Digits and + any chosen table has.
const TO_COME: &[u8] = b"-";

fn make(text: &[u8]) -> Result<OwnedRoll, Refusal> {
    OwnedRoll::with_spare(Width::Four, text, TO_COME, 0)
}

/// The line of a pan, and the telephone number in it: from behind the line's last blank to the line's end.
fn find(roll: &OwnedRoll, pan: &str) -> Result<(Range<usize>, Range<usize>), Box<dyn Error>> {
    let mut lines = Vec::new();
    for hit in roll.find(format!("pan {} ", pan).as_bytes())? {
        let line = roll.line_of(hit)?;
        if line.range.start == hit {
            lines.push(line);
        }
    }
    match &lines[..] {
        [line] => {
            let digits = line.text.rsplit(|&character| character == b' ').next().unwrap_or_default();
            Ok((line.range.clone(), line.range.end - digits.len()..line.range.end))
        }
        [] => Err(format!("{}: no line has this pan", pan).into()),
        _ => Err(format!("{}: several lines have this pan", pan).into()),
    }
}

/// Puts a text in the place of a range.
fn correct(roll: &mut OwnedRoll, range: Range<usize>, text: &[u8]) -> Result<(), Box<dyn Error>> {
    match roll.replace_any(range, text) {
        Err(Refusal::NoRoom { .. } | Refusal::LongText { .. }) => Err("the roll is full: divide it".into()),
        answer => Ok(answer?),
    }
}

fn crc32(bytes: &[u8]) -> u32 {
    let step = |crc: u32, _| crc >> 1 ^ if crc & 1 == 1 { 0xEDB8_8320 } else { 0 };
    !bytes.iter().fold(!0, |crc, &byte| (0..8).fold(crc ^ u32::from(byte), step))
}

/// The roll as it lies in its file.
fn image(roll: &OwnedRoll) -> Vec<u8> {
    let (record, buf, directory) = roll.as_parts();
    let table = record.table();
    let mut image = b"MROL\x01".to_vec();
    image.extend([table.k(), table.s(), 0]);
    for number in [table.sigma().into(), record.n(), record.h()] {
        image.extend(number.to_le_bytes());
    }
    image.extend(table.characters());
    image.extend(buf);
    image.extend(directory.iter().flat_map(|entry| entry.to_le_bytes()));
    image.extend(crc32(&image).to_le_bytes());
    image
}

/// A new file beside the old one, made lasting and then put in its place: if the current fails, there is the old roll or
/// the new one, and either is whole.
fn save(roll: &OwnedRoll, path: &Path) -> io::Result<()> {
    let mut fresh = path.as_os_str().to_owned();
    fresh.push(".new");
    let fresh = PathBuf::from(fresh);
    let written = File::create(&fresh).and_then(|mut file| {
        file.write_all(&image(roll))?;
        file.sync_all()
    });
    if let Err(error) = written.and_then(|()| fs::rename(&fresh, path)) {
        let _ = fs::remove_file(&fresh);
        return Err(error);
    }
    // The folder too, or the new name may be lost.
    let folder = match path.parent() {
        Some(folder) if folder != Path::new("") => folder,
        _ => Path::new("."),
    };
    File::open(folder)?.sync_all()
}

fn number(bytes: &[u8]) -> u32 {
    bytes.iter().rev().fold(0, |number, &byte| number << 8 | u32::from(byte))
}

/// Nothing in a file is believed before its checksum; what the numbers say must then be there, and be a sound roll with
/// a right directory.
fn load(path: &Path) -> Result<OwnedRoll, Box<dyn Error>> {
    let image = fs::read(path)?;
    if image.len() < 24 || !image.starts_with(b"MROL\x01") {
        return Err("not a roll".into());
    }
    let (image, sum) = image.split_at(image.len() - 4);
    if number(sum) != crc32(image) {
        return Err("damaged".into());
    }
    let (head, rest) = image.split_at(20);
    let (k, s) = (head[5], head[6]);
    let (sigma, n, h) = (number(&head[8..12]) as usize, number(&head[12..16]), number(&head[16..20]));
    let (bytes, entries) = (bytes_for(k, h.into()), entries_for(n));
    if rest.len() != sigma + bytes + 4 * entries {
        return Err("its sizes do not agree".into());
    }
    let (characters, rest) = rest.split_at(sigma);
    let (buf, directory) = rest.split_at(bytes);
    let record = Roll::new(Table::new(k, s, characters), n, h);
    Ok(OwnedRoll::from_parts(record, buf.to_vec(), directory.chunks(4).map(number).collect())?)
}

fn print_size(roll: &OwnedRoll) {
    let (record, buf, directory) = roll.as_parts();
    let (n, h, bytes) = (record.n(), record.h(), buf.len());
    println!("{} characters in {} symbols: {} bytes, and {} for the directory", n, h, bytes, 4 * directory.len());
}

fn run(arguments: &[&str]) -> Result<(), Box<dyn Error>> {
    match *arguments {
        ["pack", text, path] => {
            let roll = make(&fs::read(text)?)?;
            save(&roll, Path::new(path))?;
            print_size(&roll);
        }
        ["find", path, pan] => {
            let roll = load(Path::new(path))?;
            let (line, _) = find(&roll, pan)?;
            let mut line = roll.text_of(line)?;
            line.push(b'\n');
            io::stdout().write_all(&line)?;
        }
        ["correct", path, pan, digits] if !digits.contains(&[' ', '\n'][..]) => {
            let mut roll = load(Path::new(path))?;
            let (_, old) = find(&roll, pan)?;
            correct(&mut roll, old, digits.as_bytes())?;
            save(&roll, Path::new(path))?;
            print_size(&roll);
        }
        ["text", path] => io::stdout().write_all(&load(Path::new(path))?.text())?,
        _ => return Err("members pack TEXT ROLL | find ROLL PAN | correct ROLL PAN NUMBER | text ROLL".into()),
    }
    Ok(())
}

fn main() {
    let arguments: Vec<String> = env::args().skip(1).collect();
    let arguments: Vec<&str> = arguments.iter().map(String::as_str).collect();
    if let Err(error) = run(&arguments) {
        eprintln!("members: {}", error);
        process::exit(1);
    }
}
