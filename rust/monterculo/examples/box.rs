//! A notice box, as examples/box.c and with the same output. The office packs a small members' file and sends it. The box
//! names the members' lines while the roll is still coming in, finds a pan where the roll lies, reads that member's line,
//! corrects the telephone number in it, saves the roll and sends it on as lines of text.

use std::error::Error;
use std::io::{self, Cursor, Read, Write};

use monterculo::{OwnedRoll, Refusal, Roll, Searcher, Table, Width};

/// Pan number, name and telephone number, a line for each member. Digits, + and byte 10 are in any chosen table.
const MEMBERS: &[u8] = b"pan 7 Oda 5550143\n\
                         pan 12 Jory 5550128\n\
                         pan 112 Maren 5550167\n\
                         pan 21 Tavo 5550190\n";
/// With the word before it and the blank behind it, pan 12 is not found in pan 112 or in a pan 120.
const PAN: &str = "pan 12 ";
/// Each line begins so.
const EACH: &str = "pan ";
/// So many packed bytes come at a time. Here each border between two pieces cuts a codeword.
const PIECE: usize = 13;
const FOREIGN: &str = "+44-5550186";
const CORRECTED: &str = "+445550186";

fn print_roll(roll: &OwnedRoll, out: &mut impl Write) -> io::Result<()> {
    let (record, buf, directory) = roll.as_parts();
    write!(out, "the roll: {} characters in {} symbols, {} bytes; ", record.n(), record.h(), buf.len())?;
    write!(out, "its directory:")?;
    for entry in directory {
        write!(out, " {}", entry)?;
    }
    writeln!(out)?;
    out.write_all(&roll.text())
}

/// Receives the packed bytes of the roll whose record came: each piece is searched as it comes.
fn receive(record: &Roll, sent: &[u8], out: &mut impl Write) -> Result<(), Box<dyn Error>> {
    let mut searcher = Searcher::new(record, EACH.as_bytes())?;
    for (number, piece) in sent.chunks(PIECE).enumerate() {
        let at = number * PIECE;
        let hits = searcher.find(piece)?;
        write!(out, "bytes {}..{} come in: '{}' at", at, at + piece.len(), EACH)?;
        for hit in &hits {
            write!(out, " {}", hit)?;
        }
        if hits.is_empty() {
            write!(out, " none")?;
        }
        if searcher.missing() > 0 {
            match searcher.finish() {
                Err(Refusal::EndsTooSoon { symbol, .. }) => {
                    writeln!(out, "; symbol {} begins a codeword that is not finished", symbol)?;
                }
                answer => return Err(format!("finishing too soon is answered {:?}", answer).into()),
            }
        }
    }
    // What was named is to be believed from here on.
    searcher.finish()?;
    writeln!(out, "; the roll is whole and sound")?;
    Ok(())
}

/// A checksum over what is saved (FNV-1a), as the check finds no fault that leaves the form whole.
fn sum(saved: &[u8]) -> u32 {
    saved.iter().fold(2_166_136_261, |sum, &byte| (sum ^ u32::from(byte)).wrapping_mul(16_777_619))
}

/// Record, buffer, directory and their checksum, saved together.
fn save(roll: &OwnedRoll, file: &mut impl Write) -> io::Result<()> {
    let (record, buf, directory) = roll.as_parts();
    let table = record.table();
    let mut saved = vec![table.k(), table.s()];
    saved.extend(table.sigma().to_le_bytes());
    saved.extend(table.characters());
    for number in [record.n(), record.h(), buf.len() as u32, directory.len() as u32] {
        saved.extend(number.to_le_bytes());
    }
    saved.extend(buf);
    saved.extend(directory.iter().flat_map(|entry| entry.to_le_bytes()));
    saved.extend(sum(&saved).to_le_bytes());
    file.write_all(&saved)
}

/// So many bytes, which the file may not have.
fn bytes(file: &mut impl Read, length: usize) -> io::Result<Vec<u8>> {
    let mut read = Vec::new();
    file.take(length as u64).read_to_end(&mut read)?;
    if read.len() == length {
        Ok(read)
    } else {
        Err(io::ErrorKind::UnexpectedEof.into())
    }
}

fn number(file: &mut impl Read) -> io::Result<u32> {
    let mut number = [0; 4];
    file.read_exact(&mut number)?;
    Ok(u32::from_le_bytes(number))
}

/// And read back: the checksum first, then the parts, which are checked.
fn load(file: &mut impl Read) -> Result<OwnedRoll, Box<dyn Error>> {
    let mut saved = Vec::new();
    file.read_to_end(&mut saved)?;
    let end = saved.len().checked_sub(4).ok_or("no checksum")?;
    let kept = saved.split_off(end);
    if sum(&saved).to_le_bytes()[..] != kept[..] {
        return Err("the checksum is wrong".into());
    }
    let file = &mut Cursor::new(saved);
    let (mut code, mut sigma) = ([0; 2], [0; 2]);
    file.read_exact(&mut code)?;
    file.read_exact(&mut sigma)?;
    let characters = bytes(file, u16::from_le_bytes(sigma).into())?;
    let roll = Roll::new(Table::new(code[0], code[1], &characters), number(file)?, number(file)?);
    let (bytes_in_use, entries) = (number(file)? as usize, number(file)?);
    let buf = bytes(file, bytes_in_use)?;
    let directory = (0..entries).map(|_| number(file)).collect::<io::Result<Vec<u32>>>()?;
    Ok(OwnedRoll::from_parts(roll, buf, directory)?)
}

/// Writes the roll as a frame text, which the next box reads; at first its last line has lost its end.
fn send_on(roll: &OwnedRoll, out: &mut impl Write) -> Result<(), Box<dyn Error>> {
    let frames = roll.to_frames();
    out.write_all(&frames)?;
    match OwnedRoll::from_frames(&frames[..frames.len() - 1]) {
        Err(Refusal::BadLine { line, .. }) => {
            let why = "a line of a frame text wrong, missing or too many";
            writeln!(out, "without its last byte line {} is refused, {}", line, why)?;
        }
        answer => return Err(format!("a line without its end is answered {:?}", answer).into()),
    }
    if &OwnedRoll::from_frames(&frames)? != roll {
        return Err("another roll came".into());
    }
    writeln!(out, "whole, its {} bytes are the same roll in the next box", frames.len())?;
    Ok(())
}

/// The whole story, written to `out`.
pub fn run(out: &mut impl Write) -> Result<(), Box<dyn Error>> {
    // Room for longer numbers.
    let mut roll = OwnedRoll::with_spare(Width::Two, MEMBERS, b"", 64)?;
    let table = roll.table();
    let symbols = roll.as_parts().0.h();
    writeln!(
        out,
        "the table: {} stoppers, {} characters; the text takes {} symbols",
        table.s(),
        table.sigma(),
        symbols
    )?;
    let (record, sent, _) = roll.as_parts();
    receive(record, sent, out)?;
    print_roll(&roll, out)?;

    let hits = roll.find(PAN.as_bytes())?;
    writeln!(out, "'{}' stands {} time(s)", PAN, hits.len())?;
    let hit = match hits[..] {
        [hit] => hit,
        _ => return Err("the pan is not found once".into()),
    };
    // The search that jumps has the same answers; in a long roll it is the faster one.
    if roll.find_jumping(PAN.as_bytes())? != hits {
        return Err("the two searches differ".into());
    }
    // The telephone number runs from behind the line's last blank to the line's end.
    let line = roll.line_of(hit)?;
    let digits = line.text.rsplit(|&character| character == b' ').next().unwrap_or_default();
    let (start, end) = (line.range.end - digits.len(), line.range.end);
    let digits = String::from_utf8_lossy(digits);
    writeln!(out, "its line starts at {}, its number is {}..{}: {}", line.range.start, start, end, digits)?;

    match roll.replace(start..end, FOREIGN.as_bytes()) {
        Err(Refusal::NotInTable { place, .. }) => {
            writeln!(out, "{} is refused, a text character not in the table: its character {}", FOREIGN, place)?;
        }
        answer => return Err(format!("a foreign character is answered {:?}", answer).into()),
    }
    roll.replace(start..end, CORRECTED.as_bytes())?;
    writeln!(out, "{} is put in its place", CORRECTED)?;
    let line = roll.line_of(hit)?;
    writeln!(out, "the line is now: {}", String::from_utf8_lossy(&line.text))?;
    writeln!(out, "the last digit of its number: {}", char::from(roll.read_one(line.range.end - 1)?))?;

    let mut file = Vec::new();
    save(&roll, &mut file)?;
    let roll = load(&mut &file[..])?;
    writeln!(out, "saved and read back, its checksum and its check right")?;
    print_roll(&roll, out)?;
    send_on(&roll, out)
}

fn main() -> Result<(), Box<dyn Error>> {
    run(&mut io::stdout())
}
