//! Writing and reading frames, to plant errors in.

use monterculo::sys::{Answer, Roll, Rolled, Table};
use monterculo_reference::library::done;
use monterculo_reference::reference::{self, FRAME, HEAD, LIMIT};

use crate::operations::NO_ROLL;
use crate::planted::says;
use crate::rolls::{bytes_for, per_byte};
use crate::tables::characters;

// Writing.

/// What writing answers and writes with this error, or with none.
pub fn write(roll: &Roll, buf: &[u8], out: &mut [u8], error: &str) -> Answer {
    let checked = done(reference::check(&(*roll).into(), buf));
    let passed = matches!(
        (error, checked.number),
        ("passes a bad codeword", 6) | ("passes a wrong n", 7) | ("passes unused symbols", 8)
    );
    if checked.number != 0 && !passed {
        match error {
            "asks 13 before the check" if checked.number >= 6 => {
                let needed = text_of(roll, buf, "").len();
                if out.len() < needed {
                    return says(13, needed);
                }
            }
            "writes the first line under 6" if checked.number == 6 => {
                out.iter_mut().zip(line_of(&first_frame(roll, ""), "")).for_each(|(place, byte)| *place = byte);
            }
            _ => {}
        }
        return checked;
    }
    let text = text_of(roll, buf, error);
    let bytes = bytes_for(roll.table.k, roll.h as usize);
    let needed = match error {
        "asks 13 of the digits alone" => text.iter().filter(|&&byte| byte != 10).count(),
        "asks one byte more" => text.len() + 1,
        "asks 13 of the longest text" => text.len().max(1_098_267),
        _ => text.len(),
    };
    if out.len() < needed {
        let first = line_of(&first_frame(roll, error), error);
        match error {
            "panics" => panic!("on purpose"),
            "writes what has room under 13" => out.iter_mut().zip(&text).for_each(|(place, &byte)| *place = byte),
            "writes the first line under 13" if first.len() <= out.len() => {
                out[..first.len()].copy_from_slice(&first);
            }
            "answers the bytes missing" => return says(13, needed - out.len()),
            _ => {}
        }
        return says(13, needed);
    }
    out.iter_mut().zip(&text).for_each(|(place, &byte)| *place = byte);
    match error {
        "writes one behind" => out.iter_mut().skip(text.len()).take(1).for_each(|byte| *byte = !*byte),
        "clears what is behind" => out.iter_mut().skip(text.len()).for_each(|byte| *byte = 0),
        "answers the packed bytes" => return says(0, bytes),
        "answers 0" => return says(0, 0),
        _ => {}
    }
    says(0, text.len())
}

fn line_of(frame: &[u8], error: &str) -> Vec<u8> {
    let mut line = Vec::new();
    for &byte in frame {
        let digits = match error {
            "writes capitals" => format!("{:02X}", byte),
            "writes the low digit first" => format!("{:02x}", byte.rotate_left(4)),
            _ => format!("{:02x}", byte),
        };
        line.extend(digits.into_bytes());
    }
    match error {
        "writes 13 before 10" => line.extend(*b"\r\n"),
        "leaves out every byte 10" => {}
        _ => line.push(b'\n'),
    }
    line
}

/// The bytes of a number, the high one first, or last.
fn bytes_of<const N: usize>(high_first: [u8; N], low: bool) -> Vec<u8> {
    let mut bytes = high_first.to_vec();
    if low {
        bytes.reverse();
    }
    bytes
}

fn first_frame(roll: &Roll, error: &str) -> Vec<u8> {
    let Roll { table, mut n, mut h } = *roll;
    let (mut k, mut s, mut sigma) = (table.k, table.s, table.sigma);
    match error {
        "changes n for h" => std::mem::swap(&mut n, &mut h),
        "changes k for s" => std::mem::swap(&mut k, &mut s),
        "writes 8 bits of sigma" => sigma &= 0xFF,
        "writes 16 bits of h" => h &= 0xFFFF,
        "writes 20 bits of h" => h &= 0xF_FFFF,
        _ => {}
    }
    let mut frame = vec![if error == "begins with kind 0" { 0 } else { 1 }, k, s];
    frame.extend(bytes_of(sigma.to_be_bytes(), error == "writes the low byte of sigma first"));
    frame.extend(bytes_of(n.to_be_bytes(), error == "writes the low byte of n first"));
    frame.extend(bytes_of(h.to_be_bytes(), error == "writes the low byte of h first"));
    match error {
        "writes all places" => frame.extend(table.places),
        "writes one character fewer" => frame.extend(characters(&table).iter().skip(1)),
        _ => frame.extend(characters(&table)),
    }
    frame
}

/// Of a roll whose table is good and whose buffer holds its symbols.
fn text_of(roll: &Roll, buf: &[u8], error: &str) -> Vec<u8> {
    let (k, h) = (roll.table.k, roll.h as usize);
    let used = match error {
        "writes the whole buffer" => buf.len(),
        "writes whole bytes alone" => h / per_byte(k),
        "writes 65,536 bytes at most" => bytes_for(k, h).min(65_536),
        _ => bytes_for(k, h),
    };
    let mut bytes = buf[..used].to_vec();
    let rest = used % FRAME;
    match error {
        "fills the last frame" if rest > 0 => bytes.resize(used + FRAME - rest, 0),
        "leaves out a last frame of one byte" if rest == 1 => bytes.truncate(used - 1),
        "leaves out a last frame that is full" if rest == 0 => bytes.truncate(used.saturating_sub(FRAME)),
        _ => {}
    }
    let size = match error {
        "writes frames of 31" => FRAME - 1,
        "writes frames of 33" => FRAME + 1,
        "writes one frame" => LIMIT,
        _ => FRAME,
    };
    let mut frames = vec![first_frame(roll, error)];
    for packed in bytes.chunks(size) {
        frames.push(match error {
            "writes kind 1 later too" => [&[1], packed].concat(),
            "writes no kind later" => packed.to_vec(),
            _ => [&[2], packed].concat(),
        });
    }
    match error {
        "writes an empty frame behind a full one" if rest == 0 && used > 0 => frames.push(vec![2]),
        "writes an empty frame with h 0" if used == 0 => frames.push(vec![2]),
        _ => {}
    }
    let mut text: Vec<u8> = frames.iter().flat_map(|frame| line_of(frame, error)).collect();
    if error == "leaves out the last byte 10" {
        text.pop();
    }
    text
}

// Reading.

/// What a digit is worth with this error.
fn digit(byte: u8, error: &str) -> Option<u8> {
    match (error, byte) {
        (_, b'0'..=b'9') => Some(byte - b'0'),
        (_, b'a'..=b'f') => Some(byte - b'a' + 10),
        ("takes capitals", b'A'..=b'F') => Some(byte - b'A' + 10),
        ("takes a blank for 0", b' ') => Some(0),
        ("takes byte 58 for a digit", b':') => Some(10),
        ("takes byte 96 for a digit", b'`') => Some(9),
        ("takes g for a digit", b'g') => Some(0),
        _ => None,
    }
}

/// The frame of a line.
fn frame_of(line: &[u8], error: &str) -> Option<Vec<u8>> {
    let mut line = line.to_vec();
    match error {
        "reads up to the first byte 10" => {
            let end = line.iter().position(|&byte| byte == b'\n')?;
            line.truncate(end + 1);
        }
        "takes byte 13 before byte 10" if line.ends_with(b"\r\n") => drop(line.splice(line.len() - 2.., *b"\n")),
        "takes byte 13 for byte 10" if line.ends_with(b"\r") => *line.last_mut()? = b'\n',
        "takes a line without its byte 10" if !line.ends_with(b"\n") => line.push(b'\n'),
        "leaves out blanks" => line.retain(|&byte| byte != b' '),
        _ => {}
    }
    if line.pop()? != b'\n' {
        return None;
    }
    if line.len() % 2 == 1 && error == "leaves out an odd digit" {
        line.pop();
    }
    if line.is_empty() || line.len() % 2 == 1 {
        return None;
    }
    let mut frame = Vec::new();
    for pair in line.chunks(2) {
        let (high, low) = (digit(pair[0], error)?, digit(pair[1], error)?);
        frame.push(if error == "reads the low digit first" { low << 4 | high } else { high << 4 | low });
    }
    Some(frame)
}

fn number_of(bytes: &[u8], low: bool) -> u32 {
    let mut bytes = bytes.to_vec();
    if low {
        bytes.reverse();
    }
    bytes.iter().fold(0, |number, &byte| number << 8 | u32::from(byte))
}

/// The record of a first line, whatever its width, or that it is none.
fn first_record(line: &[u8], error: &str) -> Option<Roll> {
    let mut frame = frame_of(line, error)?;
    if frame[0] != 1 && error != "takes any kind" {
        return None;
    }
    if frame.len() == HEAD - 1 && error == "takes 12 bytes" {
        frame.push(0);
    }
    if frame.len() < HEAD {
        return None;
    }
    let mut sigma = number_of(&frame[3..5], error == "reads the low byte of sigma first") as u16;
    if error == "keeps 8 bits of sigma" {
        sigma &= 0xFF;
    }
    let told = frame.len() - HEAD;
    let good = match error {
        "takes a longer line" => told >= sigma.into(),
        "takes a shorter line" => told <= sigma.into(),
        "refuses a line without characters" => told == usize::from(sigma) && told > 0,
        "refuses 256 characters" => told == usize::from(sigma) && told != 256,
        "refuses over 256 characters" => told == usize::from(sigma) && told <= 256,
        _ => told == sigma.into(),
    };
    if !good {
        return None;
    }
    let mut places = [0; 256];
    let kept = if error == "keeps 255 characters" { 255 } else { 256 };
    for (place, &character) in places.iter_mut().zip(&frame[HEAD..]).take(sigma.into()).take(kept) {
        *place = character;
    }
    if error == "leaves something behind sigma" && sigma < 256 {
        places[usize::from(sigma)] = 1;
    }
    if error == "cuts sigma to 256" {
        sigma = sigma.min(256);
    }
    let (mut k, mut s) = (frame[1], frame[2]);
    let mut n = number_of(&frame[5..9], error == "reads the low byte of n first");
    let mut h = number_of(&frame[9..13], error == "reads the low byte of h first");
    match error {
        "changes n for h" => std::mem::swap(&mut n, &mut h),
        "changes k for s" => std::mem::swap(&mut k, &mut s),
        "keeps 16 bits of n" => n &= 0xFFFF,
        "keeps 16 bits of h" => h &= 0xFFFF,
        "keeps 20 bits of n" => n &= 0xF_FFFF,
        "keeps 20 bits of h" => h &= 0xF_FFFF,
        _ => {}
    }
    Some(Roll { table: Table { k, s, sigma, places }, n, h })
}

fn bad_width(k: u8, error: &str) -> bool {
    match error {
        "takes any width" => false,
        "takes width 8" => ![2, 4, 8].contains(&k),
        _ => ![2, 4].contains(&k),
    }
}

/// Whether a table of good width is refused 1.
fn bad_table(table: Table) -> bool {
    reference::check(&Roll { table, n: 0, h: 0 }.into(), &[]).is_err()
}

/// What reading a first line answers with this error, or with none.
pub fn first(line: &[u8], error: &str) -> Rolled {
    let refused = |number, value| Rolled { answer: says(number, value), roll: NO_ROLL };
    if error == "asks the width before the line" {
        let k = line.get(2..4).and_then(|digits| Some(digit(digits[0], "")? << 4 | digit(digits[1], "")?));
        if k.map_or(false, |k| bad_width(k, "")) {
            return refused(1, 0);
        }
    }
    let roll = match first_record(line, error) {
        Some(roll) => roll,
        None => {
            return match error {
                "counts lines from 1" => refused(15, 1),
                "keeps the record with 15" => {
                    let mut kept = refused(15, 0);
                    kept.roll.table.k = line.get(3).map_or(0, |byte| byte % 16);
                    kept
                }
                "panics" => panic!("on purpose"),
                _ => refused(15, 0),
            }
        }
    };
    let Table { k, s, sigma, .. } = roll.table;
    if bad_width(k, error) {
        return match error {
            "answers the width" => refused(1, k.into()),
            "keeps the record with 1" => Rolled { answer: says(1, 0), roll },
            "keeps k with 1" => {
                let mut kept = refused(1, 0);
                kept.roll.table.k = k;
                kept
            }
            _ => refused(1, 0),
        };
    }
    let twice = sigma <= 256 && (1..1 << k.min(4)).contains(&s) && bad_table(roll.table);
    match error {
        "refuses a bad s" if !(1..1 << k.min(4)).contains(&s) => refused(1, 0),
        "refuses a character twice" if twice => refused(1, 0),
        "answers h" => Rolled { answer: says(0, roll.h as usize), roll },
        _ => Rolled { answer: says(0, 0), roll },
    }
}

/// The packed bytes of a later line.
fn packed_bytes(line: &[u8], error: &str) -> Option<Vec<u8>> {
    let frame = frame_of(line, error)?;
    let kind = match error {
        "takes any kind" => true,
        "takes kind 1" => [1, 2].contains(&frame[0]),
        _ => frame[0] == 2,
    };
    let mut packed = frame[1..].to_vec();
    let good = match error {
        "takes 33 bytes" => (1..=FRAME + 1).contains(&packed.len()),
        "takes any number of bytes" | "takes frames of any length" => !packed.is_empty(),
        "takes no bytes" => packed.len() <= FRAME,
        "refuses 32 bytes" => (1..FRAME).contains(&packed.len()),
        "refuses fewer than 32 bytes" => packed.len() == FRAME,
        "refuses one byte" => (2..=FRAME).contains(&packed.len()),
        "cuts to 32 bytes" => {
            packed.truncate(FRAME);
            !packed.is_empty()
        }
        _ => (1..=FRAME).contains(&packed.len()),
    };
    Some(packed).filter(|_| kind && good)
}

/// What reading a later line answers and writes with this error, or with none.
pub fn frame(line: &[u8], out: &mut [u8], error: &str) -> Answer {
    if error == "asks 13 before 15" && line.len() >= 5 && out.len() < (line.len() - 3) / 2 {
        return says(13, (line.len() - 3) / 2);
    }
    let mut packed = match packed_bytes(line, error) {
        Some(packed) => packed,
        None => {
            if error == "writes under 15" {
                let pairs = line.chunks(2).skip(1).map_while(|pair| match pair {
                    [high, low] => Some(digit(*high, "")? << 4 | digit(*low, "")?),
                    _ => None,
                });
                out.iter_mut().zip(pairs).for_each(|(place, byte)| *place = byte);
            }
            return says(15, usize::from(error == "counts lines from 1"));
        }
    };
    let needed = match error {
        "asks 32 bytes always" => FRAME,
        "asks one byte more" => packed.len() + 1,
        "asks 13 of the kind too" if out.len() == packed.len() => packed.len() + 1,
        _ => packed.len(),
    };
    if out.len() < needed {
        match error {
            "panics" => panic!("on purpose"),
            "cuts to the output" => {
                packed.truncate(out.len());
                out.copy_from_slice(&packed);
                return says(0, packed.len());
            }
            "writes under 13" => out.iter_mut().zip(&packed).for_each(|(place, &byte)| *place = byte),
            "answers the bytes missing" => return says(13, needed - out.len()),
            _ => {}
        }
        return says(13, needed);
    }
    if error == "writes the kind too" {
        packed.insert(0, 2);
    }
    out.iter_mut().zip(&packed).for_each(|(place, &byte)| *place = byte);
    match error {
        "writes one behind" => out.iter_mut().skip(packed.len()).take(1).for_each(|byte| *byte = !*byte),
        "clears what is behind" => out.iter_mut().skip(packed.len()).for_each(|byte| *byte = 0),
        "answers the digits" => return says(0, 2 * packed.len()),
        "answers 0" => return says(0, 0),
        _ => {}
    }
    says(0, packed.len())
}

/// The bytes that came of so many, and the number of the first line that is wrong.
fn shape(lines: &[&[u8]], due: usize, error: &str) -> (Vec<u8>, Option<usize>) {
    let (mut packed, mut number) = (Vec::new(), 1);
    let due = if error == "reads one frame fewer" && due > FRAME { due - 1 - (due - 1) % FRAME } else { due };
    while packed.len() < due {
        let left = due - packed.len();
        let wanted = FRAME.min(left);
        let line = match lines.get(number) {
            None if error == "takes zeros for a line that is missing" && left <= FRAME => {
                packed.resize(due, 0);
                break;
            }
            None => return (packed, Some(number)),
            Some(line) => line,
        };
        let bytes = match packed_bytes(line, error) {
            Some(bytes) => bytes,
            None => return (packed, Some(number)),
        };
        let good = match error {
            "takes a short frame in the middle" => bytes.len() <= wanted,
            "takes a long last frame" => bytes.len() == wanted || left < FRAME && bytes.len() > wanted,
            "takes frames of any length" => bytes.len() <= left,
            "takes 33 bytes" => bytes.len() == wanted || bytes.len() == FRAME + 1 && left > FRAME,
            _ => bytes.len() == wanted,
        };
        if !good {
            return (packed, Some(number));
        }
        packed.extend(bytes.iter().take(left));
        number += 1;
    }
    let wants_more = match error {
        "wants a line with h 0" => due == 0,
        "wants an empty frame behind a full one" => due > 0 && due % FRAME == 0,
        _ => false,
    };
    if wants_more && lines.len() == number {
        return (packed, Some(number));
    }
    let is_last = lines.len() == number + 1;
    let behind = match (error, lines.get(number)) {
        (_, None) | ("lets all lines behind pass", _) => false,
        ("lets an empty line behind pass", Some(line)) => !is_last || *line != b"\n",
        ("lets an empty frame behind pass", Some(line)) => !is_last || *line != b"02\n",
        ("lets what is no line behind pass", Some(line)) => line.ends_with(b"\n"),
        _ => true,
    };
    (packed, if behind { Some(number) } else { None })
}

/// What reading a frame text answers and writes with this error, or with none.
pub fn read(text: &[u8], buf: &mut [u8], error: &str) -> Rolled {
    let mut lines: Vec<&[u8]> = text.split_inclusive(|&byte| byte == b'\n').collect();
    let whole = [text, b"\n"].concat();
    match error {
        "takes a last line without its byte 10" if !text.is_empty() && !text.ends_with(b"\n") => {
            lines = whole.split_inclusive(|&byte| byte == b'\n').collect();
        }
        "leaves out empty lines" => lines.retain(|line| *line != b"\n"),
        "takes the empty text" if text.is_empty() => return Rolled { answer: says(0, 0), roll: NO_ROLL },
        _ => {}
    }
    let refused = |number, value| Rolled { answer: says(number, value), roll: NO_ROLL };
    let line_refused = |number: usize, came: usize| match error {
        "counts lines from 1" => says(15, number + 1),
        "counts later lines from 0" => says(15, number.saturating_sub(1)),
        "answers 0 with 15" => says(15, 0),
        "answers the last line" => says(15, lines.len().saturating_sub(1)),
        "answers the bytes that came" => says(15, came),
        _ => says(15, number),
    };
    let mut roll = match lines.first().and_then(|line| first_record(line, error)) {
        Some(roll) => roll,
        None => return Rolled { answer: line_refused(0, 0), roll: NO_ROLL },
    };
    let width = bad_width(roll.table.k, "");
    if width && error == "takes any width" {
        roll.table.k = 2;
    } else if width && error != "asks the width behind the lines" {
        return refused(1, 0);
    }
    let k = if width { 2 } else { roll.table.k };
    let h = roll.h as usize;
    let due = bytes_for(k, h);
    let (mut packed, wrong) = shape(&lines, due, error);
    let came = packed.len();
    let shaped = wrong.map(|number| line_refused(number, came));
    if width {
        return Rolled { answer: shaped.unwrap_or(says(1, 0)), roll: NO_ROLL };
    }
    // h may say far more bytes than there is memory for; a roll has half of these at most.
    if due <= LIMIT {
        packed.resize(due, 0);
    }

    let tabled = if bad_table(roll.table) && error != "passes a bad table" { Some(says(1, 0)) } else { None };
    let bytes = if error == "asks h of the bytes that came" { came } else { buf.len() };
    let limit = match error {
        "knows no limit" => usize::MAX,
        "keeps a limit of 65,536" => 65_536,
        "refuses 1,048,576 symbols" => LIMIT - 1,
        _ => LIMIT,
    };
    let room = limit.min(bytes * per_byte(k))
        - usize::from(error == "refuses an exact buffer" && h == bytes * per_byte(k) && h > 0);
    let roomed = if h > room { Some(says(5, h)) } else { None };
    let content = if tabled.is_none() && !bad_table(roll.table) && h <= LIMIT && packed.len() == due {
        content(&roll, &packed, error)
    } else {
        None
    };
    let order = match error {
        "asks the table before the lines" => [tabled, shaped, roomed, content],
        "asks h before the lines" => [roomed, shaped, tabled, content],
        "asks h before the table" => [shaped, roomed, tabled, content],
        "checks before the lines" => [tabled, roomed, content, shaped],
        "asks the codewords before h" => [shaped, tabled, content, roomed],
        _ => [shaped, tabled, roomed, content],
    };
    if let Some(answer) = order.into_iter().flatten().next() {
        let mut written = match (error, answer.number) {
            ("writes under 15", 15) => came,
            ("writes under 6", 6) | ("writes under 8", 8) => due,
            _ => 0,
        };
        written = written.min(buf.len()).min(packed.len());
        buf[..written].copy_from_slice(&packed[..written]);
        if error == "panics" && answer.number == 15 {
            panic!("on purpose");
        }
        let kept = if error == "keeps the record with a refusal" { roll } else { NO_ROLL };
        return Rolled { answer, roll: kept };
    }
    let used = packed.len().min(due);
    buf.iter_mut().zip(&packed).for_each(|(place, &byte)| *place = byte);
    match error {
        "writes one behind" => buf.iter_mut().skip(used).take(1).for_each(|byte| *byte = !*byte),
        "clears what is behind" => buf.iter_mut().skip(used).for_each(|byte| *byte = 0),
        _ => {}
    }
    Rolled { answer: says(0, if error == "answers h" { h } else { 0 }), roll }
}

/// 6, 7 and 8 of a roll with a good table that its bytes hold.
fn content(roll: &Roll, packed: &[u8], error: &str) -> Option<Answer> {
    let check = |roll: Roll| done(reference::check(&roll.into(), packed));
    let answer = check(*roll);
    let stoppers = reference::symbols_of(roll.table.k, packed, roll.h as usize);
    let ended = stoppers.iter().filter(|&&symbol| symbol < roll.table.s).count();
    match (error, answer.number) {
        (_, 0) => None,
        ("passes a bad codeword", 6) | ("passes unused symbols", 8) => None,
        ("passes a wrong n", 7) => {
            Some(check(Roll { n: answer.value as u32, ..*roll })).filter(|behind| behind.number != 0)
        }
        ("asks n before the codewords", 6) if ended != roll.n as usize => Some(says(7, ended)),
        ("answers n with 7", 7) => Some(says(7, roll.n as usize)),
        _ => Some(answer),
    }
}
