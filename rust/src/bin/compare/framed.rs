//! Frame texts: of rolls as they stand, sound or not, and damaged ones.

use monterculo::sys::Roll;
use monterculo_reference::reference::{listing, FRAME};

use crate::faults::Fault;
use crate::rng::Rng;
use crate::rolls::{per_byte, roll_of, roll_of_codewords, roll_of_symbols, Made};
use crate::tables::good_table;
use crate::texts::ranks;

/// A frame as a line.
pub fn line_of(frame: &[u8]) -> Vec<u8> {
    let mut line: Vec<u8> = frame.iter().flat_map(|byte| format!("{:02x}", byte).into_bytes()).collect();
    line.push(b'\n');
    line
}

/// The first frame of a record, whatever it says: characters past the places are any.
pub fn first_frame(rng: &mut Rng, roll: &Roll) -> Vec<u8> {
    let table = &roll.table;
    let mut frame = vec![1, table.k, table.s];
    frame.extend(table.sigma.to_be_bytes());
    frame.extend(roll.n.to_be_bytes());
    frame.extend(roll.h.to_be_bytes());
    let sigma = usize::from(table.sigma);
    frame.extend(&table.places[..sigma.min(256)]);
    let more = rng.byte();
    frame.extend((256..sigma).map(|place| more.wrapping_add(place as u8)));
    frame
}

/// The lines of a record and of these packed bytes.
pub fn lines_of(rng: &mut Rng, roll: &Roll, bytes: &[u8]) -> Vec<Vec<u8>> {
    let mut lines = vec![line_of(&first_frame(rng, roll))];
    lines.extend(bytes.chunks(FRAME).map(packed_line));
    lines
}

/// The line of these packed bytes, which may be too many or none.
pub fn packed_line(packed: &[u8]) -> Vec<u8> {
    line_of(&[&[2], packed].concat())
}

/// A roll whose packed bytes often fill their last frame, or but for a byte; seldom one of some 65,536 symbols.
pub fn roll_to_frame(rng: &mut Rng, faults: &[Fault]) -> Made {
    let table = good_table(rng);
    if rng.one_in(60) {
        let symbols = rng.near_16_bits();
        return roll_of_symbols(rng, table, symbols, faults);
    }
    if table.sigma == 0 || rng.one_in(5) {
        let length = rng.length();
        return roll_of(rng, table, length, faults);
    }
    let any = rng.below(FRAME);
    let bytes = FRAME * rng.pick(&[0, 1, 1, 2, 2, 3, 5]) + rng.pick(&[0, 0, 0, 1, 1, any, any, FRAME - 1]);
    let symbols = (bytes * per_byte(table.k)).saturating_sub(rng.pick(&[0, 0, 1, 2, 3]));
    let list = listing(table.k, table.s);
    let (mut codewords, mut left) = (Vec::new(), symbols);
    for rank in ranks(rng, usize::from(table.sigma), symbols) {
        if list.codewords[rank].len() > left {
            break;
        }
        left -= list.codewords[rank].len();
        codewords.push(&list.codewords[rank][..]);
    }
    // Rank 0 takes one symbol.
    codewords.resize(codewords.len() + left, &list.codewords[0]);
    roll_of_codewords(rng, table, codewords, faults)
}

/// The bytes next to digits and to capitals.
const NEAR: &[u8] = b"/:`g@G";
/// Others that may stand where a digit should.
const STRANGE: &[u8] = b"AF  \t\r\n\n\0\x7f\xff-+x";

/// Puts something strange for a byte, which is a digit or a line's end: mostly of the last or the first ones.
fn spoil_byte(rng: &mut Rng, bytes: &mut [u8]) {
    if bytes.is_empty() {
        return;
    }
    let last = bytes.len() - 1;
    let any = rng.between(0, last);
    let place = rng.pick(&[any, any, any, 0, 1, last, last.saturating_sub(1)]).min(last);
    let digit = rng.pick(b"0123456789abcdef");
    let capital = bytes[place].to_ascii_uppercase();
    let (near, strange) = (rng.pick(NEAR), rng.pick(STRANGE));
    bytes[place] = rng.pick(&[near, near, near, strange, strange, digit, capital]);
}

/// Makes a line wrong, mostly.
pub fn spoil_line(rng: &mut Rng, line: &mut Vec<u8>) {
    let any = rng.below(line.len() + 1);
    let end = line.len().saturating_sub(1);
    let place = rng.pick(&[any, any, 0, end]);
    match rng.below(22) {
        0..=4 => spoil_byte(rng, line),
        5 => line.make_ascii_uppercase(),
        6 => {
            let letters: Vec<usize> = (0..line.len()).filter(|&place| line[place].is_ascii_lowercase()).collect();
            if !letters.is_empty() {
                line[rng.pick(&letters)].make_ascii_uppercase();
            }
        }
        7 | 8 => drop(line.pop()),
        9 => line.insert(end, b'\r'),
        10 => line[end] = b'\r',
        11 => line.insert(place, rng.pick(b" 0f\n\r")),
        12 if place < line.len() => drop(line.remove(place)),
        // A whole byte more or less.
        13 => drop(line.splice(end..end, [b'0', b'0'])),
        14 if end >= 2 => drop(line.drain(end - 2..end)),
        15 => {
            let kind = rng.pick(&[*b"00", *b"01", *b"02", *b"03", *b"10", *b"20", *b"12", *b"ff"]);
            line.iter_mut().zip(kind).for_each(|(digit, other)| *digit = other);
        }
        16 => *line = rng.pick(&[&b""[..], b"\n", b"0\n", b"01\n", b"02\n", b"\r\n"]).to_vec(),
        17 => line.truncate(any),
        18 => line.push(rng.pick(b"\n0\r ")),
        19 => {
            let more = rng.pick(&[&b"0x"[..], b"00", b" ", b"\n"]);
            drop(line.splice(0..0, more.iter().copied()));
        }
        20 if end >= 2 => {
            let first = rng.below(end / 2) * 2;
            line.swap(first, first + 1);
        }
        _ => spoil_byte(rng, line),
    }
}

/// Makes the number in a first line another one, or turns its bytes.
pub fn spoil_head(rng: &mut Rng, line: &mut [u8]) {
    if line.len() < 27 {
        return;
    }
    let (start, end) = rng.pick(&[(6, 10), (6, 10), (10, 18), (18, 26), (18, 26)]);
    match rng.below(3) {
        0 => {
            let pairs: Vec<u8> = line[start..end].chunks(2).rev().flatten().copied().collect();
            line[start..end].copy_from_slice(&pairs);
        }
        1 => line[end - 1] = rng.pick(b"0123456789abcdef"),
        _ => line[rng.between(start, end - 1)] = rng.pick(b"0123456789abcdef"),
    }
}

/// The text of these lines with something wrong in it, mostly: a byte, a line, their order, their lengths, its end.
pub fn damaged(rng: &mut Rng, mut lines: Vec<Vec<u8>>) -> Vec<u8> {
    let last = lines.len() - 1;
    let any = rng.between(0, last);
    let number = rng.pick(&[any, any, any, 0, last, last]);
    match rng.below(28) {
        0..=7 => spoil_line(rng, &mut lines[number]),
        8 => spoil_head(rng, &mut lines[0]),
        9 => drop(lines.remove(number)),
        10 => lines.insert(number, lines[number].clone()),
        11 => lines.swap(number, rng.between(0, last)),
        12 => {
            let line = lines.remove(number);
            lines.push(line);
        }
        // The last line without its end.
        13 => drop(lines[last].pop()),
        14 | 15 => {
            let behind = [&b"\n"[..], b"0", b"02\n", b"0200\n", b" ", b"\r\n", b"\0", b"01\n", b"0\n"];
            lines.push(rng.pick(&behind).to_vec());
        }
        16 => {
            let again = lines[number].clone();
            lines.push(again);
        }
        17..=20 => other_lengths(rng, &mut lines),
        21 => {
            let between = rng.pick(&[&b"\n"[..], b"02\n", b"01\n", b"0200\n", b" \n"]);
            lines.insert(number, between.to_vec());
        }
        22 => lines.iter_mut().for_each(|line| line.insert(line.len() - 1, b'\r')),
        23 => lines.iter_mut().for_each(|line| line.make_ascii_uppercase()),
        24 | 25 => {
            let mut text = lines.concat();
            let any = rng.between(0, text.len());
            text.truncate(rng.pick(&[any, any, text.len() - 1, 0]));
            return text;
        }
        26 => {
            // One line of two.
            if number < last {
                lines[number].pop();
            }
        }
        _ => {
            let mut text = lines.concat();
            spoil_byte(rng, &mut text);
            return text;
        }
    }
    lines.concat()
}

/// Cuts the same packed bytes into frames of other lengths, the first line as it is.
fn other_lengths(rng: &mut Rng, lines: &mut Vec<Vec<u8>>) {
    let digits: Vec<u8> = lines[1..].iter().flat_map(|line| line[2..line.len() - 1].iter().copied()).collect();
    let bytes = digits.len() / 2;
    let fulls = bytes / FRAME;
    let odd = rng.below(fulls + 1);
    let few = rng.between(1, FRAME - 1);
    let kind = rng.below(5);
    let size = rng.pick(&[1, 16, FRAME - 1, FRAME + 1, 2 * FRAME]);
    lines.truncate(1);
    let (mut at, mut number) = (0, 0);
    while at < bytes {
        let length = match kind {
            // One that is short, and the others full.
            0 | 1 if number == odd => few,
            // A short one and a long one behind it.
            2 if number == odd => FRAME - 1,
            2 if number == odd + 1 => FRAME + 1,
            3 => size,
            // All that is left in one, from here on.
            4 if number == odd => bytes,
            _ => FRAME,
        };
        let next = bytes.min(at + length);
        lines.push([b"02", &digits[2 * at..2 * next], b"\n"].concat());
        (at, number) = (next, number + 1);
    }
}
