//! Rolls as frame texts, and back.

use monterculo::{
    bytes_for, frame_text_for, hits_for, read_frame, OwnedRoll, Refusal, Roll, Searcher, Table, Width, FRAME, SYMBOLS,
};

const MEMBERS: &[u8] = b"pan 7 Oda 5550143\npan 12 Jory 5550128\npan 112 Maren 5550167\npan 21 Tavo 5550190\n";

/// abracadabra, as the paper has it.
const WORD: &[u8] = b"01020300050000000b0000000d6162726364\n0218c34600\n";

fn lines(text: &[u8]) -> Vec<&[u8]> {
    text.split_inclusive(|&byte| byte == b'\n').collect()
}

/// The refusal's number and value; what was lent stays.
fn refused(text: &[u8], bytes: usize) -> (u32, u64) {
    let mut buf = vec![0xee; bytes];
    let refusal = Roll::from_frames(text, &mut buf).unwrap_err();
    assert!(buf.iter().all(|&byte| byte == 0xee));
    (refusal.number(), refusal.value())
}

#[test]
fn the_word() {
    let (roll, buf) = (Roll::new(Table::new(2, 3, b"abrcd"), 11, 13), [0x18, 0xc3, 0x46, 0x00, 0x77]);
    let mut out = [0xee; 50];
    assert_eq!(roll.to_frames(&buf, &mut out), Ok(WORD));
    assert_eq!((out[48..].to_vec(), WORD.len()), (vec![0xee; 2], frame_text_for(2, 5, 13)));
    let mut back = [0xee; 6];
    assert_eq!(Roll::from_frames(WORD, &mut back), Ok(roll.clone()));
    assert_eq!(back, [0x18, 0xc3, 0x46, 0x00, 0xee, 0xee]);
    assert_eq!(Roll::from_frames(WORD, &mut back[..4]), Ok(roll.clone()));
    assert_eq!(OwnedRoll::from_frames(WORD).unwrap().text(), b"abracadabra");

    // Refused, nothing is written.
    let mut out = [0xee; 47];
    assert_eq!(roll.to_frames(&buf, &mut out), Err(Refusal::ShortOutput { needed: 48 }));
    let wrong = Roll::new(roll.table().clone(), 12, 13);
    assert_eq!(wrong.to_frames(&buf, &mut out), Err(Refusal::BadCharacterCount { read: 11, n: 12 }));
    assert_eq!(out, [0xee; 47]);
    assert_eq!(refused(WORD, 3), (5, 13));
}

/// No later line with h 0, and none behind one that is full.
#[test]
fn where_frames_end() {
    for (symbols, frames) in [(0, 0), (1, 1), (128, 1), (129, 2), (255, 2), (256, 2), (257, 3)] {
        // Byte 10 has the first rank here, and takes one symbol.
        let roll = OwnedRoll::with_spare(Width::Two, &vec![b'\n'; symbols], b"", 40).unwrap();
        let text = roll.to_frames();
        let lines = lines(&text);
        assert_eq!((lines.len(), roll.as_parts().0.h() as usize), (1 + frames, symbols));
        assert_eq!(OwnedRoll::from_frames(&text).unwrap(), roll);
        let mut bytes = Vec::new();
        for line in &lines[1..] {
            bytes.extend_from_slice(read_frame(line, &mut [0; FRAME]).unwrap());
        }
        assert_eq!(bytes, roll.as_parts().1);
        // One line more, or a byte.
        for more in [&b"\n"[..], b"02\n", b"0200\n", b"0", lines[0]] {
            let more = [&text[..], more].concat();
            assert_eq!(refused(&more, 100), (15, 1 + frames as u64));
        }
        // One line less.
        if frames > 0 {
            let short = &text[..text.len() - lines[frames].len()];
            let missing = Refusal::BadLine { line: frames, missing: true };
            assert_eq!(OwnedRoll::from_frames(short).unwrap_err(), missing);
        }
    }
}

/// Every byte of a text changed, and every cutting of it.
#[test]
fn each_byte() {
    let roll = OwnedRoll::new(Width::Two, MEMBERS).unwrap();
    let text = roll.to_frames();
    let number_of = |place: usize| text[..place].iter().filter(|&&byte| byte == b'\n').count() as u64;
    for place in 0..text.len() {
        let mut damaged = text.clone();
        for byte in [b' ', b'\r', b'g', b'/', b':', b'`', b'F', b'A', 0, 255] {
            damaged[place] = byte;
            assert_eq!(refused(&damaged, 100), (15, number_of(place)), "{} at {}", byte, place);
        }
        // Another digit may be another roll, and nothing else.
        damaged[place] = if text[place] == b'0' { b'1' } else { b'0' };
        if let Ok(other) = OwnedRoll::from_frames(&damaged) {
            assert_eq!(other.to_frames(), damaged);
        }
        // A line is missing where the text ends with one, and wrong where it ends inside.
        let missing = place == 0 || text[place - 1] == b'\n';
        let bad = Refusal::BadLine { line: number_of(place) as usize, missing };
        assert_eq!(OwnedRoll::from_frames(&text[..place]).unwrap_err(), bad);
    }
    assert_eq!(OwnedRoll::from_frames(&text).unwrap(), roll);
}

/// The lines' shape is asked before the table, the table before h, and that before the codewords.
#[test]
fn the_order_of_refusals() {
    let with = |first: &str, rest: &str| refused(&[first, rest].concat().into_bytes(), 4);
    let good = "0218c34600\n";
    assert_eq!(with("010303000500000000000000006162726364", "\n0"), (1, 0));
    assert_eq!(with("010303000500000000000000006162726364", ""), (15, 0));
    assert_eq!(with("010204000500000000000000006162726364\n", "\n"), (15, 1));
    assert_eq!(with("010204000500000000ffffffff6162726364\n", good), (15, 1));
    assert_eq!(with("010204000500000000000000ff6162726364\n", good), (15, 1));
    assert_eq!(with("0102040005000000000000000d6162726364\n", good), (1, 0));
    assert_eq!(with("0102030005000000000000000d6162726361\n", good), (1, 0));
    assert_eq!(with("010203000500000000000000116162726364\n", "0218c34600ff\n"), (5, 17));
    assert_eq!(with("010203000500000000000000086162726364\n", "0218c3\n"), (6, 7));
    assert_eq!(with("0102030005000000000000000d6162726364\n", "0218c34601\n"), (7, 11));
    assert_eq!(with("01020300050000000b0000000d6162726364\n", "0218c34601\n"), (8, 0));
    // Over 256 characters: well written, and no table.
    let many = format!("0102030101{}{}\n", "00".repeat(8), "61".repeat(257)).into_bytes();
    let roll = Roll::from_first_line(&many).unwrap();
    assert_eq!((roll.table().sigma(), roll.table().characters()), (257, &[b'a'; 256][..]));
    assert_eq!(refused(&many, 4), (1, 0));
    assert_eq!(
        OwnedRoll::from_frames(&many).unwrap_err().to_string(),
        "refusal 1: the table is not good: it has 257 characters, more than 256"
    );
}

#[test]
fn one_line_at_a_time() {
    let first = |line: &[u8]| Roll::from_first_line(line).map_err(|refusal| refusal.number());
    assert_eq!(first(lines(WORD)[0]), Ok(Roll::new(Table::new(2, 3, b"abrcd"), 11, 13)));
    assert_eq!(first(lines(WORD)[1]), Err(15));
    assert_eq!(first(WORD), Err(15));
    assert_eq!(first(b""), Err(15));
    assert_eq!(first(b"\n"), Err(15));
    let mut out = [0xee; 33];
    assert_eq!(read_frame(lines(WORD)[1], &mut out), Ok(&[0x18, 0xc3, 0x46, 0x00][..]));
    assert_eq!(out[4..], [0xee; 29]);
    let frame = |bytes: usize| format!("02{}\n", "5a".repeat(bytes)).into_bytes();
    for bytes in 1..=FRAME {
        assert_eq!(read_frame(&frame(bytes), &mut vec![0; bytes]).map(<[u8]>::len), Ok(bytes));
        assert_eq!(read_frame(&frame(bytes), &mut vec![0; bytes - 1]), Err(Refusal::ShortOutput { needed: bytes }));
    }
    for line in [&frame(0)[..], &frame(33), lines(WORD)[0], b"", b"\n", b"0\n", b"025\n", b"025a", b"025A\n", b"035a\n"]
    {
        assert_eq!(read_frame(line, &mut out), Err(Refusal::NotTheFrame));
        assert_eq!(read_frame(line, &mut []), Err(Refusal::NotTheFrame));
    }
}

/// Fed line by line the hits are those of the whole, and the bytes that came are the roll's.
#[test]
fn searched_as_it_comes_in() {
    for width in [Width::Two, Width::Four] {
        let roll = OwnedRoll::new(width, &MEMBERS.repeat(6)).unwrap();
        let text = roll.to_frames();
        for pattern in [&b"pan"[..], b"55", b"pan 12 ", b"x"] {
            let mut coming = lines(&text).into_iter();
            let record = Roll::from_first_line(coming.next().unwrap()).unwrap();
            assert_eq!(&record, roll.as_parts().0);
            let mut searcher = Searcher::new(&record, pattern).unwrap();
            let (mut packed, mut hits) = ([0; FRAME], vec![0; hits_for(width.k(), FRAME)]);
            let (mut found, mut bytes) = (Vec::new(), Vec::new());
            for line in coming {
                let piece = read_frame(line, &mut packed).unwrap();
                bytes.extend_from_slice(piece);
                found.extend(searcher.feed(piece, &mut hits).unwrap().iter().map(|&hit| hit as usize));
            }
            searcher.finish().unwrap();
            assert_eq!((found, &bytes[..]), (roll.find(pattern).unwrap(), roll.as_parts().1));
        }
    }
}

#[test]
fn the_longest() {
    for width in [Width::Two, Width::Four] {
        let roll = OwnedRoll::new(width, &vec![b'a'; SYMBOLS]).unwrap();
        let text = roll.to_frames();
        let table = roll.table();
        assert_eq!(text.len(), frame_text_for(width.k(), table.sigma(), 1_048_576));
        assert_eq!(lines(&text).len(), 1 + bytes_for(width.k(), 1_048_576) / FRAME);
        assert_eq!(OwnedRoll::from_frames(&text).unwrap(), roll);
    }
}
