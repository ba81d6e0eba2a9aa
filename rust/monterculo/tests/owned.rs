//! The owned roll, held to plain texts.

use std::ops::Bound;

use monterculo::{count, entries_for, Line, OwnedRoll, Refusal, Roll, Table, Width, SYMBOLS};

const MEMBERS: &[u8] = b"pan 7 Oda 5550143\npan 12 Jory 5550128\npan 112 Maren 5550167\npan 21 Tavo 5550190\n";

/// A roll is that of the parts it gives, and its directory right.
fn hold(roll: &OwnedRoll, text: &[u8]) {
    assert_eq!(roll.text(), text);
    assert_eq!((roll.len(), roll.is_empty()), (text.len(), text.is_empty()));
    let (record, buf, directory) = roll.as_parts();
    assert_eq!(directory.len(), entries_for(record.n()));
    let again = OwnedRoll::from_parts(record.clone(), buf.to_vec(), directory.to_vec()).unwrap();
    assert_eq!(&again, roll);
    assert_eq!(roll.clone().into_parts(), again.into_parts());
}

#[test]
fn made_found_replaced() {
    for width in [Width::Two, Width::Four] {
        for spare in [0, 1, 50, usize::MAX] {
            let mut roll = OwnedRoll::with_spare(width, MEMBERS, b"ABC", spare).unwrap();
            hold(&roll, MEMBERS);
            assert_eq!(roll.table().k(), width.k());
            assert_eq!(roll.find(b"pan").unwrap(), [0, 18, 38, 60]);
            assert_eq!(roll.find(b"pan 12 ").unwrap(), [18]);
            assert_eq!(roll.find_jumping(b"pan").unwrap(), [0, 18, 38, 60]);
            assert_eq!(roll.find_jumping(b"pan 12 ").unwrap(), [18]);
            let mut text = MEMBERS.to_vec();
            for (range, put) in [(30..37, &b"+445550186"[..]), (0..18, b""), (0..0, b"pan 3 ABBA 5550101\n")] {
                roll.replace(range.clone(), put).unwrap();
                text.splice(range, put.iter().copied());
                hold(&roll, &text);
                for (place, &character) in text.iter().enumerate() {
                    assert_eq!(roll.read_one(place), Ok(character));
                }
            }
        }
    }
}

/// The search that jumps finds what the plain one finds, and refuses what it refuses.
#[test]
fn both_searches_find_the_same() {
    // All in one line, so that any run of it may be sought.
    let line: Vec<u8> = MEMBERS.iter().map(|&character| if character == b'\n' { b';' } else { character }).collect();
    let text = [&line.repeat(20)[..], b"aaaaaaaaaaaa"].concat();
    for width in [Width::Two, Width::Four] {
        let roll = OwnedRoll::new(width, &text).unwrap();
        for length in [1, 2, 3, 4, 7, 16, 33, 64] {
            let last = text.len() - length;
            for start in (0..last).step_by(61).chain([last]) {
                let mut pattern = text[start..start + length].to_vec();
                let found = roll.find_jumping(&pattern).unwrap();
                assert!(found.contains(&start));
                assert_eq!(found, roll.find(&pattern).unwrap());
                // Near misses.
                for place in [0, length / 2, length - 1] {
                    pattern[place] = b'J';
                    assert_eq!(roll.find_jumping(&pattern), roll.find(&pattern));
                }
            }
        }
        // More hits than are listed at first, and none.
        assert_eq!(roll.find_jumping(b"555").unwrap().len(), 80);
        assert_eq!(roll.find_jumping(b"aaaaaaaaaa").unwrap(), [1600, 1601, 1602]);
        assert_eq!(roll.find_jumping(b"pan 12 Jury").unwrap(), []);
        assert_eq!(roll.find_jumping(b"pan#").unwrap(), []);
        assert_eq!(roll.find_jumping(b""), Err(Refusal::BadPattern { length: 0 }));
        assert_eq!(roll.find_jumping(&[b'a'; 65]), roll.find(&[b'a'; 65]));
        assert_eq!(roll.find_jumping(b"pan 12\n"), Err(Refusal::NewlineInPattern { place: 6 }));
    }
}

/// Characters that the text has are not counted once more.
#[test]
fn further_characters() {
    for width in [Width::Two, Width::Four] {
        let plain = OwnedRoll::new(width, b"aab").unwrap();
        assert_eq!(OwnedRoll::with_spare(width, b"aab", b"bbb", 9).unwrap(), plain);
        let more = OwnedRoll::with_spare(width, b"aab", b"zz", 0).unwrap();
        assert_eq!(more.table().characters(), b"a\n+0123456789bz");
    }
}

/// Digits, + and byte 10 can come without being asked for.
#[test]
fn telephone_numbers() {
    for width in [Width::Two, Width::Four] {
        for text in [&b""[..], b"tel ", MEMBERS] {
            let mut roll = OwnedRoll::new(width, text).unwrap();
            roll.replace(text.len().., b"+445550186\n0123456789").unwrap();
            hold(&roll, &[text, b"+445550186\n0123456789"].concat());
            assert!(matches!(roll.replace(..0, b"-"), Err(Refusal::NotInTable { place: 0, character: b'-' })));
        }
    }
}

#[test]
fn kinds_of_ranges() {
    let roll = OwnedRoll::new(Width::Two, b"abracadabra").unwrap();
    let of = |start, end| roll.text_of((start, end)).map_err(|refusal| refusal.number());
    use Bound::{Excluded, Included, Unbounded};
    assert_eq!(roll.text_of(..).unwrap(), b"abracadabra");
    assert_eq!(roll.text_of(4..7).unwrap(), b"cad");
    assert_eq!(roll.text_of(4..=6).unwrap(), b"cad");
    assert_eq!(roll.text_of(..4).unwrap(), b"abra");
    assert_eq!(roll.text_of(7..).unwrap(), b"abra");
    assert_eq!(of(Excluded(3), Included(6)).unwrap(), b"cad");
    assert_eq!(of(Excluded(10), Unbounded).unwrap(), b"");
    for (start, end) in [
        (Excluded(11), Unbounded),
        (Excluded(usize::MAX), Unbounded),
        (Excluded(usize::MAX), Included(usize::MAX)),
        (Included(0), Included(11)),
        (Included(0), Included(usize::MAX)),
        (Included(5), Excluded(4)),
        (Included(usize::MAX), Excluded(usize::MAX)),
        (Unbounded, Excluded(usize::MAX)),
    ] {
        assert_eq!(of(start, end), Err(10));
        assert_eq!(roll.clone().replace((start, end), b"a").unwrap_err().number(), 10);
        assert_eq!(roll.clone().replace_any((start, end), b"x").unwrap_err().number(), 10);
    }
}

#[test]
fn lines() {
    let line = |text: &[u8], place| OwnedRoll::new(Width::Four, text).unwrap().line_of(place);
    let is = |range, text: &[u8]| Ok(Line { range, text: text.to_vec() });
    // The byte 10 at 3 ends the first line, and that at 4 an empty one.
    for place in 0..=3 {
        assert_eq!(line(b"abc\n\nde", place), is(0..3, b"abc"));
    }
    assert_eq!(line(b"abc\n\nde", 4), is(4..4, b""));
    for place in 5..=6 {
        assert_eq!(line(b"abc\n\nde", place), is(5..7, b"de"));
    }
    assert_eq!(line(b"abc\n\nde", 7), Err(Refusal::BadPlace { place: 7, n: 7 }));
    assert_eq!(line(b"", 0), Err(Refusal::BadPlace { place: 0, n: 0 }));
    assert_eq!(line(b"no end", usize::MAX), Err(Refusal::BadPlace { place: usize::MAX, n: 6 }));
    assert_eq!(line(b"no end", 2), is(0..6, b"no end"));

    // Lines that reach past what is unpacked first, at every place of them.
    for last in [0, 1, 127, 128, 129, 1_025] {
        let mut text = Vec::new();
        for length in [129, 0, 128, 127, 300, 1_024, last] {
            text.extend(vec![b'a'; length]);
            text.push(b'\n');
        }
        text.pop();
        let roll = OwnedRoll::new(Width::Two, &text).unwrap();
        let mut start = 0;
        for line in text.split(|&character| character == b'\n') {
            let end = start + line.len();
            for place in start..(end + 1).min(text.len()) {
                assert_eq!(roll.line_of(place), is(start..end, line));
            }
            start = end + 1;
        }
    }
}

#[test]
fn all_hits() {
    let roll = OwnedRoll::new(Width::Two, &[b'a'; 1000]).unwrap();
    for length in [1, 2, 63, 64] {
        assert_eq!(roll.find(&vec![b'a'; length]).unwrap(), (0..=1000 - length).collect::<Vec<_>>());
    }
    assert_eq!(roll.find(b"b").unwrap(), []);
    assert_eq!(roll.find(b""), Err(Refusal::BadPattern { length: 0 }));
    assert_eq!(roll.find(&[b'a'; 65]), Err(Refusal::BadPattern { length: 65 }));
    assert_eq!(roll.find(b"a\na"), Err(Refusal::NewlineInPattern { place: 1 }));
}

/// Room is made up to the limit, and there the refusal stands.
#[test]
fn room_grows_to_the_limit() {
    for width in [Width::Two, Width::Four] {
        let mut roll = OwnedRoll::with_spare(width, b"", b"ab", 0).unwrap();
        hold(&roll, b"");
        // Of characters that are counted alike the lowest has rank 0, and that takes one symbol: byte 10.
        let mut text = Vec::new();
        while text.len() < SYMBOLS {
            let put = vec![b'\n'; (text.len() + 1).min(SYMBOLS - text.len())];
            roll.replace(text.len().., &put).unwrap();
            text.extend(put);
        }
        assert_eq!(roll.as_parts().0.h(), 1_048_576);
        let before = roll.clone();
        assert_eq!(roll.replace(7..7, b"\n"), Err(Refusal::NoRoom { character: 1_048_576 }));
        assert_eq!(roll.replace_any(7..7, b"\n"), Err(Refusal::NoRoom { character: 1_048_576 }));
        assert_eq!(roll.replace_any(7..7, b"x"), Err(Refusal::LongText { length: 1_048_577 }));
        assert_eq!(roll, before);
        roll.replace(7..8, b"\n").unwrap();
        roll.replace(.., b"ba").unwrap();
        hold(&roll, b"ba");
    }
    // A text that is counted and has no room: the first character behind 1,048,576 symbols.
    let many: Vec<u8> = (0..=255).cycle().take(SYMBOLS).collect();
    assert_eq!(OwnedRoll::new(Width::Two, &many).unwrap_err().number(), 4);
    assert_eq!(OwnedRoll::new(Width::Two, &vec![b'a'; SYMBOLS + 1]), Err(Refusal::LongText { length: 1_048_577 }));
    // A refused growth leaves the roll as it was.
    let mut roll = OwnedRoll::new(Width::Two, b"abracadabra").unwrap();
    assert_eq!(roll.replace(0..0, &vec![b'a'; 1_050_000]), Err(Refusal::NoRoom { character: 1_048_576 }));
    hold(&roll, b"abracadabra");
}

/// A text can fill a roll, though its total is over the limit by those of the twelve that it does not hold.
#[test]
fn full_with_a_total_over_the_limit() {
    let text = vec![b'a'; SYMBOLS];
    let mut counts = [7; 256];
    count(&text, &mut counts).unwrap();
    for width in [Width::Two, Width::Four] {
        let (table, total) = Table::choose(width.k(), &counts).unwrap();
        assert!(total > 1_048_576);
        let roll = OwnedRoll::new(width, &text).unwrap();
        assert_eq!((roll.table(), roll.as_parts().0.h()), (&table, 1_048_576));
        hold(&roll, &text);
    }
}

#[test]
fn any_character() {
    let mut roll = OwnedRoll::with_spare(Width::Two, MEMBERS, b"", 10).unwrap();
    let before = roll.clone();
    assert_eq!(roll.replace(30..37, b"5-5"), Err(Refusal::NotInTable { place: 1, character: b'-' }));
    assert_eq!(roll, before);
    roll.replace_any(30..37, b"+44-5550186").unwrap();
    let mut text = MEMBERS.to_vec();
    text.splice(30..37, b"+44-5550186".iter().copied());
    hold(&roll, &text);
    // The old table's characters can still come, though the text has lost them.
    roll.replace(.., b"").unwrap();
    roll.replace_any(.., b"#").unwrap();
    roll.replace(.., MEMBERS).unwrap();
    hold(&roll, MEMBERS);
}

#[test]
fn parts_are_checked() {
    let (record, buf, directory) = OwnedRoll::new(Width::Two, MEMBERS).unwrap().into_parts();
    let from = |record: &Roll, buf: &[u8], directory: &[u32]| {
        OwnedRoll::from_parts(record.clone(), buf.to_vec(), directory.to_vec()).map_err(|refusal| refusal.number())
    };
    // What lies behind the parts in use is spare room, and is cleared.
    let more = from(&record, &[&buf[..], &[0xff; 100]].concat(), &[&directory[..], &[7; 9]].concat()).unwrap();
    hold(&more, MEMBERS);
    let table = record.table();
    let bad = Roll::new(Table::new(3, 1, table.characters()), record.n(), record.h());
    assert_eq!(from(&bad, &buf, &directory), Err(1));
    assert_eq!(from(&record, &buf[1..], &directory), Err(5));
    assert_eq!(from(&Roll::new(table.clone(), record.n() + 1, record.h()), &buf, &directory), Err(7));
    assert_eq!(from(&record, &buf, &directory[1..]), Err(9));
    assert_eq!(from(&record, &buf, &[]), Err(9));
}
