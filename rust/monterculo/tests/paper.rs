//! The paper's worked cases through this crate, and each refusal once.

use std::collections::HashSet;
use std::error::Error;

use monterculo::{
    bytes_for, count, entries_for, read_frame, sys, Codeword, OwnedRoll, Refusal, Roll, Searcher, Table, TableFault,
    SYMBOLS,
};

/// A text packed with this table, in a buffer of just its size.
fn packed(table: &Table, text: &[u8]) -> (Roll, Vec<u8>) {
    let symbols = text.iter().map(|&c| table.codeword_of(c).unwrap().symbols().len() as u64).sum();
    let mut buf = vec![0; bytes_for(table.k(), symbols)];
    let roll = Roll::pack(table, text, &mut buf).unwrap();
    assert_eq!(u64::from(roll.h()), symbols);
    assert_eq!(roll.table(), table);
    (roll, buf)
}

/// The table chosen for a text, and the total.
fn chosen(k: u8, text: &[u8]) -> (Table, u64) {
    let mut counts = [7; 256];
    count(text, &mut counts).unwrap();
    Table::choose(k, &counts).unwrap()
}

/// P2's roll.
fn abracadabra() -> (Roll, Vec<u8>) {
    packed(&Table::new(2, 3, b"abrcd"), b"abracadabra")
}

fn directory_of(roll: &Roll, buf: &[u8]) -> Vec<u32> {
    let mut directory = vec![0; entries_for(roll.n())];
    roll.make_directory(buf, &mut directory).unwrap();
    directory
}

fn text_of(roll: &Roll, buf: &[u8]) -> Vec<u8> {
    let n = roll.n() as usize;
    let mut out = vec![0; n];
    roll.unpack(buf, 0..n, &mut out).unwrap();
    out
}

/// All hits, the same of both searches, and that they are as many as the total says.
fn hits_of(roll: &Roll, buf: &[u8], pattern: &[u8]) -> Vec<u32> {
    let mut hits = vec![u32::MAX; roll.n() as usize];
    let mut jumping = hits.clone();
    let total = roll.search(buf, pattern, &mut hits).unwrap() as usize;
    assert_eq!(roll.search_jumping(buf, pattern, &mut jumping), Ok(total as u32));
    assert_eq!(jumping, hits);
    assert!(hits[total..].iter().all(|&later| later == u32::MAX));
    hits.truncate(total);
    hits
}

/// The number and the value of a refusal.
fn refused<T: std::fmt::Debug>(answer: Result<T, Refusal>) -> (u32, u64) {
    let refusal = answer.unwrap_err();
    (refusal.number(), refusal.value())
}

#[test]
fn p2_bytes() {
    let (roll, buf) = abracadabra();
    let table = roll.table();
    assert_eq!((table.k(), table.s(), table.sigma(), table.characters()), (2, 3, 5, &b"abrcd"[..]));
    assert_eq!(table.places()[..6], *b"abrcd\0");
    assert_eq!((roll.n(), roll.h()), (11, 13));
    assert_eq!(buf, [0x18, 0xc3, 0x46, 0x00]);
    let symbols: Vec<u8> =
        b"abracadabra".iter().flat_map(|&c| table.codeword_of(c).unwrap().symbols().to_vec()).collect();
    assert_eq!(symbols, [0, 1, 2, 0, 3, 0, 0, 3, 1, 0, 1, 2, 0]);
    for &character in table.characters() {
        assert_eq!(table.character_of(&table.codeword_of(character).unwrap()), Ok(character));
    }
    roll.check(&buf).unwrap();
    assert_eq!(text_of(&roll, &buf), b"abracadabra");
    // From stored parts it is the same roll.
    assert_eq!(Roll::new(Table::new(2, 3, b"abrcd"), 11, 13), roll);
}

#[test]
fn p2_read_one() {
    let (roll, buf) = abracadabra();
    let directory = directory_of(&roll, &buf);
    assert_eq!(directory, [0]);
    for (place, &character) in b"abracadabra".iter().enumerate() {
        assert_eq!(roll.read_one(&buf, &directory, place), Ok(character));
    }
}

#[test]
fn p3_no_hit_inside_a_codeword() {
    let (roll, buf) = abracadabra();
    assert_eq!(roll.table().codeword_of(b'b').unwrap(), Codeword::new(&[1]));
    assert_eq!(hits_of(&roll, &buf, b"b"), [1, 8]);
}

#[test]
fn p4_hits() {
    let (roll, buf) = abracadabra();
    assert_eq!(hits_of(&roll, &buf, b"a"), [0, 3, 5, 7, 10]);
    // The total is of all hits, though the slice holds fewer or none.
    let mut few = [9; 2];
    assert_eq!(roll.search(&buf, b"a", &mut few), Ok(5));
    assert_eq!(few, [0, 3]);
    assert_eq!(roll.search(&buf, b"a", &mut []), Ok(5));
    // A character that is not in the table stands nowhere.
    assert_eq!(roll.search(&buf, b"ax", &mut few), Ok(0));
    assert_eq!(few, [0, 3]);
}

#[test]
fn p5_overlapping_hits() {
    let (roll, buf) = packed(&Table::new(4, 3, b"anb"), b"banana");
    assert_eq!((roll.n(), roll.h()), (6, 6));
    assert_eq!(buf, [0x20, 0x10, 0x10]);
    assert_eq!(hits_of(&roll, &buf, b"ana"), [1, 3]);
}

/// The ten digits, + and byte 10 count as at least 1.
#[test]
fn chosen_tables_have_the_twelve() {
    let twelve = b"\n+0123456789";
    // Of the characters counted once the smaller byte comes first.
    let (table, total) = chosen(2, b"abracadabra");
    assert_eq!((&table, total), (&Table::new(2, 2, b"abr\n+0123456789cd"), 53));
    let (roll, buf) = packed(&table, b"abracadabra");
    assert_eq!((roll.h(), &buf[..]), (19, &[0x18, 0x2a, 0x4a, 0xc1, 0x80][..]));
    let (table, total) = chosen(4, b"banana");
    assert_eq!((&table, total), (&Table::new(4, 15, b"an\n+0123456789b"), 18));
    let (roll, buf) = packed(&table, b"banana");
    assert_eq!((roll.h(), &buf[..]), (6, &[0xe0, 0x10, 0x10][..]));

    for k in [2, 4] {
        for text in [&b""[..], b"abracadabra", b"tel 5550143", b"pan 7\npan 12\n", twelve] {
            let (table, total) = chosen(k, text);
            // The total is more than the symbols by a codeword of each that the text does not hold.
            let symbols = |c: u8| table.codeword_of(c).unwrap().symbols().len() as u64;
            let more: u64 = twelve.iter().filter(|c| !text.contains(c)).map(|&c| symbols(c)).sum();
            let mut buf = vec![0; bytes_for(k, total) + 100];
            let mut roll = Roll::pack(&table, text, &mut buf).unwrap();
            assert_eq!(u64::from(roll.h()) + more, total);
            assert_eq!(Roll::pack(&table, text, &mut buf[..bytes_for(k, total)]), Ok(roll.clone()));
            // A text of them can come by an edit.
            let mut directory = [0; 2];
            roll.make_directory(&buf, &mut directory).unwrap();
            roll.edit(&mut buf, &mut directory, .., b"+445550186\n0123456789").unwrap();
            assert_eq!(text_of(&roll, &buf), b"+445550186\n0123456789");
        }
    }
    // What is counted is not raised, no other character is, and the lent counts stay.
    let mut counts = [0; 256];
    for &c in twelve {
        counts[usize::from(c)] = 3;
    }
    counts[usize::from(b'7')] = 0;
    counts[usize::from(b'-')] = 2;
    let before = counts;
    assert_eq!(Table::choose(4, &counts), Ok((Table::new(4, 13, b"\n+012345689-7"), 36)));
    assert_eq!(counts, before);
}

#[test]
fn p10_edit_by_more() {
    let (mut roll, mut buf) = abracadabra();
    let mut directory = directory_of(&roll, &buf);
    roll.edit(&mut buf, &mut directory, 4..5, b"dd").unwrap();
    assert_eq!((roll.n(), roll.h()), (12, 15));
    assert_eq!(buf, [0x18, 0xdd, 0x34, 0x60]);
    assert_eq!(directory, [0]);
    assert_eq!(text_of(&roll, &buf), b"abraddadabra");
}

#[test]
fn p11_edit_by_nothing() {
    let (mut roll, mut buf) = abracadabra();
    let mut directory = directory_of(&roll, &buf);
    roll.edit(&mut buf, &mut directory, 4..7, b"").unwrap();
    assert_eq!((roll.n(), roll.h()), (8, 8));
    assert_eq!(buf, [0x18, 0x18, 0x00, 0x00]);
    assert_eq!(text_of(&roll, &buf), b"abraabra");
}

#[test]
fn p12_empty_text() {
    let mut counts = [7; 256];
    count(b"", &mut counts).unwrap();
    assert_eq!(counts, [0; 256]);
    let chosen = Table::choose(4, &counts).unwrap();
    assert_eq!(chosen, (Table::new(4, 12, b"\n+0123456789"), 12));
    let (table, total) = Table::choose(2, &counts).unwrap();
    assert_eq!((table.s(), table.sigma(), total), (2, 12, 28));
    assert_eq!(table.characters(), b"\n+0123456789");
    assert_eq!(table.places()[12..], [0; 244]);
    assert_eq!(counts, [0; 256]);

    let mut buf = [0xff; 3];
    let mut roll = Roll::pack(&table, b"", &mut buf).unwrap();
    assert_eq!((roll.n(), roll.h(), buf), (0, 0, [0xff; 3]));
    roll.check(&buf).unwrap();
    assert_eq!(entries_for(roll.n()), 0);
    let mut directory = [5; 1];
    roll.make_directory(&buf, &mut directory).unwrap();
    assert_eq!(directory, [5]);
    assert_eq!(roll.search(&buf, b"a", &mut [0; 4]), Ok(0));

    // Every slice may be empty.
    assert_eq!(Roll::pack(&table, b"", &mut []).unwrap(), roll);
    roll.check(&[]).unwrap();
    roll.unpack(&[], 0..0, &mut []).unwrap();
    roll.make_directory(&[], &mut []).unwrap();
    assert_eq!(roll.search(&[], b"a", &mut []), Ok(0));
    assert_eq!(roll.search_jumping(&[], b"a", &mut []), Ok(0));
    roll.edit(&mut [], &mut [], 0..0, b"").unwrap();
    assert_eq!((roll.n(), roll.h()), (0, 0));
    assert_eq!(refused(roll.read_one(&[], &[], 0)), (10, 0));
}

#[test]
fn p15_pattern_lengths() {
    let (roll, buf) = packed(&chosen(2, &[b'a'; 70]).0, &[b'a'; 70]);
    assert_eq!(hits_of(&roll, &buf, &[b'a'; 64]), [0, 1, 2, 3, 4, 5, 6]);
    assert_eq!(refused(roll.search(&buf, &[b'a'; 65], &mut [])), (11, 0));
    assert_eq!(refused(roll.search(&buf, b"", &mut [])), (11, 0));
    assert_eq!(refused(roll.search_jumping(&buf, &[b'a'; 65], &mut [])), (11, 0));
    assert_eq!(refused(roll.search_jumping(&buf, b"", &mut [])), (11, 0));
}

/// Two lines are refused, whether they stand in the text or not; byte 13 is a character as any other.
#[test]
fn no_newline_in_a_pattern() {
    let text = b"pan 7 Oda\r\npan 12 Jory\n";
    for k in [2, 4] {
        let (roll, buf) = packed(&chosen(k, text).0, text);
        let mut last_of_64 = [b'a'; 64];
        last_of_64[63] = b'\n';
        for pattern in [&b"\n"[..], b"\npan", b"Oda\r\n", b"Oda\r\npan 12", b"#\n", &[b'\n'; 64], &last_of_64] {
            let newline = Err(Refusal::NewlineInPattern { place: pattern.iter().position(|&c| c == b'\n').unwrap() });
            let (mut hits, mut jumping) = ([9; 4], [9; 4]);
            assert_eq!(roll.search(&buf, pattern, &mut hits).map(|_| ()), newline);
            assert_eq!(roll.search_jumping(&buf, pattern, &mut jumping).map(|_| ()), newline);
            assert_eq!((hits, jumping), ([9; 4], [9; 4]));
            assert_eq!(roll.find(&buf, pattern).map(|_| ()), newline);
            assert_eq!(roll.find_jumping(&buf, pattern).map(|_| ()), newline);
            assert_eq!(Searcher::new(&roll, pattern).map(|_| ()), newline);
            assert_eq!(refused(roll.search(&buf, pattern, &mut [])), (11, 0));
            // What check refuses comes first, and in a searcher 1 and 5.
            let wrong = Roll::new(roll.table().clone(), roll.n() + 1, roll.h());
            assert_eq!(refused(wrong.search(&buf, pattern, &mut [])), (7, text.len() as u64));
            assert_eq!(refused(wrong.search_jumping(&buf, pattern, &mut [])), (7, text.len() as u64));
            assert_eq!(refused(Searcher::new(&wrong, pattern)), (11, 0));
            assert_eq!(refused(Searcher::new(&Roll::new(roll.table().clone(), 0, 1_048_577), pattern)), (5, 1_048_577));
            assert_eq!(refused(Searcher::new(&Roll::new(Table::new(2, 4, b"a"), 0, 1_048_577), pattern)), (1, 0));
        }
        assert_eq!(hits_of(&roll, &buf, b"Oda\r"), [6]);
        assert_eq!(hits_of(&roll, &buf, b"\r"), [9]);
        assert_eq!(Searcher::new(&roll, b"\r").unwrap().find(&buf), Ok(vec![9]));
        assert_eq!(hits_of(&roll, &buf, b"Jory\r"), []);
    }
    let (roll, buf) = abracadabra();
    assert_eq!(hits_of(&roll, &buf, b"a\r"), []);
    assert_eq!(refused(roll.search(&buf, b"a\n", &mut [])), (11, 0));
}

/// Feed and finish refuse a searcher whose pattern has byte 10 as they refuse an empty pattern; past its length nothing is asked.
#[test]
fn no_newline_in_a_searcher() {
    let places = b"abrcd".iter().copied().chain([0; 251]).collect::<Vec<u8>>().try_into().unwrap();
    let table = sys::Table { k: 2, s: 3, sigma: 5, places };
    let started = sys::start(sys::Roll { table, n: 11, h: 13 }, b"abra").searcher;
    for place in 0..64 {
        let mut searcher = started;
        searcher.pattern[place] = b'\n';
        let (fed, finished) = (sys::feed(searcher, &[0x18], &mut [0; 4]), sys::finish(searcher));
        let (numbers, hits) = if place < 4 { ((11, 11), 0) } else { ((0, 6), 1) };
        assert_eq!((fed.answer.number, finished.number), numbers);
        assert_eq!((fed.answer.value, finished.value, fed.hits), (hits, 0, hits as usize));
        if place < 4 {
            assert_eq!(fed.searcher, searcher);
            // 1 for the table and 5 come before, and 1 for the other numbers behind.
            searcher.judge.progress.past = 2;
            assert_eq!(sys::finish(searcher).number, 11);
            searcher.judge.roll.h = 1_048_577;
            assert_eq!(sys::finish(searcher).number, 5);
            searcher.judge.roll.table.s = 0;
            assert_eq!(sys::finish(searcher).number, 1);
        }
    }
}

#[test]
fn p16_empty_range_at_the_end() {
    let (roll, buf) = packed(&chosen(2, b"abc").0, b"abc");
    assert_eq!(roll.unpack(&buf, 3..3, &mut []), Ok(()));
    assert_eq!(refused(roll.unpack(&buf, 4..4, &mut [])), (10, 0));
}

/// A directory over several entries stays right through edits, for both widths.
#[test]
fn directory_through_edits() {
    for k in [2, 4] {
        let mut text: Vec<u8> = (0..200u32).map(|i| b"salt works"[(i * i % 10) as usize]).collect();
        let mut counts = [1; 256];
        for &character in &text {
            counts[usize::from(character)] += 1;
        }
        let (table, _) = Table::choose(k, &counts).unwrap();
        let (mut buf, mut directory) = (vec![0; 16_384], vec![0; 16]);
        let mut roll = Roll::pack(&table, &text, &mut buf).unwrap();
        roll.make_directory(&buf, &mut directory).unwrap();
        for (range, put) in [(3..3, &b"pan 17"[..]), (100..150, b"x"), (0..1, b"0123456789"), (140..160, b"")] {
            roll.edit(&mut buf, &mut directory, range.clone(), put).unwrap();
            text.splice(range, put.iter().copied());
            assert_eq!(text_of(&roll, &buf), text);
            let entries = entries_for(roll.n());
            assert_eq!(directory[..entries], directory_of(&roll, &buf));
            assert!(directory[entries..].iter().all(|&entry| entry == 0));
            assert!(buf[bytes_for(k, roll.h().into())..].iter().all(|&byte| byte == 0));
            for (place, &character) in text.iter().enumerate() {
                assert_eq!(roll.read_one(&buf, &directory, place), Ok(character));
            }
        }
    }
}

/// Each number once, with its value, from a call that says so in its own documentation.
#[test]
fn each_refusal() {
    let (roll, buf) = abracadabra();
    let table = roll.table();
    let with = |n, h| Roll::new(table.clone(), n, h);

    assert_eq!(refused(Table::choose(3, &[0; 256])), (1, 0));
    assert_eq!(refused(count(b"abc", &mut [0; 255])), (2, 255));
    assert_eq!(refused(Roll::pack(table, b"abxay", &mut [0; 16])), (3, 2));
    assert_eq!(refused(Roll::pack(table, b"abracadabra", &mut [0; 3])), (4, 10));
    assert_eq!(refused(with(11, 17).check(&buf)), (5, 17));
    assert_eq!(refused(with(11, 8).check(&buf)), (6, 7));
    assert_eq!(refused(with(10, 13).check(&buf)), (7, 11));
    assert_eq!(refused(roll.check(&[0x18, 0xc3, 0x46, 0x01])), (8, 0));
    assert_eq!(refused(roll.read_one(&buf, &[13], 4)), (9, 0));
    assert_eq!(refused(roll.read_one(&buf, &[0], 11)), (10, 0));
    assert_eq!(refused(roll.search(&buf, b"", &mut [0; 4])), (11, 0));
    assert_eq!(refused(roll.make_directory(&buf, &mut [])), (12, 1));
    assert_eq!(refused(roll.unpack(&buf, 2..7, &mut [0; 4])), (13, 5));
    let mut searcher = Searcher::new(&roll, b"abra").unwrap();
    assert_eq!(refused(searcher.feed(&buf, &mut [0; 15]).map_err(Refusal::from)), (14, 16));
    let text = OwnedRoll::from_parts(roll.clone(), buf.to_vec(), vec![0]).unwrap().to_frames();
    assert_eq!(refused(Roll::from_frames(&text[..text.len() - 1], &mut [0; 4])), (15, 1));
}

#[test]
fn refusals_of_parts() {
    let everything: Vec<u8> = (0..=255).collect();
    assert_eq!(Table::new(4, 14, &everything).codeword_of(255).unwrap().symbols(), [14, 14, 15, 15, 3]);
    for characters in [257, 65_535, 65_536, 70_000] {
        let table = Table::new(4, 14, &everything.iter().copied().cycle().take(characters).collect::<Vec<u8>>());
        assert_eq!(usize::from(table.sigma()), characters.min(65_535));
        assert_eq!(table.characters(), everything);
        assert_eq!(refused(table.codeword_of(0)), (1, 0));
    }
    assert_eq!(refused(Table::new(2, 3, b"aa").codeword_of(b'a')), (1, 0));
    assert_eq!(refused(Table::new(2, 3, b"a").codeword_of(b'b')), (3, 0));

    // P9's longest codeword, and one symbol more.
    let table = Table::new(2, 3, &everything);
    let mut symbols = vec![3; 85];
    symbols.push(0);
    assert_eq!(table.codeword_of(255).unwrap().symbols(), symbols);
    assert_eq!(table.character_of(&Codeword::new(&symbols)), Ok(255));
    symbols.insert(0, 3);
    assert_eq!(refused(table.character_of(&Codeword::new(&symbols))), (6, 0));
    symbols.truncate(86);
    assert_eq!(refused(table.character_of(&Codeword::new(&symbols))), (6, 0));
    symbols[85] = 0;
    symbols.push(0);
    assert_eq!(refused(table.character_of(&Codeword::new(&symbols))), (6, 0));
    assert_eq!(Codeword::new(&symbols).symbols().len(), 86);
    assert_eq!(refused(table.character_of(&Codeword::new(&[]))), (6, 0));

    // P14: the last character that fits, and one more.
    let table = Table::new(2, 1, b"a");
    let (text, mut buf) = (vec![b'a'; SYMBOLS + 1], vec![0xff; 300_000]);
    assert_eq!(Roll::pack(&table, &text[..SYMBOLS], &mut buf), Ok(Roll::new(table.clone(), 1_048_576, 1_048_576)));
    assert_eq!(refused(Roll::pack(&table, &text, &mut buf)), (4, 1_048_576));
    assert_eq!(refused(count(&text, &mut [0; 256])), (4, 1_048_576));
    assert_eq!(count(&text[..SYMBOLS], &mut [0; 256]), Ok(()));
}

#[test]
fn a_refused_edit_changes_nothing() {
    let (mut roll, mut buf) = abracadabra();
    let mut directory = directory_of(&roll, &buf);
    let before = (roll.clone(), buf.clone(), directory.clone());
    assert_eq!(refused(roll.edit(&mut buf, &mut directory, std::ops::Range { start: 5, end: 4 }, b"")), (10, 0));
    assert_eq!(refused(roll.edit(&mut buf, &mut directory, 4..usize::MAX, b"")), (10, 0));
    assert_eq!(refused(roll.edit(&mut buf, &mut directory, 4..5, b"dx")), (3, 1));
    assert_eq!(refused(roll.edit(&mut buf, &mut directory, 4..5, b"ddd")), (4, 12));
    assert_eq!(refused(roll.edit(&mut buf, &mut [1], 4..5, b"d")), (9, 0));
    let mut wide = buf.clone();
    wide.resize(32, 0);
    assert_eq!(refused(roll.edit(&mut wide, &mut directory, 0..0, &[b'a'; 22])), (12, 2));
    assert_eq!((roll, buf, directory), before);
}

/// A frame text of one symbol more than a roll may have, with all its lines.
fn over_the_limit() -> Vec<u8> {
    let mut text = b"0102010001001000010010000161\n".to_vec();
    for line in vec![0_u8; 262_145].chunks(32) {
        text.extend(b"02");
        text.extend(line.iter().flat_map(|_| *b"00"));
        text.push(b'\n');
    }
    text
}

/// Each cause by its name and in its words.
#[test]
fn refusals_by_name() {
    let (roll, buf) = abracadabra();
    let table = roll.table();
    let with = |n, h| Roll::new(table.clone(), n, h);
    let bad = |k, s, characters: &[u8]| Table::new(k, s, characters).codeword_of(b'a').map(|_| ());
    let range = |range: std::ops::Range<usize>| roll.unpack(&buf, range, &mut [0; 4]);
    let no_place = roll.read_one(&buf, &[0], 11).map(|_| ());
    let search = |pattern: &[u8]| roll.search(&buf, pattern, &mut []).map(|_| ());
    let edit = |directory: &mut [u32]| roll.clone().edit(&mut buf.clone(), directory, 4..5, b"d");
    let start = |h| Searcher::new(&with(11, h), b"abra");
    let fed =
        |h, piece: &[u8], entries| start(h)?.feed(piece, &mut vec![0; entries]).map(|_| ()).map_err(Refusal::from);
    let finished = |piece: &[u8]| {
        let mut searcher = start(13)?;
        searcher.find(piece)?;
        searcher.finish()
    };
    let text = |k, sigma, h| format!("01{:02x}03{:04x}0000000b{:08x}6162726364\n", k, sigma, h).into_bytes();
    let frames = |text: &[u8]| Roll::from_frames(text, &mut [0; 4]).map(|_| ());
    let packed = b"0218c34600\n";

    #[rustfmt::skip]
    let cases = [
        (bad(3, 1, b"a"), Refusal::BadTable { fault: TableFault::Width { k: 3 } },
            "1: the table is not good: k is 3, and must be 2 or 4"),
        (bad(2, 4, b"a"), Refusal::BadTable { fault: TableFault::Stoppers { s: 4, most: 3 } },
            "1: the table is not good: s is 4, and must be from 1 to 3"),
        (bad(4, 0, b"a"), Refusal::BadTable { fault: TableFault::Stoppers { s: 0, most: 15 } },
            "1: the table is not good: s is 0, and must be from 1 to 15"),
        (bad(2, 1, &[b'a'; 257]), Refusal::BadTable { fault: TableFault::Characters { sigma: 257 } },
            "1: the table is not good: it has 257 characters, more than 256"),
        (bad(2, 3, b"abb"), Refusal::BadTable { fault: TableFault::Twice { character: b'b' } },
            "1: the table is not good: it has the character 'b' twice"),
        (count(b"abc", &mut [0; 255]), Refusal::BadCounts { length: 255 },
            "2: the length of the counts is 255, and must be 256"),
        (Roll::pack(table, b"ab\na", &mut [0; 16]).map(|_| ()), Refusal::NotInTable { place: 2, character: b'\n' },
            "3: the character '\\n' at place 2 is not in the table"),
        (Roll::pack(table, b"abracadabra", &mut [0; 3]).map(|_| ()), Refusal::NoRoom { character: 10 },
            "4: the packed text has no room in the buffer, from its character 10 on"),
        (count(&vec![b'a'; 1_050_000], &mut [0; 256]), Refusal::LongText { length: 1_050_000 },
            "4: a text of 1050000 characters is too long to be counted: at most 1048576 can be"),
        (with(11, 17).check(&buf), Refusal::BadSymbolCount { h: 17 },
            "5: h is 17, more symbols than the buffer has room for"),
        (start(1_048_577).map(|_| ()), Refusal::LongRoll { h: 1_048_577 },
            "5: h is 1048577, and a roll has at most 1048576 symbols"),
        (fed(12, &buf, 16), Refusal::LongPiece { length: 4, missing: 3, h: 12 },
            "5: a piece of 4 bytes reaches past the roll's last: 3 had not come in"),
        (fed(8, &buf[..2], 8), Refusal::BadCodeword { symbol: 7 },
            "6: the codeword at symbol 7 is bad: unfinished at the roll's end, or of a rank not in the table"),
        (finished(&buf[..2]), Refusal::EndsTooSoon { symbol: 7, missing: 2 },
            "6: the roll ends too soon, at symbol 7: 2 bytes have not come in"),
        (with(11, 8).check(&buf), Refusal::BadCodeword { symbol: 7 },
            "6: the codeword at symbol 7 is bad: unfinished at the roll's end, or of a rank not in the table"),
        (table.character_of(&Codeword::new(&[3, 2])).map(|_| ()), Refusal::NotOneCodeword,
            "6: the symbols are not exactly one codeword of a rank in the table"),
        (with(10, 13).check(&buf), Refusal::BadCharacterCount { read: 11, n: 10 },
            "7: n is 10, and the characters read are 11"),
        (roll.check(&[0x18, 0xc3, 0x46, 0x01]), Refusal::BadUnused,
            "8: an unused symbol of the last byte is not 0"),
        (edit(&mut []), Refusal::BadEntry { entry: 0, missing: true },
            "9: entry 0 of the directory is missing"),
        (edit(&mut [1]), Refusal::BadEntry { entry: 0, missing: false },
            "9: entry 0 of the directory is wrong"),
        (range(4..12), Refusal::BadRange { start: 4, end: 12, n: 11 },
            "10: the range 4..12 ends behind the text, whose length is 11"),
        (range(std::ops::Range { start: 5, end: 4 }), Refusal::BadRange { start: 5, end: 4, n: 11 },
            "10: the range 5..4 starts behind its end"),
        (no_place, Refusal::BadPlace { place: 11, n: 11 },
            "10: place 11 is behind the text, whose length is 11"),
        (search(b""), Refusal::BadPattern { length: 0 },
            "11: the pattern is empty"),
        (search(&[b'a'; 65]), Refusal::BadPattern { length: 65 },
            "11: the pattern has 65 characters, more than 64"),
        (search(b"abra\nabra"), Refusal::NewlineInPattern { place: 4 },
            "11: the pattern has a newline, at place 4"),
        (roll.make_directory(&buf, &mut []), Refusal::ShortDirectory { needed: 1 },
            "12: the directory is too short: entries needed are 1"),
        (range(2..7), Refusal::ShortOutput { needed: 5 },
            "13: the output is too short: bytes needed are 5"),
        (roll.to_frames(&buf, &mut [0; 47]).map(|_| ()), Refusal::ShortOutput { needed: 48 },
            "13: the output is too short: bytes needed are 48"),
        (read_frame(packed, &mut [0; 3]).map(|_| ()), Refusal::ShortOutput { needed: 4 },
            "13: the output is too short: bytes needed are 4"),
        (fed(13, &buf, 15), Refusal::ShortHits { needed: 16 },
            "14: the hit slice is too short: entries needed are 16"),
        (frames(&text(2, 5, 13)), Refusal::BadLine { line: 1, missing: true },
            "15: line 1 of the frame text is missing"),
        (frames(&[&text(2, 5, 13)[..], packed, b"\n"].concat()), Refusal::BadLine { line: 2, missing: false },
            "15: line 2 of the frame text is wrong, or one too many"),
        (frames(&text(2, 6, 13)), Refusal::BadLine { line: 0, missing: false },
            "15: line 0 of the frame text is wrong, or one too many"),
        (frames(b""), Refusal::BadLine { line: 0, missing: true },
            "15: line 0 of the frame text is missing"),
        (Roll::from_first_line(packed).map(|_| ()), Refusal::NotTheFrame,
            "15: the line is not the frame that was to be read"),
        (read_frame(&packed[..10], &mut [0; 4]).map(|_| ()), Refusal::NotTheFrame,
            "15: the line is not the frame that was to be read"),
        (frames(&text(42, 5, 13)), Refusal::BadTable { fault: TableFault::Width { k: 42 } },
            "1: the table is not good: k is 42, and must be 2 or 4"),
        (Roll::from_first_line(&text(3, 5, 13)).map(|_| ()), Refusal::BadTable { fault: TableFault::Width { k: 3 } },
            "1: the table is not good: k is 3, and must be 2 or 4"),
        (frames(&[&text(2, 5, 17)[..], b"0218c3460000\n"].concat()), Refusal::BadSymbolCount { h: 17 },
            "5: h is 17, more symbols than the buffer has room for"),
        (frames(&[&text(2, 5, 12)[..], b"0218c346\n"].concat()), Refusal::BadCharacterCount { read: 10, n: 11 },
            "7: n is 11, and the characters read are 10"),
        (OwnedRoll::from_frames(&over_the_limit()).map(|_| ()), Refusal::LongRoll { h: 1_048_577 },
            "5: h is 1048577, and a roll has at most 1048576 symbols"),
    ];
    let mut numbers = HashSet::new();
    for (answer, refusal, words) in cases {
        assert_eq!(answer, Err(refusal));
        assert_eq!(refusal.to_string(), format!("refusal {}", words));
        // What `main` prints.
        assert_eq!(format!("{:?}", refusal), refusal.to_string());
        numbers.insert(refusal.number());
    }
    assert_eq!(numbers, (1..=15).collect());

    fn answer() -> Result<(), Box<dyn Error + Send + Sync>> {
        count(b"", &mut [])?;
        Ok(())
    }
    assert_eq!(answer().unwrap_err().to_string(), "refusal 2: the length of the counts is 0, and must be 256");
}
