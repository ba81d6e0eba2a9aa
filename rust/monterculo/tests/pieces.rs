//! A roll searched while it comes in, held to the search of the whole.

use monterculo::{bytes_for, hits_for, OwnedRoll, PieceRefusal, Refusal, Roll, Searcher, Table, Width};

const MEMBERS: &[u8] = b"pan 7 Oda 5550143\npan 12 Jory 5550128\npan 112 Maren 5550167\npan 21 Tavo 5550190\n";

/// What comes of these pieces: the hits, and the searcher at the end.
fn fed<'a>(mut searcher: Searcher, pieces: impl IntoIterator<Item = &'a [u8]>) -> (Vec<u32>, Searcher) {
    let (mut found, mut hits) = (Vec::new(), vec![u32::MAX; 1_000]);
    for piece in pieces {
        let lent = searcher.clone().feed(piece, &mut hits).unwrap().to_vec();
        assert!(hits[lent.len()..].iter().all(|&later| later == u32::MAX));
        hits.fill(u32::MAX);
        // With just the entries needed, and with none lent.
        let needed = hits_for(searcher.roll().table().k(), piece.len());
        assert_eq!(searcher.clone().feed(piece, &mut vec![0; needed]).unwrap(), lent);
        assert!(searcher.find(piece).unwrap().into_iter().eq(lent.iter().map(|&hit| hit as usize)));
        found.extend(lent);
    }
    (found, searcher)
}

#[test]
fn every_cutting_into_three() {
    for width in [Width::Two, Width::Four] {
        let roll = OwnedRoll::new(width, MEMBERS).unwrap();
        let (record, bytes, _) = roll.as_parts();
        for pattern in [&b"pan"[..], b"55", b"5", b"pan 12 Jory 5550128", b"x"] {
            let searcher = Searcher::new(record, pattern).unwrap();
            assert_eq!((searcher.roll(), searcher.pattern()), (record.clone(), pattern));
            let (whole, end) = fed(searcher.clone(), [bytes]);
            assert!(whole.iter().map(|&hit| hit as usize).eq(roll.find(pattern).unwrap()));
            end.finish().unwrap();
            assert_eq!(end.missing(), 0);
            for first in 0..=bytes.len() {
                for second in first..=bytes.len() {
                    let pieces = [&bytes[..first], &bytes[first..second], &bytes[second..]];
                    assert_eq!(fed(searcher.clone(), pieces), (whole.clone(), end.clone()));
                }
            }
            let singly = bytes.chunks(1).flat_map(|byte| [byte, &[]]);
            assert_eq!(fed(searcher.clone(), singly), (whole, end));
        }
    }
}

#[test]
fn too_soon_at_each_byte() {
    let roll = OwnedRoll::new(Width::Two, MEMBERS).unwrap();
    let (record, bytes, _) = roll.as_parts();
    let mut searcher = Searcher::new(record, b"pan").unwrap();
    for (at, byte) in bytes.iter().enumerate() {
        let missing = bytes.len() - at;
        assert_eq!(searcher.missing(), missing);
        match searcher.finish() {
            Err(Refusal::EndsTooSoon { symbol, missing: told }) => {
                assert!(symbol <= 4 * at && told == missing);
            }
            answer => panic!("{:?}", answer),
        }
        searcher.find(&[*byte]).unwrap();
    }
    assert_eq!((searcher.missing(), searcher.finish()), (0, Ok(())));
}

#[test]
fn refused_pieces_change_nothing() {
    let (table, bytes) = (Table::new(2, 3, b"abrcd"), [0x18, 0xc3, 0x46, 0x00, 0x00]);
    let mut searcher = Searcher::new(&Roll::new(table.clone(), 11, 13), b"abra").unwrap();
    let mut hits = [9; 20];
    assert_eq!(searcher.feed(&bytes[..1], &mut hits).unwrap(), [0]);
    let before = searcher.clone();
    let long = Refusal::LongPiece { length: 4, missing: 3, h: 13 };
    let none: &[u32] = &[];
    assert_eq!(searcher.feed(&bytes[1..], &mut hits), Err(PieceRefusal { refusal: long, hits: none }));
    assert_eq!(searcher.find(&bytes[1..]), Err(PieceRefusal { refusal: long, hits: Vec::new() }));
    let short = Refusal::ShortHits { needed: 12 };
    assert_eq!(searcher.feed(&bytes[1..4], &mut hits[..11]), Err(PieceRefusal { refusal: short, hits: none }));
    // Over any roll, and 5 before 14.
    assert_eq!(searcher.find(&vec![0; 300_000]).unwrap_err().refusal.number(), 5);
    assert_eq!(searcher.feed(&vec![0; 300_000], &mut []).unwrap_err().refusal.number(), 5);
    assert_eq!((&searcher, hits[1..].iter().all(|&later| later == 9)), (&before, true));
    assert_eq!(searcher.feed(&bytes[1..4], &mut hits).unwrap(), [7]);
    searcher.finish().unwrap();
    assert_eq!(searcher.feed(&[], &mut []).unwrap(), none);
    assert_eq!(bytes_for(2, 13), 4);

    let record = |n, h| Roll::new(table.clone(), n, h);
    assert_eq!(Searcher::new(&record(0, 1_048_577), b"").unwrap_err(), Refusal::LongRoll { h: 1_048_577 });
    assert_eq!(Searcher::new(&record(0, 1_048_576), b"").unwrap_err(), Refusal::BadPattern { length: 0 });
    assert_eq!(Searcher::new(&record(0, 9), &[b'a'; 65]).unwrap_err(), Refusal::BadPattern { length: 65 });
    assert_eq!(Searcher::new(&record(0, 9), b"abra\n").unwrap_err(), Refusal::NewlineInPattern { place: 4 });
    assert_eq!(Searcher::new(&Roll::new(Table::new(3, 1, b"a"), 0, 1_048_577), b"").unwrap_err().number(), 1);
    let empty = Searcher::new(&record(1, 0), b"a").unwrap();
    assert_eq!(empty.finish(), Err(Refusal::BadCharacterCount { read: 0, n: 1 }));
    assert_eq!(empty.clone().find(&[0]).unwrap_err().refusal, Refusal::LongPiece { length: 1, missing: 0, h: 0 });
}

/// The one refusal that hands hits over, and only once.
#[test]
fn the_hits_before_a_bad_codeword() {
    // abracadabra up to the first symbol of d: unfinished at the roll's end.
    let mut searcher = Searcher::new(&Roll::new(Table::new(2, 3, b"abrcd"), 11, 8), b"a").unwrap();
    let mut hits = [9; 8];
    let bad = Refusal::BadCodeword { symbol: 7 };
    let stopped = searcher.feed(&[0x18, 0xc3], &mut hits).unwrap_err();
    assert_eq!((stopped.refusal, stopped.hits), (bad, &[0, 3, 5][..]));
    assert_eq!(stopped.to_string(), bad.to_string());
    assert_eq!(format!("{:?}", stopped), bad.to_string());
    assert_eq!(hits, [0, 3, 5, 9, 9, 9, 9, 9]);
    let before = searcher.clone();
    for piece in [&[][..], &[0x46], &[0; 99]] {
        assert_eq!(searcher.find(piece), Err(PieceRefusal { refusal: bad, hits: Vec::new() }));
        assert_eq!(searcher.finish(), Err(bad));
    }
    assert_eq!(searcher, before);

    fn answer(mut searcher: Searcher) -> Result<Vec<usize>, Refusal> {
        Ok(searcher.find(&[])?)
    }
    assert_eq!(answer(before), Err(bad));
}
