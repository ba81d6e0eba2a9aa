//! Garbage through every public function: all that is asked is that each call comes back.

use std::ops::Bound;

use monterculo::{
    bytes_for, count, entries_for, frame_text_for, hits_for, read_frame, sys, Codeword, Line, OwnedRoll, Refusal, Roll,
    Searcher, Table, TableFault, Width,
};

/// SplitMix64, from a fixed seed.
struct Garbage(u64);

impl Garbage {
    fn next(&mut self) -> u64 {
        self.0 = self.0.wrapping_add(0x9e37_79b9_7f4a_7c15);
        let mixed = (self.0 ^ (self.0 >> 30)).wrapping_mul(0xbf58_476d_1ce4_e5b9);
        let mixed = (mixed ^ (mixed >> 27)).wrapping_mul(0x94d0_49bb_1331_11eb);
        mixed ^ (mixed >> 31)
    }

    fn below(&mut self, bound: u64) -> u64 {
        self.next() % bound
    }

    /// Small, near a power of two, or anything.
    fn number(&mut self) -> u64 {
        match self.below(4) {
            0 => self.below(70),
            1 => (1 << self.below(64)) - 1 + self.below(3),
            2 => u64::MAX - self.below(3),
            _ => self.next(),
        }
    }

    fn place(&mut self) -> usize {
        self.number() as usize
    }

    /// Up to so many bytes of up to so many values.
    fn bytes(&mut self, most: u64, values: u64) -> Vec<u8> {
        (0..self.below(most + 1)).map(|_| self.below(values) as u8).collect()
    }

    fn numbers(&mut self, most: u64) -> Vec<u32> {
        (0..self.below(most + 1)).map(|_| self.number() as u32).collect()
    }

    fn bound(&mut self) -> Bound<usize> {
        match self.below(3) {
            0 => Bound::Included(self.place()),
            1 => Bound::Excluded(self.place()),
            _ => Bound::Unbounded,
        }
    }

    fn width(&mut self) -> Width {
        [Width::Two, Width::Four][self.below(2) as usize]
    }

    /// A table, a good one now and then.
    fn table(&mut self) -> Table {
        let k = [2, 4, 2, 4, self.next() as u8][self.below(5) as usize];
        let s = [1, 2, 3, 3, self.next() as u8][self.below(5) as usize];
        let characters = match self.below(4) {
            0 => self.bytes(300, 256),
            1 => (0..=255).collect(),
            _ => (0..self.below(12) as u8).collect(),
        };
        Table::new(k, s, &characters)
    }

    /// A record, now and then that of the buffer, or but for a bit of its last byte.
    fn roll(&mut self, buf: &mut [u8]) -> Roll {
        let table = self.table();
        if self.below(2) == 0 {
            let text = self.bytes(12, 6);
            if let Ok(roll) = Roll::pack(&table, &text, buf) {
                let used = bytes_for(table.k(), roll.h().into());
                if let Some(last) = buf[..used].last_mut().filter(|_| self.below(4) == 0) {
                    *last ^= 1 << self.below(8);
                }
                return roll;
            }
        }
        Roll::new(table, self.number() as u32, self.number() as u32)
    }
}

/// How often each number was answered, 0 for accepted.
#[derive(Default)]
struct Tally([u32; 16]);

impl Tally {
    /// What was accepted. The words of a refusal are written, and none is unknown.
    fn told<T>(&mut self, answer: Result<T, Refusal>) -> Option<T> {
        match answer {
            Ok(answer) => {
                self.0[0] += 1;
                Some(answer)
            }
            Err(refusal) => {
                assert_eq!(format!("{}", refusal), format!("{:?}", refusal));
                assert!(!matches!(refusal, Refusal::Other { .. }), "{}", refusal);
                assert_ne!(refusal, Refusal::BadTable { fault: TableFault::Unknown });
                self.0[refusal.number() as usize] += 1;
                None
            }
        }
    }
}

/// The code alone: five calls.
fn code(garbage: &mut Garbage, tally: &mut Tally) {
    let mut counts = match garbage.below(4) {
        0 => garbage.numbers(300),
        _ => vec![garbage.number() as u32; 256],
    };
    tally.told(Table::choose(garbage.next() as u8 % 6, &counts));
    tally.told(count(&garbage.bytes(20, 256), &mut counts));
    let table = garbage.table();
    let character = garbage.next() as u8;
    if let Some(codeword) = tally.told(table.codeword_of(character)) {
        assert_eq!(table.character_of(&codeword), Ok(character));
    }
    let codeword = Codeword::new(&garbage.bytes(100, 5));
    tally.told(table.character_of(&codeword));
    assert!(codeword.symbols().len() <= 86 && table.characters().len() <= 256);
    bytes_for(garbage.next() as u8, garbage.number());
    entries_for(garbage.number() as u32);
    // As it stands in the archive: places behind sigma, and a length beyond the symbols.
    let raw = sys::Table { k: 2, s: 3, sigma: garbage.next() as u16, places: [garbage.next() as u8; 256] };
    sys::character_of(raw, sys::Codeword { length: garbage.place(), symbols: [garbage.next() as u8 % 5; 86] });
}

/// The roll in lent memory: ten calls.
fn lent(garbage: &mut Garbage, tally: &mut Tally) {
    let mut buf = garbage.bytes(24, 256);
    let mut roll = garbage.roll(&mut buf);
    let mut directory = garbage.numbers(4);
    tally.told(Roll::pack(&garbage.table(), &garbage.bytes(40, 8), &mut garbage.bytes(4, 1)));
    tally.told(roll.check(&buf));
    let range = (garbage.bound(), garbage.bound());
    tally.told(roll.unpack(&buf, range, &mut garbage.bytes(12, 1)));
    let (pattern, mut hits) = (garbage.bytes(3, 6), garbage.numbers(4));
    let mut jumping = hits.clone();
    let answer = roll.search(&buf, &pattern, &mut hits);
    assert_eq!((roll.search_jumping(&buf, &pattern, &mut jumping), &jumping), (answer, &hits));
    tally.told(answer);
    let pattern = garbage.bytes(66, 2);
    let answer = roll.find(&buf, &pattern);
    assert_eq!(roll.find_jumping(&buf, &pattern), answer);
    tally.told(answer);
    tally.told(roll.make_directory(&buf, &mut directory));
    tally.told(roll.read_one(&buf, &directory, garbage.place()));
    let range = (garbage.bound(), garbage.bound());
    tally.told(roll.edit(&mut buf, &mut directory, range, &garbage.bytes(6, 7)));
}

/// A roll in pieces: some eight calls, and what the archive makes of a searcher that nothing made.
fn pieces(garbage: &mut Garbage, tally: &mut Tally) {
    let mut buf = garbage.bytes(24, 256);
    let roll = garbage.roll(&mut buf);
    if let Some(mut searcher) = tally.told(Searcher::new(&roll, &garbage.bytes(66, 4))) {
        let mut fed = 0;
        for _ in 0..4 {
            let piece = &buf[fed..fed + garbage.below((buf.len() - fed + 1) as u64) as usize];
            let missing = searcher.missing();
            let answer = match garbage.below(3) {
                0 => tally.told(searcher.find(piece).map_err(Refusal::from)).is_some(),
                _ => tally.told(searcher.feed(piece, &mut garbage.numbers(99)).map_err(Refusal::from)).is_some(),
            };
            if answer {
                fed += piece.len();
                assert_eq!(searcher.missing() + piece.len(), missing);
            }
            tally.told(searcher.finish());
        }
        assert_eq!((searcher.roll(), searcher.pattern().is_empty()), (roll, false));
    }
    hits_for(garbage.next() as u8, garbage.place());
    // As it stands in the archive: any numbers, mostly small ones.
    let mut raw = sys::start(sys::pack(TABLE, &[0; 9], &mut [0; 9]).roll, &[0]).searcher;
    let progress = &mut raw.judge.progress;
    let sys::Progress { read, count, first, past, place, shorter, rows, value, bad, stained } = progress;
    for number in [read, count, first, past, place, shorter, rows, value, bad, stained] {
        if garbage.below(4) == 0 {
            *number = garbage.number() as u32;
        }
    }
    (raw.length, raw.ends) = (garbage.below(4) as u32, garbage.number());
    sys::feed(raw, &garbage.bytes(3, 256), &mut [0; 12]);
    sys::finish(raw);
}

/// Frame texts, whole and damaged: some six calls, and what is read is what was written.
fn frames(garbage: &mut Garbage, tally: &mut Tally) {
    let mut buf = garbage.bytes(90, 256);
    let record = garbage.roll(&mut buf);
    let mut out = vec![0xee; frame_text_for(record.table().k(), record.table().sigma(), record.h().min(300))];
    out.truncate(garbage.below(20) as usize * out.len());
    let mut text = match tally.told(record.to_frames(&buf, &mut out)) {
        Some(text) => text.to_vec(),
        None => {
            let digits = garbage.bytes(40, 16).into_iter().map(|digit| b"0123456789abcdef"[usize::from(digit)]);
            [b"0102030001"[..].to_vec(), digits.collect(), b"\n".to_vec()].concat()
        }
    };
    for _ in 0..garbage.below(3) {
        let place = garbage.below(text.len() as u64 + 1) as usize;
        match garbage.below(4) {
            0 => text.truncate(place),
            1 => text.insert(place, garbage.next() as u8),
            _ if place < text.len() => text[place] = b"0123456789abcdefF\n"[garbage.below(18) as usize],
            _ => text.push(b'\n'),
        }
    }
    let mut lent = garbage.bytes(90, 1);
    let answer = Roll::from_frames(&text, &mut lent);
    let owned = OwnedRoll::from_frames(&text);
    if let Some(roll) = tally.told(answer) {
        let mut again = vec![0; frame_text_for(roll.table().k(), roll.table().sigma(), roll.h())];
        assert_eq!(roll.to_frames(&lent, &mut again), Ok(&text[..]));
        assert_eq!(owned.map(|roll| roll.to_frames()), Ok(text.clone()));
    } else {
        tally.told(owned);
    }
    for line in text.split_inclusive(|&byte| byte == b'\n').take(3) {
        tally.told(Roll::from_first_line(line));
        tally.told(read_frame(line, &mut garbage.bytes(40, 1)).map(<[u8]>::to_vec));
    }
}

/// Three characters, of one symbol, two and two.
const TABLE: sys::Table = sys::Table { k: 2, s: 1, sigma: 3, places: PLACES };
const PLACES: [u8; 256] = {
    let mut places = [0; 256];
    places[1] = 1;
    places[2] = 2;
    places
};

/// The owned roll: some ten calls, and what is accepted leaves it sound.
fn owned(garbage: &mut Garbage, tally: &mut Tally) {
    let mut buf = garbage.bytes(24, 256);
    let record = garbage.roll(&mut buf);
    let mut directory = garbage.numbers(4);
    // Refused where it cannot be; then the parts are not taken either.
    let _ = record.make_directory(&buf, &mut directory);
    let roll = match garbage.below(3) {
        0 => tally.told(OwnedRoll::from_parts(record, buf, directory)),
        1 => tally.told(OwnedRoll::new(garbage.width(), &buf)),
        _ => tally.told(OwnedRoll::with_spare(garbage.width(), &buf, &garbage.bytes(9, 256), garbage.place())),
    };
    let mut roll = match roll {
        Some(roll) => roll,
        None => return,
    };
    let pattern = garbage.bytes(3, 6);
    let found = roll.find(&pattern);
    assert_eq!(roll.find_jumping(&pattern), found);
    tally.told(found);
    tally.told(roll.read_one(garbage.place()));
    if let Some(Line { range, text }) = tally.told(roll.line_of(garbage.place())) {
        assert_eq!(tally.told(roll.text_of(range)), Some(text));
    }
    tally.told(roll.text_of((garbage.bound(), garbage.bound())));
    let range = (garbage.bound(), garbage.bound());
    tally.told(roll.replace(range, &garbage.bytes(40, 12)));
    let range = (garbage.bound(), garbage.bound());
    tally.told(roll.replace_any(range, &garbage.bytes(40, 256)));
    assert_eq!((roll.text().len(), roll.text().is_empty()), (roll.len(), roll.is_empty()));
    let (record, buf, directory) = roll.clone().into_parts();
    assert_eq!(OwnedRoll::from_parts(record, buf, directory), Ok(roll));
}

#[test]
fn every_call_comes_back() {
    let (mut garbage, mut tally) = (Garbage(1), Tally::default());
    for _ in 0..12_000 {
        code(&mut garbage, &mut tally);
        lent(&mut garbage, &mut tally);
        pieces(&mut garbage, &mut tally);
        frames(&mut garbage, &mut tally);
        owned(&mut garbage, &mut tally);
    }
    // No number is left out, so the garbage comes far enough.
    assert!(tally.0.iter().all(|&times| times > 0), "{:?}", tally.0);
    assert!(tally.0.iter().sum::<u32>() > 200_000, "{:?}", tally.0);
}
