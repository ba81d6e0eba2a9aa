//! The archive as it is: its structs, its functions, and a safe function for each. The one file with unsafe, and the
//! only place in Rust where the archive is declared.
//!
//! The functions and what they ask of a caller stand in `include/monterculo.h`. It asks, of every call, that each
//! pointer be valid for its length, for writing too unless it is const, aligned for its type and not null, and that
//! what the call may write overlap nothing else lent to it. Of numbers and bytes, those of a struct too, it asks
//! nothing: any may come. So a call is sound if:
//!
//! - every pointer and its length come from one live slice. Such a pointer is aligned, and it is not null for an empty
//!   slice either;
//! - what is const in C comes from a shared borrow, and what is not from a unique one (`&mut`). Unique borrows that
//!   live at once overlap neither each other nor a shared one;
//! - the archive keeps no pointer past the call and has no state, so that the borrows may end with it, and calls may
//!   come from any thread;
//! - the structs are those of the header, which `rust/run test` holds them to.
//!
//! All of this holds of every call below: slices are taken apart by `as_ptr`, `as_mut_ptr` and `len` alone.

use crate::{LONGEST, PATTERN, PLACES};

/// A table: the symbols below s are stoppers, the first sigma places hold the characters in rank order.
#[repr(C)]
#[derive(Clone, Copy, Debug, PartialEq, Eq, Hash)]
pub struct Table {
    /// The width of a base symbol in bits, 2 or 4.
    pub k: u8,
    /// The number of stoppers.
    pub s: u8,
    /// The number of characters.
    pub sigma: u16,
    /// Those past sigma are not looked at.
    pub places: [u8; PLACES],
}

/// The record of a roll, whose symbols lie in a lent buffer.
#[repr(C)]
#[derive(Clone, Copy, Debug, PartialEq, Eq, Hash)]
pub struct Roll {
    /// Its table.
    pub table: Table,
    /// How many characters it has.
    pub n: u32,
    /// How many symbols.
    pub h: u32,
}

/// A codeword, one symbol a byte.
#[repr(C)]
#[derive(Clone, Copy, Debug, PartialEq, Eq, Hash)]
pub struct Codeword {
    /// How many symbols it has.
    pub length: usize,
    /// Those past the length are 0 where the archive answers them, and not looked at where it takes them.
    pub symbols: [u8; LONGEST],
}

/// Number 0 and what is answered, or the refusal's number and value.
#[repr(C)]
#[derive(Clone, Copy, Debug, PartialEq, Eq, Hash)]
pub struct Answer {
    /// 0 for accepted work, 1 to 15 for a refusal.
    pub number: u32,
    /// The refusal's value, or what is answered; 0 where there is nothing to answer.
    pub value: u64,
}

/// What choosing answers.
#[repr(C)]
#[derive(Clone, Copy, Debug, PartialEq, Eq, Hash)]
pub struct Chosen {
    /// Its value is the total of symbols; the ten digits, + and byte 10 count as at least 1 in it.
    pub answer: Answer,
    /// Beside a refusal: k as given, all else 0.
    pub table: Table,
}

/// What coding a character answers.
#[repr(C)]
#[derive(Clone, Copy, Debug, PartialEq, Eq, Hash)]
pub struct Coded {
    /// Its value is 0 if accepted.
    pub answer: Answer,
    /// Beside a refusal: empty.
    pub word: Codeword,
}

/// What packing, editing and reading frames answer.
#[repr(C)]
#[derive(Clone, Copy, Debug, PartialEq, Eq, Hash)]
pub struct Rolled {
    /// Its value is 0 if accepted.
    pub answer: Answer,
    /// Beside a refusal: of packing the table with n 0 and h 0, of editing the roll that came in, of reading frames all 0.
    pub roll: Roll,
}

/// How far the reading of a roll that comes in pieces has come.
#[repr(C)]
#[derive(Clone, Copy, Debug, PartialEq, Eq, Hash)]
pub struct Progress {
    /// Symbols read.
    pub read: u32,
    /// Codewords read.
    pub count: u32,
    /// The first symbol of the codeword that is open or bad; the symbols read where none is.
    pub first: u32,
    /// 1 if the open codeword has reached sigma.
    pub past: u32,
    /// The place of its next symbol, counted as far as 2.
    pub place: u32,
    /// How many codewords are no longer than what was read of it.
    pub shorter: u32,
    /// How many rows of so many continuers there are.
    pub rows: u32,
    /// What its continuers spell.
    pub value: u32,
    /// 1 if a bad codeword was met.
    pub bad: u32,
    /// 1 if an unused symbol of the last byte was not 0.
    pub stained: u32,
}

/// A roll that comes in pieces, and how far it was read.
#[repr(C)]
#[derive(Clone, Copy, Debug, PartialEq, Eq, Hash)]
pub struct Judge {
    /// Its record.
    pub roll: Roll,
    /// How far it was read.
    pub progress: Progress,
}

/// A search in a roll that comes in pieces.
#[repr(C)]
#[derive(Clone, Copy, Debug, PartialEq, Eq, Hash)]
pub struct Searcher {
    /// The roll, and how far it was read.
    pub judge: Judge,
    /// The characters past the length are 0 where the archive answers them, and not looked at where it takes them.
    pub pattern: [u8; PATTERN],
    /// How many characters the pattern has.
    pub length: u32,
    /// Bit j: the first j + 1 characters of the pattern, which are not all of them, are the last ones read.
    pub ends: u64,
}

/// What starting a search answers.
#[repr(C)]
#[derive(Clone, Copy, Debug, PartialEq, Eq, Hash)]
pub struct Started {
    /// Its value is 0 if accepted.
    pub answer: Answer,
    /// Beside a refusal: that of the roll with an empty pattern.
    pub searcher: Searcher,
}

/// What feeding a piece answers.
#[repr(C)]
#[derive(Clone, Copy, Debug, PartialEq, Eq, Hash)]
pub struct Fed {
    /// Its value is the number of hits if accepted.
    pub answer: Answer,
    /// How many hits were written, beside 6 too; beside every other refusal 0.
    pub hits: usize,
    /// Beside a refusal: the one that came in, but where 6 is met in this piece.
    pub searcher: Searcher,
}

#[rustfmt::skip]
extern "C" {
    fn monterculo_count(text: *const u8, text_len: usize, counts: *mut u32, counts_len: usize) -> Answer;
    fn monterculo_choose(k: u8, counts: *const u32, counts_len: usize) -> Chosen;
    fn monterculo_codeword_of(table: Table, character: u8) -> Coded;
    fn monterculo_character_of(table: Table, word: Codeword) -> Answer;
    fn monterculo_pack(table: Table, text: *const u8, text_len: usize, buf: *mut u8, buf_len: usize) -> Rolled;
    fn monterculo_check(roll: Roll, buf: *const u8, buf_len: usize) -> Answer;
    fn monterculo_unpack(roll: Roll, buf: *const u8, buf_len: usize, start: usize, end: usize, out: *mut u8, out_len: usize) -> Answer;
    fn monterculo_make_directory(roll: Roll, buf: *const u8, buf_len: usize, dir: *mut u32, dir_len: usize) -> Answer;
    fn monterculo_read_one(roll: Roll, buf: *const u8, buf_len: usize, dir: *const u32, dir_len: usize, place: usize) -> Answer;
    fn monterculo_search(roll: Roll, buf: *const u8, buf_len: usize, pattern: *const u8, pattern_len: usize, hits: *mut u32, hits_len: usize) -> Answer;
    fn monterculo_search_jumping(roll: Roll, buf: *const u8, buf_len: usize, pattern: *const u8, pattern_len: usize, hits: *mut u32, hits_len: usize) -> Answer;
    fn monterculo_edit(roll: Roll, buf: *mut u8, buf_len: usize, dir: *mut u32, dir_len: usize, start: usize, end: usize, text: *const u8, text_len: usize) -> Rolled;
    fn monterculo_start(roll: Roll, pattern: *const u8, pattern_len: usize) -> Started;
    fn monterculo_feed(searcher: Searcher, piece: *const u8, piece_len: usize, slice: *mut u32, slice_len: usize) -> Fed;
    fn monterculo_finish(searcher: Searcher) -> Answer;
    fn monterculo_write_frames(roll: Roll, buf: *const u8, buf_len: usize, out: *mut u8, out_len: usize) -> Answer;
    fn monterculo_read_frames(text: *const u8, text_len: usize, buf: *mut u8, buf_len: usize) -> Rolled;
    fn monterculo_read_first(line: *const u8, line_len: usize) -> Rolled;
    fn monterculo_read_frame(line: *const u8, line_len: usize, out: *mut u8, out_len: usize) -> Answer;
}

/// Writes each byte's count into the 256 counts. Refused: 2, 4.
#[inline]
pub fn count(text: &[u8], counts: &mut [u32]) -> Answer {
    // SAFETY: as above; text is read, counts are written.
    unsafe { monterculo_count(text.as_ptr(), text.len(), counts.as_mut_ptr(), counts.len()) }
}

/// The table of width k with the fewest symbols for these counts, digits, + and byte 10 counted as at least 1.
/// Refused: 1, 2.
#[inline]
pub fn choose(k: u8, counts: &[u32]) -> Chosen {
    // SAFETY: as above; counts are read.
    unsafe { monterculo_choose(k, counts.as_ptr(), counts.len()) }
}

/// The codeword of a character. Refused: 1, 3.
#[inline]
pub fn codeword_of(table: Table, character: u8) -> Coded {
    // SAFETY: nothing is lent.
    unsafe { monterculo_codeword_of(table, character) }
}

/// The character of a codeword, its value. Refused: 1, 6.
#[inline]
pub fn character_of(table: Table, word: Codeword) -> Answer {
    // SAFETY: nothing is lent; a length over 86 is refused like other numbers.
    unsafe { monterculo_character_of(table, word) }
}

/// Packs a text into the buffer. Refused: 1, 3, 4.
#[inline]
pub fn pack(table: Table, text: &[u8], buf: &mut [u8]) -> Rolled {
    // SAFETY: as above; text is read, buf is written.
    unsafe { monterculo_pack(table, text.as_ptr(), text.len(), buf.as_mut_ptr(), buf.len()) }
}

/// Checks that a roll is sound. Refused: 1, 5, 6, 7, 8.
#[inline]
pub fn check(roll: Roll, buf: &[u8]) -> Answer {
    // SAFETY: as above; buf is read.
    unsafe { monterculo_check(roll, buf.as_ptr(), buf.len()) }
}

/// Unpacks the characters from start up to end. Refused: check's, 10, 13.
#[inline]
pub fn unpack(roll: Roll, buf: &[u8], start: usize, end: usize, out: &mut [u8]) -> Answer {
    // SAFETY: as above; buf is read, out is written.
    unsafe { monterculo_unpack(roll, buf.as_ptr(), buf.len(), start, end, out.as_mut_ptr(), out.len()) }
}

/// Writes the directory. Refused: check's, 12.
#[inline]
pub fn make_directory(roll: Roll, buf: &[u8], directory: &mut [u32]) -> Answer {
    // SAFETY: as above; buf is read, the directory is written.
    unsafe { monterculo_make_directory(roll, buf.as_ptr(), buf.len(), directory.as_mut_ptr(), directory.len()) }
}

/// The character at a place, its value. Refused: 1, 5, 10, 9, 6.
#[inline]
pub fn read_one(roll: Roll, buf: &[u8], directory: &[u32], place: usize) -> Answer {
    // SAFETY: as above; buf and the directory are read.
    unsafe { monterculo_read_one(roll, buf.as_ptr(), buf.len(), directory.as_ptr(), directory.len(), place) }
}

/// Writes the first hits; its value is their total. Refused: check's, 11.
#[inline]
pub fn search(roll: Roll, buf: &[u8], pattern: &[u8], hits: &mut [u32]) -> Answer {
    // SAFETY: as above; buf and pattern are read, hits are written.
    unsafe {
        monterculo_search(roll, buf.as_ptr(), buf.len(), pattern.as_ptr(), pattern.len(), hits.as_mut_ptr(), hits.len())
    }
}

/// What [`search`] answers and writes, by jumping over most of the bytes. Refused: check's, 11.
#[inline]
pub fn search_jumping(roll: Roll, buf: &[u8], pattern: &[u8], hits: &mut [u32]) -> Answer {
    // SAFETY: as above; buf and pattern are read, hits are written.
    unsafe {
        monterculo_search_jumping(
            roll,
            buf.as_ptr(),
            buf.len(),
            pattern.as_ptr(),
            pattern.len(),
            hits.as_mut_ptr(),
            hits.len(),
        )
    }
}

/// Replaces the characters from start up to end by a text. Refused: check's, 9, 10, 3, 4, 12.
#[inline]
pub fn edit(roll: Roll, buf: &mut [u8], directory: &mut [u32], start: usize, end: usize, text: &[u8]) -> Rolled {
    // SAFETY: as above; text is read, buf and the directory are written.
    unsafe {
        monterculo_edit(
            roll,
            buf.as_mut_ptr(),
            buf.len(),
            directory.as_mut_ptr(),
            directory.len(),
            start,
            end,
            text.as_ptr(),
            text.len(),
        )
    }
}

/// Starts a search in a roll that comes in pieces. Refused: 1, 5, 11.
#[inline]
pub fn start(roll: Roll, pattern: &[u8]) -> Started {
    // SAFETY: as above; pattern is read.
    unsafe { monterculo_start(roll, pattern.as_ptr(), pattern.len()) }
}

/// Reads a piece and writes the hits that end in it. Refused: 1, 5, 11 of the searcher; then an earlier 6, 5, 14, and a
/// 6 met in the piece, which writes the hits before it.
#[inline]
pub fn feed(searcher: Searcher, piece: &[u8], hits: &mut [u32]) -> Fed {
    // SAFETY: as above; piece is read, hits are written. Numbers of the searcher out of their bounds are refused.
    unsafe { monterculo_feed(searcher, piece.as_ptr(), piece.len(), hits.as_mut_ptr(), hits.len()) }
}

/// Says whether all has come in and is sound. Refused: 1, 5, 11 of the searcher; then 6, 7, 8.
#[inline]
pub fn finish(searcher: Searcher) -> Answer {
    // SAFETY: nothing is lent; numbers of the searcher out of their bounds are refused.
    unsafe { monterculo_finish(searcher) }
}

/// Writes a roll as a frame text; its value is the bytes written. Refused: check's, 13.
#[inline]
pub fn write_frames(roll: Roll, buf: &[u8], out: &mut [u8]) -> Answer {
    // SAFETY: as above; buf is read, out is written.
    unsafe { monterculo_write_frames(roll, buf.as_ptr(), buf.len(), out.as_mut_ptr(), out.len()) }
}

/// Reads a frame text into the buffer. Refused: 15, 1 of the width, 15; then check's.
#[inline]
pub fn read_frames(text: &[u8], buf: &mut [u8]) -> Rolled {
    // SAFETY: as above; text is read, buf is written.
    unsafe { monterculo_read_frames(text.as_ptr(), text.len(), buf.as_mut_ptr(), buf.len()) }
}

/// The record in the first line of a frame text. Refused: 15, 1 of the width.
#[inline]
pub fn read_first(line: &[u8]) -> Rolled {
    // SAFETY: as above; line is read.
    unsafe { monterculo_read_first(line.as_ptr(), line.len()) }
}

/// Writes the packed bytes of a later line of a frame text; its value is how many they are. Refused: 15, 13.
#[inline]
pub fn read_frame(line: &[u8], out: &mut [u8]) -> Answer {
    // SAFETY: as above; line is read, out is written.
    unsafe { monterculo_read_frame(line.as_ptr(), line.len(), out.as_mut_ptr(), out.len()) }
}
