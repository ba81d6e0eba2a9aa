//! Monterculo: a text packed in a stopper code, searched and edited where it lies.
//!
//! A text is bytes; one byte is one character. A roll is a text packed as base symbols of k bits, k = 2 or 4. Places
//! count from 0; a range runs from its start up to, and not including, its end, and any kind of range may be given.
//!
//! [`OwnedRoll`] has everything that a roll needs. [`Table`] and [`Roll`] are for boxes that lend fixed memory: the
//! symbols then lie in a buffer of the caller, and the directory, where used, in a slice of 32-bit numbers. A
//! [`Searcher`] is fed a roll piece by piece, as it comes in, and keeps none of it. Nothing is allocated there but by
//! [`Roll::find`], [`Roll::find_jumping`] and [`Searcher::find`].
//!
//! A roll goes out and comes in as a frame text, lines of hexadecimal digits: whole by [`OwnedRoll::to_frames`] and
//! [`OwnedRoll::from_frames`], or in lent memory by [`Roll::to_frames`] and [`Roll::from_frames`]; line by line by
//! [`Roll::from_first_line`] and [`read_frame`].
//!
//! There are two searches of a whole roll with the same answers: [`Roll::search`] goes from character to character, and
//! [`Roll::search_jumping`] jumps over most of the bytes, for which it takes more stack. `find` and `find_jumping` go by
//! them.
//!
//! Whatever bytes, numbers and ranges arrive, a call comes back: what is bad is refused, by a [`Refusal`]. No function
//! of this crate panics.
//!
//! The work is done by the archive `libmonterculo.a`, for x86-64. The build finds it in the folder that
//! `MONTERCULO_ARCHIVE_DIR` names by its whole path; a workspace can say so once, in its `.cargo/config.toml`:
//!
//! ```toml
//! [env]
//! MONTERCULO_ARCHIVE_DIR = { value = "lib", relative = true }
//! ```
//!
//! Without the archive `cargo check` and `cargo doc` work, and nothing can be linked. There is no other dependency.
//!
//! # A members' file
//!
//! ```
//! use monterculo::{OwnedRoll, Refusal, Width};
//!
//! fn main() -> Result<(), Refusal> {
//!     let members = b"pan 7 Oda 5550143\npan 12 Jory 5550128\npan 112 Maren 5550167\n";
//!     // No further characters: digits, + and the line end are in every chosen table. Room for 64 symbols more.
//!     let mut roll = OwnedRoll::with_spare(Width::Two, members, b"", 64)?;
//!
//!     // With the word before it and the blank behind it, pan 12 is not found in pan 112.
//!     let hits = roll.find(b"pan 12 ")?;
//!     assert_eq!(hits, [18]);
//!     let line = roll.line_of(hits[0])?;
//!     assert_eq!(line.text, b"pan 12 Jory 5550128");
//!
//!     // The telephone number is the last seven characters of the line.
//!     roll.replace(line.range.end - 7..line.range.end, b"0445550196")?;
//!     assert_eq!(roll.line_of(hits[0])?.text, b"pan 12 Jory 0445550196");
//!     assert_eq!(roll.text(), b"pan 7 Oda 5550143\npan 12 Jory 0445550196\npan 112 Maren 5550167\n");
//!
//!     // What the table does not have is refused, and nothing has changed.
//!     match roll.replace(..0, b"pan 9 Zoe 5550171\n") {
//!         Err(Refusal::NotInTable { place, .. }) => assert_eq!(place, 6),
//!         answer => panic!("{:?}", answer),
//!     }
//!     // Under a new table it can come.
//!     roll.replace_any(..0, b"pan 9 Zoe 5550171\n")?;
//!     assert_eq!(roll.find(b"pan")?, [0, 18, 36, 59]);
//!     Ok(())
//! }
//! ```
//!
//! # In lent memory
//!
//! ```
//! use monterculo::{bytes_for, count, entries_for, Roll, Table};
//!
//! # fn main() -> Result<(), monterculo::Refusal> {
//! let text = b"Agnes, pan 4, tel 555-0143; Bruno, pan 7, tel 555-0170";
//! let mut counts = [0; 256];
//! count(text, &mut counts)?;
//! // The digits, + and byte 10 are in any chosen table, and may come by an edit; so may a letter that is counted.
//! counts[usize::from(b'z')] += 1;
//! let (table, total) = Table::choose(4, &counts)?;
//! // Bytes for the total are enough for the text. Room to spare, as the edited text may take more symbols.
//! let mut buf = [0; 128];
//! assert!(bytes_for(4, total) < buf.len());
//! let mut roll = Roll::pack(&table, text, &mut buf)?;
//! let mut directory = vec![0; entries_for(roll.n())];
//! roll.make_directory(&buf, &mut directory)?;
//!
//! let mut hits = [0; 1];
//! assert_eq!(roll.search(&buf, b"0143", &mut hits)?, 1);
//! let start = hits[0] as usize;
//! roll.edit(&mut buf, &mut directory, start..start + 4, b"0289")?;
//!
//! let mut line = [0; 26];
//! roll.unpack(&buf, ..26, &mut line)?;
//! assert_eq!(&line, b"Agnes, pan 4, tel 555-0289");
//! assert_eq!(roll.read_one(&buf, &directory, 53)?, b'0');
//! # Ok(())
//! # }
//! ```

#![deny(unsafe_code)]
#![deny(missing_docs)]
// No input makes a call panic, and no number is cut.
#![deny(clippy::indexing_slicing, clippy::unwrap_used, clippy::expect_used, clippy::panic, clippy::unreachable)]
#![deny(clippy::arithmetic_side_effects, clippy::cast_possible_truncation)]
#![cfg_attr(test, allow(clippy::unwrap_used, clippy::arithmetic_side_effects))]

#[forbid(unsafe_code)]
mod frames;
#[forbid(unsafe_code)]
mod owned;
#[forbid(unsafe_code)]
mod refusal;
#[forbid(unsafe_code)]
mod roll;
#[forbid(unsafe_code)]
mod searcher;
#[allow(unsafe_code)]
pub mod sys;
#[forbid(unsafe_code)]
mod table;

pub use frames::read_frame;
pub use owned::{Line, OwnedRoll};
pub use refusal::{Refusal, TableFault};
pub use roll::Roll;
pub use searcher::{PieceRefusal, Searcher};
pub use table::{count, Codeword, Table, Width};

/// The places of a table, and the counts of a text: one for each byte value.
pub const PLACES: usize = 256;

/// The most symbols of a codeword.
pub const LONGEST: usize = 86;

/// The most symbols of a roll, and the most characters of a text to be counted.
pub const SYMBOLS: usize = 1_048_576;

/// The most characters of a pattern, none of which is byte 10.
pub const PATTERN: usize = 64;

/// The most packed bytes of a line of a frame text.
pub const FRAME: usize = 32;

/// The entries of the directory of n characters: n/32, rounded up.
///
/// ```
/// assert_eq!([0, 1, 32, 33].map(monterculo::entries_for), [0, 1, 1, 2]);
/// ```
pub const fn entries_for(n: u32) -> usize {
    (n / 32).saturating_add((n % 32 != 0) as u32) as usize
}

/// The bytes of a buffer for h symbols of k bits: h·k/8, rounded up.
///
/// The total of [`Table::choose`] may be taken as it is; it is enough for the counted text, and may be more than that
/// needs. No roll has more than [`SYMBOLS`] symbols, so more than 262,144 bytes with k = 2, or 524,288 with k = 4, are
/// of no use to one.
///
/// ```
/// assert_eq!([0, 1, 4, 5, 13].map(|h| monterculo::bytes_for(2, h)), [0, 1, 1, 2, 4]);
/// assert_eq!([2, 4].map(|k| monterculo::bytes_for(k, 1_048_576)), [262_144, 524_288]);
/// ```
pub const fn bytes_for(k: u8, h: u64) -> usize {
    let bits = h.saturating_mul(k as u64);
    (bits / 8).saturating_add((bits % 8 != 0) as u64) as usize
}

/// The entries of a hit slice that [feeding](Searcher::feed) wants for a piece of so many bytes: 8/k for each.
///
/// A width other than 2 or 4 has no roll; as many are then told as for 2.
///
/// ```
/// assert_eq!([2, 4].map(|k| monterculo::hits_for(k, 64)), [256, 128]);
/// ```
pub const fn hits_for(k: u8, bytes: usize) -> usize {
    bytes.saturating_mul(if k == 4 { 2 } else { 4 })
}

/// The bytes of the frame text of a roll with σ characters in its table and h symbols of k bits: 27 + 2σ, and 2 for each
/// packed byte and 3 for each [`FRAME`] of them, rounded up.
///
/// No roll has a frame text of more than 1,098,267 bytes.
///
/// ```
/// assert_eq!(monterculo::frame_text_for(4, 3, 6), 42);
/// assert_eq!(monterculo::frame_text_for(4, 256, 1_048_576), 1_098_267);
/// ```
pub const fn frame_text_for(k: u8, sigma: u16, h: u32) -> usize {
    let bytes = bytes_for(k, h as u64);
    let frames = (bytes / FRAME).saturating_add((bytes % FRAME != 0) as usize);
    let packed = bytes.saturating_mul(2).saturating_add(frames.saturating_mul(3));
    (sigma as usize).saturating_mul(2).saturating_add(27).saturating_add(packed)
}
