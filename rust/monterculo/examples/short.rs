//! The example of README.md.

use monterculo::{OwnedRoll, Refusal, Width};

pub fn main() -> Result<(), Refusal> {
    let members = b"pan 7 Oda 5550143\npan 12 Jory 5550128\n";
    // No further characters: digits, + and the line end are in every chosen table. Room for 64 symbols more.
    let mut roll = OwnedRoll::with_spare(Width::Four, members, b"", 64)?;
    for hit in roll.find(b"pan 12 ")? {
        let line = roll.line_of(hit)?; // pan 12 Jory 5550128
        roll.replace(line.range.end - 7..line.range.end, b"0445550196")?;
    }
    println!("{}", String::from_utf8_lossy(&roll.text()));
    roll.replace(..3, b"PAN")
}
