//! The clerk's command: makes, reads, searches and corrects rolls, each in a file as its frame text, and loses none.
//! docs/CLERK.md shows it at work. What a roll is, and whether it is sound, the archive alone says.

#![deny(unsafe_code)]
// No input makes it panic, and no number is cut.
#![deny(clippy::indexing_slicing, clippy::unwrap_used, clippy::expect_used, clippy::panic, clippy::unreachable)]
#![deny(clippy::arithmetic_side_effects, clippy::cast_possible_truncation)]
#![cfg_attr(test, allow(clippy::unwrap_used, clippy::arithmetic_side_effects, clippy::indexing_slicing))]

mod arguments;
mod commands;
mod edits;
mod failure;
mod help;
mod keep;
mod lines;
mod receive;
mod rolls;
#[allow(unsafe_code)]
mod system;

use std::env;
use std::ffi::OsString;
use std::process::exit;

use arguments::Arguments;
use failure::{quoted, Failure};

/// The commands, and the options of each.
const COMMANDS: [(&str, &[&str]); 11] = [
    ("pack", &["--width", "--force"]),
    ("text", &[]),
    ("check", &[]),
    ("info", &[]),
    ("find", &["--count", "--at"]),
    ("show", &[]),
    ("set", &["--repack"]),
    ("insert", &["--repack"]),
    ("remove", &["--repack"]),
    ("replace", &["--repack"]),
    ("receive", &["--force"]),
];

fn run(mut given: impl Iterator<Item = OsString>) -> Result<bool, Failure> {
    let first = given.next().ok_or_else(|| Failure::Told("no command is given; see monterculo --help".into()))?;
    if first == "--help" {
        return commands::help(help::ALL);
    }
    let (command, options) = match COMMANDS.into_iter().find(|(command, _)| first == *command) {
        Some(known) => known,
        None => return Err(Failure::Told(format!("{} is no command; see monterculo --help", quoted(&first)))),
    };
    let arguments = Arguments::parse(command, options, given)?;
    if arguments.has("--help") {
        return commands::help(help::of(command));
    }
    match (command, arguments.plain()) {
        ("pack", [text, roll]) => commands::pack(&arguments, text, roll),
        ("text", [roll]) => commands::text(roll),
        ("check", [roll]) => commands::check(roll),
        ("info", [roll]) => commands::info(roll),
        ("find", [rolls @ .., pattern]) if !rolls.is_empty() => commands::find(&arguments, rolls, pattern),
        ("show", [roll, lines]) => commands::show(&arguments, roll, lines),
        ("set", [roll, line, text]) => edits::set(&arguments, roll, line, text),
        ("insert", [roll, line, text]) => edits::insert(&arguments, roll, line, text),
        ("remove", [roll, lines]) => edits::remove(&arguments, roll, lines),
        ("replace", [roll, range, text]) => edits::replace(&arguments, roll, range, text),
        ("receive", [pattern]) => receive::receive(&arguments, pattern, None),
        ("receive", [pattern, roll]) => receive::receive(&arguments, pattern, Some(roll)),
        _ => Err(arguments.wrong("too few arguments or too many, and a text with blanks goes in quotes")),
    }
}

fn main() {
    exit(match run(env::args_os().skip(1)) {
        Ok(true) => 0,
        Ok(false) => 1,
        Err(failure) => {
            failure.tell();
            2
        }
    })
}
