//! What a command says where it does not do its work.

use std::ffi::OsStr;
use std::io;

use monterculo::{Refusal, SYMBOLS};

use crate::help;
use crate::keep::STANDARD;

/// Why a command came to nothing.
#[derive(Debug)]
pub enum Failure {
    /// What is wrong, in a line.
    Told(String),
    /// All is said, or nobody is left who reads it.
    Silent,
}

/// A name as it stands in a message.
pub fn shown(name: &OsStr) -> String {
    if name == STANDARD {
        return "standard input".into();
    }
    quoted(name)
}

/// An argument as it stands in a message: in one line, whatever it holds.
pub fn quoted(argument: &OsStr) -> String {
    let mut line = String::new();
    for character in argument.to_string_lossy().chars() {
        if character.is_control() {
            line.extend(character.escape_default());
        } else {
            line.push(character);
        }
    }
    line
}

/// An error of the system in its words, without the number that Rust adds.
fn words(error: &io::Error) -> String {
    error.to_string().split(" (os error").next().unwrap_or_default().into()
}

impl Failure {
    /// A command that is not called as it must be.
    pub fn usage(command: &str, wrong: &str) -> Failure {
        let usage = help::of(command).lines().next().unwrap_or_default();
        Failure::Told(format!("{command}: {wrong}; usage: {usage}"))
    }

    /// A file with something that is no refusal of the archive's.
    pub fn of(name: &OsStr, wrong: &str) -> Failure {
        Failure::Told(format!("{}: {wrong}", shown(name)))
    }

    /// A file that the system does not read.
    pub fn system(name: &OsStr, error: &io::Error) -> Failure {
        Failure::of(name, &words(error))
    }

    /// A file, and the step of keeping it that the system does not do.
    pub fn step(name: &OsStr, step: &str, error: &io::Error) -> Failure {
        Failure::of(name, &format!("{step}: {}", words(error)))
    }

    /// A file, and what the archive refuses: the words begin with the number.
    pub fn refused(name: &OsStr, refusal: Refusal) -> Failure {
        let words = match refusal {
            // No more of a text is read than shows this, so that its length is not known.
            Refusal::LongText { .. } => format!("refusal 4: the text has more than {SYMBOLS} characters"),
            // There is no other room here than a roll's.
            Refusal::NoRoom { character } => {
                format!("refusal 4: the text takes more than {SYMBOLS} symbols, from its character {character} on")
            }
            _ => refusal.to_string(),
        };
        Failure::of(name, &format!("{words} (value {})", refusal.value()))
    }

    /// The same, and what helps.
    pub fn and(self, help: &str) -> Failure {
        match self {
            Failure::Told(line) => Failure::Told(format!("{line}; {help}")),
            Failure::Silent => Failure::Silent,
        }
    }

    /// Standard output that does not take what is written.
    pub fn output(error: io::Error) -> Failure {
        match error.kind() {
            io::ErrorKind::BrokenPipe => Failure::Silent,
            _ => Failure::Told(format!("standard output: {}", words(&error))),
        }
    }

    /// Says it on standard error.
    pub fn tell(&self) {
        if let Failure::Told(line) = self {
            // Where standard error is closed too, the exit status is all that is left to say.
            let _ = io::Write::write_all(&mut io::stderr(), format!("monterculo: {line}\n").as_bytes());
        }
    }
}
