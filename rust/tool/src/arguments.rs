//! What a command is called with.

use std::ffi::{OsStr, OsString};
use std::os::unix::ffi::OsStrExt;

use monterculo::Width;

use crate::failure::{quoted, Failure};
use crate::keep::STANDARD;

/// The arguments of a command, taken apart.
pub struct Arguments {
    command: &'static str,
    /// Those that are no options, in their order.
    plain: Vec<OsString>,
    options: Vec<String>,
    width: Option<Width>,
}

impl Arguments {
    /// Takes apart what stands behind the command's name, which may have these options.
    pub fn parse(
        command: &'static str,
        options: &[&str],
        given: impl Iterator<Item = OsString>,
    ) -> Result<Arguments, Failure> {
        let mut parsed = Arguments { command, plain: Vec::new(), options: Vec::new(), width: None };
        let mut given = given;
        while let Some(argument) = given.next() {
            let text = argument.to_string_lossy().into_owned();
            let (option, value) = match text.split_once('=') {
                Some((option, value)) => (option, Some(value)),
                None => (&text[..], None),
            };
            if text == "--" {
                parsed.plain.extend(given);
                break;
            } else if text == STANDARD || !text.starts_with('-') {
                parsed.plain.push(argument);
            } else if option == "--width" && options.contains(&option) {
                let value = value.map_or_else(|| given.next(), |value| Some(value.into()));
                parsed.width = Some(match value.as_ref().and_then(|value| value.to_str()) {
                    Some("2") => Width::Two,
                    Some("4") => Width::Four,
                    _ => return Err(parsed.wrong("--width is 2 or 4")),
                });
            } else if value.is_none() && (options.contains(&option) || option == "--help") {
                parsed.options.push(text);
            } else {
                let wrong = format!("{} is no option, and a word that begins with - goes behind --", quoted(&argument));
                return Err(parsed.wrong(&wrong));
            }
        }
        Ok(parsed)
    }

    /// A call that is wrong.
    pub fn wrong(&self, wrong: &str) -> Failure {
        Failure::usage(self.command, wrong)
    }

    /// Whether an option is there.
    pub fn has(&self, option: &str) -> bool {
        self.options.iter().any(|given| given == option)
    }

    pub fn width(&self) -> Option<Width> {
        self.width
    }

    pub fn plain(&self) -> &[OsString] {
        &self.plain
    }
}

/// A number in decimal digits. One too great is the greatest, which no text has as a place or a line.
fn number(text: &[u8]) -> Option<usize> {
    if text.is_empty() || !text.iter().all(u8::is_ascii_digit) {
        return None;
    }
    let digit =
        |number: usize, &digit: &u8| number.saturating_mul(10).saturating_add(usize::from(digit.saturating_sub(b'0')));
    Some(text.iter().fold(0, digit))
}

/// A line's number.
pub fn line(text: &OsStr) -> Option<usize> {
    number(text.as_bytes())
}

/// Two numbers: START..END.
pub fn range(text: &OsStr) -> Option<(usize, usize)> {
    let text = text.as_bytes();
    let dots = text.windows(2).position(|two| two == b"..")?;
    Some((number(text.get(..dots)?)?, number(text.get(dots.checked_add(2)?..)?)?))
}

/// LINE or LINE..LINE.
pub fn lines(text: &OsStr) -> Option<(usize, usize)> {
    range(text).or_else(|| line(text).map(|line| (line, line)))
}

#[cfg(test)]
mod tests {
    use super::*;

    #[test]
    fn numbers() {
        let of = |text: &str| lines(OsStr::new(text));
        assert_eq!(of("12"), Some((12, 12)));
        assert_eq!(of("3..7"), Some((3, 7)));
        assert_eq!(of("0003..7"), Some((3, 7)));
        assert_eq!(of("99999999999999999999999..1"), Some((usize::MAX, 1)));
        for wrong in ["", "..", "3..", "..3", "3...4", "3.4", "-3", "+3", "3,4", "0x3", "3 ", "3..4..5", "٣"] {
            assert_eq!(of(wrong), None, "{wrong}");
        }
    }
}
