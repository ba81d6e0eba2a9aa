//! The lines of a text, counted from 1: each up to its byte 10, which belongs to it, or to the text's end.

use std::ops::Range;

/// A text, and where each of its lines ends.
pub struct Lines<'a> {
    text: &'a [u8],
    /// 0, and behind it the end of each line.
    bounds: Vec<usize>,
}

impl<'a> Lines<'a> {
    pub fn of(text: &'a [u8]) -> Lines<'a> {
        let mut bounds = vec![0];
        let mut end = 0_usize;
        for line in text.split_inclusive(|&character| character == b'\n') {
            end = end.saturating_add(line.len());
            bounds.push(end);
        }
        Lines { text, bounds }
    }

    /// How many there are.
    pub fn count(&self) -> usize {
        self.bounds.len().saturating_sub(1)
    }

    /// Where a line starts; one behind the last starts at the text's end.
    fn start(&self, line: usize) -> Option<usize> {
        self.bounds.get(line.checked_sub(1)?).copied()
    }

    /// Where the lines from a first to a last one stand, or nowhere if the text has not all of them.
    pub fn range(&self, first: usize, last: usize) -> Option<Range<usize>> {
        let range = self.start(first)?..self.start(last.checked_add(1)?)?;
        (first <= last).then_some(range)
    }

    /// Where a line stands, without the byte 10 that ends it.
    pub fn within(&self, line: usize) -> Option<Range<usize>> {
        let whole = self.range(line, line)?;
        let ended = self.text.get(whole.clone())?.ends_with(b"\n");
        Some(whole.start..whole.end.checked_sub(usize::from(ended))?)
    }

    /// Where characters are to be put in, and which, so that a new text stands as a line in front of a line, or behind
    /// the last one.
    pub fn insertion(&self, line: usize, new: &[u8]) -> Option<(usize, Vec<u8>)> {
        let place = self.start(line)?;
        let open = line > self.count() && self.text.last().map_or(false, |&last| last != b'\n');
        // A last line that no byte 10 ends is ended first, and the new last one is then without.
        Some((place, if open { [b"\n", new].concat() } else { [new, b"\n"].concat() }))
    }
}

/// Tells the number and the text of each line that has a hit.
pub fn with_hits(text: &[u8], hits: &[usize], mut tell: impl FnMut(usize, &[u8])) {
    let (mut number, mut told) = (1_usize, 0);
    for &hit in hits.iter() {
        // What lies behind the lines told.
        let rest = match text.get(told..).filter(|_| hit >= told) {
            Some(rest) => rest,
            None => continue,
        };
        let (before, behind) = rest.split_at(hit.saturating_sub(told).min(rest.len()));
        let start = before.iter().rposition(|&character| character == b'\n').map_or(0, |end| end.saturating_add(1));
        let length = behind.iter().position(|&character| character == b'\n').unwrap_or(behind.len());
        let end = before.len().saturating_add(length);
        number = number.saturating_add(line_ends(before));
        tell(number, rest.get(start..end).unwrap_or_default());
        number = number.saturating_add(1);
        told = told.saturating_add(end).saturating_add(1);
    }
}

/// How many bytes 10 there are. They are summed in bytes, many at once, which hold the sum of so few.
fn line_ends(text: &[u8]) -> usize {
    let few = |few: &[u8]| few.iter().map(|&character| u8::from(character == b'\n')).sum::<u8>();
    text.chunks(192).map(|piece| usize::from(few(piece))).sum()
}

#[cfg(test)]
mod tests {
    use super::*;

    #[test]
    fn counted() {
        for (text, lines) in [("", 0), ("\n", 1), ("a", 1), ("a\n", 1), ("a\nb", 2), ("\n\n", 2), ("a\n\nb\n", 3)] {
            let held = Lines::of(text.as_bytes());
            assert_eq!(held.count(), lines, "{text:?}");
            // Each line, and each run of them, stands where the text is cut behind each byte 10.
            let cut: Vec<&[u8]> = text.as_bytes().split_inclusive(|&character| character == b'\n').collect();
            for first in 0..6 {
                for last in 0..6 {
                    let stands = held.range(first, last).map(|range| text.as_bytes()[range].to_vec());
                    let said = (1..=last).contains(&first) && last <= lines;
                    assert_eq!(stands, said.then(|| cut[first - 1..last].concat()), "{text:?} {first}..{last}");
                }
                let said = (1..=lines).contains(&first).then(|| {
                    let line = cut[first - 1];
                    line.strip_suffix(b"\n").unwrap_or(line)
                });
                assert_eq!(held.within(first).map(|range| &text.as_bytes()[range]), said);
            }
        }
        assert_eq!(Lines::of(b"a\n").range(usize::MAX, usize::MAX), None);
        assert_eq!(Lines::of(b"a\n").insertion(usize::MAX, b"x"), None);
    }

    #[test]
    fn inserted() {
        for (text, line, edited) in [
            ("", 1, "x\n"),
            ("a\n", 1, "x\na\n"),
            ("a\n", 2, "a\nx\n"),
            ("a", 1, "x\na"),
            ("a", 2, "a\nx"),
            ("a\nb\n", 2, "a\nx\nb\n"),
            ("\n", 2, "\nx\n"),
        ] {
            let (place, put) = Lines::of(text.as_bytes()).insertion(line, b"x").unwrap();
            let (before, behind) = text.as_bytes().split_at(place);
            assert_eq!([before, &put, behind].concat(), edited.as_bytes(), "{text:?} {line}");
        }
        for (text, line) in [("", 0), ("", 2), ("a\n", 0), ("a\n", 3), ("a", 3)] {
            assert_eq!(Lines::of(text.as_bytes()).insertion(line, b"x"), None, "{text:?} {line}");
        }
    }

    #[test]
    fn line_ends_counted() {
        for length in 0..1000 {
            let text: Vec<u8> = (0..length).map(|place| if place % 5 == 3 { b'a' } else { b'\n' }).collect();
            assert_eq!(line_ends(&text), text.iter().filter(|&&character| character == b'\n').count());
            assert_eq!(line_ends(&vec![b'\n'; length]), length);
        }
    }
}
