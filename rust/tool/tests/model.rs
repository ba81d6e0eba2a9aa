//! The command against the same work on the plain text: random texts, searches beside grep, and chains of edits.

mod common;

use common::{held, Desk};

/// Numbers from a fixed seed.
struct Random(u64);

impl Random {
    fn below(&mut self, bound: usize) -> usize {
        self.0 ^= self.0 << 13;
        self.0 ^= self.0 >> 7;
        self.0 ^= self.0 << 17;
        (self.0 % bound as u64) as usize
    }

    /// A text of these characters, up to so long.
    fn text(&mut self, characters: &[u8], longest: usize) -> Vec<u8> {
        (0..self.below(longest + 1)).map(|_| characters[self.below(characters.len())]).collect()
    }
}

/// What may stand in a text: few characters, so that patterns are met; lines of members; every byte that an argument of a
/// command may have, and 0.
fn kinds() -> Vec<Vec<u8>> {
    vec![b"ab\n".to_vec(), b"ab\n\n0123456789".to_vec(), b"pan 0123456789 tel\n".to_vec(), (0..=255).collect()]
}

/// The places where a pattern stands.
fn places(text: &[u8], pattern: &[u8]) -> Vec<usize> {
    (0..text.len()).filter(|&place| text[place..].starts_with(pattern)).collect()
}

/// Bytes as an argument.
fn argument(bytes: &[u8]) -> std::ffi::OsString {
    std::os::unix::ffi::OsStringExt::from_vec(bytes.to_vec())
}

#[test]
fn searches() {
    let desk = Desk::new("searches");
    let mut random = Random(24);
    let mut met = 0;
    for round in 0..160 {
        let kinds = kinds();
        let characters = &kinds[round % kinds.len()];
        let text = random.text(characters, [4, 40, 400, 4000][round / 4 % 4]);
        desk.write("text", &text);
        let widths: [&[&str]; 3] = [&[], &["--width", "2"], &["--width", "4"]];
        desk.done(&[&["pack", "text", "roll", "--force"], widths[round % 3]].concat());
        assert_eq!(desk.done(&["text", "roll"]), text);

        // Of the text, where it has one, or not.
        let start = random.below(text.len() + 1);
        let end = text.len().min(start + 1 + random.below(5));
        let mut pattern = if random.below(4) > 0 { text[start..end].to_vec() } else { random.text(characters, 3) };
        pattern.retain(|&character| character != b'\n' && character != 0);
        if pattern.is_empty() {
            pattern.push(b'a');
        }
        let all = places(&text, &pattern);
        met += all.len();
        let status = i32::from(all.is_empty());
        let find = |option: Option<&str>| {
            let mut arguments: Vec<_> = ["find", "roll"].iter().chain(&option).map(Into::into).collect();
            arguments.extend(["--".into(), argument(&pattern)]);
            held(desk.run(&arguments), status, "")
        };
        assert_eq!(find(Some("--count")), format!("{}\n", all.len()).as_bytes());
        let lines: String = all.iter().map(|place| format!("{place}\n")).collect();
        assert_eq!(find(Some("--at")), lines.as_bytes());
        let grep = std::process::Command::new("grep")
            .args(["-a", "-F", "-n", "-e"])
            .arg(argument(&pattern))
            .arg(desk.path("text"))
            .env("LC_ALL", "C")
            .output()
            .unwrap();
        assert_eq!(find(None), grep.stdout);
        assert_eq!(grep.status.code(), Some(status));
    }
    assert!(met > 1000, "only {met} hits");
}

/// A text's lines, each with its byte 10 where it has one.
fn lines(text: &[u8]) -> Vec<Vec<u8>> {
    text.split_inclusive(|&character| character == b'\n').map(<[u8]>::to_vec).collect()
}

#[test]
fn edits() {
    let desk = Desk::new("edits");
    let mut random = Random(11);
    let mut repacked = 0;
    for round in 0..24 {
        let kinds = kinds();
        let characters = &kinds[round % kinds.len()];
        let mut text = random.text(characters, 200);
        desk.pack("roll", &text);
        for _ in 0..12 {
            let mut cut = lines(&text);
            let new = random.text(characters, 12);
            let first = random.below(cut.len() + 1);
            let last = first + random.below(cut.len() - first + 1).min(3);
            let (start, end) = (random.below(text.len() + 1), random.below(text.len() + 1));
            let (start, end) = (start.min(end), start.max(end).min(start.min(end) + 9));
            // The call, what it reads from standard input, and the text that it makes.
            let line = |number: usize| (number + 1).to_string();
            let mut input = new.clone();
            let call: Vec<String> = match random.below(4) {
                0 if first < cut.len() => {
                    let ended = cut[first].ends_with(b"\n");
                    cut[first] = new.clone();
                    cut[first].extend(ended.then_some(b'\n'));
                    input.push(b'\n');
                    text = cut.concat();
                    vec!["set".into(), "roll".into(), line(first), "-".into()]
                }
                1 if first < last => {
                    cut.drain(first..last);
                    text = cut.concat();
                    vec!["remove".into(), "roll".into(), format!("{}..{}", line(first), last)]
                }
                2 => {
                    text.splice(start..end, new);
                    vec!["replace".into(), "roll".into(), format!("{start}..{end}"), "-".into()]
                }
                _ => {
                    let open = first == cut.len() && !text.is_empty() && !text.ends_with(b"\n");
                    let put = if open { [b"\n", &new[..]].concat() } else { [&new[..], b"\n"].concat() };
                    cut.insert(first, put);
                    input.push(b'\n');
                    text = cut.concat();
                    vec!["insert".into(), "roll".into(), line(first), "-".into()]
                }
            };
            let before = desk.read("roll");
            let output = desk.run_on(&input, &call);
            if output.status.code() == Some(2) {
                // Only for a character that the table lacks, and then nothing has changed.
                common::refused(output, "roll: refusal 3: ");
                assert_eq!(desk.read("roll"), before);
                repacked += 1;
                let again: Vec<String> = call.iter().cloned().chain(["--repack".into()]).collect();
                held(desk.run_on(&input, &again), 0, "");
                // What packing the text gives.
                assert_eq!(desk.read("roll"), desk.pack("fresh", &text));
            } else {
                assert!(held(output, 0, "").is_empty());
            }
            assert_eq!(desk.done(&["text", "roll"]), text, "{call:?}");
        }
    }
    assert!(repacked > 10, "only {repacked} packed afresh");
}
