//! Files that hold no roll, or one that was spoilt: each is refused in one line and left as it is, or still a sound roll.

mod common;

use std::fs::{self, File};
use std::time::{Duration, Instant};

use monterculo::OwnedRoll;

use common::{refused, Desk};

const OLD: &[u8] = b"pan 7 Oda 5550143\npan 12 Jory 5550128\npan 40 Oda 5550110\n";

/// Holds the command to the archive's answer of what lies in a file: the number of the refusal, if it is refused. Nothing
/// that is refused is changed, and nothing that is changed is unsound.
fn hold(desk: &Desk, frames: &[u8]) -> Option<u32> {
    const CALLS: [&[&str]; 4] =
        [&["check", "roll"], &["text", "roll"], &["find", "roll", "Oda"], &["set", "roll", "1", "7"]];
    desk.write("roll", frames);
    let answer = OwnedRoll::from_frames(frames);
    match &answer {
        Err(refusal) => {
            for call in CALLS {
                refused(desk.run(call), &format!("roll: refusal {}: ", refusal.number()));
                assert_eq!(desk.read("roll"), frames);
            }
        }
        Ok(roll) => {
            assert_eq!(desk.done(CALLS[0]), b"roll: sound\n");
            assert_eq!(desk.done(CALLS[1]), roll.text());
            let output = desk.run(CALLS[3]);
            if output.status.success() {
                assert_eq!(desk.done(CALLS[0]), b"roll: sound\n");
            } else {
                refused(output, "roll: ");
                assert_eq!(desk.read("roll"), frames);
            }
        }
    }
    assert_eq!(desk.names(), ["roll"]);
    answer.err().map(|refusal| refusal.number())
}

#[test]
fn cut_short() {
    let desk = Desk::new("cut-short");
    let frames = desk.pack("roll", OLD);
    assert_eq!(hold(&desk, &frames), None);
    for end in 0..frames.len() {
        assert_eq!(hold(&desk, &frames[..end]), Some(15), "{end}");
    }
}

#[test]
fn no_frames() {
    let desk = Desk::new("no-frames");
    let frames = desk.pack("roll", &OLD.repeat(4));
    let lines: Vec<&[u8]> = frames.split_inclusive(|&byte| byte == b'\n').collect();
    assert!(lines.len() > 4);
    let mut noise = 1_u32;
    let mut next = || {
        noise = noise.wrapping_mul(1_664_525).wrapping_add(1_013_904_223);
        (noise >> 24) as u8
    };
    let noise: Vec<u8> = (0..10_000).map(|_| next()).collect();
    let ended_otherwise = String::from_utf8(frames.clone()).unwrap().replace('\n', "\r\n").into_bytes();
    for wrong in
        [b"", OLD, b"\n", &noise, &frames.to_ascii_uppercase(), &ended_otherwise, &[&frames[..], b"\n"].concat()]
    {
        assert!(hold(&desk, wrong).is_some(), "{wrong:?}");
    }
    for number in 0..lines.len() {
        let twice = [&lines[..=number], &lines[number..]].concat().concat();
        assert!(hold(&desk, &twice).is_some(), "line {number} twice");
        let mut exchanged = lines.clone();
        exchanged.swap(number, (number + 1) % lines.len());
        // Two whole frames may be exchanged, and be those of another roll.
        let whole = number > 0 && number + 2 < lines.len();
        assert!(hold(&desk, &exchanged.concat()).is_some() || whole, "line {number} exchanged");
    }
}

#[test]
fn one_byte_changed() {
    let desk = Desk::new("one-byte");
    let frames = desk.pack("roll", OLD);
    let (mut sound, mut wrong) = (0, 0);
    for place in 0..frames.len() {
        let byte = frames[place];
        // Another digit, a digit that is none, a line end, and a byte that is no character.
        let digit = if byte == b'9' { b'0' } else { byte.wrapping_add(1) };
        for other in [digit, byte ^ 1, b'G', b'\n', 0xff] {
            let mut changed = frames.clone();
            changed[place] = other;
            if other != byte {
                *if hold(&desk, &changed).is_none() { &mut sound } else { &mut wrong } += 1;
            }
        }
    }
    // A digit of the text may well be another one.
    assert!(sound > 9 && wrong > frames.len(), "{sound} sound, {wrong} refused");
}

#[test]
fn no_file() {
    let desk = Desk::new("no-file");
    fs::create_dir(desk.path("folder")).unwrap();
    for name in ["folder", "absent", "absent/absent", ""] {
        let calls: [&[&str]; 9] = [
            &["check", name],
            &["text", name],
            &["info", name],
            &["find", name, "Oda"],
            &["show", name, "1"],
            &["set", name, "1", "7"],
            &["insert", name, "1", "7"],
            &["remove", name, "1", "--repack"],
            &["replace", name, "0..0", "7"],
        ];
        for call in calls {
            refused(desk.run(call), &format!("monterculo: {name}: "));
        }
    }
    for name in ["folder", "absent/absent", ""] {
        refused(desk.run_on(OLD, &["pack", "-", name, "--force"]), &format!("monterculo: {name}: "));
    }
    assert_eq!(desk.names(), ["folder"]);
}

/// What has no end is read no further than shows that it is no roll, or no text of one.
#[test]
fn endless() {
    let desk = Desk::new("endless");
    let old = desk.pack("roll", OLD);
    for (named, call) in [
        ("/dev/zero: ", &["pack", "/dev/zero", "roll", "--force"][..]),
        ("/dev/zero: ", &["pack", "/dev/zero", "other"]),
        ("/dev/zero: ", &["pack", "/dev/zero", "-"]),
        ("/dev/zero: ", &["check", "/dev/zero"]),
        ("/dev/zero: ", &["text", "/dev/zero"]),
        ("/dev/zero: ", &["info", "/dev/zero"]),
        ("/dev/zero: ", &["find", "/dev/zero", "Oda"]),
        ("/dev/zero: ", &["show", "/dev/zero", "1"]),
        ("/dev/zero: ", &["set", "/dev/zero", "1", "7"]),
        ("standard input: ", &["pack", "-", "other"]),
        ("standard input: ", &["check", "-"]),
        ("standard input: ", &["set", "-", "1", "7"]),
        ("standard input: ", &["receive", "Oda"]),
        ("standard input: ", &["receive", "Oda", "other"]),
        ("standard input: ", &["receive", "Oda", "roll", "--force"]),
        ("roll: ", &["set", "roll", "1", "-"]),
        ("roll: ", &["set", "roll", "1", "-", "--repack"]),
        ("roll: ", &["insert", "roll", "1", "-", "--repack"]),
        ("roll: ", &["replace", "roll", "0..1", "-", "--repack"]),
    ] {
        let start = Instant::now();
        let zero = File::open("/dev/zero").unwrap();
        refused(desk.call_by(&[], call).stdin(zero).output().unwrap(), named);
        assert!(start.elapsed() < Duration::from_secs(10), "{call:?}: {:?}", start.elapsed());
        assert_eq!(desk.names(), ["roll"]);
        assert_eq!(desk.read("roll"), old);
    }
}
