//! Many hands: two processes on one roll, users with few rights, other kinds of files, and rolls that come in.

mod common;

use std::fs;
use std::io::{BufRead, BufReader, Write};
use std::os::unix::fs::{symlink, FileTypeExt, MetadataExt, PermissionsExt};
use std::process::{Child, Command, Stdio};
use std::sync::mpsc;
use std::thread;
use std::time::{Duration, Instant};

use monterculo::{read_frame, OwnedRoll, Roll, Searcher, FRAME};

use common::{held, is_root, ran, refused, Desk, Guest, NOBODY};

const OLD: &[u8] = b"pan 7 Oda 5550143\npan 12 Jory 5550128\npan 40 Oda 5550110\n";

/// What two_hundred_edits puts in by each of two hands.
const EACH: usize = 100;

/// How many lines each of two hands has put into a text, which must be the first ones of its own, the last one in front,
/// and behind them all what stood there.
fn put_in(text: &[u8]) -> [usize; 2] {
    let new = std::str::from_utf8(text.strip_suffix(OLD).expect("what stood there")).unwrap();
    [1, 2].map(|hand| {
        let of_hand = |line: &&str| line.starts_with(&hand.to_string());
        let lines: Vec<&str> = new.split_inclusive('\n').filter(of_hand).collect();
        let expected: Vec<String> = (0..lines.len()).rev().map(|number| format!("{hand}{number:03}\n")).collect();
        assert_eq!(lines, expected);
        assert_eq!(new.lines().filter(|line| !line.starts_with(['1', '2'])).count(), 0);
        lines.len()
    })
}

#[test]
fn two_hundred_edits() {
    let desk = Desk::new("two-hundred");
    desk.pack("roll", OLD);
    let edits = |hand: usize| {
        for number in 0..EACH {
            desk.done(&["insert", "roll", "1", &format!("{hand}{number:03}")]);
        }
    };
    let mut between = 0;
    thread::scope(|scope| {
        let hands = [scope.spawn(|| edits(1)), scope.spawn(|| edits(2))];
        // Each state is at least as far as the one before.
        let mut before = [0; 2];
        while !hands.iter().all(|hand| hand.is_finished()) {
            assert_eq!(desk.done(&["check", "roll"]), b"roll: sound\n");
            let now = put_in(&desk.done(&["text", "roll"]));
            assert!(now[0] >= before[0] && now[1] >= before[1], "{before:?} {now:?}");
            between += usize::from(now != before && now != [EACH; 2]);
            before = now;
        }
        for hand in hands {
            hand.join().unwrap();
        }
    });
    assert_eq!(put_in(&desk.done(&["text", "roll"])), [EACH; 2]);
    assert_eq!(desk.names(), ["roll"]);
    assert!(between > 5, "only {between} states were seen");
}

/// Another program that has a folder's lock for some seconds, and has it now.
fn locker(desk: &Desk, seconds: &str) -> Child {
    let mut flock = Command::new("flock");
    flock.arg(&desk.folder).args(["sh", "-c", "echo held; exec sleep \"$1\"", "sh", seconds]);
    let mut child = flock.stdout(Stdio::piped()).spawn().expect("flock, which this test needs");
    let mut said = String::new();
    BufReader::new(child.stdout.as_mut().unwrap()).read_line(&mut said).unwrap();
    assert_eq!(said, "held\n");
    child
}

#[test]
fn waits_then_refuses() {
    let desk = Desk::new("waits");
    let old = desk.pack("roll", OLD);
    let start = Instant::now();
    let mut other = locker(&desk, "2");
    // Who only reads waits for nobody.
    assert_eq!(desk.done(&["text", "roll"]), OLD);
    desk.done(&["check", "roll"]);
    assert_eq!(other.try_wait().unwrap(), None);
    desk.done(&["set", "roll", "1", "7"]);
    assert!(start.elapsed() > Duration::from_secs(2), "{:?}", start.elapsed());
    assert_eq!(desk.done(&["show", "roll", "1"]), b"7\n");
    assert!(other.wait().unwrap().success());

    desk.write("roll", &old);
    desk.write("text", OLD);
    let mut other = locker(&desk, "13");
    thread::scope(|scope| {
        for (call, named) in [
            (&["set", "roll", "1", "7"][..], "roll: "),
            (&["pack", "text", "roll", "--force"], "roll: "),
            (&["pack", "text", "new"], "new: "),
            (&["receive", "Oda", "new"], "new: "),
        ] {
            let desk = &desk;
            scope.spawn(move || {
                let start = Instant::now();
                refused(desk.run(call), named);
                let waited = start.elapsed();
                assert!(Duration::from_secs(10) <= waited && waited < Duration::from_secs(12), "{call:?}: {waited:?}");
            });
        }
    });
    assert_eq!(other.try_wait().unwrap(), None, "the lock was not held for so long");
    assert_eq!(desk.read("roll"), old);
    assert_eq!(desk.names(), ["roll", "text"]);
    assert!(other.wait().unwrap().success());
    desk.done(&["set", "roll", "1", "7"]);
}

/// Holds each call that would keep a roll in a folder to its refusal, and each that reads it to its work.
fn hold_closed(guest: &Guest, folder: &str) {
    let (roll, new) = (format!("{folder}/roll"), format!("{folder}/new"));
    let names = |guest: &Guest| Desk { folder: guest.desk.path(folder) }.names();
    let (old, before) = (guest.desk.read(&roll), names(guest));
    guest.desk.write("text", b"7\n");
    let sent = guest.desk.pack("sent", b"7\n");
    let rights = fs::metadata(guest.desk.path(&roll)).unwrap().permissions();
    let (roll, new) = (&roll[..], &new[..]);
    for call in [
        &["set", roll, "1", "7"][..],
        &["set", roll, "1", "x", "--repack"],
        &["insert", roll, "1", "7"],
        &["remove", roll, "1"],
        &["replace", roll, "0..1", "7"],
        &["pack", "text", roll],
        &["pack", "text", roll, "--force"],
        &["receive", "5", roll],
        &["receive", "5", roll, "--force"],
    ] {
        refused(guest.run(Some("sent"), call), roll);
        assert_eq!(guest.desk.read(roll), old, "{call:?}");
        assert_eq!(fs::metadata(guest.desk.path(roll)).unwrap().permissions(), rights);
        assert_eq!(names(guest), before, "{call:?}");
    }
    // Another name is refused where the folder is closed, and not where the roll alone is.
    let open = fs::metadata(guest.desk.path(folder)).unwrap().mode() & 0o222 != 0;
    for call in [&["pack", "text", new][..], &["receive", "7", new]] {
        let output = guest.run(Some("sent"), call);
        if open {
            held(output, 0, "");
            assert_eq!(guest.desk.read(new), sent);
            fs::remove_file(guest.desk.path(new)).unwrap();
        } else {
            // Before anything is read.
            refused(output, new);
        }
        assert_eq!(names(guest), before, "{call:?}");
    }
    assert_eq!(held(guest.run(None, &["check", roll]), 0, ""), format!("{roll}: sound\n").as_bytes());
    assert_eq!(held(guest.run(None, &["text", roll]), 0, ""), OLD);
    assert_eq!(held(guest.run(None, &["find", roll, "Jory"]), 0, ""), b"2:pan 12 Jory 5550128\n");
    assert_eq!(held(guest.run(None, &["show", roll, "3"]), 0, ""), b"pan 40 Oda 5550110\n");
    assert!(!held(guest.run(None, &["info", roll]), 0, "").is_empty());
}

#[test]
fn read_only_folder() {
    let guest = Guest::new("read-only-folder");
    guest.folder("shelf", 0o755);
    guest.desk.pack("shelf/roll", OLD);
    guest.mode("shelf/roll", 0o666);
    guest.mode("shelf", 0o555);
    hold_closed(&guest, "shelf");
}

#[test]
fn read_only_roll() {
    let guest = Guest::new("read-only-roll");
    guest.folder("shelf", 0o777);
    guest.desk.pack("shelf/roll", OLD);
    guest.mode("shelf/roll", 0o444);
    hold_closed(&guest, "shelf");
    // It is the rights that close it.
    guest.mode("shelf/roll", 0o666);
    held(guest.run(None, &["set", "shelf/roll", "1", "7"]), 0, "");
}

#[test]
fn unreadable() {
    let guest = Guest::new("unreadable");
    guest.folder("shelf", 0o777);
    let old = guest.desk.pack("shelf/roll", OLD);
    guest.mode("shelf/roll", 0o000);
    for call in [&["text", "shelf/roll"][..], &["check", "shelf/roll"], &["set", "shelf/roll", "1", "7"]] {
        refused(guest.run(None, call), "shelf/roll: ");
    }
    guest.mode("shelf/roll", 0o644);
    assert_eq!(guest.desk.read("shelf/roll"), old);
    // A folder that may not be entered.
    guest.mode("shelf", 0o000);
    for call in [&["text", "shelf/roll"][..], &["set", "shelf/roll", "1", "7"], &["pack", "shelf/roll", "shelf/new"]] {
        refused(guest.run(None, call), "monterculo: shelf/");
    }
}

#[test]
fn rights() {
    let desk = Desk::new("rights");
    desk.pack("roll", OLD);
    desk.write("text", OLD);
    let sent = desk.pack("sent", OLD);
    if is_root() {
        ran(Command::new("chown").arg(format!("{NOBODY}:{NOBODY}")).arg(desk.path("roll")));
    }
    let traits = || {
        let file = fs::metadata(desk.path("roll")).unwrap();
        (file.mode() & 0o7777, file.uid(), file.gid())
    };
    for mode in [0o640, 0o600, 0o664, 0o444] {
        fs::set_permissions(desk.path("roll"), fs::Permissions::from_mode(mode)).unwrap();
        let old = traits();
        assert_eq!(old.0, mode);
        assert!(!is_root() || (old.1, old.2) == (NOBODY, NOBODY));
        // A roll that is closed is open to root alone.
        if mode & 0o200 != 0 || is_root() {
            desk.done(&["set", "roll", "1", "7"]);
            assert_eq!(traits(), old);
            desk.done(&["set", "roll", "1", "Q", "--repack"]);
            assert_eq!(traits(), old);
            desk.done(&["pack", "text", "roll", "--force"]);
            assert_eq!(traits(), old);
            held(desk.run_on(&sent, &["receive", "Oda", "roll", "--force"]), 0, "");
            assert_eq!(traits(), old);
        }
    }
    assert_eq!(desk.names(), ["roll", "sent", "text"]);
    if is_root() {
        hold_shared();
    }
}

/// A roll that a group shares stays theirs when one of them changes it who may not give it back to its owner. Root alone
/// can put somebody into a group for this.
fn hold_shared() {
    const GROUP: &str = "4242";
    let guest = Guest::new("shared");
    guest.folder("shelf", 0o777);
    guest.desk.pack("shelf/roll", OLD);
    ran(Command::new("chgrp").arg(GROUP).arg(guest.desk.path("shelf/roll")));
    guest.mode("shelf/roll", 0o660);
    let nobody = NOBODY.to_string();
    let member = ["setpriv", "--reuid", &nobody, "--regid", &nobody, "--groups", GROUP];
    let output = guest.call_by(&member, &["set", "shelf/roll", "1", "7"]).stdin(Stdio::null()).output();
    held(output.expect("setpriv, which this test needs"), 0, "");
    let file = fs::metadata(guest.desk.path("shelf/roll")).unwrap();
    assert_eq!((file.uid(), file.gid().to_string(), file.mode() & 0o7777), (NOBODY, GROUP.into(), 0o660));
    // One who is not of the group cannot keep it theirs, and his own group gets no rights by it.
    guest.mode("shelf/roll", 0o666);
    held(guest.run(None, &["set", "shelf/roll", "1", "8"]), 0, "");
    let file = fs::metadata(guest.desk.path("shelf/roll")).unwrap();
    assert_eq!((file.uid(), file.gid(), file.mode() & 0o7777), (NOBODY, NOBODY, 0o606));
}

#[test]
fn links() {
    let desk = Desk::new("links");
    for folder in ["far", "near"] {
        fs::create_dir(desk.path(folder)).unwrap();
    }
    desk.pack("far/roll", OLD);
    symlink("../far/roll", desk.path("near/first")).unwrap();
    symlink("near/first", desk.path("second")).unwrap();
    desk.done(&["set", "second", "1", "7"]);
    desk.done(&["insert", "near/first", "1", "8"]);
    assert_eq!(desk.done(&["show", "far/roll", "1..2"]), b"8\n7\n");
    held(desk.run_on(OLD, &["pack", "-", "second", "--force"]), 0, "");
    assert_eq!(desk.done(&["text", "far/roll"]), OLD);
    let leads = |name: &str| fs::read_link(desk.path(name)).unwrap();
    assert_eq!((leads("near/first"), leads("second")), ("../far/roll".into(), "near/first".into()));
    assert!(fs::symlink_metadata(desk.path("far/roll")).unwrap().is_file());

    // One that leads nowhere, one that leads to itself, and what could only be a folder.
    symlink("far/nothing", desk.path("astray")).unwrap();
    symlink("round", desk.path("round")).unwrap();
    for name in ["astray", "round", "far/new/"] {
        refused(desk.run_on(OLD, &["pack", "-", name]), name);
        refused(desk.run_on(OLD, &["pack", "-", name, "--force"]), name);
        refused(desk.run_on(&desk.read("far/roll"), &["receive", "Oda", name, "--force"]), name);
        refused(desk.run(&["set", name, "1", "7"]), name);
    }
    assert_eq!((leads("astray"), leads("round")), ("far/nothing".into(), "round".into()));
    assert_eq!(desk.names(), ["astray", "far", "near", "round", "second"]);
    for (folder, names) in [("far", ["roll"]), ("near", ["first"])] {
        assert_eq!(Desk { folder: desk.path(folder) }.names(), names);
    }
}

#[test]
fn no_plain_file() {
    let guest = Guest::new("no-plain-file");
    let desk = &guest.desk;
    guest.mode("", 0o777);
    desk.write("text", OLD);
    ran(Command::new("mkfifo").arg(desk.path("pipe")));
    guest.mode("pipe", 0o666);
    let names = desk.names();
    // By nobody: if it were not refused, root would lose /dev/null.
    for name in ["pipe", "/dev/null"] {
        for call in [
            &["pack", "text", name, "--force"][..],
            &["pack", "text", name],
            &["receive", "Oda", name, "--force"],
            &["set", name, "1", "7"],
            &["remove", name, "1"],
        ] {
            let error = refused(guest.run(None, call), name);
            assert!(error.contains("no plain file"), "{error}");
        }
    }
    assert!(fs::symlink_metadata(desk.path("pipe")).unwrap().file_type().is_fifo());
    assert!(fs::symlink_metadata("/dev/null").unwrap().file_type().is_char_device());
    for name in [".monterculo.new", "./.monterculo.new"] {
        refused(guest.run(None, &["pack", "text", name]), name);
        refused(guest.run(None, &["pack", "text", name, "--force"]), name);
        refused(guest.run(None, &["receive", "Oda", name]), name);
        refused(guest.run(None, &["set", name, "1", "7"]), name);
    }
    assert_eq!(desk.names(), names);
    // Nor where a roll lies there.
    let old = desk.pack("roll", OLD);
    fs::rename(desk.path("roll"), desk.path(".monterculo.new")).unwrap();
    symlink(".monterculo.new", desk.path("link")).unwrap();
    for name in [".monterculo.new", "link"] {
        refused(desk.run(&["set", name, "1", "7"]), name);
    }
    assert_eq!(desk.read(".monterculo.new"), old);
}

#[test]
fn receive_unread() {
    let desk = Desk::new("receive-unread");
    let sent = desk.pack("sent", &OLD.repeat(9));
    // With hits that nobody reads, and with none but the last word.
    for pattern in ["Oda", "Q"] {
        let mut command = desk.call_by(&[], &["receive", pattern, "roll"]);
        command.stdin(Stdio::piped()).stdout(Stdio::piped()).stderr(Stdio::piped());
        let mut child = command.spawn().unwrap();
        drop(child.stdout.take());
        child.stdin.take().unwrap().write_all(&sent).unwrap();
        let output = child.wait_with_output().unwrap();
        held(output, 2, "");
        assert_eq!(desk.read("roll"), sent);
        fs::remove_file(desk.path("roll")).unwrap();
    }
    assert_eq!(desk.names(), ["sent"]);
}

#[test]
fn receive_as_it_comes() {
    let desk = Desk::new("receive-as-it-comes");
    let text: String = (0..60).map(|number| format!("pan {number} Oda 5550{number:03}\n")).collect();
    for (width, pattern) in [("2", "Oda 5550"), ("4", "pan"), ("4", "5550")] {
        held(desk.run_on(text.as_bytes(), &["pack", "-", "sent", "--force", "--width", width]), 0, "");
        let sent = desk.read("sent");
        let mut lines = sent.split_inclusive(|&byte| byte == b'\n');
        let first = lines.next().unwrap();
        let mut searcher = Searcher::new(&Roll::from_first_line(first).unwrap(), pattern.as_bytes()).unwrap();

        let mut command = desk.call_by(&[], &["receive", pattern, "roll", "--force"]);
        let mut child = command.stdin(Stdio::piped()).stdout(Stdio::piped()).spawn().unwrap();
        let mut to = child.stdin.take().unwrap();
        let from = BufReader::new(child.stdout.take().unwrap());
        let (tell, told) = mpsc::channel();
        let reader = thread::spawn(move || from.lines().for_each(|line| tell.send(line.unwrap()).unwrap()));

        to.write_all(first).unwrap();
        let (mut found, mut with_hits) = (Vec::new(), 0);
        for line in lines {
            to.write_all(line).unwrap();
            let due = searcher.find(read_frame(line, &mut [0; FRAME]).unwrap()).unwrap();
            with_hits += usize::from(!due.is_empty());
            for hit in due {
                let said = told.recv_timeout(Duration::from_secs(20)).expect("a hit that is due");
                assert_eq!(said, hit.to_string());
                found.push(hit);
            }
            assert_eq!(told.try_recv(), Err(mpsc::TryRecvError::Empty), "nothing else is due");
        }
        // Nothing is kept before the end.
        assert!(!desk.path("roll").exists());
        drop(to);
        assert_eq!(told.recv_timeout(Duration::from_secs(20)).unwrap(), "sound, kept in roll");
        assert!(child.wait().unwrap().success());
        reader.join().unwrap();
        assert_eq!(found, OwnedRoll::from_frames(&sent).unwrap().find(pattern.as_bytes()).unwrap());
        assert!(with_hits > 5 && found.len() == 60, "{with_hits} lines with hits, {} hits", found.len());
        assert_eq!(desk.read("roll"), sent);
        fs::remove_file(desk.path("roll")).unwrap();
    }
}

/// A roll that comes in keeps nobody waiting, and is refused where another has come meanwhile.
#[test]
fn receive_taken_meanwhile() {
    let desk = Desk::new("receive-taken");
    let sent = desk.pack("sent", &OLD.repeat(9));
    let (early, late) = sent.split_at(sent.len() / 2);
    let mut command = desk.call_by(&[], &["receive", "Oda", "roll"]);
    command.stdin(Stdio::piped()).stdout(Stdio::piped()).stderr(Stdio::piped());
    let mut child = command.spawn().unwrap();
    let mut to = child.stdin.take().unwrap();
    to.write_all(early).unwrap();
    // A hit shows that it has asked for its place already.
    let mut from = BufReader::new(child.stdout.take().unwrap());
    from.read_line(&mut String::new()).unwrap();
    let start = Instant::now();
    let other = desk.pack("roll", OLD);
    assert!(start.elapsed() < Duration::from_secs(5), "{:?}", start.elapsed());
    to.write_all(late).unwrap();
    drop(to);
    let output = child.wait_with_output().unwrap();
    let error = refused(output, "roll: ");
    assert!(error.contains("--force") && error.contains("what came in is sound"), "{error}");
    assert_eq!(desk.read("roll"), other);
    assert_eq!(desk.names(), ["roll", "sent"]);
}
