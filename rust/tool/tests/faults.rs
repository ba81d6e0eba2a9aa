//! Nothing is lost, whatever fails: the process, the system or the disk. strace kills a call, or lets a call of the system
//! fail, at each place; it counts each call of the system by itself.

mod common;

use std::fs::{self, File};
use std::os::unix::fs::MetadataExt;
use std::os::unix::process::ExitStatusExt;
use std::process::{Command, Output, Stdio};
use std::thread;
use std::time::{Duration, Instant};

use monterculo::OwnedRoll;

use common::{held, is_emulated, ran, refused, Desk};

const OLD: &[u8] = b"pan 7 Oda 5550143\npan 12 Jory 5550128\npan 40 Oda 5550110\n";
const OTHER: &[u8] = b"pan 3 Rona 5550199\npan 4 Oda 5550101\n";

/// What is written beside a roll.
const FRESH: &str = ".monterculo.new";

/// Calls that keep a roll, and whether one stands there before. Those that read standard input find OTHER there.
const CALLS: [(&[&str], bool); 9] = [
    (&["set", "roll", "2", "pan 12 Jory 0445550196"], true),
    (&["set", "roll", "2", "pan 12 Zena 5550128", "--repack"], true),
    (&["insert", "roll", "2", "pan 9 Oda 5550177"], true),
    (&["remove", "roll", "1..2"], true),
    (&["replace", "roll", "4..5", "12"], true),
    (&["pack", "-", "roll", "--force"], true),
    (&["pack", "-", "roll"], false),
    (&["receive", "Oda", "roll", "--force"], true),
    (&["receive", "Oda", "roll"], false),
];

/// The calls of the system that change files or lock them; a machine need not have those with ? in front.
const CHANGING: &str =
    "?open,openat,?creat,write,pwrite64,ftruncate,fsync,fdatasync,?rename,renameat,renameat2,linkat,\
                        ?unlink,unlinkat,?chmod,fchmod,fchmodat,fchown,flock";

/// Those of them that fail where a disk is full or broken.
const FAILING: &str =
    "write,pwrite64,ftruncate,fsync,fdatasync,?rename,renameat,renameat2,linkat,?unlink,unlinkat,?chmod,\
                       fchmod,fchmodat,flock";

/// A call that keeps a roll, what stands there before, and what it comes to where nothing fails.
struct Trial {
    desk: Desk,
    aside: Desk,
    call: &'static [&'static str],
    old: Option<Vec<u8>>,
    new: Vec<u8>,
}

impl Trial {
    fn of(test: &str, (call, stands): (&'static [&'static str], bool)) -> Trial {
        let name = format!("{test}-{}-{stands}", call.join("-").replace([' ', '.'], ""));
        let (desk, aside) = (Desk::new(&name), Desk::new(&format!("{name}-aside")));
        aside.write("pack", OTHER);
        aside.pack("receive", OTHER);
        let old = stands.then(|| desk.pack("roll", OLD));
        let mut trial = Trial { desk, aside, call, old, new: Vec::new() };
        held(trial.desk.call_by(&[], call).stdin(trial.input()).output().unwrap(), 0, "");
        trial.new = trial.desk.read("roll");
        OwnedRoll::from_frames(&trial.new).unwrap();
        assert_ne!(trial.old.as_ref(), Some(&trial.new));
        trial
    }

    fn input(&self) -> Stdio {
        File::open(self.aside.path(self.call[0])).map_or_else(|_| Stdio::null(), Stdio::from)
    }

    /// Makes the folder as it was before.
    fn restore(&self) {
        for name in self.desk.names() {
            fs::remove_file(self.desk.path(name)).unwrap();
        }
        if let Some(old) = &self.old {
            self.desk.write("roll", old);
        }
    }

    /// Makes the call on the folder as it was before, under strace.
    fn trace(&self, options: &[&str]) -> (Output, String) {
        self.restore();
        self.desk.traced(&self.aside, options, self.input(), self.call)
    }

    /// Options by which an emulator's own calls of the system are left alone: those in the folder are the command's.
    fn of_the_folder(&self) -> Vec<String> {
        let folder = fs::canonicalize(&self.desk.folder).unwrap();
        let paths = [folder.clone(), folder.join("roll"), folder.join(FRESH)];
        let options = paths.iter().map(|path| format!("--trace-path={}", path.to_str().unwrap()));
        options.filter(|_| is_emulated()).collect()
    }

    /// The names of the calls of the system that are made of these, where nothing fails.
    fn made(&self, calls: &str, options: &[&str]) -> Vec<String> {
        let (output, log) = self.trace(&[&["-e", &format!("trace={calls}")], options].concat());
        assert!(output.status.success() && self.desk.read("roll") == self.new, "{output:?}");
        let mut names: Vec<String> =
            log.lines().filter_map(|line| Some(line.split_once(' ')?.1.trim().split_once('(')?.0.into())).collect();
        names.sort();
        names.dedup();
        // The tracer makes this one, before it counts.
        names.retain(|name| name != "execve");
        assert!(names.iter().any(|name| name.starts_with("rename")), "{log}");
        names
    }

    /// Whether the new roll is there. There is the old one otherwise, or nothing where nothing was, and never a third.
    fn is_new(&self, log: &str) -> bool {
        let there = fs::read(self.desk.path("roll")).ok();
        let is_new = there.as_ref() == Some(&self.new);
        assert!(is_new || there == self.old, "{:?} {log}", self.call);
        assert!(self.desk.names().iter().all(|name| name == "roll" || name == FRESH), "{:?} {log}", self.desk.names());
        is_new
    }

    /// Holds the call to its refusal. What was found in a roll that came in is said before.
    fn refused(&self, mut output: Output, named: &str) -> String {
        if self.call[0] == "receive" {
            output.stdout.clear();
        }
        refused(output, named)
    }

    fn has_fresh(&self) -> bool {
        self.desk.path(FRESH).exists()
    }

    /// Holds the folder, as it now is, to a further call that works and leaves nothing behind.
    fn goes_on(&self) {
        if self.desk.path("roll").exists() {
            self.desk.done(&["set", "roll", "1", "7"]);
            assert_eq!(self.desk.done(&["show", "roll", "1"]), b"7\n");
        } else {
            held(self.desk.call_by(&[], self.call).stdin(self.input()).output().unwrap(), 0, "");
            assert_eq!(self.desk.read("roll"), self.new);
        }
        assert_eq!(self.desk.names(), ["roll"]);
    }
}

/// In which line of a log a call of the system first failed as it was told to.
fn injected(log: &str) -> Option<usize> {
    log.lines().position(|line| line.ends_with("(INJECTED)"))
}

/// In which line of a log the new file was put in the old one's place.
fn renamed(log: &str) -> Option<usize> {
    log.lines().position(|line| line.contains(" rename") && line.ends_with(" = 0"))
}

/// Kills a call before each call of the system that it makes of these.
fn kill(trial: &Trial, calls: &str) {
    let (mut old, mut new, mut fresh) = (0, 0, 0);
    for name in trial.made(calls, &[]) {
        for count in 1.. {
            let fault = format!("inject={name}:signal=SIGKILL:when={count}");
            let (output, log) = trial.trace(&["-e", &format!("trace={calls}"), "-e", &fault]);
            let is_new = trial.is_new(&log);
            if output.status.success() {
                assert!(is_new && count > 1, "{fault}");
                break;
            }
            assert_eq!(output.status.signal(), Some(9), "{fault}: {output:?}");
            *if is_new { &mut new } else { &mut old } += 1;
            fresh += usize::from(trial.has_fresh());
            trial.goes_on();
        }
    }
    // Not all of them before it began, nor behind its end.
    assert!(old > 3 && new > 0 && fresh > 1, "{:?}: {old} old, {new} new, {fresh} half", trial.call);
}

#[test]
fn killed() {
    kill(&Trial::of("killed-anywhere", CALLS[0]), "all");
    for call in CALLS {
        kill(&Trial::of("killed", call), CHANGING);
    }
}

/// Lets each call of the system that a call makes of these fail with an error: it alone, or the removal of what is then
/// left over too.
fn fail(trial: &Trial, error: &str, and_removal: bool) {
    let (mut old, mut new, mut fresh) = (0, 0, 0);
    let near = trial.of_the_folder();
    let near: Vec<&str> = near.iter().map(String::as_str).collect();
    for name in trial.made(FAILING, &near) {
        // The left-overs before it, and for a roll that comes in the file of the trial, are removed.
        let removals = if trial.call[0] == "receive" { 4 } else { 2 };
        let removal = format!("inject=?unlink,unlinkat:error={error}:when={removals}+");
        let unlinks = name.starts_with("unlink");
        for count in 1.. {
            assert!(count < 1000, "{name} has no end");
            let fault = format!("inject={name}:error={error}:when={count}");
            let trace = format!("trace={FAILING}");
            let mut options = [&["-e", &trace, "-e", &fault], &near[..]].concat();
            if and_removal && !unlinks {
                options.extend(["-e", &removal]);
            }
            let (output, log) = trial.trace(&options);
            let is_new = trial.is_new(&log);
            let failed = match injected(&log) {
                Some(line) => line,
                None => {
                    assert!(output.status.success() && is_new && count > 1, "{fault}: {output:?}");
                    break;
                }
            };
            // Who receives a roll has it even if nothing can be said of it.
            let said = log.lines().nth(failed).unwrap().contains(" write(1<");
            let error = trial.refused(output, if said { "standard output: " } else { "roll: " });
            // What it says is so.
            let denied = ["nothing was changed", "not kept"].iter().any(|words| error.contains(words));
            assert!(!(is_new && denied) && (is_new || !error.contains("it is changed")), "{fault}: {error}");
            assert_eq!(is_new, said || renamed(&log).map_or(false, |line| line < failed), "{fault}: {log}");
            assert_eq!(trial.desk.names().contains(&"roll".into()), is_new || trial.old.is_some());
            // Left over only if it is the removal that fails.
            assert!(!trial.has_fresh() || and_removal || unlinks, "{fault}: {log}");
            *if is_new { &mut new } else { &mut old } += 1;
            fresh += usize::from(trial.has_fresh());
            trial.goes_on();
        }
    }
    assert!(old > 3 && new > 0, "{:?}: {old} old, {new} new", trial.call);
    assert_eq!(fresh > 1, and_removal, "{:?}: {fresh} half", trial.call);
}

#[test]
fn failing_calls() {
    for call in CALLS {
        let trial = Trial::of("failing", call);
        for error in ["ENOSPC", "EIO", "EDQUOT", "EROFS"] {
            fail(&trial, error, false);
        }
        fail(&trial, "EIO", true);
    }
}

/// Any call of the system at all, such as one that reads, or one of the loader's; of an emulator, which may then do
/// anything, it would say nothing.
#[test]
fn failing_anywhere() {
    if is_emulated() {
        return;
    }
    for call in [CALLS[0], CALLS[6]] {
        let trial = Trial::of("failing-anywhere", call);
        let (mut old, mut new) = (0, 0);
        for name in trial.made("all", &[]) {
            for count in 1.. {
                let fault = format!("inject={name}:error=EIO:when={count}");
                let (output, log) = trial.trace(&["-e", "trace=all", "-e", &fault]);
                let is_new = trial.is_new(&log);
                assert_eq!(is_new, renamed(&log).is_some(), "{fault}: {log}");
                assert!(is_new || !output.status.success(), "{fault}: {log}");
                if injected(&log).is_none() {
                    assert!(output.status.success() && count > 1, "{fault}: {output:?}");
                    break;
                }
                *if is_new { &mut new } else { &mut old } += 1;
                trial.goes_on();
            }
        }
        assert!(old > 9 && new > 1, "{call:?}: {old} old, {new} new");
    }
}

#[test]
fn passed_over() {
    let trial = Trial::of("passed-over", CALLS[0]);
    // Some file systems know no fsync of a folder; any call may be interrupted by a signal.
    let faults = ["fsync:error=EINVAL:when=2", "flock:error=EINTR:when=1", "write:error=EINTR:when=1..3"];
    for fault in faults.into_iter().chain(["fsync:error=EINTR:when=1", "fchmod:error=EINTR:when=1"]) {
        let (output, log) = trial.trace(&["-e", &format!("trace={FAILING}"), "-e", &format!("inject={fault}")]);
        held(output, 0, "");
        assert!(injected(&log).is_some() && trial.is_new(&log) && !trial.has_fresh(), "{fault}: {log}");
    }
    // The same of the new file is no trifle.
    let (output, log) = trial.trace(&["-e", "trace=fsync", "-e", "inject=fsync:error=EINVAL:when=1"]);
    refused(output, "roll: ");
    assert!(!trial.is_new(&log) && !trial.has_fresh());
}

#[test]
fn full_disk() {
    let desk = Desk::new("full-disk");
    let text: String = (0..400).map(|number| format!("{number} 5550{number:03}\n")).collect();
    let old = desk.pack("roll", text.as_bytes());
    assert!(old.len() > 4096);
    // A block of the shell's is no more than 1,024 bytes: the first write is cut short there, and the next one fails.
    let limited = ["sh", "-c", "trap '' XFSZ; ulimit -f 1; exec \"$@\"", "sh"];
    desk.write("text", text.as_bytes());
    for call in [
        &["set", "roll", "2", "77"][..],
        &["insert", "roll", "1", "77"],
        &["remove", "roll", "1"],
        &["replace", "roll", "0..0", "77"],
        &["set", "roll", "2", "x", "--repack"],
        &["pack", "text", "roll", "--force"],
        &["pack", "text", "other"],
    ] {
        let output = desk.call_by(&limited, call).stdin(Stdio::null()).output().unwrap();
        refused(output, if call.contains(&"other") { "other: " } else { "roll: " });
        assert_eq!(desk.names(), ["roll", "text"]);
        assert_eq!(desk.read("roll"), old);
    }
    // Where the signal is not held back it ends the command. An emulator it ends too, somewhere.
    if is_emulated() {
        return;
    }
    let limited = ["sh", "-c", "ulimit -f 1; exec \"$@\"", "sh"];
    let output = desk.call_by(&limited, &["set", "roll", "2", "77"]).stdin(Stdio::null()).output().unwrap();
    assert_eq!(output.status.code(), None, "{output:?}");
    assert_eq!(desk.read("roll"), old);
    assert_eq!(desk.names(), [FRESH, "roll", "text"]);
    desk.done(&["set", "roll", "2", "77"]);
    assert_eq!(desk.done(&["show", "roll", "1..3"]), b"0 5550000\n77\n2 5550002\n");
    assert_eq!(desk.names(), ["roll", "text"]);
}

/// Makes a call that is held up when the new file is written, and the change of another program meanwhile.
fn meanwhile(call: (&'static [&'static str], bool), how: &str, change: impl Fn(&Desk, &[u8])) {
    let trial = Trial::of(&format!("meanwhile-{how}"), call);
    // As long as the old one, so that its length does not tell.
    let other = trial.aside.pack("other", &[&OLD[..4], b"8", &OLD[5..]].concat());
    trial.restore();
    assert!(trial.old.is_none() || trial.old.as_ref().map(Vec::len) == Some(other.len()));
    let delay = ["-e", "trace=fsync", "-e", "inject=fsync:delay_enter=3000000:when=1"];
    let (output, there) = thread::scope(|scope| {
        let held_up = scope.spawn(|| trial.desk.traced(&trial.aside, &delay, trial.input(), trial.call).0);
        let start = Instant::now();
        while !fs::read(trial.desk.path(FRESH)).map_or(false, |bytes| bytes == trial.new) {
            assert!(start.elapsed() < Duration::from_secs(20), "{how}: no new file");
            thread::sleep(Duration::from_millis(1));
        }
        change(&trial.desk, &other);
        let there = fs::read(trial.desk.path("roll")).ok();
        assert!(!held_up.is_finished(), "{how}: it was not held up long enough");
        (held_up.join().unwrap(), there)
    });
    assert!(trial.refused(output, "roll: ").contains("another program"));
    assert_eq!(fs::read(trial.desk.path("roll")).ok(), there);
    assert_ne!(there, trial.old);
    assert!(!trial.has_fresh());
    trial.goes_on();
}

#[test]
fn changed_meanwhile() {
    let write = |desk: &Desk, other: &[u8]| desk.write("roll", other);
    let write_as_of_old = |desk: &Desk, other: &[u8]| {
        let time = fs::metadata(desk.path("roll")).unwrap();
        desk.write("roll", other);
        let time = format!("@{}.{:09}", time.mtime(), time.mtime_nsec());
        ran(Command::new("touch").args(["-d", &time]).arg(desk.path("roll")));
    };
    let rename = |desk: &Desk, other: &[u8]| {
        desk.write("another", other);
        fs::rename(desk.path("another"), desk.path("roll")).unwrap();
    };
    let remove = |desk: &Desk, _: &[u8]| fs::remove_file(desk.path("roll")).unwrap();
    thread::scope(|scope| {
        scope.spawn(|| meanwhile(CALLS[0], "written", write));
        scope.spawn(|| meanwhile(CALLS[0], "as-of-old", write_as_of_old));
        scope.spawn(|| meanwhile(CALLS[0], "renamed", rename));
        scope.spawn(|| meanwhile(CALLS[5], "forced", write));
        scope.spawn(|| meanwhile(CALLS[6], "packed", write));
        scope.spawn(|| meanwhile(CALLS[8], "received", rename));
        scope.spawn(|| meanwhile((&["pack", "-", "roll", "--force"], true), "removed", remove));
    });
}

/// Each thing is done before the next one, which relies on it.
#[test]
fn order() {
    for call in CALLS {
        let trial = Trial::of("order", call);
        let (output, log) = trial.trace(&["-e", &format!("trace={CHANGING}")]);
        assert!(output.status.success() && trial.is_new(&log), "{output:?}");
        let folder = fs::canonicalize(&trial.desk.folder).unwrap();
        let at = |name: &str| folder.join(name).to_str().unwrap().to_string();
        let (folder, fresh, roll) = (folder.to_str().unwrap(), at(FRESH), at("roll"));
        let steps = [
            (" flock(", format!("<{folder}>, LOCK_EX")),
            (" open", format!("\"{fresh}\", O_WRONLY|O_CREAT|O_EXCL")),
            (" write(", format!("<{fresh}>, ")),
            (" fsync(", format!("<{fresh}>)")),
            (" rename", format!("\"{fresh}\", ")),
            (" fsync(", format!("<{folder}>)")),
        ];
        // Where each step is taken last; the lock is taken for the last time in front of them all.
        let places: Vec<Option<usize>> = steps
            .iter()
            .map(|(name, what)| {
                let lines: Vec<&str> = log.lines().collect();
                lines.iter().rposition(|line| {
                    line.contains(name) && line.contains(what) && !line.contains(" = -1") && !line.contains(" = ?")
                })
            })
            .collect();
        assert!(places.iter().all(Option::is_some) && places.windows(2).all(|two| two[0] < two[1]), "{places:?} {log}");
        let renames: Vec<&str> = log.lines().filter(|line| line.contains(" rename")).collect();
        assert!(renames.len() == 1 && renames[0].contains(&format!("\"{roll}\"")), "{log}");
        // Nobody else may read it before it has the old one's rights, and those are lasting with it.
        let lines: Vec<&str> = log.lines().collect();
        if trial.old.is_some() {
            assert!(lines[places[1].unwrap()].contains("0600)"), "{log}");
            let rights = lines.iter().position(|line| line.contains(" fchmod(") && line.contains(&fresh));
            assert!(rights > places[1] && rights < places[3], "{log}");
        }
        // The old one is never written.
        assert!(!log.lines().any(|line| line.contains(&format!("<{roll}>, \""))), "{log}");
        assert!(!log.lines().any(|line| line.contains(&format!("\"{roll}\"")) && line.contains("O_TRUNC")), "{log}");
    }
}
