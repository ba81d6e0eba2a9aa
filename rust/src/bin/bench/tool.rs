//! The clerk's find beside grep on the plain text: whole processes, and what each part of a find takes.

use std::env;
use std::fmt::Write;
use std::fs::{self, File};
use std::io::{self, Read};
use std::path::{Path, PathBuf};
use std::process::{exit, Command, Stdio};
use std::str;

use monterculo::{read_frame, Roll};
use monterculo_reference::reference;

// The command's own.
#[path = "../../../tool/src/lines.rs"]
#[allow(dead_code)]
mod lines;

use crate::{bytes_of, frame_text, grouped, median, timed, written, Case, Texts, FULL, WARM_UP, WIDTHS};

fn done<T>(what: &Path, answer: io::Result<T>) -> T {
    answer.unwrap_or_else(|error| {
        eprintln!("bench: {}: {}", what.display(), error);
        exit(2);
    })
}

/// Where a command of the path stands, so that no process has to look for it.
fn on_path(name: &str) -> PathBuf {
    let folders = env::var_os("PATH").unwrap_or_default();
    let found = env::split_paths(&folders).map(|folder| folder.join(name)).find(|path| path.is_file());
    done(Path::new(name), found.ok_or_else(|| io::Error::new(io::ErrorKind::NotFound, "not on the path")))
}

/// How a process ended, and what it wrote.
type Ended = (Option<i32>, Vec<u8>);

/// A process from its start to its end, with its output read from a pipe.
fn ran(command: &mut Command) -> (f64, Ended) {
    let path = PathBuf::from(command.get_program());
    timed(|| {
        let mut child = done(&path, command.spawn());
        let mut output = Vec::new();
        if let Some(mut pipe) = child.stdout.take() {
            done(&path, pipe.read_to_end(&mut output));
        }
        (done(&path, child.wait()).code(), output)
    })
}

/// What is run, all in the same surroundings.
fn command(path: &Path) -> Command {
    let mut command = Command::new(path);
    // The memory of this process is not that of the others.
    command.env("LC_ALL", "C").env_remove(TUNABLES).stdin(Stdio::null()).stdout(Stdio::piped());
    command
}

/// What tells the C library how to lend memory.
const TUNABLES: &str = "GLIBC_TUNABLES";

/// A full roll in its file, and its text beside it.
struct Filed {
    case: Case,
    text: PathBuf,
    roll: PathBuf,
}

impl Filed {
    fn new(case: Case, tool: &Path, folder: &Path) -> Filed {
        let [text, roll] = ["txt", "roll"].map(|kind| folder.join(format!("{}.{}", case.name, kind)));
        written(&text, &case.text);
        let width = case.roll.table.k.to_string();
        let pack = ran(command(tool).arg("pack").args([&text, &roll]).args(["--width", &width, "--force"])).1;
        assert_eq!(pack, (Some(0), Vec::new()), "it is packed");
        let mut frames = vec![0; frame_text(&case.roll)];
        reference::write_frames(&case.roll, &case.buf, &mut frames).expect("a sound roll");
        assert!(done(&roll, fs::read(&roll)) == frames, "the file is the frame text of the bench's roll");
        Filed { case, text, roll }
    }
}

const PARTS: [&str; 6] = ["file", "`read_frame`", "`to_frames`", "`find_jumping`", "`unpack`", "lines"];
/// How much the tool unpacks behind the last hit, where the line ends there.
const NEAR: usize = 4096;

/// The parts of a find, by the calls that the tool makes and in memory that is new to each, and what is to be written.
fn parts(path: &Path, pattern: &[u8]) -> ([f64; PARTS.len()], Vec<u8>) {
    let (file, frames) = timed(|| {
        let mut file = File::open(path)?;
        let mut frames = Vec::with_capacity(file.metadata()?.len() as usize + 1);
        file.read_to_end(&mut frames).map(|_| frames)
    });
    let frames = done(path, frames);
    let (lines, (roll, buf)) = timed(|| {
        let mut lines = str::from_utf8(&frames).expect("digits").split_inclusive('\n').map(str::as_bytes);
        let roll = Roll::from_first_line(lines.next().expect("a first line")).expect("a record");
        let (mut buf, mut end) = (vec![0; frames.len() / 2], 0);
        for line in lines {
            end += read_frame(line, &mut buf[end..]).expect("a later line").len();
        }
        (roll, buf)
    });
    let (written, same) = timed(|| {
        let mut written = vec![0; frames.len()];
        let same = roll.to_frames(&buf, &mut written).expect("a sound roll") == frames;
        drop(frames);
        same
    });
    assert!(same, "the file is the frame text of its roll");
    let (search, hits) = timed(|| roll.find_jumping(&buf, pattern).expect("a good pattern"));
    let last = match hits.last() {
        Some(last) => last,
        None => return ([file, lines, written, search, 0.0, 0.0], Vec::new()),
    };
    let (unpack, text) = timed(|| {
        let end = (last + NEAR).min(roll.n() as usize);
        let mut text = vec![0; end];
        roll.unpack(&buf, ..end, &mut text).expect("a sound roll");
        text
    });
    let (counting, out) = timed(|| lines_of(&text, &hits));
    ([file, lines, written, search, unpack, counting], out)
}

/// The archive's own reading of the whole frame text, which the tool takes where it is refused.
fn from_frames(path: &Path) -> f64 {
    let frames = done(path, fs::read(path));
    timed(|| Roll::from_frames(&frames, &mut vec![0; frames.len() / 2]).expect("a sound roll")).0
}

/// Number and text of each line that has a hit.
fn lines_of(text: &[u8], hits: &[usize]) -> Vec<u8> {
    let mut out = Vec::new();
    lines::with_hits(text, hits, |number, text| {
        out.extend_from_slice(number.to_string().as_bytes());
        out.push(b':');
        out.extend_from_slice(text);
        out.push(b'\n');
    });
    out
}

/// A pattern's finds: microseconds.
struct Found {
    pattern: String,
    hits: usize,
    lines: usize,
    find: f64,
    grep: f64,
    /// The hits counted, and no text unpacked.
    count: f64,
    parts: [f64; PARTS.len()],
    from_frames: f64,
}

fn measure(filed: &Filed, tool: &Path, grep: &Path, name: String, pattern: &[u8]) -> Found {
    let case = &filed.case;
    let word = str::from_utf8(pattern).expect("letters");
    let hits = case.text.windows(pattern.len()).filter(|run| *run == pattern).count();
    let (mut find, mut count, mut beside) = (command(tool), command(tool), command(grep));
    find.arg("find").arg(&filed.roll).args(["--", word]);
    count.args(["find", "--count"]).arg(&filed.roll).args(["--", word]);
    beside.args(["-a", "-F", "-n", "-e", word]).arg(&filed.text);
    let (_, expected) = ran(&mut beside);
    let counted = (Some(i32::from(hits == 0)), format!("{}\n", hits).into_bytes());
    let mut times = vec![Vec::new(); PARTS.len()];
    let [find, grep, count, from_frames, _] = case.medians([
        &mut || ran(&mut find),
        &mut || ran(&mut beside),
        &mut || {
            let (time, ended) = ran(&mut count);
            assert_eq!(ended, counted, "the hits are counted");
            (time, expected.clone())
        },
        &mut || (from_frames(&filed.roll), expected.clone()),
        &mut || {
            let (of_parts, out) = parts(&filed.roll, pattern);
            times.iter_mut().zip(of_parts).for_each(|(times, time)| times.push(time));
            (0.0, (Some(i32::from(hits == 0)), out))
        },
    ]);
    // Those of the rounds that are not measured come first.
    let mut parts = times.into_iter().map(|times| median(times[WARM_UP..].to_vec()));
    let parts = [(); PARTS.len()].map(|()| parts.next().expect("one for each"));
    let lines = expected.1.iter().filter(|&&byte| byte == b'\n').count();
    Found { pattern: name, hits, lines, find, grep, count, parts, from_frames }
}

fn table_of_sizes(all: &[(Filed, Vec<Found>)]) -> String {
    let mut lines = String::from(
        "| bytes | text | packed | file | file/text |\n\
         |---|--:|--:|--:|--:|\n",
    );
    for (Filed { case, .. }, _) in all {
        let [text, packed, file] = [case.text.len(), bytes_of(&case.roll), frame_text(&case.roll)];
        let ratio = file as f64 / text as f64;
        let [text, packed, file] = [text, packed, file].map(grouped);
        let _ = writeln!(lines, "| {} | {} | {} | {} | {:.2} |", case.name, text, packed, file, ratio);
    }
    lines
}

fn table_of_processes(all: &[(Filed, Vec<Found>)]) -> String {
    let mut lines = String::from(
        "| whole processes | hits | lines | `find` µs | grep µs | ratio | `find --count` µs |\n\
         |---|--:|--:|--:|--:|--:|--:|\n",
    );
    for (filed, found) in all {
        for one in found {
            let _ = writeln!(
                lines,
                "| {}, {} | {} | {} | {:.0} | {:.0} | {:.2} | {:.0} |",
                filed.case.name,
                one.pattern,
                grouped(one.hits),
                grouped(one.lines),
                one.find,
                one.grep,
                one.find / one.grep,
                one.count
            );
        }
    }
    lines
}

fn table_of_parts(all: &[(Filed, Vec<Found>)]) -> String {
    let mut lines =
        format!("| parts of `find`, µs | {} | the rest | whole | `from_frames` |\n|---|", PARTS.join(" | "));
    lines.push_str(&"--:|".repeat(PARTS.len() + 3));
    lines.push('\n');
    for (filed, found) in all {
        for one in found {
            let _ = write!(lines, "| {}, {} |", filed.case.name, one.pattern);
            for part in one.parts {
                let _ = write!(lines, " {:.0} |", part);
            }
            let rest = one.find - one.parts.iter().sum::<f64>();
            let _ = writeln!(lines, " {:.0} | {:.0} | {:.0} |", rest, one.find, one.from_frames);
        }
    }
    lines
}

/// Processes that do next to nothing: the tool telling its help, and grep with an empty file.
fn starts(case: &Case, tool: &Path, grep: &Path, folder: &Path) -> [f64; 2] {
    let empty = folder.join("empty");
    written(&empty, "");
    let (mut help, mut nothing) = (command(tool), command(grep));
    help.arg("--help");
    nothing.args(["-a", "-F", "-n", "-e", "pan"]).arg(empty);
    case.medians([&mut || (ran(&mut help).0, ()), &mut || (ran(&mut nothing).0, ())])
}

/// Prints what the tool's find takes beside grep.
pub fn run(texts: &Texts, tool: &Path, folder: &Path) {
    let grep = on_path("grep");
    done(folder, fs::create_dir_all(folder));
    println!(
        "Whole processes from start to end, output read from a pipe, files in the page cache: medians of {} in turn, after {} that\n\
         were not measured. grep: `LC_ALL=C grep -a -F -n -e PATTERN TEXT`; what `find` wrote was each time the same byte for byte.\n\
         `find --count` counts hits, and no text is unpacked; grep counts lines, and is not beside it. The parts: medians of\n\
         the same calls of the crate, in this process, {}; the rest is the whole process less its parts.\n",
        FULL.repetitions,
        WARM_UP,
        if env::var_os(TUNABLES).is_some() { "each in memory new to it" } else { "in memory that may have been used" }
    );
    let mut all = Vec::new();
    for (name, text) in texts {
        for k in WIDTHS {
            let filed = Filed::new(Case::new(name, k, text, &FULL), tool, folder);
            let mut patterns: Vec<_> =
                [8, 16].map(|length| (format!("{} characters", length), filed.case.pattern(length).to_vec())).into();
            let absent = filed.case.patterns(16).pop().expect("some stand nowhere");
            patterns.push(("16 that stand nowhere".to_string(), absent));
            let found = patterns.into_iter().map(|(name, pattern)| measure(&filed, tool, &grep, name, &pattern));
            let found = found.collect();
            all.push((filed, found));
        }
    }
    println!("{}", table_of_sizes(&all));
    println!("{}", table_of_processes(&all));
    println!("{}", table_of_parts(&all));
    let [help, nothing] = starts(&all[0].0.case, tool, &grep, folder);
    println!(
        "| processes alone | µs |\n|---|--:|\n| `monterculo --help` | {:.0} |\n| grep, empty file | {:.0} |",
        help, nothing
    );
}
