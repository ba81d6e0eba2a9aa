//! A desk for a test: a folder of its own, and the command.

#![allow(dead_code)]

use std::env;
use std::ffi::{OsStr, OsString};
use std::fs;
use std::io::Write;
use std::os::unix::fs::{MetadataExt, PermissionsExt};
use std::os::unix::process::CommandExt;
use std::path::{Path, PathBuf};
use std::process::{Command, Output, Stdio};

/// The command, and in front of it what runs x86-64 code where the machine does not.
pub fn words() -> Vec<OsString> {
    let runner = env::var_os("CARGO_TARGET_X86_64_UNKNOWN_LINUX_GNU_RUNNER");
    runner.into_iter().chain([env!("CARGO_BIN_EXE_monterculo").into()]).collect()
}

/// Whether something else runs the command, and makes calls of the system of its own.
pub fn is_emulated() -> bool {
    words().len() > 1
}

pub struct Desk {
    pub folder: PathBuf,
}

impl Desk {
    /// An empty folder for the test of this name.
    pub fn new(name: &str) -> Desk {
        let folder = Path::new(env!("CARGO_TARGET_TMPDIR")).join(name);
        let _ = fs::remove_dir_all(&folder);
        fs::create_dir_all(&folder).unwrap();
        Desk { folder }
    }

    pub fn path(&self, name: impl AsRef<Path>) -> PathBuf {
        self.folder.join(name)
    }

    pub fn read(&self, name: impl AsRef<Path>) -> Vec<u8> {
        fs::read(self.path(name)).unwrap()
    }

    pub fn write(&self, name: impl AsRef<Path>, bytes: &[u8]) {
        fs::write(self.path(name), bytes).unwrap();
    }

    /// The names of all that lies there, sorted.
    pub fn names(&self) -> Vec<String> {
        let entries = fs::read_dir(&self.folder).unwrap();
        let mut names: Vec<String> =
            entries.map(|entry| entry.unwrap().file_name().to_string_lossy().into_owned()).collect();
        names.sort();
        names
    }

    /// A call of the command there, with something in front of it, such as a tracer and its options.
    pub fn call_by(&self, front: &[&str], arguments: &[impl AsRef<OsStr>]) -> Command {
        let mut words: Vec<OsString> = front.iter().map(OsString::from).collect();
        words.extend(self::words());
        words.extend(arguments.iter().map(|argument| argument.as_ref().to_os_string()));
        let mut command = Command::new(&words[0]);
        command.args(&words[1..]).current_dir(&self.folder).env("LC_ALL", "C");
        command
    }

    /// What a call comes to, with nothing on standard input.
    pub fn run(&self, arguments: &[impl AsRef<OsStr>]) -> Output {
        self.call_by(&[], arguments).stdin(Stdio::null()).output().unwrap()
    }

    /// What a call comes to with this on standard input.
    pub fn run_on(&self, input: &[u8], arguments: &[impl AsRef<OsStr>]) -> Output {
        let mut command = self.call_by(&[], arguments);
        command.stdin(Stdio::piped()).stdout(Stdio::piped()).stderr(Stdio::piped());
        let mut child = command.spawn().unwrap();
        let mut stdin = child.stdin.take().unwrap();
        let input = input.to_vec();
        // Beside the reading of its output, or both could wait for each other. It need not read to the end.
        let writer = std::thread::spawn(move || drop(stdin.write_all(&input)));
        let output = child.wait_with_output().unwrap();
        writer.join().unwrap();
        output
    }

    /// What a call comes to under strace with these options, and what that noted at another desk.
    pub fn traced(&self, aside: &Desk, options: &[&str], input: Stdio, arguments: &[&str]) -> (Output, String) {
        let log = aside.path("log");
        let front = [&["strace", "-f", "-qq", "-y", "-o", log.to_str().unwrap()], options].concat();
        let output = self.call_by(&front, arguments).stdin(input).output();
        (output.expect("strace, which this test needs"), fs::read_to_string(&log).unwrap_or_default())
    }

    /// Does what a call asks, which must be accepted, and gives what it writes.
    pub fn done(&self, arguments: &[impl AsRef<OsStr>]) -> Vec<u8> {
        held(self.run(arguments), 0, "")
    }

    /// Makes a roll of a text.
    pub fn pack(&self, name: &str, text: &[u8]) -> Vec<u8> {
        held(self.run_on(text, &["pack", "-", name, "--force"]), 0, "");
        self.read(name)
    }

    /// A folder with the command under its name, for the path of a shell.
    pub fn bin(&self) -> PathBuf {
        let bin = self.folder.with_extension("bin");
        fs::create_dir_all(&bin).unwrap();
        let words: Vec<String> = words().iter().map(|word| format!("'{}'", word.to_str().unwrap())).collect();
        let script = bin.join("monterculo");
        fs::write(&script, format!("#!/bin/sh\nexec {} \"$@\"\n", words.join(" "))).unwrap();
        fs::set_permissions(&script, fs::Permissions::from_mode(0o755)).unwrap();
        bin
    }
}

/// Nobody's number, as a user and as a group.
pub const NOBODY: u32 = 65534;

/// Whether the tests run as root, whom rights do not bind.
pub fn is_root() -> bool {
    fs::metadata("/proc/self").unwrap().uid() == 0
}

/// A desk whose calls rights do bind: root makes them as nobody, by a copy of the command that nobody can reach.
pub struct Guest {
    pub desk: Desk,
}

impl Guest {
    pub fn new(name: &str) -> Guest {
        let mut desk = Desk::new(name);
        if is_root() && Guest::by_nobody(Command::new("true").current_dir(&desk.folder)).status().is_err() {
            desk.folder = env::temp_dir().join(format!("monterculo-{name}-{}", std::process::id()));
            fs::create_dir(&desk.folder).unwrap();
        }
        fs::set_permissions(&desk.folder, fs::Permissions::from_mode(0o755)).unwrap();
        // By another process: a file that this one writes is busy in whatever it forks meanwhile.
        ran(Command::new("install").args(["-m", "755"]).arg(words().last().unwrap()).arg(desk.path("command")));
        Guest { desk }
    }

    fn by_nobody(command: &mut Command) -> &mut Command {
        if is_root() {
            command.uid(NOBODY).gid(NOBODY);
        }
        command
    }

    /// An empty folder with these rights, whatever the umask.
    pub fn folder(&self, name: &str, mode: u32) {
        fs::create_dir(self.desk.path(name)).unwrap();
        self.mode(name, mode);
    }

    pub fn mode(&self, name: &str, mode: u32) {
        fs::set_permissions(self.desk.path(name), fs::Permissions::from_mode(mode)).unwrap();
    }

    /// A call of the copy, with something in front of it, by whom the tests run as.
    pub fn call_by(&self, front: &[&str], arguments: &[&str]) -> Command {
        let mut words: Vec<OsString> = front.iter().map(OsString::from).chain(words()).collect();
        *words.last_mut().unwrap() = self.desk.path("command").into();
        let mut command = Command::new(&words[0]);
        command.args(&words[1..]).args(arguments).current_dir(&self.desk.folder).env("LC_ALL", "C");
        command
    }

    /// What a call comes to with a file of the desk on standard input, or nothing.
    pub fn run(&self, input: Option<&str>, arguments: &[&str]) -> Output {
        let mut command = self.call_by(&[], arguments);
        command.stdin(input.map_or_else(Stdio::null, |name| fs::File::open(self.desk.path(name)).unwrap().into()));
        Guest::by_nobody(&mut command).output().unwrap()
    }
}

impl Drop for Guest {
    fn drop(&mut self) {
        // What may not be written may not be removed either.
        let _ = Command::new("chmod").args(["-R", "u+rwx"]).arg(&self.desk.folder).status();
        let _ = fs::remove_dir_all(&self.desk.folder);
    }
}

/// Runs a program of the system that must do its work.
pub fn ran(command: &mut Command) {
    let status = command.status().unwrap_or_else(|error| panic!("{command:?}: {error}"));
    assert!(status.success(), "{command:?}: {status}");
}

/// Holds a call to its exit status and what it says on standard error, and gives what it wrote.
pub fn held(output: Output, status: i32, error: &str) -> Vec<u8> {
    assert_eq!(String::from_utf8_lossy(&output.stderr), error);
    assert_eq!(output.status.code(), Some(status), "{}", output.status);
    output.stdout
}

/// Holds a call that is refused to the one line that it must say, which names this, and to no output.
pub fn refused(output: Output, named: &str) -> String {
    let error = String::from_utf8(output.stderr).unwrap();
    assert_eq!(output.status.code(), Some(2), "{}: {error}", output.status);
    assert!(
        error.starts_with("monterculo: ") && error.ends_with('\n') && error.matches('\n').count() == 1,
        "{error:?}"
    );
    assert!(error.contains(named), "{error:?} does not name {named:?}");
    assert!(output.stdout.is_empty());
    error
}
