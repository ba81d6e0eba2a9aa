//! What is stored is what the command writes: the transcripts of tests/stored, those of docs/CLERK.md and the example of
//! each --help. A line that begins with $ is run by sh, and the lines below it are what it must write.

mod common;

use std::fs;
use std::path::Path;
use std::process::Command;

use common::Desk;

/// Runs a transcript in a folder of its own and holds it to what it says; how many commands there were.
fn hold(name: &str, transcript: &[&str]) -> usize {
    let desk = Desk::new(name);
    let path = format!("{}:{}", desk.bin().display(), std::env::var("PATH").unwrap());
    let mut lines = transcript.iter().peekable();
    let mut commands = 0;
    while let Some(line) = lines.next() {
        let command = line.strip_prefix("$ ").unwrap_or_else(|| panic!("{name}: {line} stands below no command"));
        let mut stored = String::new();
        while let Some(line) = lines.next_if(|line| !line.starts_with("$ ")) {
            stored += line;
            stored.push('\n');
        }
        // One stream, so that what is said on either stands in its order.
        let output = Command::new("sh")
            .args(["-c", &format!("exec 2>&1; {command}")])
            .current_dir(&desk.folder)
            .env("PATH", &path)
            .env("LC_ALL", "C")
            .output()
            .unwrap();
        let written = String::from_utf8_lossy(&output.stdout);
        assert!(written == stored, "{name}: {command}\nstored:\n{stored}written:\n{written}");
        commands += 1;
    }
    commands
}

/// The transcript in a text: of the lines set in by four blanks those from the first with $ on, block by block.
fn set_in(text: &str) -> Vec<&str> {
    let mut transcript = Vec::new();
    let mut within = false;
    for line in text.lines() {
        match line.strip_prefix("    ") {
            Some(line) if within || line.starts_with("$ ") => {
                within = true;
                transcript.push(line);
            }
            _ => within = false,
        }
    }
    transcript
}

#[test]
fn transcripts() {
    let folder = Path::new(env!("CARGO_MANIFEST_DIR")).join("tests/stored");
    let mut found = 0;
    for entry in fs::read_dir(folder).unwrap() {
        let path = entry.unwrap().path();
        let text = fs::read_to_string(&path).unwrap();
        // Blanks and words at a line's end are kept; a line that begins with # is for the reader.
        let lines: Vec<&str> = text.lines().filter(|line| !line.starts_with('#')).collect();
        found += hold(&format!("stored-{}", path.file_stem().unwrap().to_str().unwrap()), &lines);
    }
    assert!(found > 50, "only {found} commands");
}

#[test]
fn page() {
    let page = Path::new(env!("CARGO_MANIFEST_DIR")).join("../../docs/CLERK.md");
    let found = hold("page", &set_in(&fs::read_to_string(page).unwrap()));
    assert!(found > 20, "only {found} commands");
}

#[test]
fn help() {
    let desk = Desk::new("help");
    let all = String::from_utf8(desk.done(&["--help"])).unwrap();
    let commands: Vec<&str> =
        all.lines().filter_map(|line| line.strip_prefix("    monterculo ")?.split(' ').next()).collect();
    assert_eq!(commands.len(), 11);
    for command in commands {
        let help = String::from_utf8(desk.done(&[command, "--help"])).unwrap();
        // The list of all has the same usage.
        let usage = help.lines().next().unwrap();
        assert!(all.lines().any(|line| line.trim_start().starts_with(usage)), "{usage}");
        assert!(hold(&format!("help-{command}"), &set_in(&help)) > 1, "{command}");
    }
}
