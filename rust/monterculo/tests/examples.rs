//! The examples, run.

use std::fs;
use std::path::PathBuf;

#[path = "../examples/layout.rs"]
mod layout;
#[allow(dead_code)]
#[path = "../examples/box.rs"]
mod notice_box;
#[path = "../examples/short.rs"]
mod short;

/// A file of the repository.
fn stored(path: &str) -> String {
    let path = PathBuf::from(env!("CARGO_MANIFEST_DIR")).join("../..").join(path);
    fs::read_to_string(&path).unwrap_or_else(|error| panic!("{}: {}", path.display(), error))
}

/// The box in Rust writes what the box in C writes.
#[test]
fn the_box_writes_what_is_stored() {
    let mut out = Vec::new();
    notice_box::run(&mut out).unwrap();
    assert_eq!(String::from_utf8(out).unwrap(), stored("examples/box.out"));
}

/// README.md shows the example as it is run, and the words that its `main` ends with.
#[test]
fn the_example_of_the_readme() {
    let words = format!("Error: {:?}", short::main().unwrap_err());
    let readme = stored("README.md");
    let shown = readme.split("```rust\n").nth(1).and_then(|rest| rest.split("```").next()).unwrap();
    let run = include_str!("../examples/short.rs").split_once("\n\n").unwrap().1;
    assert_eq!(shown, run.replace("pub fn main", "fn main"));
    assert!(readme.contains(&words), "README.md does not say: {}", words);
}

/// Against layout.c it is held by rust/run.
#[test]
fn the_layout_is_written() {
    layout::main();
}
