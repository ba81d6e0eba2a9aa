//! Holds the archive's operations to the reference, call by call, from a seed.
//! A chain of calls on the same slices is one call; each of its calls is compared and counted.
//!
//! `compare [--self] [--call NUMBER] [CALLS] [SEED]`: with --self a second copy of the reference stands in
//! for the archive; with --call that one call of the seed is made and printed.

#![forbid(unsafe_code)]

use std::collections::{BTreeMap, BTreeSet};
use std::process::exit;
use std::sync::atomic::{AtomicU64, Ordering};
use std::time::Duration;

use crate::operation::{make, Library, Listed};

#[cfg(test)]
mod by_bytes;
mod coming;
mod faults;
mod framed;
#[cfg(test)]
mod in_frames;
#[cfg(test)]
mod in_pieces;
#[cfg(test)]
mod jumping;
mod lent;
mod long_rolls;
mod operation;
mod operations;
#[cfg(test)]
mod planted;
mod rng;
mod rolls;
mod tables;
mod texts;

/// By operation and number.
type Counts = BTreeMap<(&'static str, u32), u64>;
/// By corner.
type Reached = BTreeMap<&'static str, u64>;

/// The call that is made now.
static AT: AtomicU64 = AtomicU64::new(0);

/// What came how often, or the difference in full.
fn compare_calls(operations: &[Listed], library: Library, calls: u64, seed: u64) -> Result<(Counts, Reached), String> {
    let mut counts = Counts::new();
    let mut reached = Reached::new();
    for call in 0..calls {
        AT.store(call, Ordering::Relaxed);
        let (operation, case) = make(operations, seed, call);
        let all_met = case
            .compare(library)
            .map_err(|text| format!("{} differs, seed {} call {}\n{:?}\n{}", operation.name, seed, call, case, text))?;
        for met in all_met {
            *counts.entry((operation.name, met.number)).or_insert(0) += 1;
            for corner in met.corners {
                *reached.entry(corner).or_insert(0) += 1;
            }
        }
    }
    Ok((counts, reached))
}

/// The table of counts, and what is listed and never came or came and is not listed.
fn table_of(operations: &[Listed], counts: &Counts) -> (String, Vec<String>) {
    let width = operations.iter().map(|operation| operation.name.len() + 1).max().unwrap_or(0);
    let numbers: BTreeSet<u32> = operations.iter().flat_map(|operation| operation.numbers).copied().collect();
    let mut text = format!("{:<width$}", "refusal", width = width);
    for number in &numbers {
        text.push_str(&format!("{:>9}", number));
    }
    text.push('\n');
    let mut faults = Vec::new();
    for &Listed { name, numbers: listed, .. } in operations {
        text.push_str(&format!("{:<width$}", name, width = width));
        for number in &numbers {
            match counts.get(&(name, *number)) {
                Some(times) => text.push_str(&format!("{:>9}", times)),
                None => text.push_str(&format!("{:>9}", if listed.contains(number) { "NEVER" } else { "." })),
            }
        }
        text.push('\n');
        for number in listed.iter().filter(|&&number| !counts.contains_key(&(name, number))) {
            faults.push(format!("{} never answered {}", name, number));
        }
        for (of, number) in counts.keys() {
            if *of == name && !listed.contains(number) {
                faults.push(format!("{} answered {}, which its order does not list", name, number));
            }
        }
    }
    (text, faults)
}

/// The calls by which every corner that is due has come.
const ALL_DUE: u64 = 1_000_000;

/// What is due and was never come to.
fn missing(operations: &[Listed], reached: &Reached) -> Vec<String> {
    let due = operations.iter().flat_map(|operation| operation.due);
    due.filter(|&corner| !reached.contains_key(corner)).map(|corner| format!("never came to: {}", corner)).collect()
}

/// Ends the run if one call does not come back.
fn watch(seed: u64) {
    std::thread::spawn(move || {
        let mut last = u64::MAX;
        loop {
            let now = AT.load(Ordering::Relaxed);
            if now == last {
                println!("seed {} call {} has not come back in a minute", seed, now);
                exit(1);
            }
            last = now;
            std::thread::sleep(Duration::from_secs(60));
        }
    });
}

fn usage() -> ! {
    eprintln!("usage: compare [--self] [--call NUMBER] [CALLS] [SEED]");
    exit(2);
}

fn main() {
    let (mut with_self, mut only, mut numbers) = (false, None, Vec::new());
    let mut arguments = std::env::args().skip(1);
    while let Some(argument) = arguments.next() {
        match (argument.as_str(), argument.parse::<u64>()) {
            ("--self", _) => with_self = true,
            ("--call", _) => match arguments.next().and_then(|number| number.parse::<u64>().ok()) {
                Some(number) => only = Some(number),
                None => usage(),
            },
            (_, Ok(number)) if numbers.len() < 2 => numbers.push(number),
            _ => usage(),
        }
    }
    let calls = numbers.first().copied().unwrap_or(1_000_000);
    let seed = numbers.get(1).copied().unwrap_or(1);
    let operations = operations::all();
    let library = if with_self { Library::Reference } else { Library::Archive };
    if let Some(call) = only {
        let (_, case) = make(&operations, seed, call);
        println!("{:?}", case);
        match case.compare(library) {
            Ok(all_met) => {
                let numbers: Vec<String> = all_met.iter().map(|met| met.number.to_string()).collect();
                println!("both answer {}", numbers.join(", "));
            }
            Err(text) => {
                println!("{}", text);
                exit(1);
            }
        }
        return;
    }
    watch(seed);
    match compare_calls(&operations, library, calls, seed) {
        Err(text) => {
            println!("{}", text);
            exit(1);
        }
        Ok((counts, reached)) => {
            let (text, mut faults) = table_of(&operations, &counts);
            if calls >= ALL_DUE {
                faults.extend(missing(&operations, &reached));
            }
            let held_to = if with_self { "a second copy of the reference" } else { "the archive" };
            print!("{} calls, seed {}: {} answers as the reference\n{}", calls, seed, held_to, text);
            println!("A chain of calls on the same slices is one call; the table counts each of its calls.");
            for (corner, times) in &reached {
                println!("{:>9} {}", times, corner);
            }
            for fault in &faults {
                println!("{}", fault);
            }
            if !faults.is_empty() {
                exit(1);
            }
        }
    }
}

#[cfg(test)]
mod tests {
    use super::*;
    use crate::operation::kind_of;

    #[test]
    fn the_reference_answers_as_itself_and_every_number_comes() {
        let operations = operations::all();
        let (counts, _) = compare_calls(&operations, Library::Reference, 4_000, 3).unwrap();
        let (text, faults) = table_of(&operations, &counts);
        assert!(faults.is_empty(), "{}{:?}", text, faults);
    }

    #[test]
    fn the_archive_answers_as_the_reference() {
        compare_calls(&operations::all(), Library::Archive, 4_000, 3).unwrap();
    }

    #[test]
    fn every_planted_error_is_found() {
        let operations = operations::all();
        for planted in &operations {
            assert!(!planted.errors.is_empty(), "{} has no planted error", planted.name);
        }
        println!("{} planted errors are found", found_within(&operations, 5, 26_000, false));
    }

    #[test]
    fn every_planted_error_at_the_limit_is_found() {
        println!("{} planted errors at the limit are found", found_within(&operations::all(), 3, 50_000, true));
    }

    /// How many planted errors, those at the limit or the others, are found within so many calls: all. A call at the limit
    /// takes long, and is made for those alone that nothing shorter shows.
    fn found_within(operations: &[Listed], seed: u64, calls: u64, at_limit: bool) -> usize {
        let kinds: Vec<(&str, bool)> = (0..calls).map(|call| kind_of(operations, seed, call)).collect();
        let mut found = 0;
        for planted in operations {
            for error in if at_limit { planted.errors_at_limit } else { planted.errors } {
                // The calls of its own operation alone: the others would be the reference held to itself.
                let text = (0..calls)
                    .filter(|&call| kinds[call as usize] == (planted.name, at_limit))
                    .find_map(|call| make(operations, seed, call).1.compare(Library::WithError(error)).err())
                    .unwrap_or_else(|| panic!("not found: {} {}", planted.name, error));
                // By its answer or what it leaves, and not by a panic.
                assert_eq!(text.contains("the library panicked"), *error == "panics", "{} {}", planted.name, error);
                assert!(!text.contains("the reference "), "{} {}: {}", planted.name, error, text);
                found += 1;
            }
        }
        found
    }

    #[test]
    fn a_number_that_never_came_is_an_error() {
        let (_, faults) = table_of(&operations::all(), &Counts::from([(("count", 0), 1), (("count", 13), 1)]));
        assert!(faults.contains(&"count never answered 4".to_string()));
        assert!(faults.contains(&"count answered 13, which its order does not list".to_string()));
    }

    #[test]
    fn a_corner_that_is_due_and_never_came_is_an_error() {
        let operations = operations::all();
        let all: Reached = operations.iter().flat_map(|operation| operation.due).map(|&corner| (corner, 1)).collect();
        assert_eq!(missing(&operations, &all), Vec::<String>::new());
        let mut few = all;
        few.remove("runs of 1,048,575 continuers, open");
        assert_eq!(missing(&operations, &few), ["never came to: runs of 1,048,575 continuers, open"]);
    }
}
