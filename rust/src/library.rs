//! The reference's structs and answers as the archive has them.

use monterculo::sys::{Answer, Fed, Judge, Progress, Roll, Rolled, Searcher, Started, Table};

use crate::reference;

impl From<Table> for reference::Table {
    fn from(table: Table) -> Self {
        reference::Table { k: table.k, s: table.s, sigma: table.sigma, places: table.places }
    }
}

impl From<Roll> for reference::Roll {
    fn from(roll: Roll) -> Self {
        reference::Roll { table: roll.table.into(), n: roll.n, h: roll.h }
    }
}

/// The archive's table of the reference's.
pub fn table_of(table: &reference::Table) -> Table {
    Table { k: table.k, s: table.s, sigma: table.sigma, places: table.places }
}

/// The archive's roll of the reference's.
pub fn roll_of(roll: &reference::Roll) -> Roll {
    Roll { table: table_of(&roll.table), n: roll.n, h: roll.h }
}

/// An answer with a value.
pub fn told<T: Into<u64>>(answer: reference::Answer<T>) -> Answer {
    match answer {
        Ok(value) => Answer { number: 0, value: value.into() },
        Err(refused) => Answer { number: refused.number, value: refused.value },
    }
}

/// An answer without one.
pub fn done(answer: reference::Answer<()>) -> Answer {
    told(answer.map(|()| 0u64))
}

/// An answer with a roll beside it.
pub fn rolled((answer, roll): (reference::Answer<()>, reference::Roll)) -> Rolled {
    Rolled { answer: done(answer), roll: roll_of(&roll) }
}

impl From<Searcher> for reference::Searcher {
    fn from(Searcher { judge, pattern, length, ends }: Searcher) -> Self {
        let Progress { read, count, first, past, place, shorter, rows, value, bad, stained } = judge.progress;
        let progress = reference::Progress { read, count, first, past, place, shorter, rows, value, bad, stained };
        reference::Searcher { roll: judge.roll.into(), progress, pattern, length, ends }
    }
}

/// The archive's searcher of the reference's.
pub fn searcher_of(searcher: &reference::Searcher) -> Searcher {
    let reference::Searcher { roll, progress, pattern, length, ends } = searcher;
    let reference::Progress { read, count, first, past, place, shorter, rows, value, bad, stained } = *progress;
    let progress = Progress { read, count, first, past, place, shorter, rows, value, bad, stained };
    Searcher { judge: Judge { roll: roll_of(roll), progress }, pattern: *pattern, length: *length, ends: *ends }
}

/// An answer with a searcher beside it.
pub fn started((answer, searcher): (reference::Answer<()>, reference::Searcher)) -> Started {
    Started { answer: done(answer), searcher: searcher_of(&searcher) }
}

/// An answer with hits, accepted or not, and a searcher beside it.
pub fn fed((answer, hits, searcher): (reference::Answer<()>, usize, reference::Searcher)) -> Fed {
    Fed { answer: told(answer.map(|()| hits as u64)), hits, searcher: searcher_of(&searcher) }
}
