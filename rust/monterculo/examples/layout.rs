//! The same lines as layout.c, of the structs of `sys`; they are values that the archive answered.

use std::mem::size_of_val;

use monterculo::sys;

macro_rules! layout {
    ($name:literal, $value:expr, $type:path, $($field:ident),+) => {
        // No field is left out: the pattern would be refused.
        let $type { $($field: _),+ } = $value;
        println!("{} {}", $name, size_of_val(&$value));
        $(
            let at = &$value.$field as *const _ as usize - &$value as *const _ as usize;
            println!("{}.{} {} {}", $name, stringify!($field), at, size_of_val(&$value.$field));
        )+
    };
}

pub fn main() {
    let chosen = sys::choose(2, &[1; 256]);
    let coded = sys::codeword_of(chosen.table, 255);
    let rolled = sys::pack(chosen.table, b"abra", &mut [0; 64]);
    let started = sys::start(rolled.roll, b"abra");
    let fed = sys::feed(started.searcher, &[], &mut []);
    layout!("table", chosen.table, sys::Table, k, s, sigma, places);
    layout!("roll", rolled.roll, sys::Roll, table, n, h);
    layout!("codeword", coded.word, sys::Codeword, length, symbols);
    layout!("answer", rolled.answer, sys::Answer, number, value);
    layout!("chosen", chosen, sys::Chosen, answer, table);
    layout!("coded", coded, sys::Coded, answer, word);
    layout!("rolled", rolled, sys::Rolled, answer, roll);
    let sys::Searcher { judge, .. } = fed.searcher;
    #[rustfmt::skip]
    layout!("progress", judge.progress, sys::Progress, read, count, first, past, place, shorter, rows, value, bad, stained);
    layout!("judge", judge, sys::Judge, roll, progress);
    layout!("searcher", fed.searcher, sys::Searcher, judge, pattern, length, ends);
    layout!("started", started, sys::Started, answer, searcher);
    layout!("fed", fed, sys::Fed, answer, hits, searcher);
}
