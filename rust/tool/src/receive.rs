//! A roll that still comes in, searched line by line.

use std::ffi::OsStr;
use std::io::{self, BufRead, Read};
use std::os::unix::ffi::OsStrExt;

use monterculo::{hits_for, read_frame, Refusal, Roll, Searcher, FRAME};

use crate::arguments::Arguments;
use crate::commands::{new_place, print, Done};
use crate::failure::{shown, Failure};
use crate::keep::STANDARD;
use crate::rolls::{self, Reading};

pub fn receive(arguments: &Arguments, pattern: &OsStr, kept: Option<&OsStr>) -> Done {
    if kept.map_or(false, |name| name == STANDARD) {
        return Err(arguments.wrong("standard output has the hits, and cannot take the roll"));
    }
    // Asked before anything comes in, as it may not come twice, and once more when it is kept.
    if let Some(name) = kept {
        new_place(arguments, name)?.try_out()?;
    }
    let mut heard = Heard { lines: Vec::new(), hits: 0, output: Ok(()) };
    heard.listen(&mut io::stdin().lock(), pattern.as_bytes())?;
    Reading::from_frames(&heard.lines).map_err(|refusal| Failure::refused(STANDARD.as_ref(), refusal))?;
    let verdict = match kept {
        Some(name) => {
            let kept = new_place(arguments, name).and_then(|place| place.keep(&heard.lines));
            kept.map_err(|failure| failure.and("what came in is sound"))?;
            format!("sound, kept in {}\n", shown(name))
        }
        None => "sound\n".into(),
    };
    heard.say(&verdict);
    heard.output?;
    Ok(heard.hits > 0)
}

/// What has come in of a roll.
struct Heard {
    lines: Vec<u8>,
    hits: usize,
    /// A roll that comes in is kept even if nobody reads what is said of it.
    output: Result<(), Failure>,
}

impl Heard {
    /// Reads frames line by line up to their end, and names each hit as soon as its last symbol is there.
    fn listen(&mut self, source: &mut impl BufRead, pattern: &[u8]) -> Result<(), Failure> {
        let refused = |refusal| Failure::refused(STANDARD.as_ref(), refusal);
        let first = self.next_line(source)?;
        let record = Roll::from_first_line(&first).map_err(|refusal| refused(self.refusal_or(refusal)))?;
        let mut searcher = Searcher::new(&record, pattern).map_err(refused)?;
        let (mut packed, mut hits) = ([0; FRAME], vec![0; hits_for(record.table().k(), FRAME)]);
        loop {
            let line = self.next_line(source)?;
            if line.is_empty() {
                return Ok(());
            }
            let piece = read_frame(&line, &mut packed).map_err(|refusal| refused(self.refusal_or(refusal)))?;
            let (found, stopped) = match searcher.feed(piece, &mut hits) {
                Ok(found) => (found, None),
                Err(stopped) => (stopped.hits, Some(stopped.refusal)),
            };
            if !found.is_empty() {
                self.hits = self.hits.saturating_add(found.len());
                self.say(&found.iter().map(|hit| format!("{hit}\n")).collect::<String>());
            }
            match stopped {
                None => {}
                Some(refusal @ Refusal::LongPiece { .. }) => return Err(refused(self.refusal_or(refusal))),
                Some(refusal) => return Err(refused(refusal)),
            }
        }
    }

    /// The next line, which is kept too, or nothing at the end.
    fn next_line(&mut self, source: &mut impl BufRead) -> Result<Vec<u8>, Failure> {
        let mut line = Vec::new();
        let read = source.take(rolls::LINE as u64).read_until(b'\n', &mut line);
        read.map_err(|error| Failure::system(STANDARD.as_ref(), &error))?;
        self.lines.extend_from_slice(&line);
        Ok(line)
    }

    /// The refusal of all that has come in, where a line's own does not say which line it is.
    fn refusal_or(&self, refusal: Refusal) -> Refusal {
        Reading::from_frames(&self.lines).err().unwrap_or(refusal)
    }

    fn say(&mut self, words: &str) {
        if self.output.is_ok() {
            self.output = print(words.as_bytes());
        }
    }
}
