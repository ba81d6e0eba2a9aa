//! What an operation's file gives, and how a call of it is held to the reference. Nothing here knows any one of them.

use std::fmt::Debug;
use std::panic::{catch_unwind, AssertUnwindSafe};

use monterculo::sys::Answer;

use crate::rng::Rng;

/// An operation; a value is a case of it, all that a call is given. A call changes the slices that the case lends,
/// and the whole case is compared afterwards, guards too.
pub trait Operation: Clone + Debug + PartialEq + 'static {
    const NAME: &'static str;

    /// The numbers of its order in the paper, and 0 for accepted.
    const LISTED: &'static [u32];

    /// The ways in which its cases are made, each with its share of all calls.
    const CASES: Cases<Self>;

    /// The same for rolls and texts as long as there may be. They take long and so are few: one call in [`SELDOM`].
    const AT_LIMIT: Cases<Self> = &[];

    /// Corners that a million calls must come to.
    const DUE: &'static [&'static str] = &[];

    /// What it answers, in the archive's own struct.
    type Answer: Answered;

    fn archive(&mut self) -> Self::Answer;

    fn reference(&mut self) -> Self::Answer;

    /// This refusal with what the paper puts beside it.
    fn refused(&self, refusal: Answer) -> Self::Answer;

    /// Whether this refusal is one that may change something.
    fn may_change(&self, _refusal: Answer) -> bool {
        false
    }

    /// How many calls there are, one after another on the same slices: more than one in a chain.
    fn calls(&self) -> usize {
        1
    }

    /// Goes on to the next call of a chain, after this answer.
    fn go_on(&mut self, _answer: &Self::Answer) {}

    /// Far corners that a table by number does not show; the case is as it was before the call.
    fn corners(&self, _answer: &Self::Answer, _met: &mut Corners) {}

    /// Errors that the comparison must find, each planted in the reference.
    #[cfg(test)]
    const ERRORS: &'static [&'static str];

    /// Those that its cases at the limit alone show.
    #[cfg(test)]
    const ERRORS_AT_LIMIT: &'static [&'static str] = &[];

    /// The reference with one of these errors.
    #[cfg(test)]
    fn with_error(&mut self, error: &str) -> Self::Answer;
}

/// One call in so many is at the limit.
const SELDOM: usize = 500;

/// Shares, and a way to make a case.
pub type Cases<O> = &'static [(usize, fn(&mut Rng) -> O)];

/// An answer, alone or with a struct beside it.
pub trait Answered: Copy + Debug + PartialEq {
    fn answer(&self) -> Answer;
}

impl Answered for Answer {
    fn answer(&self) -> Answer {
        *self
    }
}

/// Names of the corners that a call met.
#[derive(Default)]
pub struct Corners(pub Vec<&'static str>);

impl Corners {
    pub fn meet(&mut self, is_met: bool, name: &'static str) {
        if is_met {
            self.0.push(name);
        }
    }
}

/// Who is held to the reference.
#[derive(Clone, Copy)]
pub enum Library {
    Archive,
    /// A second copy of the reference.
    Reference,
    /// A copy with this error.
    #[cfg(test)]
    WithError(&'static str),
}

impl Library {
    /// What the call answers, or nothing if it panics.
    fn call<O: Operation>(self, case: &mut O) -> Option<O::Answer> {
        let called = catch_unwind(AssertUnwindSafe(|| match self {
            Library::Archive => case.archive(),
            Library::Reference => case.reference(),
            #[cfg(test)]
            Library::WithError(error) => case.with_error(error),
        }));
        called.ok()
    }
}

/// What came of a call: the number that both answered, and the corners met.
pub struct Met {
    pub number: u32,
    pub corners: Vec<&'static str>,
}

/// A case of any operation.
pub trait Case: Debug {
    /// What came of its call, or of the calls of a chain one by one; or what differs.
    fn compare(&self, library: Library) -> Result<Vec<Met>, String>;
}

impl<O: Operation> Case for O {
    fn compare(&self, library: Library) -> Result<Vec<Met>, String> {
        let (mut expected, mut found) = (self.clone(), self.clone());
        let calls = self.calls();
        let mut all_met = Vec::new();
        for number in 1..=calls {
            let before = expected.clone();
            let answer = Library::Reference.call(&mut expected).ok_or("the reference panicked")?;
            let refusal = answer.answer();
            let keeps = refusal.number != 0 && !before.may_change(refusal);
            if keeps && (answer != before.refused(refusal) || expected != before) {
                return Err(format!("the reference refused and changed something: {:?}\nleft {:?}", answer, expected));
            }
            let of = if calls > 1 { format!("{} {} of {}\n", O::NAME, number, calls) } else { String::new() };
            let answered = library
                .call(&mut found)
                .ok_or_else(|| format!("{}the library panicked\nreference: {:?}\nleft {:?}", of, answer, expected))?;
            if answered != answer || found != expected {
                return Err(format!(
                    "{}reference: {:?}\nleft {:?}\nlibrary: {:?}\nleft {:?}",
                    of, answer, expected, answered, found
                ));
            }
            let mut met = Corners::default();
            before.corners(&answer, &mut met);
            all_met.push(Met { number: refusal.number, corners: met.0 });
            expected.go_on(&answer);
            found.go_on(&answered);
        }
        Ok(all_met)
    }
}

/// An operation as the list of all has it.
pub struct Listed {
    pub name: &'static str,
    pub numbers: &'static [u32],
    pub due: &'static [&'static str],
    #[cfg(test)]
    pub errors: &'static [&'static str],
    #[cfg(test)]
    pub errors_at_limit: &'static [&'static str],
    shares: usize,
    shares_at_limit: usize,
    make: fn(&mut Rng, Share) -> Box<dyn Case>,
}

/// One of an operation's shares.
#[derive(Clone, Copy)]
struct Share {
    at_limit: bool,
    number: usize,
}

impl Listed {
    pub fn of<O: Operation>() -> Listed {
        Listed {
            name: O::NAME,
            numbers: O::LISTED,
            due: O::DUE,
            #[cfg(test)]
            errors: O::ERRORS,
            #[cfg(test)]
            errors_at_limit: O::ERRORS_AT_LIMIT,
            shares: O::CASES.iter().map(|&(shares, _)| shares).sum(),
            shares_at_limit: O::AT_LIMIT.iter().map(|&(shares, _)| shares).sum(),
            make: |rng, Share { at_limit, number }| {
                let cases = if at_limit { O::AT_LIMIT } else { O::CASES };
                let ((_, make), _) = share_of(cases, number, |&(shares, _)| shares);
                Box::new(make(rng))
            },
        }
    }
}

/// The case of a call, from its seed and number alone, with its operation.
pub fn make(operations: &[Listed], seed: u64, call: u64) -> (&Listed, Box<dyn Case>) {
    let (operation, share, mut rng) = drawn(operations, seed, call);
    (operation, (operation.make)(&mut rng, share))
}

/// The operation of a call, which of its shares, and the numbers for its case.
fn drawn(operations: &[Listed], seed: u64, call: u64) -> (&Listed, Share, Rng) {
    let mut rng = Rng::of_call(seed, call);
    let at_limit = rng.one_in(SELDOM);
    let shares = |operation: &Listed| if at_limit { operation.shares_at_limit } else { operation.shares };
    let share = rng.below(operations.iter().map(shares).sum());
    let (operation, number) = share_of(operations, share, shares);
    (operation, Share { at_limit, number }, rng)
}

/// The name of a call's operation, and whether it is at the limit; no case is made.
#[cfg(test)]
pub fn kind_of(operations: &[Listed], seed: u64, call: u64) -> (&'static str, bool) {
    let (operation, Share { at_limit, .. }, _) = drawn(operations, seed, call);
    (operation.name, at_limit)
}

/// Which of these a share of all falls to, and which of its own shares that is.
fn share_of<T>(among: &[T], mut share: usize, shares: impl Fn(&T) -> usize) -> (&T, usize) {
    for one in among {
        match share.checked_sub(shares(one)) {
            Some(over) => share = over,
            None => return (one, share),
        }
    }
    panic!("fewer shares than the number drawn")
}
