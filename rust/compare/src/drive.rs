//! Makes every call on two engines and compares what can be seen of it.

use std::panic::{catch_unwind, AssertUnwindSafe};

use crate::agreed::Agreed;
use crate::calls::{Answer, Call};
use crate::cook::{Cook, Step};
use crate::engines::Engine;
use crate::limits::Limit;
use crate::lists::plan;
use crate::random::Random;
use crate::tally::Tally;

/// What the engines gave where they differ, or both gave against document 01.
#[derive(Clone, Debug, PartialEq, Eq)]
pub struct Clash {
    /// What was compared.
    pub what: &'static str,
    /// What the first engine gave.
    pub left: String,
    /// What the second engine gave, or what is due.
    pub right: String,
}

/// A list that ended in a clash at its last call.
#[derive(Clone, Debug)]
pub struct Difference {
    pub calls: Vec<Call>,
    pub clash: Clash,
}

/// The most matchings of a listing that are asked for.
const LONGEST_LISTING: usize = 200;

/// From so many matchings on a listing counts as long.
const LONG_LISTING: usize = 10;

/// How many bytes are shown before a difference, and after.
const BEFORE: usize = 40;

/// A session of each engine.
pub struct Pair<L, R> {
    left: L,
    right: R,
    /// The state of both.
    pub agreed: Agreed,
}

impl<L: Engine, R: Engine> Pair<L, R> {
    /// New sessions of the same engines.
    pub fn new(left: &L, right: &R) -> Pair<L, R> {
        Pair { left: left.fresh(), right: right.fresh(), agreed: Agreed::default() }
    }

    /// Makes the call on both, and compares answers, buffers and the files that both save afterwards.
    pub fn make(&mut self, call: &Call) -> Result<Answer, Clash> {
        let (left, left_buffer) = made(&mut self.left, call);
        let (right, right_buffer) = made(&mut self.right, call);
        if left != right || left == Answer::Broken {
            return Err(clash("answer", &left, &right));
        }
        same_bytes("buffer after save", &left_buffer, &right_buffer)?;
        let file = self.file()?;
        let next = self.agreed.next(call, &left, file);
        self.agreed = next.map_err(|what| clash(what, &left, &right))?;
        if let Call::Save(_) = call {
            self.saved(&left, &left_buffer)?;
        }
        Ok(left)
    }

    /// The file that both save now, or none while both are shut.
    fn file(&mut self) -> Result<Option<Vec<u8>>, Clash> {
        match (guarded(|| self.left.file()), guarded(|| self.right.file())) {
            (Ok(left), Ok(right)) => same_bytes("file", &left, &right).map(|()| Some(left)),
            (Err(Answer::Refused(6, 0)), Err(Answer::Refused(6, 0))) => Ok(None),
            (left, right) => {
                let words = |saved: Result<Vec<u8>, Answer>| saved.map_or_else(|answer| answer.to_string(), |_| "saved".to_string());
                Err(clash("file", &words(left), &words(right)))
            }
        }
    }

    /// Save "writes the file at the front of the buffer, leaves the rest", and writes nothing when it is refused; and
    /// the file that it wrote opens in new sessions, which save the same.
    fn saved(&self, answer: &Answer, buffer: &[u8]) -> Result<(), Clash> {
        let mut due = untouched(buffer.len());
        let Answer::Done(report) = answer else {
            return same_bytes("buffer after a refused save, and what is due", buffer, &due);
        };
        let file = self.agreed.file();
        if report[..] != [file.len() as u64] {
            return Err(clash("length of the file, and what is due", answer, &file.len()));
        }
        due[..file.len()].copy_from_slice(file);
        same_bytes("buffer after save, and what is due", buffer, &due)?;
        let mut again = Pair::new(&self.left, &self.right);
        match again.make(&Call::Open(file.to_vec()))? {
            Answer::Done(_) => Ok(()),
            other => Err(clash("a saved file opened again", &other, &other)),
        }
    }

    /// Compares the listing that was made call by call with what the engines give as a whole.
    fn listed(&mut self, rule: &[u8], listing: &[Vec<u64>]) -> Result<(), Clash> {
        let left = guarded(|| self.left.listing(rule, LONGEST_LISTING));
        let right = guarded(|| self.right.listing(rule, LONGEST_LISTING));
        let rising = listing.windows(2).all(|two| two[0] < two[1]);
        if rising && left.as_deref() == Ok(listing) && right.as_deref() == Ok(listing) {
            return Ok(());
        }
        Err(Clash { what: "listing", left: format!("{left:?}"), right: format!("{right:?}") })
    }
}

/// A run of one list.
struct Run<'a, L, R> {
    pair: Pair<L, R>,
    calls: Vec<Call>,
    tally: &'a mut Tally,
}

impl<L: Engine, R: Engine> Run<'_, L, R> {
    fn make(&mut self, call: Call) -> Result<Answer, Clash> {
        let before = self.pair.agreed.clone();
        self.calls.push(call.clone());
        let answer = self.pair.make(&call)?;
        self.tally.count(&before, &call, &answer, &self.pair.agreed);
        Ok(answer)
    }

    fn list(&mut self, rule: Vec<u8>) -> Result<(), Clash> {
        let mut listing: Vec<Vec<u64>> = Vec::new();
        let mut answer = self.make(Call::First(rule.clone()))?;
        while let Answer::Matching(next) = answer {
            listing.push(next.clone());
            if listing.len() == LONGEST_LISTING {
                return self.pair.listed(&rule, &listing);
            }
            answer = self.make(Call::After(rule.clone(), next))?;
        }
        if answer != Answer::None {
            return Ok(());
        }
        if listing.is_empty() {
            self.tally.reach(Limit::ListingNone);
        } else if listing.len() >= LONG_LISTING {
            self.tally.reach(Limit::ListingLong);
        }
        self.pair.listed(&rule, &listing)
    }
}

/// Runs the list of a seed on new sessions of both engines. Gives the calls that were made.
pub fn run<L: Engine, R: Engine>(left: &L, right: &R, seed: u64, tally: &mut Tally) -> Result<Vec<Call>, Difference> {
    let mut random = Random::new(seed);
    let plan = plan(&mut random);
    let mut cook = Cook::new(random, plan.size);
    let mut run = Run { pair: Pair::new(left, right), calls: Vec::new(), tally };
    for intent in plan.intents {
        let done = match cook.step(intent, &run.pair.agreed) {
            Step::One(call) => run.make(call).map(drop),
            Step::Listing(rule) => run.list(rule),
        };
        if let Err(clash) = done {
            return Err(Difference { calls: run.calls, clash });
        }
    }
    run.tally.lists += 1;
    Ok(run.calls)
}

/// The answer and, for save, the buffer afterwards.
fn made(engine: &mut impl Engine, call: &Call) -> (Answer, Vec<u8>) {
    let mut buffer = match call {
        Call::Save(length) => untouched(*length),
        _ => Vec::new(),
    };
    let answer = guarded(|| Ok(engine.make(call, &mut buffer)));
    (answer.unwrap_or(Answer::Broken), buffer)
}

/// What an engine gives; a panic in it is an answer too.
fn guarded<T>(ask: impl FnOnce() -> Result<T, Answer>) -> Result<T, Answer> {
    catch_unwind(AssertUnwindSafe(ask)).unwrap_or(Err(Answer::Broken))
}

/// No byte of a file is above 127 and no two neighbours here are equal, so that what was written, or moved, shows.
fn untouched(length: usize) -> Vec<u8> {
    (0..length).map(|place| 128 | (place % 127) as u8).collect()
}

fn clash(what: &'static str, left: &impl ToString, right: &impl ToString) -> Clash {
    Clash { what, left: left.to_string(), right: right.to_string() }
}

/// Shows the bytes around the first difference.
fn same_bytes(what: &'static str, left: &[u8], right: &[u8]) -> Result<(), Clash> {
    if left == right {
        return Ok(());
    }
    let same = left.iter().zip(right).take_while(|(left, right)| left == right).count();
    let from = same.saturating_sub(BEFORE);
    let shown = |bytes: &[u8]| {
        let part = &bytes[from..bytes.len().min(same + BEFORE)];
        format!("{} bytes, from byte {from} on: {}", bytes.len(), part.escape_ascii())
    };
    Err(clash(what, &shown(left), &shown(right)))
}
