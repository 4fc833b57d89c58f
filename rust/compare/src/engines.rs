//! One way to call any engine. The two that are compared are used by their public calls alone.

use crate::calls::{Answer, Call};

/// No file that can be opened is longer.
pub const LONGEST_FILE: usize = 20_032;

/// A session of an engine.
pub trait Engine: Sized {
    /// Another session of the same engine, shut.
    fn fresh(&self) -> Self;

    /// Makes the call. The buffer is what save writes into, of the length that the call says; others leave it alone.
    fn make(&mut self, call: &Call, buffer: &mut [u8]) -> Answer;

    /// The file of what is open, or the refusal.
    fn file(&mut self) -> Result<Vec<u8>, Answer> {
        let mut buffer = vec![0; LONGEST_FILE];
        match self.make(&Call::Save(LONGEST_FILE), &mut buffer) {
            Answer::Done(length) => {
                buffer.truncate(length.first().map_or(0, |&length| length as usize));
                Ok(buffer)
            }
            other => Err(other),
        }
    }

    /// The first matchings, at most so many, or the refusal.
    fn listing(&mut self, rule: &[u8], most: usize) -> Result<Vec<Vec<u64>>, Answer> {
        let mut listing: Vec<Vec<u64>> = Vec::new();
        while listing.len() < most {
            let call = match listing.last() {
                None => Call::First(rule.to_vec()),
                Some(last) => Call::After(rule.to_vec(), last.clone()),
            };
            match self.make(&call, &mut []) {
                Answer::Matching(next) => listing.push(next),
                Answer::None => break,
                other => return Err(other),
            }
        }
        Ok(listing)
    }
}

/// The engine `hengvoat`.
pub struct Hengvoat(hengvoat::Session);

impl Hengvoat {
    /// A new session.
    pub fn new() -> Hengvoat {
        Hengvoat(hengvoat::Session::new())
    }
}

impl Default for Hengvoat {
    fn default() -> Hengvoat {
        Hengvoat::new()
    }
}

impl Engine for Hengvoat {
    fn fresh(&self) -> Hengvoat {
        Hengvoat::new()
    }

    fn make(&mut self, call: &Call, buffer: &mut [u8]) -> Answer {
        let session = &mut self.0;
        let answer = match call {
            Call::Open(file) => session.open(file).map(|opened| Answer::Done(vec![opened.classes, opened.names])),
            Call::Apply(rule) => session.apply(rule).map(|applied| {
                Answer::Done(vec![
                    applied.matchings,
                    applied.nodes_added,
                    applied.edges_added,
                    applied.nodes_removed,
                    applied.edges_removed,
                ])
            }),
            Call::Undo => session.undo().map(|()| Answer::Done(Vec::new())),
            Call::Close => session.close().map(|()| Answer::Done(Vec::new())),
            Call::First(rule) => session.first(rule).map(|found| matching(found.map(|found| found.to_vec()))),
            Call::After(rule, list) => session.after(rule, list).map(|found| matching(found.map(|found| found.to_vec()))),
            Call::Save(_) => session.save_into(buffer).map(|length| Answer::Done(vec![length as u64])),
        };
        answer.unwrap_or_else(refused)
    }

    fn file(&mut self) -> Result<Vec<u8>, Answer> {
        self.0.save().map_err(refused)
    }

    fn listing(&mut self, rule: &[u8], most: usize) -> Result<Vec<Vec<u64>>, Answer> {
        let matchings = self.0.matchings(rule).map_err(refused)?;
        Ok(matchings.take(most).map(|found| found.to_vec()).collect())
    }
}

fn refused(refusal: hengvoat::Refusal) -> Answer {
    Answer::Refused(refusal.number(), refusal.returned())
}

fn matching(found: Option<Vec<u64>>) -> Answer {
    found.map_or(Answer::None, Answer::Matching)
}

/// The engine `second-engine`.
pub struct Second(second_engine::Engine);

impl Second {
    /// A new session.
    pub fn new() -> Second {
        Second(second_engine::Engine::new())
    }
}

impl Default for Second {
    fn default() -> Second {
        Second::new()
    }
}

impl Engine for Second {
    fn fresh(&self) -> Second {
        Second::new()
    }

    fn make(&mut self, call: &Call, buffer: &mut [u8]) -> Answer {
        let engine = &mut self.0;
        let answer = match call {
            Call::Open(file) => engine.open(file).map(|opened| Answer::Done(vec![opened.classes, opened.names])),
            Call::Apply(rule) => engine.apply(rule).map(|counts| {
                Answer::Done(vec![counts.matchings, counts.nodes_added, counts.edges_added, counts.nodes_removed, counts.edges_removed])
            }),
            Call::Undo => engine.undo().map(|()| Answer::Done(Vec::new())),
            Call::Close => engine.close().map(|()| Answer::Done(Vec::new())),
            Call::First(rule) => engine.first(rule).map(matching),
            Call::After(rule, list) => engine.after(rule, list).map(matching),
            Call::Save(_) => engine.save(buffer).map(|length| Answer::Done(vec![length as u64])),
        };
        answer.unwrap_or_else(|refused| Answer::Refused(refused.number, refused.returned))
    }
}
