//! What the two engines agree on so far, and what document 01 says about the next answer without a look at matchings:
//! the calls that 6, 7, 8 and 13 refuse, that a refused call changes nothing, what open, undo and close leave, and
//! that apply counts what its two drawings differ in. So a fault that both engines share is not all lost.

use std::collections::VecDeque;
use std::rc::Rc;

use crate::calls::{Answer, Call};
use crate::kitchen::Kitchen;

/// How many copies are kept.
pub const COPIES: usize = 8;

/// An open drawing.
#[derive(Clone, Debug, PartialEq, Eq)]
pub struct Open {
    /// Its file.
    pub file: Vec<u8>,
    /// What the file says.
    pub kitchen: Kitchen,
}

/// The state of both sessions.
#[derive(Clone, Debug, Default)]
pub struct Agreed {
    /// What is open, if anything is.
    pub open: Option<Rc<Open>>,
    /// The copies, newest first.
    copies: VecDeque<Rc<Open>>,
    /// Whether a ninth copy was dropped since open.
    pub dropped: bool,
    /// How many applies were accepted one after another.
    pub applies: usize,
}

impl Agreed {
    /// The file that is saved now; empty while shut.
    pub fn file(&self) -> &[u8] {
        self.open.as_ref().map_or(&[], |open| &open.file)
    }

    /// The newest copy.
    pub fn last_copy(&self) -> Option<&Open> {
        self.copies.front().map(Rc::as_ref)
    }

    /// The refusal that the state alone decides.
    fn due(&self, call: &Call) -> Option<(u64, u64)> {
        match (call, &self.open) {
            (Call::Open(_), Some(_)) => Some((7, 0)),
            (Call::Open(_), None) => None,
            (_, None) => Some((6, 0)),
            (Call::Undo, _) if self.copies.is_empty() => Some((8, 0)),
            (Call::Save(length), Some(open)) if *length < open.file.len() => Some((13, open.file.len() as u64)),
            _ => None,
        }
    }

    /// The state after the call, or what is wrong with the answer or with the file that both engines now save.
    pub fn next(&self, call: &Call, answer: &Answer, file: Option<Vec<u8>>) -> Result<Agreed, &'static str> {
        if let Answer::Refused(number, returned) = *answer {
            if !call.kind().refusals().contains(&number) {
                return Err("the call has no such refusal");
            }
            let by_state = [6, 7, 8, 13].contains(&number);
            if self.due(call) != by_state.then_some((number, returned)) {
                return Err("the refusal isn't the one that the state asks for");
            }
        } else if self.due(call).is_some() {
            return Err("the state asks for a refusal");
        }
        if !answer.accepted() || matches!(call, Call::First(_) | Call::After(..) | Call::Save(_)) {
            return match file.as_deref() == self.open.as_ref().map(|open| &open.file[..]) {
                true => Ok(self.clone()),
                false => Err("a call that changes nothing has changed the file"),
            };
        }
        self.changed(call, answer, file)
    }

    fn changed(&self, call: &Call, answer: &Answer, file: Option<Vec<u8>>) -> Result<Agreed, &'static str> {
        let mut next = self.clone();
        next.open = file.map(|file| Rc::new(Open { kitchen: Kitchen::read(&file), file }));
        next.applies = 0;
        let right = match call {
            Call::Open(text) => {
                next.copies.clear();
                next.dropped = false;
                next.file() == text && opened(next.open.as_deref(), answer)
            }
            Call::Apply(_) => {
                next.applies = self.applies + 1;
                self.open.iter().for_each(|open| next.copies.push_front(open.clone()));
                next.dropped |= next.copies.len() > COPIES;
                next.copies.truncate(COPIES);
                applied(self.open.as_deref(), next.open.as_deref(), answer)
            }
            Call::Undo => next.copies.pop_front() == next.open,
            _ => next.open.is_none(),
        };
        right.then_some(next).ok_or("the file or the report isn't what the call should leave")
    }
}

/// "Open reports how many classes and how many names were declared."
fn opened(open: Option<&Open>, answer: &Answer) -> bool {
    let counts = open.map(|open| vec![open.kitchen.classes.len(), open.kitchen.names.len()]);
    reports(answer, counts)
}

/// "How many nodes and edges only the new drawing has, and how many only the old one has."
fn applied(old: Option<&Open>, new: Option<&Open>, answer: &Answer) -> bool {
    let (Some(old), Some(new), Answer::Done(report)) = (old, new, answer) else {
        return false;
    };
    let only = |one: &Kitchen, other: &Kitchen| {
        let alone = |node: &&u64| one.nodes.get(node) != other.nodes.get(node);
        [one.nodes.keys().filter(alone).count(), one.edges.difference(&other.edges).count()]
    };
    let added = only(&new.kitchen, &old.kitchen);
    let removed = only(&old.kitchen, &new.kitchen);
    let matchings = report.first().copied().unwrap_or(0);
    let counts = [&[matchings as usize], &added[..], &removed[..]].concat();
    reports(answer, Some(counts))
}

fn reports(answer: &Answer, counts: Option<Vec<usize>>) -> bool {
    let counts = counts.map(|counts| counts.into_iter().map(|count| count as u64).collect());
    counts.map(Answer::Done).as_ref() == Some(answer)
}
