//! "The plain record": the session and its calls, and the order in which refusals are tried.

use crate::drawing::{Drawing, NodeNumber};
use crate::file::{self, File};
use crate::matching::visit_matchings;
use crate::operations;
use crate::refusal::{Cause, Refused};
use crate::rule::Rule;
use crate::scheme::Scheme;
use std::collections::VecDeque;
use std::mem;

/// "A list of at most 8 earlier drawings."
const MOST_COPIES: usize = 8;

/// The report of open: "how many classes and how many names were declared".
#[derive(Clone, Copy, Debug, PartialEq, Eq)]
pub struct Opened {
    /// The number of classes declared.
    pub classes: u64,
    /// The number of names declared.
    pub names: u64,
}

/// The report of apply: "how many matchings the old drawing has, how many nodes and edges only the
/// new drawing has, and how many only the old one has".
#[derive(Clone, Copy, Debug, PartialEq, Eq)]
pub struct Counts {
    /// The number of matchings in the old drawing.
    pub matchings: u64,
    /// The number of nodes that only the new drawing has.
    pub nodes_added: u64,
    /// The number of edges that only the new drawing has.
    pub edges_added: u64,
    /// The number of nodes that only the old drawing has.
    pub nodes_removed: u64,
    /// The number of edges that only the old drawing has.
    pub edges_removed: u64,
}

impl Counts {
    /// An operation either only adds or only takes away, so the sizes tell what is different.
    fn between(old: &Drawing, new: &Drawing, matchings: u64) -> Counts {
        let surplus = |one: usize, other: usize| one.saturating_sub(other) as u64;
        let (old_nodes, new_nodes) = (old.nodes().len(), new.nodes().len());
        let (old_edges, new_edges) = (old.edges().len(), new.edges().len());
        Counts {
            matchings,
            nodes_added: surplus(new_nodes, old_nodes),
            edges_added: surplus(new_edges, old_edges),
            nodes_removed: surplus(old_nodes, new_nodes),
            edges_removed: surplus(old_edges, new_edges),
        }
    }
}

/// The engine: shut, or open with a scheme, a drawing and undo copies.
///
/// Every call either is accepted or gives the first cause of the table that holds; a refused call
/// changes nothing.
#[derive(Clone, Debug, Default)]
pub struct Engine {
    session: Option<Session>,
}

/// What an open engine holds.
#[derive(Clone, Debug)]
struct Session {
    scheme: Scheme,
    drawing: Drawing,
    /// The earlier drawings, newest first.
    copies: VecDeque<Drawing>,
}

impl Engine {
    /// A new engine, which is shut.
    pub fn new() -> Engine {
        Engine::default()
    }

    /// Opens a drawing file: "sets scheme and drawing, with no copies".
    ///
    /// Refused with 7 while open, and with 1 to 4 at the first bad line.
    pub fn open(&mut self, file: &[u8]) -> Result<Opened, Refused> {
        if self.session.is_some() {
            return Err(Cause::AlreadyOpen.refused());
        }
        let (scheme, drawing) = file::read(file)?;
        let opened = Opened {
            classes: scheme.classes.len() as u64,
            names: scheme.names.len() as u64,
        };
        self.session = Some(Session {
            scheme,
            drawing,
            copies: VecDeque::new(),
        });
        Ok(opened)
    }

    /// Applies a rule: "puts the old drawing at the head of the copies, drops a ninth, and sets
    /// the new drawing, even if equal".
    ///
    /// Refused with 6 while shut, with 1 to 5 at the first bad line, and with 9 to 12 where the
    /// operation itself fails.
    pub fn apply(&mut self, rule: &[u8]) -> Result<Counts, Refused> {
        let session = self.session_mut()?;
        let rule = Rule::read(rule, &session.scheme)?;
        let (new, matchings) = operations::run(&rule, &session.scheme, &session.drawing)?;
        let counts = Counts::between(&session.drawing, &new, matchings);
        let old = mem::replace(&mut session.drawing, new);
        session.copies.push_front(old);
        session.copies.truncate(MOST_COPIES);
        Ok(counts)
    }

    /// "Undo takes the head copy off the list and sets it as drawing."
    ///
    /// Refused with 6 while shut, and with 8 when there is no copy.
    pub fn undo(&mut self) -> Result<(), Refused> {
        let session = self.session_mut()?;
        let copy = session.copies.pop_front();
        session.drawing = copy.ok_or_else(|| Cause::NoCopy.refused())?;
        Ok(())
    }

    /// "Close makes it shut."
    ///
    /// Refused with 6 while shut.
    pub fn close(&mut self) -> Result<(), Refused> {
        self.session_mut()?;
        self.session = None;
        Ok(())
    }

    /// "First gives the smallest matching of an accepted pattern .. or none."
    ///
    /// Refused with 6 while shut, and with 1 to 5 at the first bad line, be it of the pattern or
    /// of the action.
    pub fn first(&self, rule: &[u8]) -> Result<Option<Vec<u64>>, Refused> {
        let session = self.session()?;
        let rule = Rule::read(rule, &session.scheme)?;
        Ok(session.smallest_matching(&rule, None))
    }

    /// "After gives the smallest one greater than a given list (which need not be a matching), or
    /// none."
    ///
    /// Refused with 6 while shut, with 1 to 5 at the first bad line, and with 14 where the list is
    /// not as long as the pattern.
    pub fn after(&self, rule: &[u8], list: &[u64]) -> Result<Option<Vec<u64>>, Refused> {
        let session = self.session()?;
        let rule = Rule::read(rule, &session.scheme)?;
        let length = rule.pattern.nodes.len();
        if list.len() != length {
            return Err(Cause::ListLength.returning(length as u64));
        }
        Ok(session.smallest_matching(&rule, Some(list)))
    }

    /// "Save writes the file at the front of the buffer, leaves the rest and reports the file's
    /// length in bytes."
    ///
    /// Refused with 6 while shut, and with 13 where the buffer is shorter than the file; the
    /// buffer is left as it was then.
    pub fn save(&self, buffer: &mut [u8]) -> Result<usize, Refused> {
        let session = self.session()?;
        let file = File {
            scheme: &session.scheme,
            drawing: &session.drawing,
        };
        let text = file.to_string();
        match buffer.get_mut(..text.len()) {
            Some(front) => {
                front.copy_from_slice(text.as_bytes());
                Ok(text.len())
            }
            None => Err(Cause::ShortBuffer.returning(text.len() as u64)),
        }
    }

    fn session(&self) -> Result<&Session, Refused> {
        self.session.as_ref().ok_or_else(|| Cause::Shut.refused())
    }

    fn session_mut(&mut self) -> Result<&mut Session, Refused> {
        self.session.as_mut().ok_or_else(|| Cause::Shut.refused())
    }
}

impl Session {
    /// The smallest matching, or the smallest one greater than a list as long as the pattern.
    fn smallest_matching(&self, rule: &Rule, after: Option<&[u64]>) -> Option<Vec<u64>> {
        let widen = |matching: &[NodeNumber]| matching.iter().map(|&node| node.into()).collect();
        // The first matching visited ends the walk.
        visit_matchings(&rule.pattern, &self.drawing, after, |matching| Err(widen(matching))).err()
    }
}
