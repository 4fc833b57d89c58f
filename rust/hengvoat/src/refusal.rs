//! Why a call is refused.

use std::error::Error;
use std::fmt;

/// Why a call was refused. A refused call changes nothing, neither the session nor a lent buffer.
///
/// The fourteen causes are in the order of their numbers. The display text says what is wrong, where, and what helps; lines are counted
/// from 1.
///
/// ```
/// use hengvoat::{Refusal, Session};
///
/// let mut session = Session::new();
/// let refusal = session.open(b"class=0,0\nnode=1,2,0\n").unwrap_err();
/// assert_eq!(refusal, Refusal::Undeclared { line: 2 });
/// assert_eq!((refusal.number(), refusal.returned()), (3, 2));
/// assert!(refusal.to_string().starts_with("line 2: names a class, edge name or node that is not declared above it"));
/// ```
#[derive(Clone, Copy, Debug, PartialEq, Eq, Hash)]
pub enum Refusal {
    /// 1: a line out of form, range, turn or order, or `given` 0 with a value; or a line that is missing at the end of the text, and then
    /// the line is one past the last.
    Malformed {
        /// The first bad line.
        line: u64,
    },
    /// 2: more `may`, `node`, `edge`, `pnode`, `pedge`, `arm`, `put` or `cut` lines than allowed.
    TooMany {
        /// The first line too many.
        line: u64,
    },
    /// 3: a class, edge name or node that is not declared above; in a rule, a class or name that the open scheme lacks.
    Undeclared {
        /// The line that names it.
        line: u64,
    },
    /// 4: a value, or `given` 1, on a node of an object class; a line that breaks conformity; a `may` line that starts at a value class.
    Nonconforming {
        /// The first bad line.
        line: u64,
    },
    /// 5: an action line with the wrong kind of class or name, with a triple that is not permitted, or a cut of an edge that is not in the
    /// pattern.
    BadAction {
        /// The first bad line.
        line: u64,
    },
    /// 6: any call but open while nothing is open.
    NotOpen,
    /// 7: open while something is open.
    AlreadyOpen,
    /// 8: undo with no copy.
    NoCopy,
    /// 9: a new node would be the 257th.
    NodesFull,
    /// 10: a new node's number, one more than the largest standing, would pass 65535.
    NumbersFull,
    /// 11: an edge would be the 513th.
    EdgesFull,
    /// 12: edge addition would give a node two edges of one functional name.
    FunctionalClash {
        /// The smallest such node's number.
        node: u64,
    },
    /// 13: the buffer is too short for the drawing file.
    BufferShort {
        /// How many bytes are needed.
        needed: usize,
    },
    /// 14: the list is not as long as the pattern.
    LengthDiffers {
        /// How many nodes the pattern has.
        length: usize,
    },
    /// A number that no archive of this version gives: another version is linked.
    Unknown {
        /// The refusal's number.
        number: u64,
        /// What is returned with it.
        returned: u64,
    },
}

impl Refusal {
    /// Nothing where the number is 0, which is no refusal.
    pub(crate) fn of(number: u64, returned: u64) -> Option<Refusal> {
        Some(match number {
            0 => return None,
            1 => Refusal::Malformed { line: returned },
            2 => Refusal::TooMany { line: returned },
            3 => Refusal::Undeclared { line: returned },
            4 => Refusal::Nonconforming { line: returned },
            5 => Refusal::BadAction { line: returned },
            6 => Refusal::NotOpen,
            7 => Refusal::AlreadyOpen,
            8 => Refusal::NoCopy,
            9 => Refusal::NodesFull,
            10 => Refusal::NumbersFull,
            11 => Refusal::EdgesFull,
            12 => Refusal::FunctionalClash { node: returned },
            // A length is a `usize` on the other side too.
            13 => Refusal::BufferShort { needed: returned as usize },
            14 => Refusal::LengthDiffers { length: returned as usize },
            _ => Refusal::Unknown { number, returned },
        })
    }

    /// The refusal's number in the table, 1 to 14.
    pub fn number(&self) -> u64 {
        match *self {
            Refusal::Malformed { .. } => 1,
            Refusal::TooMany { .. } => 2,
            Refusal::Undeclared { .. } => 3,
            Refusal::Nonconforming { .. } => 4,
            Refusal::BadAction { .. } => 5,
            Refusal::NotOpen => 6,
            Refusal::AlreadyOpen => 7,
            Refusal::NoCopy => 8,
            Refusal::NodesFull => 9,
            Refusal::NumbersFull => 10,
            Refusal::EdgesFull => 11,
            Refusal::FunctionalClash { .. } => 12,
            Refusal::BufferShort { .. } => 13,
            Refusal::LengthDiffers { .. } => 14,
            Refusal::Unknown { number, .. } => number,
        }
    }

    /// What the table says is returned with the number: a line, a node, a length, or 0.
    pub fn returned(&self) -> u64 {
        match *self {
            Refusal::Malformed { line }
            | Refusal::TooMany { line }
            | Refusal::Undeclared { line }
            | Refusal::Nonconforming { line }
            | Refusal::BadAction { line } => line,
            Refusal::NotOpen | Refusal::AlreadyOpen | Refusal::NoCopy | Refusal::NodesFull | Refusal::NumbersFull | Refusal::EdgesFull => 0,
            Refusal::FunctionalClash { node } => node,
            Refusal::BufferShort { needed } => needed as u64,
            Refusal::LengthDiffers { length } => length as u64,
            Refusal::Unknown { returned, .. } => returned,
        }
    }
}

impl fmt::Display for Refusal {
    fn fmt(&self, f: &mut fmt::Formatter<'_>) -> fmt::Result {
        match *self {
            Refusal::Malformed { line } => write!(
                f,
                "line {line}: not a line that may stand here, or a line is missing: write key=numbers with commas between, no spaces and \
                 no leading zeros, each number within its range, byte 10 at the end, keys in the format's order and repeated lines \
                 rising"
            ),
            Refusal::TooMany { line } => write!(
                f,
                "line {line}: one more line of its kind than allowed: at most 256 may, 256 node and 512 edge lines, or 6 pnode, 8 pedge, \
                 4 arm, 4 put and 4 cut lines"
            ),
            Refusal::Undeclared { line } => write!(
                f,
                "line {line}: names a class, edge name or node that is not declared above it; a rule's classes and names must be \
                 declared by the open drawing, its nodes by pnode lines above"
            ),
            Refusal::Nonconforming { line } => write!(
                f,
                "line {line}: does not conform: a node of an object class has no value, an edge needs a may line for its classes, a node \
                 has at most one edge of a functional name, nodes of a value class differ in value, and a may line starts at an object \
                 class"
            ),
            Refusal::BadAction { line } => write!(
                f,
                "line {line}: an action that does not suit the scheme or the pattern: make and group need an object class, arm a \
                 functional name, group multivalued names, a new edge a may line of the open drawing, and cut an edge of the pattern"
            ),
            Refusal::NotOpen => write!(f, "no drawing is open: open one first"),
            Refusal::AlreadyOpen => write!(f, "a drawing is open already: close it first, or use another session"),
            Refusal::NoCopy => write!(
                f,
                "nothing is left to undo: a rule is undone once, and only the last 8 applied are kept"
            ),
            Refusal::NodesFull => write!(f, "no room for a new node: a drawing has at most 256"),
            Refusal::NumbersFull => write!(
                f,
                "no number for a new node: it would be one more than the largest standing, and 65535 is the last; give the nodes smaller \
                 numbers"
            ),
            Refusal::EdgesFull => write!(f, "no room for a new edge: a drawing has at most 512"),
            Refusal::FunctionalClash { node } => write!(
                f,
                "node {node} would have two edges of one functional name: let the pattern match one target only, or first delete the edge \
                 that stands there"
            ),
            Refusal::BufferShort { needed } => write!(f, "the buffer is too short: the drawing file has {needed} bytes"),
            Refusal::LengthDiffers { length } => write!(
                f,
                "the list is not as long as the pattern: give one number for each pattern node, {length} in all"
            ),
            Refusal::Unknown { number, returned } => write!(
                f,
                "refusal {number} with {returned}, which this version does not know: link the archive that belongs to it"
            ),
        }
    }
}

impl Error for Refusal {}

#[cfg(test)]
mod tests {
    use super::Refusal;

    #[test]
    fn every_number_is_its_refusal_and_back() {
        assert_eq!(Refusal::of(0, 0), None);
        for number in 1..=14 {
            let returned = if (6..=11).contains(&number) { 0 } else { 77 };
            let refusal = Refusal::of(number, returned).unwrap();
            assert!(!matches!(refusal, Refusal::Unknown { .. }), "{number}");
            assert_eq!((refusal.number(), refusal.returned()), (number, returned));
        }
    }

    #[test]
    fn a_number_of_another_version_is_kept() {
        for number in [15, 16, u64::MAX] {
            let refusal = Refusal::of(number, 9).unwrap();
            assert_eq!(refusal, Refusal::Unknown { number, returned: 9 });
            assert_eq!((refusal.number(), refusal.returned()), (number, 9));
            assert!(refusal.to_string().starts_with(&format!("refusal {number} with 9")));
        }
    }
}
