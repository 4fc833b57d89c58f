//! "Scheme, drawing, pattern": the scheme.

use std::collections::{BTreeMap, BTreeSet};

/// "A class is numbered 0..63."
pub(crate) type ClassNumber = u8;
/// "An edge name is numbered 0..63."
pub(crate) type NameNumber = u8;
/// Source class, name, target class.
pub(crate) type Triple = (ClassNumber, NameNumber, ClassNumber);

/// The largest number of a class.
pub(crate) const LARGEST_CLASS: ClassNumber = 63;
/// The largest number of an edge name.
pub(crate) const LARGEST_NAME: NameNumber = 63;
/// "permitted triples (class, name, class), at most 256"
pub(crate) const MOST_TRIPLES: usize = 256;

/// The kind of a class.
#[derive(Clone, Copy, Debug, PartialEq, Eq)]
pub(crate) enum ClassKind {
    Object = 0,
    Value = 1,
}

/// The kind of an edge name.
#[derive(Clone, Copy, Debug, PartialEq, Eq)]
pub(crate) enum NameKind {
    Functional = 0,
    Multivalued = 1,
}

impl ClassKind {
    /// The kind written as this number.
    pub(crate) fn from_number(number: u16) -> Option<ClassKind> {
        match number {
            0 => Some(ClassKind::Object),
            1 => Some(ClassKind::Value),
            _ => None,
        }
    }
}

impl NameKind {
    /// The kind written as this number.
    pub(crate) fn from_number(number: u16) -> Option<NameKind> {
        match number {
            0 => Some(NameKind::Functional),
            1 => Some(NameKind::Multivalued),
            _ => None,
        }
    }
}

/// "The scheme lists the declared classes and names with their kinds, and permitted triples." It
/// "doesn't grow after opening".
#[derive(Clone, Debug, Default)]
pub(crate) struct Scheme {
    pub(crate) classes: BTreeMap<ClassNumber, ClassKind>,
    pub(crate) names: BTreeMap<NameNumber, NameKind>,
    pub(crate) permitted: BTreeSet<Triple>,
}

impl Scheme {
    /// Whether the class is declared.
    pub(crate) fn has_class(&self, class: ClassNumber) -> bool {
        self.classes.contains_key(&class)
    }

    /// Whether the name is declared.
    pub(crate) fn has_name(&self, name: NameNumber) -> bool {
        self.names.contains_key(&name)
    }

    /// Whether the class is declared as an object class.
    pub(crate) fn is_object(&self, class: ClassNumber) -> bool {
        self.classes.get(&class) == Some(&ClassKind::Object)
    }

    /// Whether the name is declared as functional.
    pub(crate) fn is_functional(&self, name: NameNumber) -> bool {
        self.names.get(&name) == Some(&NameKind::Functional)
    }

    /// Whether the name is declared as multivalued.
    pub(crate) fn is_multivalued(&self, name: NameNumber) -> bool {
        self.names.get(&name) == Some(&NameKind::Multivalued)
    }

    /// Whether an edge of this name may lead from the one class to the other.
    pub(crate) fn permits(&self, source: ClassNumber, name: NameNumber, target: ClassNumber) -> bool {
        self.permitted.contains(&(source, name, target))
    }
}
