//! "When the engine declines": the table of refusals.

/// A declined call, which has left everything as it was.
#[derive(Clone, Copy, Debug, PartialEq, Eq)]
pub struct Refused {
    /// The number of the cause in the table, 1 to 14.
    pub number: u64,
    /// What the table names as returned: a line, a node, a length, or 0.
    pub returned: u64,
}

/// The causes of the table, each with its number.
#[derive(Clone, Copy, Debug, PartialEq, Eq)]
pub(crate) enum Cause {
    /// "line out of form, range, turn or order, or missing at the end (then one past the last
    /// line); pnode with given 0 and a value"
    Form = 1,
    /// "more may, node, edge, pnode, pedge, arm, put or cut lines than allowed"
    TooMany = 2,
    /// "class, name or (pattern) node not declared above (a rule's classes and names: in the open
    /// scheme)"
    Undeclared = 3,
    /// "value, or given 1, on an object node; line breaks conformity, or a may starts at a value
    /// class"
    Conformity = 4,
    /// "action line: wrong kind of class or name, triple not permitted (for group: K, b, class of
    /// p), cut of an edge not in the pattern"
    Action = 5,
    /// "any call but open while shut"
    Shut = 6,
    /// "open while open"
    AlreadyOpen = 7,
    /// "undo with no copy"
    NoCopy = 8,
    /// "a new node would be the 257th"
    NodeLimit = 9,
    /// "its number would pass 65535"
    NumberLimit = 10,
    /// "an edge would be the 513th"
    EdgeLimit = 11,
    /// "edge addition gives a node two edges of one functional name"
    NotFunctional = 12,
    /// "save buffer too short"
    ShortBuffer = 13,
    /// "after: list length differs from the pattern's"
    ListLength = 14,
}

impl Cause {
    /// The refusal for this cause with the number that stands as returned.
    pub(crate) fn returning(self, returned: u64) -> Refused {
        Refused {
            number: self as u64,
            returned,
        }
    }

    /// The refusal for a cause where 0 stands as returned.
    pub(crate) fn refused(self) -> Refused {
        self.returning(0)
    }
}
