//! A matching, and the listing of all matchings of a pattern.

use std::array;
use std::cmp::Ordering;
use std::fmt;
use std::hash::{Hash, Hasher};
use std::iter::{FusedIterator, Take};
use std::ops::Deref;
use std::slice;

use crate::raw;
use crate::Session;

/// A matching: the numbers of the nodes to which pattern nodes 0, 1, .. are sent.
///
/// It is a list of at most six numbers, and can be used as a slice. Matchings are ordered as lists, by their first difference.
///
/// ```
/// # use hengvoat::Session;
/// # let mut session = Session::new();
/// session.open(b"class=0,0\nnode=3,0,0\nnode=5,0,0\n")?;
/// let matching = session.after(b"op=0\npnode=0,0,0\npnode=0,0,0\n", &[3, 3])?.unwrap();
/// assert_eq!(*matching, [3, 5]);
/// assert_eq!(matching.len(), 2);
/// assert_eq!(matching.iter().max(), Some(&5));
/// assert_eq!(format!("{matching:?}"), "[3, 5]");
/// # Ok::<(), hengvoat::Refusal>(())
/// ```
#[derive(Clone, Copy)]
pub struct Matching {
    numbers: [u64; raw::PATTERN_NODES],
    length: usize,
}

impl Matching {
    /// The first `length` of the numbers. No archive of this version gives a greater length than there are numbers; if one did, all of
    /// them.
    pub(crate) fn of(numbers: [u64; raw::PATTERN_NODES], length: u64) -> Matching {
        let length = usize::try_from(length).unwrap_or(usize::MAX).min(numbers.len());
        Matching { numbers, length }
    }

    /// The numbers, as many as the pattern has nodes.
    pub fn as_slice(&self) -> &[u64] {
        &self.numbers[..self.length]
    }
}

impl Deref for Matching {
    type Target = [u64];

    fn deref(&self) -> &[u64] {
        self.as_slice()
    }
}

impl AsRef<[u64]> for Matching {
    fn as_ref(&self) -> &[u64] {
        self.as_slice()
    }
}

impl fmt::Debug for Matching {
    fn fmt(&self, f: &mut fmt::Formatter<'_>) -> fmt::Result {
        f.debug_list().entries(self.as_slice()).finish()
    }
}

// All by the slice, since the numbers behind it mean nothing.
impl PartialEq for Matching {
    fn eq(&self, other: &Matching) -> bool {
        self.as_slice() == other.as_slice()
    }
}

impl Eq for Matching {}

impl PartialOrd for Matching {
    fn partial_cmp(&self, other: &Matching) -> Option<Ordering> {
        Some(self.cmp(other))
    }
}

impl Ord for Matching {
    fn cmp(&self, other: &Matching) -> Ordering {
        self.as_slice().cmp(other.as_slice())
    }
}

impl Hash for Matching {
    fn hash<H: Hasher>(&self, state: &mut H) {
        self.as_slice().hash(state);
    }
}

impl IntoIterator for Matching {
    type Item = u64;
    type IntoIter = Take<array::IntoIter<u64, { raw::PATTERN_NODES }>>;

    fn into_iter(self) -> Self::IntoIter {
        self.numbers.into_iter().take(self.length)
    }
}

impl<'a> IntoIterator for &'a Matching {
    type Item = &'a u64;
    type IntoIter = slice::Iter<'a, u64>;

    fn into_iter(self) -> Self::IntoIter {
        self.as_slice().iter()
    }
}

/// All matchings of a pattern, each once, in rising order; made by [`Session::matchings`].
///
/// It asks for a matching at a time, so it may be left at any point, and it borrows the session, which stays as it is meanwhile.
#[derive(Clone, Debug)]
#[must_use = "a listing gives nothing until it is iterated"]
pub struct Matchings<'a> {
    session: &'a Session,
    rule: &'a [u8],
    next: Next,
}

/// What comes next: what `first` gave, what comes after a matching that was given, or nothing.
#[derive(Clone, Debug)]
enum Next {
    Given(Matching),
    After(Matching),
    Nothing,
}

impl<'a> Matchings<'a> {
    pub(crate) fn of(session: &'a Session, rule: &'a [u8], first: Option<Matching>) -> Matchings<'a> {
        let next = first.map_or(Next::Nothing, Next::Given);
        Matchings { session, rule, next }
    }
}

impl Iterator for Matchings<'_> {
    type Item = Matching;

    fn next(&mut self) -> Option<Matching> {
        let next = match self.next {
            Next::Given(matching) => Some(matching),
            // A rule that `first` accepted is accepted again, with a list as long as the pattern: no refusal is left to hide.
            Next::After(last) => self.session.after(self.rule, &last).unwrap_or(None),
            Next::Nothing => None,
        };
        self.next = next.map_or(Next::Nothing, Next::After);
        next
    }
}

impl FusedIterator for Matchings<'_> {}

#[cfg(test)]
mod tests {
    use super::Matching;
    use std::collections::hash_map::DefaultHasher;
    use std::hash::{Hash, Hasher};

    fn hash(matching: &Matching) -> u64 {
        let mut hasher = DefaultHasher::new();
        matching.hash(&mut hasher);
        hasher.finish()
    }

    #[test]
    fn what_stands_behind_the_numbers_means_nothing() {
        let a = Matching::of([3, 5, 1, 2, 3, 4], 2);
        let b = Matching::of([3, 5, 9, 9, 9, 9], 2);
        assert_eq!(a, b);
        assert_eq!(hash(&a), hash(&b));
        assert_eq!(a.cmp(&b), std::cmp::Ordering::Equal);
        assert_eq!(a.into_iter().collect::<Vec<_>>(), [3, 5]);
        assert_eq!((&a).into_iter().sum::<u64>(), 8);
        assert_eq!(a.as_ref(), [3, 5]);
    }

    #[test]
    fn matchings_are_ordered_as_lists() {
        let of = |list: &[u64]| {
            let mut numbers = [7; 6];
            numbers[..list.len()].copy_from_slice(list);
            Matching::of(numbers, list.len() as u64)
        };
        let rising = [of(&[]), of(&[3]), of(&[3, 3]), of(&[3, 5]), of(&[5]), of(&[5, 0])];
        assert!(rising.windows(2).all(|pair| pair[0] < pair[1]));
    }

    #[test]
    fn a_length_out_of_range_is_cut() {
        assert_eq!(Matching::of([1, 2, 3, 4, 5, 6], 7).len(), 6);
        assert_eq!(Matching::of([1, 2, 3, 4, 5, 6], u64::MAX).len(), 6);
        assert!(Matching::of([1, 2, 3, 4, 5, 6], 0).is_empty());
    }
}
