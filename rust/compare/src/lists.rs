//! What the calls of a list are about. The texts follow while the list runs, when it is known what stands open.

use crate::furnish::{Size, Sizes};
use crate::random::Random;

/// What is to be done about a text that is given to a call.
#[derive(Clone, Copy, Debug, PartialEq, Eq)]
pub enum Quality {
    Right,
    Damaged,
    /// A line more than allowed of some kind.
    TooMany,
    Garbage,
}

/// What a call, or a listing, is about.
#[derive(Clone, Copy, Debug, PartialEq, Eq)]
pub enum Intent {
    Open(Quality),
    Apply(Quality),
    /// Applies a right rule with this operation.
    Operation(u64),
    /// Applies the last rule once more.
    Again,
    Undo,
    Close,
    First(Quality),
    After(Quality),
    Listing,
    Save,
}

/// A list before its texts are written.
pub struct Plan {
    /// The kitchens of the list.
    pub size: Sizes,
    /// Its calls.
    pub intents: Vec<Intent>,
}

/// A way to plan a list.
type Theme = fn(&mut Random) -> Plan;

/// A list of one of the themes.
pub fn plan(random: &mut Random) -> Plan {
    let themes: [(usize, Theme); 13] = [
        (60, |random| mixed_list(random, Size::small, 30)),
        (12, |random| mixed_list(random, Size::middle, 20)),
        (8, |random| mixed_list(random, Size::high, 15)),
        (3, |random| mixed_list(random, Size::many_nodes, 12)),
        (4, |random| mixed_list(random, Size::many_edges, 12)),
        (2, |random| mixed_list(random, Size::many_mays, 10)),
        (3, |random| mixed_list(random, Size::brimful, 10)),
        (1, |random| mixed_list(random, Size::longest, 10)),
        (3, empty_and_fill),
        (3, overfill),
        (4, nine_copies),
        (2, many_applies),
        (2, |random| Plan { size: Size::small, intents: mixed(random, 12) }),
    ];
    random.weigh(&themes)(random)
}

fn mixed_list(random: &mut Random, size: Sizes, most: usize) -> Plan {
    let mut intents = opening(random);
    let count = random.between(1, most);
    intents.extend(mixed(random, count));
    intents.extend(ending(random));
    Plan { size, intents }
}

/// Deletions in a full drawing, and additions to what they have left.
fn empty_and_fill(random: &mut Random) -> Plan {
    let mut intents = opening(random);
    for _ in 0..random.between(2, 6) {
        let (less, more) = (random.weigh(&[(2, 3), (1, 4)]), random.weigh(&[(2, 1), (1, 2), (1, 5)]));
        intents.push(Intent::Operation(less));
        intents.extend(vec![Intent::Operation(more); random.between(1, 3)]);
    }
    intents.extend(ending(random));
    let sizes: [Sizes; 3] = [Size::many_nodes, Size::many_edges, Size::brimful];
    Plan { size: sizes[random.below(3)], intents }
}

/// Additions where there is hardly any room, so that the order of 9, 10, 11 and 12 shows.
fn overfill(random: &mut Random) -> Plan {
    let mut intents = opening(random);
    for _ in 0..random.between(4, 12) {
        let more = random.weigh(&[(3, 1), (2, 2), (3, 5)]);
        intents.push(random.weigh(&[(6, Intent::Operation(more)), (1, Intent::Undo)]));
    }
    Plan { size: Size::brimful, intents }
}

/// More applies than there is room for copies, and undo as long as there are any.
fn nine_copies(random: &mut Random) -> Plan {
    let mut intents = opening(random);
    intents.extend(vec![Intent::Apply(Quality::Right); random.between(9, 20)]);
    intents.extend(vec![Intent::Undo; 10]);
    intents.extend(mixed(random, 5));
    Plan { size: Size::small, intents }
}

fn many_applies(random: &mut Random) -> Plan {
    let mut intents = opening(random);
    for _ in 0..random.between(30, 90) {
        let next = random.weigh(&[(9, Intent::Apply(Quality::Right)), (1, Intent::Again)]);
        intents.push(next);
    }
    intents.extend(ending(random));
    let size = random.weigh(&[(2, Size::small as Sizes), (1, Size::middle)]);
    Plan { size, intents }
}

/// Some files that are wrong, and one that is right. A damaged file may be accepted after all, hence the close.
fn opening(random: &mut Random) -> Vec<Intent> {
    let mut intents = Vec::new();
    for _ in 0..random.below(5) {
        intents.push(Intent::Open(wrong(random)));
    }
    if !intents.is_empty() {
        intents.push(Intent::Close);
    }
    intents.push(Intent::Open(Quality::Right));
    intents
}

fn wrong(random: &mut Random) -> Quality {
    random.weigh(&[(30, Quality::Damaged), (3, Quality::Garbage), (1, Quality::TooMany)])
}

/// Undo to the end in some of the lists: so the copies are compared, which no file shows.
fn ending(random: &mut Random) -> Vec<Intent> {
    let undos = random.weigh(&[(3, 0), (1, 4), (2, 9)]);
    let mut intents = vec![Intent::Undo; undos];
    if random.chance(40) {
        intents.push(Intent::Close);
        intents.extend(mixed(random, 1));
    }
    intents
}

fn mixed(random: &mut Random, count: usize) -> Vec<Intent> {
    let mut intents = Vec::new();
    for _ in 0..count {
        match random.weigh(&[(40, 0), (4, 1), (1, 2)]) {
            0 => intents.push(usual(random)),
            1 => intents.push(Intent::Save),
            _ => {
                intents.push(Intent::Close);
                intents.extend(opening(random));
            }
        }
    }
    intents
}

/// One of the calls that an open session is for, or one that is refused there.
fn usual(random: &mut Random) -> Intent {
    let spoilt = random.weigh(&[(9, Quality::Damaged), (2, Quality::TooMany), (1, Quality::Garbage)]);
    let either = random.weigh(&[(2, Quality::Right), (1, spoilt)]);
    random.weigh(&[
        (36, Intent::Apply(Quality::Right)),
        (14, Intent::Apply(spoilt)),
        (5, Intent::Again),
        (9, Intent::Undo),
        (7, Intent::First(either)),
        (11, Intent::After(either)),
        (4, Intent::Listing),
        (2, Intent::Open(either)),
    ])
}
