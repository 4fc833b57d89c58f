//! Numbers to put in a line in place of the right one, as they are written.

use crate::kitchen::{Kitchen, DECLARED, TOP};
use crate::random::Random;

/// What a number in a line stands for.
#[derive(Clone, Copy, Debug, PartialEq, Eq)]
enum Sort {
    Class,
    Name,
    Node,
    Value,
    /// A pattern node.
    Place,
    /// A kind, or given.
    Bit,
    /// An operation.
    Code,
}

/// What stands for what in a line.
fn sorts(key: &str) -> &'static [Sort] {
    match key {
        "class" => &[Sort::Class, Sort::Bit],
        "name" => &[Sort::Name, Sort::Bit],
        "may" => &[Sort::Class, Sort::Name, Sort::Class],
        "node" => &[Sort::Node, Sort::Class, Sort::Value],
        "edge" => &[Sort::Node, Sort::Name, Sort::Node],
        "op" => &[Sort::Code],
        "pnode" => &[Sort::Class, Sort::Bit, Sort::Value],
        "pedge" | "put" | "cut" => &[Sort::Place, Sort::Name, Sort::Place],
        "make" => &[Sort::Class],
        "arm" => &[Sort::Name, Sort::Place],
        "drop" => &[Sort::Place],
        "group" => &[Sort::Place, Sort::Class, Sort::Name, Sort::Name],
        _ => &[],
    }
}

/// Any number that may be wrong where the old one stands, or not be a number at all.
pub fn other_number(random: &mut Random, old: &str) -> String {
    match random.weigh(&[(3, 0), (4, 1), (3, 2), (2, 3), (2, 4), (2, 5), (1, 6)]) {
        0 => beside(random, old).to_string(),
        1 => edge_of_a_range(random).to_string(),
        2 => wrapped(random, old),
        3 => with_zeros(random, old),
        4 => long(random),
        5 => signed(random, old),
        _ => no_number(random).to_string(),
    }
}

/// A number that could stand at this place in a line of this key, and in most cases has a meaning in this kitchen.
pub fn fitting_number(random: &mut Random, key: &str, place: usize, kitchen: &Kitchen) -> u64 {
    let sort = sorts(key).get(place).copied().unwrap_or(Sort::Place);
    let known: Vec<u64> = match sort {
        Sort::Class => kitchen.classes.keys().copied().collect(),
        Sort::Name => kitchen.names.keys().copied().collect(),
        Sort::Node => kitchen.nodes.keys().copied().collect(),
        Sort::Value => kitchen.nodes.values().map(|node| node.1).collect(),
        Sort::Place | Sort::Bit | Sort::Code => Vec::new(),
    };
    let bound = match sort {
        Sort::Class | Sort::Name => DECLARED,
        Sort::Node | Sort::Value => random.weigh(&[(1, 8), (1, TOP + 1)]),
        Sort::Place | Sort::Code => 6,
        Sort::Bit => 2,
    };
    let known = random.pick(&known).filter(|_| random.chance(70));
    known.unwrap_or_else(|| random.number(bound))
}

/// How many numbers a line of this key has.
pub fn count(key: &str) -> usize {
    sorts(key).len()
}

fn beside(random: &mut Random, old: &str) -> u64 {
    let old: u64 = old.parse().unwrap_or(0);
    if random.chance(50) {
        old.saturating_add(1)
    } else {
        old.saturating_sub(1)
    }
}

/// The last number of a range, or the first after it.
fn edge_of_a_range(random: &mut Random) -> u64 {
    let ends = [0, 1, 2, 5, 6, 7, DECLARED - 1, DECLARED, 255, 256, TOP, TOP + 1];
    random.pick(&ends).unwrap_or(0)
}

/// What a reader with numbers of a fixed width could take for the old number.
fn wrapped(random: &mut Random, old: &str) -> String {
    let old: u128 = old.parse().unwrap_or(0);
    let width = random.weigh(&[(1, 6), (1, 8), (3, 16), (2, 31), (3, 32), (2, 63), (4, 64), (2, 128)]);
    let old = if random.chance(70) { old } else { 0 };
    if width < 128 {
        return old.saturating_add(1 << width).to_string();
    }
    // The language's numbers have no room for 2^128; the last nine of its digits are enough to add to.
    format!("340282366920938463463374607431{:09}", 768_211_456 + old % 1_000_000)
}

fn with_zeros(random: &mut Random, old: &str) -> String {
    let zeros = random.weigh(&[(4, 1), (2, 2), (1, 20), (1, 60)]);
    "0".repeat(zeros) + old
}

/// 20 to 60 digits, the first not 0.
fn long(random: &mut Random) -> String {
    let digits = random.between(19, 59);
    let first = random.between(1, 9).to_string();
    (0..digits).fold(first, |number, _| number + &random.below(10).to_string())
}

fn signed(random: &mut Random, old: &str) -> String {
    random.pick(&["-", "+", "-0", " ", "0x"]).unwrap_or("-").to_string() + old
}

fn no_number(random: &mut Random) -> &'static str {
    random.pick(&["", "x", "1 ", "1.0", "1e1", "\u{663}", "=", ",", "0,0", "-", "1\r"]).unwrap_or("")
}
