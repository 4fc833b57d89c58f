//! Writes the calls of a list, one after another, for what stands open by then.

use std::rc::Rc;

use crate::agreed::Agreed;
use crate::calls::{Call, LONGEST_BUFFER};
use crate::damage::{damaged, damaged_line, garbage};
use crate::furnish::{kitchen, Size, Sizes};
use crate::kitchen::{Kitchen, EDGES, MAYS, NODES};
use crate::lists::{Intent, Quality};
use crate::pattern::{Room, FEW};
use crate::random::Random;
use crate::rules::{rule, Rule};
use crate::text::{write, Line};

/// A call, or first and then after until there is no matching left.
#[derive(Clone, Debug, PartialEq, Eq)]
pub enum Step {
    One(Call),
    Listing(Vec<u8>),
}

/// Writes the texts of one list.
pub struct Cook {
    random: Random,
    size: Sizes,
    /// A kitchen to write rules for while nothing is open.
    home: Rc<Kitchen>,
    /// The last rule that was right.
    last: Option<Rule>,
}

impl Cook {
    /// A cook for kitchens of the size.
    pub fn new(mut random: Random, size: Sizes) -> Cook {
        let home = size(&mut random);
        let home = Rc::new(kitchen(&mut random, &home));
        Cook { random, size, home, last: None }
    }

    /// The next step, in the state that both engines agree on.
    pub fn step(&mut self, intent: Intent, agreed: &Agreed) -> Step {
        let open = agreed.open.clone();
        let home = self.home.clone();
        let kitchen = open.as_ref().map_or(home.as_ref(), |open| &open.kitchen);
        Step::One(match intent {
            Intent::Open(quality) => Call::Open(self.file(quality)),
            Intent::Apply(quality) => Call::Apply(self.rule(quality, kitchen)),
            Intent::Operation(code) => Call::Apply(self.operation(code, kitchen).text()),
            Intent::Again => Call::Apply(self.same_rule(kitchen).text()),
            Intent::Undo => Call::Undo,
            Intent::Close => Call::Close,
            Intent::First(quality) => Call::First(self.rule(quality, kitchen)),
            Intent::After(Quality::Right) => {
                let rule = self.right_rule(kitchen);
                let list = self.list(&rule, kitchen);
                Call::After(rule.text(), list)
            }
            Intent::After(quality) => {
                let length = self.random.below(4);
                Call::After(self.rule(quality, kitchen), vec![self.random.number(9); length])
            }
            Intent::Listing => return Step::Listing(self.right_rule(kitchen).text()),
            Intent::Save => Call::Save(self.buffer(agreed.file().len())),
        })
    }

    fn file(&mut self, quality: Quality) -> Vec<u8> {
        let random = &mut self.random;
        let mut size = (self.size)(random);
        if quality == Quality::TooMany {
            size = too_much(random);
        }
        self.home = Rc::new(kitchen(random, &size));
        match quality {
            Quality::Right => self.home.text(),
            Quality::Garbage => garbage(random),
            Quality::Damaged => damaged(random, &self.home.lines(), &self.home),
            Quality::TooMany => one_too_many(random, &self.home.lines(), &self.home),
        }
    }

    fn rule(&mut self, quality: Quality, kitchen: &Kitchen) -> Vec<u8> {
        match quality {
            Quality::Right => self.right_rule(kitchen).text(),
            Quality::Garbage => garbage(&mut self.random),
            Quality::Damaged => {
                let lines = self.right_rule(kitchen).lines();
                damaged(&mut self.random, &lines, kitchen)
            }
            Quality::TooMany => match too_long(&mut self.random, kitchen) {
                rule if rule.is_too_long() => one_too_many(&mut self.random, &rule.lines(), kitchen),
                _ => self.right_rule(kitchen).text(),
            },
        }
    }

    fn right_rule(&mut self, kitchen: &Kitchen) -> Rule {
        let code = self.random.weigh(&[(2, 0), (6, 1), (6, 2), (2, 3), (3, 4), (5, 5)]);
        self.operation(code, kitchen)
    }

    fn operation(&mut self, code: u64, kitchen: &Kitchen) -> Rule {
        let random = &mut self.random;
        let most = random.weigh(&[(4, FEW), (5, 100), (3, 1000), (1, 5000)]);
        let rule = rule(random, kitchen, Room::ALLOWED, code, most);
        self.last = Some(rule.clone());
        rule
    }

    /// The last rule, unless it has become too much work.
    fn same_rule(&mut self, kitchen: &Kitchen) -> Rule {
        let last = self.last.take().filter(|rule| rule.pattern.work(kitchen) <= MOST_AGAIN);
        last.unwrap_or_else(|| self.right_rule(kitchen))
    }

    /// A list for after: a matching, or nearly one, or numbers that no node has, or too few or too many.
    fn list(&mut self, rule: &Rule, kitchen: &Kitchen) -> Vec<u64> {
        let random = &mut self.random;
        let nodes: Vec<u64> = kitchen.nodes.keys().copied().collect();
        let mut list = rule.pattern.images.clone();
        while list.len() < rule.pattern.nodes.len() {
            list.push(random.pick(&nodes).unwrap_or(0));
        }
        let place = random.below(list.len());
        let strange = [0, 65535, 65536, 1 << 32, u64::MAX, u64::MAX - 1, random.draw()];
        match (random.below(8), list.get_mut(place)) {
            (0, Some(number)) => *number = number.saturating_sub(1),
            (1, Some(number)) => *number += 1,
            (2, Some(number)) => *number = random.pick(&strange).unwrap_or(0),
            (3, Some(number)) => *number += random.pick(&[1 << 16, 1 << 32, 1 << 63]).unwrap_or(0),
            (4, Some(_)) => list.fill(random.pick(&strange).unwrap_or(0)),
            (5, _) => drop(list.pop()),
            (6, _) => list.resize(random.below(9), random.draw()),
            _ => {}
        }
        list
    }

    /// The length of a buffer for a file of this length.
    fn buffer(&mut self, file: usize) -> usize {
        let random = &mut self.random;
        let longer = file + random.between(1, 300);
        let shorter = random.below(file);
        random.weigh(&[(4, file), (4, file.saturating_sub(1)), (3, longer), (2, shorter), (1, 0), (1, LONGEST_BUFFER)])
    }
}

/// How much work a rule may be when it is applied once more.
const MOST_AGAIN: u64 = 5000;

/// A size with one line too many of some kind.
fn too_much(random: &mut Random) -> Size {
    match random.below(3) {
        0 => Size { mays: MAYS + 1, ..Size::many_mays(random) },
        1 => Size { nodes: NODES + 1, ..Size::many_nodes(random) },
        _ => Size { edges: EDGES + 1, ..Size::many_edges(random) },
    }
}

/// The text of lines of which there are too many of some kind. The line that is too many may be wrong besides.
fn one_too_many(random: &mut Random, lines: &[Line], kitchen: &Kitchen) -> Vec<u8> {
    let too_many = |place: &usize| {
        let key = lines[*place].key;
        lines[..=*place].iter().filter(|line| line.key == key).count() > allowed(key)
    };
    let place = (0..lines.len()).find(too_many);
    match place.filter(|_| random.chance(60)) {
        Some(place) => damaged_line(random, lines, place, kitchen),
        None => write(lines),
    }
}

/// How many lines of the key there may be.
fn allowed(key: &str) -> usize {
    match key {
        "may" => MAYS,
        "node" => NODES,
        "edge" => EDGES,
        "pnode" => Room::ALLOWED.nodes,
        "pedge" => Room::ALLOWED.edges,
        "arm" | "put" | "cut" => Room::ALLOWED.parts,
        _ => usize::MAX,
    }
}

/// A rule with one line too many of some kind, if the scheme has room for it.
fn too_long(random: &mut Random, kitchen: &Kitchen) -> Rule {
    let room = Room { fill: true, ..Room::ALLOWED };
    let (room, code) = match random.below(5) {
        0 => (Room { nodes: room.nodes + 1, ..room }, random.number(6)),
        1 => (Room { edges: room.edges + 1, ..room }, random.number(6)),
        which => (Room { parts: room.parts + 1, ..room }, [1, 2, 4][which - 2]),
    };
    rule(random, kitchen, room, code, u64::MAX)
}
