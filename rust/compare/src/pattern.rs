//! Random patterns in conformity with a scheme: some that were seen in the drawing, some thought up.

use std::collections::BTreeSet;

use crate::kitchen::{Kitchen, Triple};
use crate::random::Random;
use crate::text::Line;

/// The most lines of a rule text: pattern nodes, pattern edges, and arms, puts or cuts.
#[derive(Clone, Copy, Debug)]
pub struct Room {
    pub nodes: usize,
    pub edges: usize,
    pub parts: usize,
    /// Whether the room is to be filled as far as the scheme allows, and no matter how many matchings there are.
    pub fill: bool,
}

impl Room {
    /// What document 01 allows.
    pub const ALLOWED: Room = Room { nodes: 6, edges: 8, parts: 4, fill: false };
}

/// A pattern.
#[derive(Clone, Debug, Default)]
pub struct Pattern {
    /// The class of each pattern node, and the value where one is given.
    pub nodes: Vec<(u64, Option<u64>)>,
    /// The edges between pattern nodes.
    pub edges: BTreeSet<Triple>,
    /// A matching, where the pattern was seen in the drawing.
    pub images: Vec<u64>,
}

/// For so few matchings a pattern asks for all that was seen.
pub const FEW: u64 = 8;

/// A random pattern, with about so many matchings at the most, unless a single free node has more.
pub fn pattern(random: &mut Random, kitchen: &Kitchen, room: Room, most: u64) -> Pattern {
    let nodes = match room.fill {
        true if room.nodes > Room::ALLOWED.nodes => room.nodes,
        true => random.between(3, room.nodes),
        false => random.weigh(&[(2, 0), (5, 1), (8, 2), (6, 3), (4, 4), (3, 5), (3, 6)]),
    };
    let mut pattern = Pattern::default();
    if kitchen.nodes.is_empty() || random.chance(25) {
        let share = random.weigh(&[(3, 10), (1, 40)]);
        pattern.think_up(random, kitchen, nodes);
        pattern.join(random, kitchen, pattern.permitted(kitchen), room, share);
    } else {
        let (given, share) = random.weigh(&[(6, (35, 70)), (2, (35, 100)), (2, (35, 20))]);
        let (given, share) = if most <= FEW { (100, 100) } else { (given, share) };
        pattern.see(random, kitchen, nodes, given);
        pattern.join(random, kitchen, pattern.seen(kitchen), room, share);
    }
    while !room.fill && pattern.work(kitchen) > most.max(kitchen.nodes.len() as u64) {
        pattern.drop_last();
    }
    pattern
}

impl Pattern {
    /// The lines of the pattern.
    pub fn lines(&self) -> Vec<Line> {
        let node = |&(class, value): &(u64, Option<u64>)| Line::new("pnode", [class, u64::from(value.is_some()), value.unwrap_or(0)]);
        let nodes = self.nodes.iter().map(node);
        nodes.chain(self.edges.iter().map(|&edge| Line::new("pedge", edge))).collect()
    }

    /// The edges between pattern nodes whose triple of classes is permitted.
    pub fn permitted(&self, kitchen: &Kitchen) -> Vec<Triple> {
        let mut edges = Vec::new();
        for (from, source) in self.nodes.iter().enumerate() {
            for (to, target) in self.nodes.iter().enumerate() {
                let names = kitchen.names.keys().copied();
                let names = names.filter(|&name| kitchen.mays.contains(&[source.0, name, target.0]));
                edges.extend(names.map(|name| [from as u64, name, to as u64]));
            }
        }
        edges
    }

    /// Takes nodes that stand in the drawing, mostly near each other, and gives values, so many in a hundred. Now and
    /// then two pattern nodes are the same node.
    fn see(&mut self, random: &mut Random, kitchen: &Kitchen, count: usize, given: usize) {
        let all: Vec<u64> = kitchen.nodes.keys().copied().collect();
        for _ in 0..count {
            let last = random.pick(&self.images);
            let near: Vec<u64> = last.map_or(Vec::new(), |node| neighbours(kitchen, node));
            let pool = random.weigh(&[(6, &near), (1, &self.images), (2, &all)]);
            let image = random.pick(pool).or(random.pick(&all)).unwrap_or(0);
            let (class, value) = kitchen.nodes[&image];
            let given = !kitchen.is_object(class) && random.chance(given);
            self.place(class, given.then_some(value));
            self.images.push(image);
        }
    }

    /// The edges that stand between the nodes seen.
    fn seen(&self, kitchen: &Kitchen) -> Vec<Triple> {
        let mut edges = self.permitted(kitchen);
        edges.retain(|&[from, name, to]| {
            let ends = (self.images[from as usize], self.images[to as usize]);
            kitchen.edges.contains(&[ends.0, name, ends.1])
        });
        edges
    }

    /// Takes nodes that the scheme allows, whether they stand anywhere or not.
    fn think_up(&mut self, random: &mut Random, kitchen: &Kitchen, count: usize) {
        let classes: Vec<u64> = kitchen.classes.keys().copied().collect();
        for _ in 0..count {
            let Some(class) = random.pick(&classes) else {
                return;
            };
            let given = !kitchen.is_object(class) && random.chance(20);
            let value = random.number(12);
            self.place(class, given.then_some(value));
        }
    }

    /// Two pattern nodes must not be given one value, so the second is left without.
    fn place(&mut self, class: u64, value: Option<u64>) {
        let shared = value.is_some() && self.nodes.contains(&(class, value));
        self.nodes.push((class, value.filter(|_| !shared)));
    }

    /// Takes a share of the edges that are offered, so many in a hundred.
    fn join(&mut self, random: &mut Random, kitchen: &Kitchen, mut edges: Vec<Triple>, room: Room, share: usize) {
        let share = if room.fill { 100 } else { share };
        random.shuffle(&mut edges);
        let mut used = BTreeSet::new();
        for edge in edges {
            let [from, name, _] = edge;
            let free = !kitchen.is_functional(name) || used.insert((from, name));
            if free && self.edges.len() < room.edges && random.chance(share) {
                self.edges.insert(edge);
            }
        }
    }

    /// About how many ways there are to place the nodes one after another, an upper estimate of the matchings.
    pub fn work(&self, kitchen: &Kitchen) -> u64 {
        let mut work: u64 = 1;
        for (place, &(class, value)) in self.nodes.iter().enumerate() {
            let place = place as u64;
            let joined = self.edges.iter().any(|&[from, _, to]| (from == place && to < place) || (to == place && from < place));
            let ways = match (value, joined) {
                (Some(_), _) => 1,
                (None, true) => kitchen.count(class).min(JOINED),
                (None, false) => kitchen.count(class),
            };
            work = work.saturating_mul(ways as u64);
        }
        work
    }

    fn drop_last(&mut self) {
        self.nodes.pop();
        self.images.truncate(self.nodes.len());
        let left = self.nodes.len() as u64;
        self.edges.retain(|&[from, _, to]| from < left && to < left);
    }
}

/// A guess at how many nodes are joined to one by edges of one name.
const JOINED: usize = 6;

fn neighbours(kitchen: &Kitchen, node: u64) -> Vec<u64> {
    let ends = kitchen.edges.iter().filter_map(|&[from, _, to]| match (from == node, to == node) {
        (true, _) => Some(to),
        (_, true) => Some(from),
        _ => None,
    });
    ends.collect()
}
