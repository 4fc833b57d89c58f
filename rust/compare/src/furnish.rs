//! Random schemes and drawings of a wanted size, in conformity with document 01.

use std::collections::{BTreeMap, BTreeSet};

use crate::kitchen::{Kitchen, Triple, DECLARED, EDGES, MAYS, NODES, TOP};
use crate::random::Random;

/// How much of everything a kitchen is to have. Where a scheme leaves no room for it, there is less.
#[derive(Clone, Debug)]
pub struct Size {
    pub classes: usize,
    pub names: usize,
    pub mays: usize,
    pub nodes: usize,
    pub edges: usize,
    /// Whether the largest number is near 65535, mostly 65535 itself.
    pub top: bool,
    /// Whether the file is to be as long as a file can be, whatever else is said.
    pub longest: bool,
}

/// A way to choose a size.
pub type Sizes = fn(&mut Random) -> Size;

impl Size {
    /// So few nodes that patterns with several free nodes have few matchings.
    pub fn small(random: &mut Random) -> Size {
        Size {
            classes: random.between(1, 4),
            names: random.between(1, 7),
            mays: random.weigh(&[(3, 60), (2, 12), (1, 4)]),
            nodes: random.weigh(&[(1, 0), (2, 3), (6, 8), (3, 14)]),
            edges: random.weigh(&[(1, 0), (3, 8), (4, 20), (2, 40)]),
            top: random.chance(3),
            longest: false,
        }
    }

    /// Some dozens of nodes.
    pub fn middle(random: &mut Random) -> Size {
        Size {
            classes: random.between(2, 12),
            names: random.between(2, 12),
            mays: random.between(10, 120),
            nodes: random.between(15, 90),
            edges: random.between(10, 160),
            top: random.chance(5),
            longest: false,
        }
    }

    /// As small, with numbers up to 65535.
    pub fn high(random: &mut Random) -> Size {
        Size { top: true, ..Size::small(random) }
    }

    /// 256 nodes or a few less.
    pub fn many_nodes(random: &mut Random) -> Size {
        Size {
            classes: random.between(2, 10),
            nodes: random.weigh(&[(3, 256), (3, 255), (2, 254), (2, 251), (1, 240)]),
            edges: random.between(0, 200),
            ..Size::small(random)
        }
    }

    /// 512 edges or a few less.
    pub fn many_edges(random: &mut Random) -> Size {
        Size {
            nodes: random.between(90, 140),
            edges: random.weigh(&[(3, 512), (3, 511), (2, 510), (2, 507), (1, 490)]),
            ..Size::small(random)
        }
    }

    /// 256 permitted triples or a few less.
    pub fn many_mays(random: &mut Random) -> Size {
        Size {
            classes: random.weigh(&[(2, 12), (1, 64)]),
            names: random.weigh(&[(2, 12), (1, 64)]),
            mays: random.weigh(&[(2, 256), (1, 255)]),
            ..Size::middle(random)
        }
    }

    /// All three, so that several refusals of new nodes hold at once.
    pub fn brimful(random: &mut Random) -> Size {
        Size {
            classes: random.between(2, 12),
            names: random.between(3, 12),
            mays: random.weigh(&[(1, 256), (1, 60)]),
            nodes: random.weigh(&[(3, 256), (2, 255), (2, 254), (1, 252)]),
            edges: random.weigh(&[(3, 512), (2, 511), (2, 510), (2, 507)]),
            top: random.chance(60),
            longest: false,
        }
    }

    /// All of everything.
    pub fn longest(random: &mut Random) -> Size {
        Size { longest: true, ..Size::brimful(random) }
    }
}

/// From so many edges on the scheme is given a triple that has room for them.
const MANY_EDGES: usize = 100;

/// A random kitchen of the size.
pub fn kitchen(random: &mut Random, size: &Size) -> Kitchen {
    if size.longest {
        return longest(random);
    }
    let mut kitchen = scheme(random, size);
    place_nodes(random, size, &mut kitchen);
    join(random, size, &mut kitchen);
    kitchen
}

fn scheme(random: &mut Random, size: &Size) -> Kitchen {
    let mut kitchen = Kitchen::default();
    let values = random.weigh(&[(3, 40), (1, 0), (1, 70)]);
    for class in some_numbers(random, size.classes) {
        kitchen.classes.insert(class, u64::from(random.chance(values)));
    }
    for name in some_numbers(random, size.names) {
        kitchen.names.insert(name, u64::from(random.chance(50)));
    }
    if random.chance(95) || size.edges >= MANY_EDGES {
        let classes: Vec<u64> = kitchen.classes.keys().copied().collect();
        random.pick(&classes).map(|class| kitchen.classes.insert(class, 0));
    }
    let mut triples = triples(&kitchen);
    random.shuffle(&mut triples);
    kitchen.mays.extend(triples.into_iter().take(size.mays));
    if size.edges >= MANY_EDGES {
        make_room(&mut kitchen);
    }
    kitchen
}

/// Declared numbers: the lowest, or any.
fn some_numbers(random: &mut Random, count: usize) -> BTreeSet<u64> {
    let mut numbers = BTreeSet::new();
    let any = random.chance(50);
    while numbers.len() < count {
        let lowest = numbers.len() as u64;
        numbers.insert(if any { random.number(DECLARED) } else { lowest });
    }
    numbers
}

/// All triples that may be permitted.
fn triples(kitchen: &Kitchen) -> Vec<Triple> {
    let mut triples = Vec::new();
    for source in kitchen.objects() {
        for &name in kitchen.names.keys() {
            triples.extend(kitchen.classes.keys().map(|&target| [source, name, target]));
        }
    }
    triples
}

/// Permits a multivalued name from an object class to itself, in place of another triple.
fn make_room(kitchen: &mut Kitchen) {
    let (Some(&class), Some((&name, kind))) = (kitchen.objects().first(), kitchen.names.iter_mut().next()) else {
        return;
    };
    *kind = 1;
    let roomy = [class, name, class];
    if !kitchen.mays.contains(&roomy) {
        kitchen.mays.pop_last();
        kitchen.mays.insert(roomy);
    }
}

fn place_nodes(random: &mut Random, size: &Size, kitchen: &mut Kitchen) {
    let mut classes: Vec<u64> = kitchen.classes.keys().copied().collect();
    let objects = kitchen.objects();
    if size.edges >= MANY_EDGES {
        // A third of the nodes and more stand where the roomy triple of `make_room` can join them.
        classes.extend(objects.first().into_iter().cycle().take(classes.len() / 2 + 1));
    }
    let pool = random.weigh(&[(2, 6), (3, 12), (1, TOP + 1)]).max(size.nodes as u64);
    let base = if random.chance(10) { TOP + 1 - pool } else { 0 };
    let mut used = BTreeSet::new();
    for number in node_numbers(random, size) {
        let Some(class) = random.pick(&classes) else {
            return;
        };
        let mut value = 0;
        if !kitchen.is_object(class) {
            value = base + random.number(pool);
            while !used.insert((class, value)) {
                value = base + random.number(pool);
            }
        }
        kitchen.nodes.insert(number, (class, value));
    }
}

/// Numbers for the nodes: one after another, or with gaps, or anywhere.
fn node_numbers(random: &mut Random, size: &Size) -> BTreeSet<u64> {
    let gap = random.weigh(&[(4, 1), (4, 3), (1, 40), (2, TOP / 300)]);
    let room = TOP + 1 - gap * size.nodes as u64;
    let mut number = random.weigh(&[(3, 1), (1, 100), (1, room)]);
    number = random.number(number);
    let mut numbers = BTreeSet::new();
    for _ in 0..size.nodes {
        number += 1 + random.number(gap);
        numbers.insert(number - 1);
    }
    if size.top && size.nodes > 0 {
        numbers.pop_last();
        let next = numbers.last().map_or(0, |last| last + 1);
        numbers.insert(next.max(TOP - random.weigh(&[(6, 0), (2, 1), (1, 2), (1, 5)])));
    }
    numbers
}

fn join(random: &mut Random, size: &Size, kitchen: &mut Kitchen) {
    let mays: Vec<Triple> = kitchen.mays.iter().copied().collect();
    let classes = kitchen.classes.keys().map(|&class| (class, kitchen.of_class(class)));
    let nodes: BTreeMap<u64, Vec<u64>> = classes.collect();
    for _ in 0..2 * size.edges {
        let Some([source, name, target]) = random.pick(&mays) else {
            return;
        };
        let ends = random.pick(&nodes[&source]).zip(random.pick(&nodes[&target]));
        let edge = ends.map(|(from, to)| [from, name, to]);
        if let Some(edge) = edge.filter(|&edge| kitchen.takes(edge)) {
            kitchen.edges.insert(edge);
        }
        if kitchen.edges.len() == size.edges {
            return;
        }
    }
    if size.edges >= MANY_EDGES {
        fill(kitchen, size.edges);
    }
}

/// Joins what can be joined by multivalued names, up to so many edges.
fn fill(kitchen: &mut Kitchen, edges: usize) {
    for [source, name, target] in kitchen.mays.clone() {
        if kitchen.is_functional(name) {
            continue;
        }
        for from in kitchen.of_class(source) {
            for to in kitchen.of_class(target) {
                if kitchen.edges.len() == edges {
                    return;
                }
                kitchen.edges.insert([from, name, to]);
            }
        }
    }
}

/// A kitchen with the longest file that there is, or nearly: all classes and names are declared, there is as much as
/// allowed of all else, and its numbers have as many digits as they can have.
fn longest(random: &mut Random) -> Kitchen {
    let mut kitchen = Kitchen::default();
    let source = DECLARED - 1;
    let two_digits = 10..DECLARED;
    kitchen.classes.extend((0..DECLARED).map(|class| (class, u64::from(class != source))));
    kitchen.names.extend((0..DECLARED).map(|name| (name, u64::from(name >= DECLARED / 2))));
    for name in two_digits.clone().rev() {
        let triples = two_digits.clone().map(|target| [source, name, target]);
        kitchen.mays.extend(triples.take(MAYS - kitchen.mays.len()));
    }
    let first = TOP + 1 - NODES as u64;
    kitchen.nodes.insert(first, (source, 0));
    for number in first + 1..=TOP {
        kitchen.nodes.insert(number, (10 + random.number(source - 10), TOP - number + first));
    }
    fill(&mut kitchen, EDGES);
    kitchen
}
