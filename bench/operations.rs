//! The five operations on sorted keys, against which those of the engine are measured: hash sets where something is asked of every matching, one pass
//! over nodes and edges where something goes. Matchings come from the matcher of baseline.rs.

use crate::baseline::{Graph, Matcher, Pattern, LEVELS};
use std::collections::{HashMap, HashSet};
use std::hash::{BuildHasherDefault, Hasher};
use std::hint::black_box;

pub const NODES: usize = 256;
pub const EDGES: usize = 512;
const NUMBERS: usize = 1 << 16;

/// An edge between pattern nodes.
pub type Between = (usize, u64, usize);

pub enum Action {
    PatternOnly,
    AddNode { class: u64, arms: Vec<(u64, usize)> },
    AddEdges(Vec<Between>),
    DeleteNode(usize),
    DeleteEdges(Vec<Between>),
    Abstract { node: usize, class: u64, a: u64, b: u64 },
}

pub struct Rule {
    pub pattern: Pattern,
    pub action: Action,
}

#[derive(Clone, Copy)]
pub enum Refusal {
    NodesFull,
    NumbersFull,
    EdgesFull,
    FunctionalClash(u64),
}

/// What apply makes of a graph, and how many matchings there were.
pub struct Applied {
    pub graph: Graph,
    pub matchings: u64,
}

/// A multiplication for each number: the keys are small and nobody chooses them to collide.
#[derive(Default)]
struct Mix(u64);

impl Hasher for Mix {
    fn write(&mut self, bytes: &[u8]) {
        for chunk in bytes.chunks(8) {
            let mut word = [0; 8];
            word[..chunk.len()].copy_from_slice(chunk);
            self.write_u64(u64::from_le_bytes(word));
        }
    }

    fn write_u64(&mut self, n: u64) {
        self.0 = (self.0 ^ n).wrapping_mul(0xf135_7aea_2e62_a9c5);
    }

    fn write_usize(&mut self, n: usize) {
        self.write_u64(n as u64);
    }

    fn finish(&self) -> u64 {
        self.0.rotate_left(26)
    }
}

type Set<T> = HashSet<T, BuildHasherDefault<Mix>>;
type Map<K, V> = HashMap<K, V, BuildHasherDefault<Mix>>;

/// With room for so many, so that it need not grow.
fn set<T>(room: usize) -> Set<T> {
    Set::with_capacity_and_hasher(room, BuildHasherDefault::default())
}

fn number(node: u64) -> u64 {
    node >> 38
}

fn class(node: u64) -> u64 {
    node >> 32 & 63
}

impl Graph {
    /// The node's edges of the name stand together: where.
    fn run(&self, number: u64, name: u64) -> std::ops::Range<usize> {
        let run = number << 6 | name;
        let start = self.edges.partition_point(|k| k >> 16 < run);
        let count = self.edges[start..].iter().take_while(|&k| k >> 16 == run).count();
        start..start + count
    }

    /// A new node with the largest number, and an edge for each name and target.
    fn push(&mut self, class: u64, arms: impl ExactSizeIterator<Item = (u64, u64)>) -> Result<(), Refusal> {
        let new = self.nodes.last().map_or(0, |&n| number(n) + 1);
        if self.nodes.len() >= NODES {
            return Err(Refusal::NodesFull);
        }
        if new >= NUMBERS as u64 {
            return Err(Refusal::NumbersFull);
        }
        if self.edges.len() + arms.len() > EDGES {
            return Err(Refusal::EdgesFull);
        }
        self.nodes.push(new << 38 | class << 32);
        self.edges.extend(arms.map(|(name, target)| new << 22 | name << 16 | target));
        Ok(())
    }
}

/// Rules are applied to a graph under a scheme, of which only the functional names matter here: bit n stands for name n.
pub fn apply(graph: &Graph, functional: u64, rule: &Rule) -> Result<Applied, Refusal> {
    let on = On { graph, matcher: Matcher::new(graph, &rule.pattern) };
    match &rule.action {
        Action::PatternOnly => Ok(on.pattern_only()),
        Action::AddNode { class, arms } => on.add_node(*class, arms),
        Action::AddEdges(puts) => on.add_edges(functional, puts),
        Action::DeleteNode(node) => Ok(on.delete_node(*node)),
        Action::DeleteEdges(cuts) => Ok(on.delete_edges(cuts)),
        Action::Abstract { node, class, a, b } => on.abstracted(*node, *class, *a, *b),
    }
}

/// A matching, as places.
type Placed = [u16; LEVELS];

struct On<'a> {
    graph: &'a Graph,
    matcher: Matcher<'a>,
}

impl On<'_> {
    /// Hands every matching, as places, to `visit`; how many they are.
    fn visit(&self, mut visit: impl FnMut(&Placed)) -> u64 {
        let mut matchings = 0;
        self.matcher.visit_all(&mut |placed| {
            matchings += 1;
            visit(placed);
        });
        matchings
    }

    /// The number of a pattern node's image.
    fn image(&self, placed: &Placed, node: usize) -> u64 {
        number(self.graph.nodes[placed[node] as usize])
    }

    /// The key of an edge's image.
    fn edge(&self, placed: &Placed, (source, name, target): Between) -> u64 {
        self.image(placed, source) << 22 | name << 16 | self.image(placed, target)
    }

    fn pattern_only(&self) -> Applied {
        let matchings = self.visit(|placed| {
            black_box(placed);
        });
        Applied { graph: self.graph.clone(), matchings }
    }

    fn add_node(&self, of: u64, arms: &[(u64, usize)]) -> Result<Applied, Refusal> {
        let target = |node: u64, name: u64| self.graph.edges[self.graph.run(number(node), name)].first().map(|k| k & 65535);
        let mut served = set(NODES);
        for &node in self.graph.nodes.iter().filter(|&&node| class(node) == of) {
            served.extend(arms.iter().try_fold(0, |key, &(name, _)| Some(key << 16 | target(node, name)?)));
        }
        let mut graph = self.graph.clone();
        let mut grown = Ok(());
        let matchings = self.visit(|placed| {
            let image = |node: usize| self.image(placed, node);
            if grown.is_ok() && served.insert(arms.iter().fold(0, |key, &(_, node)| key << 16 | image(node))) {
                grown = graph.push(of, arms.iter().map(|&(name, node)| (name, image(node))));
            }
        });
        grown.map(|()| Applied { graph, matchings })
    }

    fn add_edges(&self, functional: u64, puts: &[Between]) -> Result<Applied, Refusal> {
        let mut edges = self.graph.edges.clone();
        let mut present = set(EDGES + 1);
        present.extend(edges.iter().copied());
        let matchings = self.visit(|placed| {
            for &put in puts {
                let key = self.edge(placed, put);
                if edges.len() <= EDGES && present.insert(key) {
                    edges.push(key);
                }
            }
        });
        if edges.len() > EDGES {
            return Err(Refusal::EdgesFull);
        }
        edges.sort_unstable();
        let clash = edges.windows(2).find(|w| w[0] >> 16 == w[1] >> 16 && functional >> (w[0] >> 16 & 63) & 1 == 1);
        match clash {
            Some(w) => Err(Refusal::FunctionalClash(w[0] >> 22)),
            None => Ok(Applied { graph: Graph { nodes: self.graph.nodes.clone(), edges }, matchings }),
        }
    }

    fn delete_node(&self, node: usize) -> Applied {
        let mut gone = [0u64; NUMBERS / 64];
        let matchings = self.visit(|placed| {
            let n = self.image(placed, node);
            gone[n as usize / 64] |= 1 << (n % 64);
        });
        let stays = |n: u64| gone[n as usize / 64] >> (n % 64) & 1 == 0;
        let graph = Graph {
            nodes: self.graph.nodes.iter().copied().filter(|&k| stays(number(k))).collect(),
            edges: self.graph.edges.iter().copied().filter(|&k| stays(k >> 22) && stays(k & 65535)).collect(),
        };
        Applied { graph, matchings }
    }

    fn delete_edges(&self, cuts: &[Between]) -> Applied {
        let mut gone = set(self.graph.edges.len());
        let matchings = self.visit(|placed| {
            for &cut in cuts {
                gone.insert(self.edge(placed, cut));
            }
        });
        let edges = self.graph.edges.iter().copied().filter(|k| !gone.contains(k)).collect();
        Applied { graph: Graph { nodes: self.graph.nodes.clone(), edges }, matchings }
    }

    fn abstracted(&self, node: usize, of: u64, a: u64, b: u64) -> Result<Applied, Refusal> {
        let mut images = [false; NODES];
        let matchings = self.visit(|placed| images[placed[node] as usize] = true);
        let old = self.graph;
        let targets: Vec<u16> = old.edges.iter().map(|&k| k as u16).collect();
        // Images rise, so groups come by their smallest members.
        let mut groups: Vec<Vec<u16>> = Vec::new();
        let mut group_of: Map<&[u16], usize> = Map::with_capacity_and_hasher(old.nodes.len(), BuildHasherDefault::default());
        for (&image, _) in old.nodes.iter().zip(images).filter(|(_, is)| *is) {
            let group = *group_of.entry(&targets[old.run(number(image), a)]).or_insert(groups.len());
            if group == groups.len() {
                groups.push(Vec::new());
            }
            groups[group].push(number(image) as u16);
        }
        let mut served: Set<&[u16]> = set(old.nodes.len());
        served.extend(old.nodes.iter().filter(|&&n| class(n) == of).map(|&n| &targets[old.run(number(n), b)]));
        let mut graph = old.clone();
        for group in groups.iter().filter(|g| !served.contains(g.as_slice())) {
            graph.push(of, group.iter().map(|&n| (b, n as u64)))?;
        }
        Ok(Applied { graph, matchings })
    }
}
