//! A scheme with a drawing, as the test writes it and as it reads it back from a saved file.

use std::collections::{BTreeMap, BTreeSet};

use crate::text::{self, Line};

/// Class, name, class; or node, name, node.
pub type Triple = [u64; 3];

/// The most permitted triples of a scheme.
pub const MAYS: usize = 256;

/// The most nodes of a drawing.
pub const NODES: usize = 256;

/// The most edges of a drawing.
pub const EDGES: usize = 512;

/// The largest number and the largest value of a node.
pub const TOP: u64 = 65535;

/// How many classes, and how many names, can be declared.
pub const DECLARED: u64 = 64;

/// A scheme and a drawing.
#[derive(Clone, Debug, Default, PartialEq, Eq)]
pub struct Kitchen {
    /// The kind of each class: 0 object, 1 value.
    pub classes: BTreeMap<u64, u64>,
    /// The kind of each name: 0 functional, 1 multivalued.
    pub names: BTreeMap<u64, u64>,
    /// The permitted triples.
    pub mays: BTreeSet<Triple>,
    /// Class and value of each node.
    pub nodes: BTreeMap<u64, (u64, u64)>,
    /// The edges.
    pub edges: BTreeSet<Triple>,
}

impl Kitchen {
    /// What a file says that an engine has opened or saved.
    pub fn read(file: &[u8]) -> Kitchen {
        let mut kitchen = Kitchen::default();
        for Line { key, numbers } in text::read(file) {
            match (key, &numbers[..]) {
                ("class", &[number, kind]) => kitchen.classes.extend([(number, kind)]),
                ("name", &[number, kind]) => kitchen.names.extend([(number, kind)]),
                ("may", &[source, name, target]) => kitchen.mays.extend([[source, name, target]]),
                ("node", &[number, class, value]) => kitchen.nodes.extend([(number, (class, value))]),
                ("edge", &[source, name, target]) => kitchen.edges.extend([[source, name, target]]),
                _ => {}
            }
        }
        kitchen
    }

    /// The lines of the drawing file.
    pub fn lines(&self) -> Vec<Line> {
        let classes = self.classes.iter().map(|(&n, &kind)| Line::new("class", [n, kind]));
        let names = self.names.iter().map(|(&n, &kind)| Line::new("name", [n, kind]));
        let mays = self.mays.iter().map(|&may| Line::new("may", may));
        let nodes = self.nodes.iter();
        let nodes = nodes.map(|(&n, &(class, value))| Line::new("node", [n, class, value]));
        let edges = self.edges.iter().map(|&edge| Line::new("edge", edge));
        classes.chain(names).chain(mays).chain(nodes).chain(edges).collect()
    }

    /// The drawing file.
    pub fn text(&self) -> Vec<u8> {
        text::write(&self.lines())
    }

    /// Whether the class is declared and an object class.
    pub fn is_object(&self, class: u64) -> bool {
        self.classes.get(&class) == Some(&0)
    }

    /// Whether the name is declared and functional.
    pub fn is_functional(&self, name: u64) -> bool {
        self.names.get(&name) == Some(&0)
    }

    /// The object classes.
    pub fn objects(&self) -> Vec<u64> {
        let classes = self.classes.keys().copied();
        classes.filter(|&class| self.is_object(class)).collect()
    }

    /// The multivalued names.
    pub fn multivalued(&self) -> Vec<u64> {
        let names = self.names.keys().copied();
        names.filter(|&name| !self.is_functional(name)).collect()
    }

    /// The nodes of a class.
    pub fn of_class(&self, class: u64) -> Vec<u64> {
        let nodes = self.nodes.iter().filter(|(_, node)| node.0 == class);
        nodes.map(|(&number, _)| number).collect()
    }

    /// How many nodes a class has.
    pub fn count(&self, class: u64) -> usize {
        self.nodes.values().filter(|node| node.0 == class).count()
    }

    /// Where the edges of this name from this node lead.
    pub fn targets(&self, node: u64, name: u64) -> BTreeSet<u64> {
        let edges = self.edges.range([node, name, 0]..=[node, name, u64::MAX]);
        edges.map(|edge| edge[2]).collect()
    }

    /// Whether the drawing stays in conformity with one edge more, which need not be new.
    pub fn takes(&self, edge: Triple) -> bool {
        let [from, name, to] = edge;
        let class = |node| self.nodes.get(&node).map(|node: &(u64, u64)| node.0);
        let (Some(source), Some(target)) = (class(from), class(to)) else {
            return false;
        };
        let free = !self.is_functional(name) || self.targets(from, name).iter().all(|&old| old == to);
        free && self.mays.contains(&[source, name, target])
    }
}
