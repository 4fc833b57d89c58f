//! "Scheme, drawing, pattern": the drawing.
//!
//! The nodes and the edges are each kept twice: once in the order in which they are listed, once
//! in the order in which the matcher asks for them. The four sets change together, through the
//! methods here only.

use crate::refusal::{Cause, Refused};
use crate::scheme::{ClassNumber, NameNumber};
use std::collections::{BTreeMap, BTreeSet};

/// "A node has a number 0..65535."
pub(crate) type NodeNumber = u16;

/// "At most 256 nodes."
pub(crate) const MOST_NODES: usize = 256;
/// "An edge is (source number, name, target number), at most 512."
pub(crate) const MOST_EDGES: usize = 512;

/// What a node has besides its number.
#[derive(Clone, Copy, Debug, PartialEq, Eq)]
pub(crate) struct Node {
    pub(crate) class: ClassNumber,
    /// "An object node has value 0."
    pub(crate) value: u16,
}

/// An edge. The order of the fields makes the order of edges, "by rising triple".
#[derive(Clone, Copy, Debug, PartialEq, Eq, PartialOrd, Ord)]
pub(crate) struct Edge {
    pub(crate) source: NodeNumber,
    pub(crate) name: NameNumber,
    pub(crate) target: NodeNumber,
}

/// Nodes and edges.
#[derive(Clone, Debug, Default)]
pub(crate) struct Drawing {
    nodes: BTreeMap<NodeNumber, Node>,
    /// The nodes once more, to find those of one class.
    by_class: BTreeSet<(ClassNumber, NodeNumber)>,
    edges: BTreeSet<Edge>,
    /// The edges once more as (target, name, source), to find those into one node.
    by_target: BTreeSet<(NodeNumber, NameNumber, NodeNumber)>,
}

impl Drawing {
    /// The nodes by rising number.
    pub(crate) fn nodes(&self) -> &BTreeMap<NodeNumber, Node> {
        &self.nodes
    }

    /// The edges by rising triple.
    pub(crate) fn edges(&self) -> &BTreeSet<Edge> {
        &self.edges
    }

    /// The nodes of a class whose number is at least `least`, rising.
    pub(crate) fn nodes_of(&self, class: ClassNumber, least: NodeNumber) -> impl Iterator<Item = NodeNumber> + '_ {
        self.by_class
            .range((class, least)..=(class, NodeNumber::MAX))
            .map(|&(_, node)| node)
    }

    /// The targets of a node's edges of one name, from `least` on, rising.
    pub(crate) fn targets(&self, source: NodeNumber, name: NameNumber, least: NodeNumber) -> impl Iterator<Item = NodeNumber> + '_ {
        let edge_to = |target| Edge { source, name, target };
        self.edges.range(edge_to(least)..=edge_to(NodeNumber::MAX)).map(|edge| edge.target)
    }

    /// The sources of the edges of one name into a node, from `least` on, rising.
    pub(crate) fn sources(&self, target: NodeNumber, name: NameNumber, least: NodeNumber) -> impl Iterator<Item = NodeNumber> + '_ {
        self.by_target
            .range((target, name, least)..=(target, name, NodeNumber::MAX))
            .map(|&(_, _, source)| source)
    }

    /// Puts a node in. The number must be free.
    pub(crate) fn insert_node(&mut self, number: NodeNumber, node: Node) {
        self.nodes.insert(number, node);
        self.by_class.insert((node.class, number));
    }

    /// Puts an edge in. One that stands already isn't put in twice.
    pub(crate) fn insert_edge(&mut self, edge: Edge) {
        if self.edges.insert(edge) {
            self.by_target.insert((edge.target, edge.name, edge.source));
        }
    }

    /// Takes an edge out, if it stands.
    pub(crate) fn remove_edge(&mut self, edge: Edge) {
        if self.edges.remove(&edge) {
            self.by_target.remove(&(edge.target, edge.name, edge.source));
        }
    }

    /// Takes a node out, "with every edge at" it, be it source or target.
    pub(crate) fn remove_node(&mut self, number: NodeNumber) {
        let Some(node) = self.nodes.remove(&number) else {
            return;
        };
        self.by_class.remove(&(node.class, number));
        for edge in self.edges_at(number) {
            self.remove_edge(edge);
        }
    }

    /// The edges from and into a node. An edge from the node to itself is listed twice.
    fn edges_at(&self, number: NodeNumber) -> Vec<Edge> {
        let first = (NameNumber::MIN, NodeNumber::MIN);
        let last = (NameNumber::MAX, NodeNumber::MAX);
        let edge_from = |(name, target)| Edge {
            source: number,
            name,
            target,
        };
        let outward = self.edges.range(edge_from(first)..=edge_from(last));
        let inward = self.by_target.range((number, first.0, first.1)..=(number, last.0, last.1));
        outward
            .copied()
            .chain(inward.map(|&(target, name, source)| Edge { source, name, target }))
            .collect()
    }

    /// Adds a new node of an object class with edges to these targets, or refuses: "for new nodes
    /// 9, 10, 11 are tried at each new node in turn". No two of the edges may be the same.
    ///
    /// "A new node's number is the largest number standing plus 1, or 0 in an empty drawing."
    pub(crate) fn add_new_node(&mut self, class: ClassNumber, edges: &[(NameNumber, NodeNumber)]) -> Result<(), Refused> {
        if self.nodes.len() >= MOST_NODES {
            return Err(Cause::NodeLimit.refused());
        }
        let number = match self.nodes.last_key_value() {
            None => 0,
            Some((largest, _)) => largest.checked_add(1).ok_or_else(|| Cause::NumberLimit.refused())?,
        };
        if self.edges.len() + edges.len() > MOST_EDGES {
            return Err(Cause::EdgeLimit.refused());
        }
        self.insert_node(number, Node { class, value: 0 });
        for &(name, target) in edges {
            self.insert_edge(Edge {
                source: number,
                name,
                target,
            });
        }
        Ok(())
    }
}
