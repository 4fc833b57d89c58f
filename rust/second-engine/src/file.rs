//! "Files": the drawing file, read with causes 1 to 4, and written.
//!
//! "Drawing: class=number,kind; name=number,kind; may=class,name,class; node=number,class,value;
//! edge=source,name,target. An object node has value 0. Empty text is an empty drawing."

use crate::drawing::{Drawing, Edge, Node, NodeNumber, MOST_EDGES, MOST_NODES};
use crate::lines;
use crate::refusal::{Cause, Refused};
use crate::scheme::{ClassKind, ClassNumber, NameKind, NameNumber, Scheme, Triple, LARGEST_CLASS, LARGEST_NAME, MOST_TRIPLES};
use std::collections::BTreeSet;
use std::fmt;

/// Reads a drawing file.
pub(crate) fn read(text: &[u8]) -> Result<(Scheme, Drawing), Refused> {
    let mut reader = Reader::default();
    lines::read(text, |line| reader.accept(line))?;
    Ok((reader.scheme, reader.drawing))
}

/// The drawing file of a scheme and a drawing, as a text to be displayed.
pub(crate) struct File<'a> {
    pub(crate) scheme: &'a Scheme,
    pub(crate) drawing: &'a Drawing,
}

impl fmt::Display for File<'_> {
    fn fmt(&self, text: &mut fmt::Formatter) -> fmt::Result {
        for (number, &kind) in &self.scheme.classes {
            writeln!(text, "class={number},{}", kind as u8)?;
        }
        for (number, &kind) in &self.scheme.names {
            writeln!(text, "name={number},{}", kind as u8)?;
        }
        for (source, name, target) in &self.scheme.permitted {
            writeln!(text, "may={source},{name},{target}")?;
        }
        for (number, node) in self.drawing.nodes() {
            writeln!(text, "node={number},{},{}", node.class, node.value)?;
        }
        for edge in self.drawing.edges() {
            writeln!(text, "edge={},{},{}", edge.source, edge.name, edge.target)?;
        }
        Ok(())
    }
}

/// A line in form and in range.
enum Line {
    Class(ClassNumber, ClassKind),
    Name(NameNumber, NameKind),
    May(Triple),
    Node(NodeNumber, Node),
    Edge(Edge),
}

/// Where a line stands among the others: by its key, then by the numbers by which lines of this
/// key rise.
type Place = (u8, [u16; 3]);

impl Line {
    fn parse(line: &[u8]) -> Option<Line> {
        let (key, rest) = lines::key_and_rest(line)?;
        let class = |number| lines::up_to(LARGEST_CLASS, number);
        let name = |number| lines::up_to(LARGEST_NAME, number);
        Some(match key {
            b"class" => {
                let [number, kind] = lines::numbers(rest)?;
                Line::Class(class(number)?, ClassKind::from_number(kind)?)
            }
            b"name" => {
                let [number, kind] = lines::numbers(rest)?;
                Line::Name(name(number)?, NameKind::from_number(kind)?)
            }
            b"may" => {
                let [source, label, target] = lines::numbers(rest)?;
                Line::May((class(source)?, name(label)?, class(target)?))
            }
            b"node" => {
                let [number, of_class, value] = lines::numbers(rest)?;
                let class = class(of_class)?;
                Line::Node(number, Node { class, value })
            }
            b"edge" => {
                let [source, label, target] = lines::numbers(rest)?;
                let name = name(label)?;
                Line::Edge(Edge { source, name, target })
            }
            _ => return None,
        })
    }

    /// "Keys come in this order, repeated keys strictly rising by their numbers (node: by its
    /// number; class, name, arm: by the first number)."
    fn place(&self) -> Place {
        match *self {
            Line::Class(number, _) => (0, [number.into(), 0, 0]),
            Line::Name(number, _) => (1, [number.into(), 0, 0]),
            Line::May((source, name, target)) => (2, [source.into(), name.into(), target.into()]),
            Line::Node(number, _) => (3, [number, 0, 0]),
            Line::Edge(edge) => (4, [edge.source, edge.name.into(), edge.target]),
        }
    }
}

/// What the lines so far have declared.
#[derive(Default)]
struct Reader {
    scheme: Scheme,
    drawing: Drawing,
    last: Option<Place>,
    /// The pairs of class and value that stand in value classes.
    values: BTreeSet<(ClassNumber, u16)>,
}

impl Reader {
    /// Takes the next line, tried for causes 1 to 4 in this order.
    fn accept(&mut self, text: &[u8]) -> Result<(), Cause> {
        let line = Line::parse(text).ok_or(Cause::Form)?;
        // No key stands once only, so turn and order are one question.
        if self.last >= Some(line.place()) {
            return Err(Cause::Form);
        }
        if !self.has_room(&line) {
            return Err(Cause::TooMany);
        }
        if !self.is_declared(&line) {
            return Err(Cause::Undeclared);
        }
        if !self.conforms(&line) {
            return Err(Cause::Conformity);
        }
        self.take(line);
        Ok(())
    }

    /// Cause 2: class and name lines are bounded by their range already.
    fn has_room(&self, line: &Line) -> bool {
        match line {
            Line::Class(..) | Line::Name(..) => true,
            Line::May(_) => self.scheme.permitted.len() < MOST_TRIPLES,
            Line::Node(..) => self.drawing.nodes().len() < MOST_NODES,
            Line::Edge(_) => self.drawing.edges().len() < MOST_EDGES,
        }
    }

    /// Cause 3.
    fn is_declared(&self, line: &Line) -> bool {
        match *line {
            Line::Class(..) | Line::Name(..) => true,
            Line::May((source, name, target)) => {
                self.scheme.has_class(source) && self.scheme.has_name(name) && self.scheme.has_class(target)
            }
            Line::Node(_, node) => self.scheme.has_class(node.class),
            Line::Edge(edge) => {
                self.drawing.nodes().contains_key(&edge.source)
                    && self.scheme.has_name(edge.name)
                    && self.drawing.nodes().contains_key(&edge.target)
            }
        }
    }

    /// Cause 4: "each edge has a permitted triple of classes, no node has two edges of one
    /// functional name, and no two nodes share both class and value in a value class"; besides,
    /// "an object node has value 0" and a may starts at an object class.
    fn conforms(&self, line: &Line) -> bool {
        match *line {
            Line::Class(..) | Line::Name(..) => true,
            Line::May((source, _, _)) => self.scheme.is_object(source),
            Line::Node(_, node) => {
                if self.scheme.is_object(node.class) {
                    node.value == 0
                } else {
                    !self.values.contains(&(node.class, node.value))
                }
            }
            Line::Edge(edge) => {
                let source_has_one = || {
                    let mut targets = self.drawing.targets(edge.source, edge.name, 0);
                    targets.next().is_some()
                };
                self.is_permitted(edge) && !(self.scheme.is_functional(edge.name) && source_has_one())
            }
        }
    }

    fn is_permitted(&self, edge: Edge) -> bool {
        let class_of = |number| self.drawing.nodes().get(number).map(|node| node.class);
        match (class_of(&edge.source), class_of(&edge.target)) {
            (Some(source), Some(target)) => self.scheme.permits(source, edge.name, target),
            _ => false,
        }
    }

    fn take(&mut self, line: Line) {
        self.last = Some(line.place());
        match line {
            Line::Class(number, kind) => {
                self.scheme.classes.insert(number, kind);
            }
            Line::Name(number, kind) => {
                self.scheme.names.insert(number, kind);
            }
            Line::May(triple) => {
                self.scheme.permitted.insert(triple);
            }
            Line::Node(number, node) => {
                if !self.scheme.is_object(node.class) {
                    self.values.insert((node.class, node.value));
                }
                self.drawing.insert_node(number, node);
            }
            Line::Edge(edge) => self.drawing.insert_edge(edge),
        }
    }
}
