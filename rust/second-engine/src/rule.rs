//! "Files": the rule text, read with causes 1 to 5 in the open scheme.
//!
//! "Rule: op=code, code 0..5; pnode=class,given,value (given 0 or 1; value 0 when given is 0);
//! pedge=node,name,node. Then for 1 make=class and arm=name,node; 2 put=node,name,node; 3
//! drop=node; 4 cut=node,name,node; 5 group=p,K,a,b; 0, a pattern only, has no more."

use crate::lines;
use crate::matching::{Pattern, PatternEdge, PatternNode};
use crate::refusal::{Cause, Refused};
use crate::scheme::{ClassNumber, NameNumber, Scheme, LARGEST_CLASS, LARGEST_NAME};

/// "A pattern has 0..6 nodes ..
const MOST_PATTERN_NODES: usize = 6;
/// .. and 0..8 edges."
const MOST_PATTERN_EDGES: usize = 8;
/// "0..4 arms"
const MOST_ARMS: usize = 4;
/// "1..4 edges" are put or cut.
const MOST_ACTION_EDGES: usize = 4;
/// "op=code, code 0..5"
const LARGEST_CODE: u8 = 5;
/// "A pattern node's number is written 0..5."
const LARGEST_PATTERN_NODE: u8 = 5;

/// An accepted rule.
#[derive(Clone, Debug)]
pub(crate) struct Rule {
    pub(crate) pattern: Pattern,
    pub(crate) action: Action,
}

/// What a rule does with the matchings of its pattern.
#[derive(Clone, Debug)]
pub(crate) enum Action {
    /// Op 0: "a pattern only".
    Nothing,
    /// Op 1, node addition.
    AddNode { class: ClassNumber, arms: Vec<Arm> },
    /// Op 2, edge addition.
    AddEdges(Vec<PatternEdge>),
    /// Op 3, node deletion.
    DeleteNode(usize),
    /// Op 4, edge deletion.
    DeleteEdges(Vec<PatternEdge>),
    /// Op 5, abstraction.
    Group(Group),
}

/// An arm of a new node: "a functional name and a pattern node".
#[derive(Clone, Copy, Debug)]
pub(crate) struct Arm {
    pub(crate) name: NameNumber,
    pub(crate) node: usize,
}

/// An abstraction: "pattern node p, object class K, multivalued names a and b".
#[derive(Clone, Copy, Debug)]
pub(crate) struct Group {
    /// p
    pub(crate) node: usize,
    /// K
    pub(crate) class: ClassNumber,
    /// a
    pub(crate) compared: NameNumber,
    /// b
    pub(crate) joining: NameNumber,
}

impl Rule {
    /// Reads a rule text in the open scheme.
    pub(crate) fn read(text: &[u8], scheme: &Scheme) -> Result<Rule, Refused> {
        let mut reader = Reader {
            scheme,
            last: None,
            op: None,
            pattern: Pattern::default(),
            action: None,
        };
        let lines = lines::read(text, |line| reader.accept(line))?;
        match reader.action {
            Some(action) => Ok(Rule {
                pattern: reader.pattern,
                action,
            }),
            // "missing at the end (then one past the last line)"
            None => Err(Cause::Form.returning(lines + 1)),
        }
    }
}

/// A line in form and in range.
enum Line {
    Op(u8),
    Pnode(PatternNode),
    Pedge(PatternEdge),
    Make(ClassNumber),
    Arm(Arm),
    Put(PatternEdge),
    Drop(usize),
    Cut(PatternEdge),
    Group(Group),
}

/// Where a line stands among the others: by its key, then by the numbers by which lines of this
/// key rise.
type Place = (u8, [usize; 3]);

fn class(number: u16) -> Option<ClassNumber> {
    lines::up_to(LARGEST_CLASS, number)
}

fn name(number: u16) -> Option<NameNumber> {
    lines::up_to(LARGEST_NAME, number)
}

fn pattern_node(number: u16) -> Option<usize> {
    lines::up_to(LARGEST_PATTERN_NODE, number).map(usize::from)
}

fn pattern_edge(numbers: &[u8]) -> Option<PatternEdge> {
    let [source, label, target] = lines::numbers(numbers)?;
    Some(PatternEdge {
        source: pattern_node(source)?,
        name: name(label)?,
        target: pattern_node(target)?,
    })
}

impl Line {
    fn parse(line: &[u8]) -> Option<Line> {
        let (key, rest) = lines::key_and_rest(line)?;
        Some(match key {
            b"op" => {
                let [code] = lines::numbers(rest)?;
                Line::Op(lines::up_to(LARGEST_CODE, code)?)
            }
            b"pnode" => {
                let [of_class, given, value] = lines::numbers(rest)?;
                let value = match (given, value) {
                    (0, 0) => None,
                    (1, value) => Some(value),
                    // This is also "pnode with given 0 and a value".
                    _ => return None,
                };
                Line::Pnode(PatternNode {
                    class: class(of_class)?,
                    value,
                })
            }
            b"pedge" => Line::Pedge(pattern_edge(rest)?),
            b"make" => {
                let [number] = lines::numbers(rest)?;
                Line::Make(class(number)?)
            }
            b"arm" => {
                let [label, node] = lines::numbers(rest)?;
                Line::Arm(Arm {
                    name: name(label)?,
                    node: pattern_node(node)?,
                })
            }
            b"put" => Line::Put(pattern_edge(rest)?),
            b"drop" => {
                let [node] = lines::numbers(rest)?;
                Line::Drop(pattern_node(node)?)
            }
            b"cut" => Line::Cut(pattern_edge(rest)?),
            b"group" => {
                let [node, of_class, compared, joining] = lines::numbers(rest)?;
                Line::Group(Group {
                    node: pattern_node(node)?,
                    class: class(of_class)?,
                    compared: name(compared)?,
                    joining: name(joining)?,
                })
            }
            _ => return None,
        })
    }

    /// "Keys come in this order, repeated keys strictly rising by their numbers (.. class, name,
    /// arm: by the first number; pnode: free). Op, make, drop and group stand once": these have
    /// one place whatever their numbers. A pnode is placed by its own number, one past those
    /// above.
    fn place(&self, pattern_nodes: usize) -> Place {
        let triple = |edge: &PatternEdge| [edge.source, edge.name.into(), edge.target];
        match self {
            Line::Op(_) => (0, [0; 3]),
            Line::Pnode(_) => (1, [pattern_nodes, 0, 0]),
            Line::Pedge(edge) => (2, triple(edge)),
            Line::Make(_) | Line::Drop(_) | Line::Group(_) => (3, [0; 3]),
            Line::Put(edge) | Line::Cut(edge) => (3, triple(edge)),
            Line::Arm(arm) => (4, [arm.name.into(), 0, 0]),
        }
    }
}

/// What the lines so far have said.
struct Reader<'a> {
    scheme: &'a Scheme,
    last: Option<Place>,
    op: Option<u8>,
    pattern: Pattern,
    /// None while a line is missing that the operation needs.
    action: Option<Action>,
}

impl Reader<'_> {
    /// Takes the next line, tried for causes 1 to 5 in this order.
    fn accept(&mut self, text: &[u8]) -> Result<(), Cause> {
        let line = Line::parse(text).ok_or(Cause::Form)?;
        let place = line.place(self.pattern.nodes.len());
        if !self.is_in_turn(&line) || self.last >= Some(place) {
            return Err(Cause::Form);
        }
        if !self.has_room(&line) {
            return Err(Cause::TooMany);
        }
        if !self.is_declared(&line) {
            return Err(Cause::Undeclared);
        }
        if !self.conforms(&line) {
            return Err(Cause::Conformity);
        }
        if !self.can_act(&line) {
            return Err(Cause::Action);
        }
        self.take(line);
        self.last = Some(place);
        Ok(())
    }

    /// Cause 1: whether the key belongs to the operation, and all that has to stand above it does.
    /// That keys come in their order and not too often is seen by their place.
    fn is_in_turn(&self, line: &Line) -> bool {
        match line {
            Line::Op(_) => self.op.is_none(),
            Line::Pnode(_) | Line::Pedge(_) => self.op.is_some(),
            Line::Make(_) => self.op == Some(1),
            Line::Arm(_) => matches!(self.action, Some(Action::AddNode { .. })),
            Line::Put(_) => self.op == Some(2),
            Line::Drop(_) => self.op == Some(3),
            Line::Cut(_) => self.op == Some(4),
            Line::Group(_) => self.op == Some(5),
        }
    }

    /// Cause 2.
    fn has_room(&self, line: &Line) -> bool {
        match (line, &self.action) {
            (Line::Pnode(_), _) => self.pattern.nodes.len() < MOST_PATTERN_NODES,
            (Line::Pedge(_), _) => self.pattern.edges.len() < MOST_PATTERN_EDGES,
            (Line::Arm(_), Some(Action::AddNode { arms, .. })) => arms.len() < MOST_ARMS,
            (Line::Put(_), Some(Action::AddEdges(edges))) | (Line::Cut(_), Some(Action::DeleteEdges(edges))) => {
                edges.len() < MOST_ACTION_EDGES
            }
            _ => true,
        }
    }

    /// Cause 3: classes and names in the open scheme, pattern nodes above.
    fn is_declared(&self, line: &Line) -> bool {
        let has_class = |class| self.scheme.has_class(class);
        let has_name = |name| self.scheme.has_name(name);
        let has_node = |node| node < self.pattern.nodes.len();
        match *line {
            Line::Op(_) => true,
            Line::Pnode(node) => has_class(node.class),
            Line::Make(class) => has_class(class),
            Line::Arm(arm) => has_name(arm.name) && has_node(arm.node),
            Line::Pedge(edge) | Line::Put(edge) | Line::Cut(edge) => has_node(edge.source) && has_name(edge.name) && has_node(edge.target),
            Line::Drop(node) => has_node(node),
            Line::Group(group) => has_node(group.node) && has_class(group.class) && has_name(group.compared) && has_name(group.joining),
        }
    }

    /// Cause 4: the pattern "conforms as a drawing does, but a value may be left out".
    fn conforms(&self, line: &Line) -> bool {
        match *line {
            Line::Pnode(node) => node.value.is_none() || !(self.scheme.is_object(node.class) || self.pattern.nodes.contains(&node)),
            Line::Pedge(edge) => {
                let source_has_one = || {
                    let mut others = self.pattern.edges.iter();
                    others.any(|other| other.source == edge.source && other.name == edge.name)
                };
                self.is_permitted(edge) && !(self.scheme.is_functional(edge.name) && source_has_one())
            }
            _ => true,
        }
    }

    /// Cause 5: "wrong kind of class or name, triple not permitted (for group: K, b, class of p),
    /// cut of an edge not in the pattern". That edges put don't clash is no question of the text.
    fn can_act(&self, line: &Line) -> bool {
        match (line, &self.action) {
            (&Line::Make(class), _) => self.scheme.is_object(class),
            (Line::Arm(arm), Some(Action::AddNode { class, .. })) => {
                self.scheme.is_functional(arm.name) && self.scheme.permits(*class, arm.name, self.class_of(arm.node))
            }
            (&Line::Put(edge), _) => self.is_permitted(edge),
            (Line::Cut(edge), _) => self.pattern.edges.contains(edge),
            (Line::Group(group), _) => {
                self.scheme.is_object(group.class)
                    && self.scheme.is_multivalued(group.compared)
                    && self.scheme.is_multivalued(group.joining)
                    && self.scheme.permits(group.class, group.joining, self.class_of(group.node))
            }
            _ => true,
        }
    }

    /// The class of a pattern node, which must be one of those above.
    fn class_of(&self, node: usize) -> ClassNumber {
        self.pattern.nodes[node].class
    }

    fn is_permitted(&self, edge: PatternEdge) -> bool {
        let (source, target) = (self.class_of(edge.source), self.class_of(edge.target));
        self.scheme.permits(source, edge.name, target)
    }

    fn take(&mut self, line: Line) {
        match (line, &mut self.action) {
            (Line::Op(code), action) => {
                self.op = Some(code);
                if code == 0 {
                    *action = Some(Action::Nothing);
                }
            }
            (Line::Pnode(node), _) => self.pattern.nodes.push(node),
            (Line::Pedge(edge), _) => self.pattern.edges.push(edge),
            (Line::Arm(arm), Some(Action::AddNode { arms, .. })) => arms.push(arm),
            (Line::Put(edge), Some(Action::AddEdges(edges))) | (Line::Cut(edge), Some(Action::DeleteEdges(edges))) => edges.push(edge),
            (Line::Make(class), action) => {
                *action = Some(Action::AddNode { class, arms: Vec::new() });
            }
            (Line::Put(edge), action) => *action = Some(Action::AddEdges(vec![edge])),
            (Line::Drop(node), action) => *action = Some(Action::DeleteNode(node)),
            (Line::Cut(edge), action) => *action = Some(Action::DeleteEdges(vec![edge])),
            (Line::Group(group), action) => *action = Some(Action::Group(group)),
            // An arm without a make is out of turn.
            (Line::Arm(_), _) => {}
        }
    }
}
