//! The rows for the five operations: a drawing and a rule of each kind in three sizes, the largest as large as the limits allow.

use crate::baseline::{Graph, Pattern};
use crate::operations::{apply, Action, Refusal, Rule, EDGES, NODES};
use crate::{both, rule as rule_text, Drawing};
use std::fmt::Write;
use std::hint::black_box;

/// What `apply_rule` of the engine returns: the refusal and what comes with it, the five counts, the instance afterwards.
#[repr(C)]
struct AppliedOver {
    refusal: u64,
    returned: u64,
    counts: [u64; 5],
    nodes: [u64; NODES],
    order: usize,
    edges: [u64; EDGES],
    size: usize,
}

extern "C" {
    fn apply_rule(file: *const u8, file_len: usize, rule: *const u8, rule_len: usize, times: u64) -> AppliedOver;
}

const CABINET: u64 = 0;
const DOOR: u64 = 1;
const WALL: u64 = 2;
const UNIT: u64 = 3;
const MARK: u64 = 4;
const CLASSES: [u64; 5] = [0, 0, 0, 0, 1];

const NEXT: u64 = 0;
const AT: u64 = 1;
const MARKED: u64 = 2;
const ARMS: [u64; 4] = [3, 4, 5, 6];
const HAS: u64 = 7;
const HOLDS: u64 = 8;
const OVER: u64 = 9;
const NAMES: [u64; 10] = [0, 0, 0, 0, 0, 0, 0, 1, 1, 1];

impl Rule {
    fn text(&self) -> String {
        let code = match self.action {
            Action::PatternOnly => 0,
            Action::AddNode { .. } => 1,
            Action::AddEdges(_) => 2,
            Action::DeleteNode(_) => 3,
            Action::DeleteEdges(_) => 4,
            Action::Abstract { .. } => 5,
        };
        let mut s = rule_text(code, &self.pattern);
        match &self.action {
            Action::PatternOnly => {}
            Action::AddNode { class, arms } => {
                writeln!(s, "make={class}").unwrap();
                arms.iter().for_each(|(name, node)| writeln!(s, "arm={name},{node}").unwrap());
            }
            Action::AddEdges(puts) => puts.iter().for_each(|(a, n, b)| writeln!(s, "put={a},{n},{b}").unwrap()),
            Action::DeleteNode(node) => writeln!(s, "drop={node}").unwrap(),
            Action::DeleteEdges(cuts) => cuts.iter().for_each(|(a, n, b)| writeln!(s, "cut={a},{n},{b}").unwrap()),
            Action::Abstract { node, class, a, b } => writeln!(s, "group={node},{class},{a},{b}").unwrap(),
        }
        s
    }
}

/// A rule, and a drawing to which it is applied.
struct Row {
    name: &'static str,
    drawing: Drawing,
    rule: Rule,
}

fn row(name: &'static str, drawing: Drawing, pattern: Pattern, action: Action) -> Row {
    Row { name, drawing, rule: Rule { pattern, action } }
}

/// Times a row and prints it. The five counts, or the refusal, and the instance afterwards must be equal.
fn time(Row { name, drawing, rule }: &Row) {
    let (file, text, graph) = (drawing.file(), rule.text(), drawing.graph());
    let functional = (0..).zip(&drawing.names).map(|(n, kind)| (1 - kind) << n).sum();
    let engine = |times: u64| unsafe { apply_rule(file.as_ptr(), file.len(), text.as_ptr(), text.len(), times) };
    let ours = engine(1);
    let theirs = apply(&graph, functional, rule);
    let (expected, after): (_, &Graph) = match &theirs {
        Ok(applied) => {
            let new = &applied.graph;
            let more = |a: usize, b: usize| a.saturating_sub(b) as u64;
            let added = [more(new.nodes.len(), graph.nodes.len()), more(new.edges.len(), graph.edges.len())];
            let removed = [more(graph.nodes.len(), new.nodes.len()), more(graph.edges.len(), new.edges.len())];
            ((0, 0, [applied.matchings, added[0], added[1], removed[0], removed[1]]), new)
        }
        Err(Refusal::NodesFull) => ((9, 0, [0; 5]), &graph),
        Err(Refusal::NumbersFull) => ((10, 0, [0; 5]), &graph),
        Err(Refusal::EdgesFull) => ((11, 0, [0; 5]), &graph),
        Err(Refusal::FunctionalClash(node)) => ((12, *node, [0; 5]), &graph),
    };
    assert_eq!((ours.refusal, ours.returned, ours.counts), expected, "{name}: the two answer differently");
    assert!(ours.nodes[..ours.order] == after.nodes && ours.edges[..ours.size] == after.edges, "{name}: the two differ");
    let (engine, rust) = both(
        &|times| {
            black_box(engine(times));
        },
        &|times| {
            for _ in 0..times {
                let _ = black_box(apply(black_box(&graph), functional, black_box(rule)));
            }
        },
    );
    let [matchings, nodes, edges, lost_nodes, lost_edges] = ours.counts;
    let change = match ours.refusal {
        0 if nodes + edges > 0 => format!("{matchings} | +{nodes}, +{edges}"),
        0 if lost_nodes + lost_edges > 0 => format!("{matchings} | -{lost_nodes}, -{lost_edges}"),
        0 => format!("{matchings} | none"),
        refusal => format!("| refusal {refusal}"),
    };
    println!(
        "| {name} | {}, {} | {change} | {:.1} | {:.1} | {:.2} |",
        graph.nodes.len(),
        graph.edges.len(),
        engine / 1e3,
        rust / 1e3,
        engine / rust
    );
}

/// So many nodes of each class, one class after the other; the node at place i has the number 3 i + 1, and a mark its place among the marks as value.
/// Edges are given between places, which the classes' first places help to tell.
fn drawing(classes: &[(u64, usize)], edges: impl Fn(&[usize]) -> Vec<(usize, u64, usize)>, more: &[(u64, u64, u64)]) -> Drawing {
    let number = |place: usize| 3 * place as u64 + 1;
    let mut nodes = Vec::new();
    let mut starts = Vec::new();
    for &(class, count) in classes {
        starts.push(nodes.len());
        for i in 0..count {
            nodes.push((number(nodes.len()), class, if class == MARK { i as u64 } else { 0 }));
        }
    }
    let mut edges: Vec<_> = edges(&starts).into_iter().map(|(a, n, b)| (number(a), n, number(b))).collect();
    edges.sort();
    Drawing { classes: CLASSES.to_vec(), names: NAMES.to_vec(), nodes, edges, more: more.to_vec() }
}

fn pattern(nodes: &[u64], edges: &[(usize, u64, usize)]) -> Pattern {
    Pattern { nodes: nodes.iter().map(|&class| (class, None)).collect(), edges: edges.to_vec() }
}

/// Edges from each cabinet to the next one, in runs of ten.
fn runs(cabinets: usize) -> impl Iterator<Item = (usize, u64, usize)> {
    (0..cabinets - 1).filter(|i| i % 10 != 9).map(|i| (i, NEXT, i + 1))
}

/// Cabinets with one or two doors each, and a mark at each door, every third door the one that rules ask for.
fn doors(size: usize) -> Drawing {
    let count = size / 2 - 1;
    let edges = |at: &[usize]| {
        let (door, mark) = (at[1], at[2]);
        let own = (0..count).map(|i| (i, HAS, door + i));
        let shared = (0..count - 1).step_by(2).map(|i| (i, HAS, door + i + 1));
        let marks = (0..count).map(|i| (door + i, MARKED, mark + (i % 3).min(1)));
        runs(count).chain(own).chain(shared).chain(marks).collect()
    };
    drawing(&[(CABINET, count), (DOOR, count), (MARK, 2)], edges, &[])
}

/// Cabinets in a circle, each with an edge to the next and one to the fifth: so many paths of six as 32 for each cabinet.
fn circle(cabinets: usize, more: &[(u64, u64, u64)]) -> Drawing {
    let edges = |_: &[usize]| (0..cabinets).flat_map(|i| [1, 5].map(|k| (i, OVER, (i + k) % cabinets))).collect();
    drawing(&[(CABINET, cabinets)], edges, more)
}

fn path() -> Vec<(usize, u64, usize)> {
    (0..5).map(|i| (i, OVER, i + 1)).collect()
}

fn path_of_6() -> Pattern {
    pattern(&[CABINET; 6], &path())
}

fn pattern_only(size: usize) -> Vec<Row> {
    let of_next = pattern(&[CABINET, CABINET, DOOR], &[(0, NEXT, 1), (1, HAS, 2)]);
    vec![row("pattern only: doors of the next", doors(size), of_next, Action::PatternOnly)]
}

fn node_additions(size: usize) -> Vec<Row> {
    // As many cabinets and walls as leave room for a filler at each cabinet; every fourth has one.
    let walls = size / 16;
    let count = (size - walls) / 2;
    let old = count.div_ceil(4);
    let edges = |at: &[usize]| {
        let (wall, filler) = (at[1], at[2]);
        let walls = (0..count).map(|i| (i, AT, wall + i % walls));
        runs(count).chain(walls).chain((0..old).map(|k| (filler + k, ARMS[0], 4 * k))).collect()
    };
    let at_walls = drawing(&[(CABINET, count), (WALL, walls), (UNIT, old)], edges, &[]);
    let may = ARMS.map(|arm| (UNIT, arm, CABINET));
    let beside = drawing(&[(CABINET, size / 2)], |_| runs(size / 2).collect(), &may);
    // 225 new nodes at most: the square of 15 cabinets.
    let free = drawing(&[(CABINET, size.isqrt() - 1)], |_| vec![], &may);
    let to = |nodes: &[usize]| Action::AddNode { class: UNIT, arms: ARMS.into_iter().zip(nodes.iter().copied()).collect() };
    vec![
        row("node addition: at each cabinet, 1 arm", at_walls, pattern(&[CABINET, WALL], &[(0, AT, 1)]), to(&[0])),
        row("node addition: between neighbours, 2 arms", beside, pattern(&[CABINET; 2], &[(0, NEXT, 1)]), to(&[0, 1])),
        row("node addition: for each two, 2 arms", free, pattern(&[CABINET; 2], &[]), to(&[0, 1])),
        row("node addition: paths of 6, 1 arm", circle(size / 2, &may), path_of_6(), to(&[0])),
        row("node addition: paths of 6, 4 arms", circle(size, &may), path_of_6(), to(&[2, 3, 4, 5])),
    ]
}

fn edge_additions(size: usize) -> Vec<Row> {
    let may = [(CABINET, OVER, CABINET)];
    let ring = || drawing(&[(CABINET, size)], |_| (0..size).map(|i| (i, NEXT, (i + 1) % size)).collect(), &may);
    let two = || pattern(&[CABINET; 3], &[(0, NEXT, 1), (1, NEXT, 2)]);
    // 484 new edges at most: the square of 22 cabinets.
    let free = drawing(&[(CABINET, (2 * size).isqrt())], |_| vec![], &may);
    let along = Action::AddEdges(path()[..4].to_vec());
    vec![
        row("edge addition: to the next but one", ring(), two(), Action::AddEdges(vec![(0, OVER, 2)])),
        row("edge addition: to the next but one, a clash", ring(), two(), Action::AddEdges(vec![(0, NEXT, 2)])),
        row("edge addition: from each to each", free, pattern(&[CABINET; 2], &[]), Action::AddEdges(vec![(1, OVER, 0)])),
        row("edge addition: paths of 6, 4 edges, all there", circle(size, &[]), path_of_6(), along),
    ]
}

fn node_deletions(size: usize) -> Vec<Row> {
    let mut marked = pattern(&[DOOR, MARK], &[(0, MARKED, 1)]);
    marked.nodes[1].1 = Some(0);
    vec![
        row("node deletion: marked doors", doors(size), marked, Action::DeleteNode(0)),
        row("node deletion: every node", circle(size, &[]), pattern(&[CABINET], &[]), Action::DeleteNode(0)),
        row("node deletion: paths of 6", circle(size, &[]), path_of_6(), Action::DeleteNode(0)),
    ]
}

fn edge_deletions(size: usize) -> Vec<Row> {
    let mut marked = pattern(&[CABINET, DOOR, MARK], &[(0, HAS, 1), (1, MARKED, 2)]);
    marked.nodes[2].1 = Some(0);
    let every = pattern(&[CABINET; 2], &[(0, OVER, 1)]);
    vec![
        row("edge deletion: to marked doors", doors(size), marked, Action::DeleteEdges(vec![(0, HAS, 1)])),
        row("edge deletion: every edge", circle(size, &[]), every, Action::DeleteEdges(vec![(0, OVER, 1)])),
        row("edge deletion: paths of 6, 4 edges", circle(size, &[]), path_of_6(), Action::DeleteEdges(path()[..4].to_vec())),
    ]
}

fn abstractions(size: usize) -> Vec<Row> {
    let may = [(UNIT, HOLDS, CABINET)];
    let side = size.isqrt();
    let (groups, count) = (side / 2, size - side);
    let few = drawing(&[(CABINET, count), (DOOR, groups)], |at| (0..count).map(|i| (i, HAS, at[1] + i % groups)).collect(), &may);
    // Two of so many doors for each cabinet, no two cabinets alike.
    let pairs: Vec<_> = (0..side).flat_map(|a| (0..a).map(move |b| (a, b))).collect();
    let edges = |at: &[usize]| (0..).zip(&pairs).flat_map(|(i, &(a, b))| [(i, HAS, at[1] + a), (i, HAS, at[1] + b)]).collect();
    let many = drawing(&[(CABINET, pairs.len()), (DOOR, side)], edges, &may);
    let one = drawing(&[(CABINET, size - 1)], |_| runs(size - 1).collect(), &may);
    // Every unit is an image, alone in its group, and has another one's group.
    let edges = |_: &[usize]| (0..size).flat_map(|i| [(i, HAS, (i + 1) % size), (i, HOLDS, size - 1 - i)]).collect();
    let all = drawing(&[(UNIT, size)], edges, &[]);
    let group = || Action::Abstract { node: 0, class: UNIT, a: HAS, b: HOLDS };
    vec![
        row("abstraction: by their door, few groups", few, pattern(&[CABINET], &[]), group()),
        row("abstraction: by their two doors, each alone", many, pattern(&[CABINET], &[]), group()),
        row("abstraction: no doors, one group", one, pattern(&[CABINET], &[]), group()),
        row("abstraction: every unit alone, all there", all, pattern(&[UNIT], &[]), group()),
    ]
}

pub fn table() {
    println!("| operation | nodes, edges | matchings | change | engine, µs | Rust, µs | ratio |");
    println!("|---|---|---|---|---|---|---|");
    for rows in [pattern_only, node_additions, edge_additions, node_deletions, edge_deletions, abstractions] {
        let sizes = [16, 64, 256].map(rows);
        for i in 0..sizes[0].len() {
            sizes.iter().for_each(|rows| time(&rows[i]));
        }
    }
}
