//! Times the engine against Rust on the same instances, in one run: its walk over all matchings of a pattern, and the five operations.
//! Prints a row for each: both times, and their ratio.

mod applying;
mod baseline;
mod operations;

use baseline::{Graph, Matcher, Pattern};
use std::fmt::Write;
use std::hint::black_box;
use std::time::Instant;

#[repr(C)]
struct Counted {
    refusal: u64,
    returned: u64,
    matchings: u64,
}

extern "C" {
    fn count_matchings(file: *const u8, file_len: usize, rule: *const u8, rule_len: usize, times: u64) -> Counted;
}

/// An instance with its scheme: kinds of classes and names by their number, nodes (number, class, value), edges. Permitted are the triples of its
/// edges, and `more`.
struct Drawing {
    classes: Vec<u64>,
    names: Vec<u64>,
    nodes: Vec<(u64, u64, u64)>,
    edges: Vec<(u64, u64, u64)>,
    more: Vec<(u64, u64, u64)>,
}

impl Drawing {
    fn file(&self) -> String {
        let mut s = String::new();
        for (i, kind) in self.classes.iter().enumerate() {
            writeln!(s, "class={i},{kind}").unwrap();
        }
        for (i, kind) in self.names.iter().enumerate() {
            writeln!(s, "name={i},{kind}").unwrap();
        }
        let class = |number: u64| self.nodes.iter().find(|n| n.0 == number).unwrap().1;
        let mut may: Vec<_> = self.edges.iter().map(|e| (class(e.0), e.1, class(e.2))).collect();
        may.extend(&self.more);
        may.sort();
        may.dedup();
        for (a, n, b) in may {
            writeln!(s, "may={a},{n},{b}").unwrap();
        }
        for (i, c, v) in &self.nodes {
            writeln!(s, "node={i},{c},{v}").unwrap();
        }
        for (a, n, b) in &self.edges {
            writeln!(s, "edge={a},{n},{b}").unwrap();
        }
        s
    }

    fn graph(&self) -> Graph {
        Graph {
            nodes: self.nodes.iter().map(|n| n.0 << 38 | n.1 << 32 | n.2).collect(),
            edges: self.edges.iter().map(|e| e.0 << 22 | e.1 << 16 | e.2).collect(),
        }
    }
}

fn rule(code: u64, p: &Pattern) -> String {
    let mut s = format!("op={code}\n");
    for (class, value) in &p.nodes {
        writeln!(s, "pnode={class},{},{}", value.is_some() as u64, value.unwrap_or(0)).unwrap();
    }
    for (a, n, b) in &p.edges {
        writeln!(s, "pedge={a},{n},{b}").unwrap();
    }
    s
}

/// One object class and one multivalued name; node i has the number 3 i + 1 and edges to what `to` gives.
fn drawing(order: u64, to: impl Fn(u64) -> Vec<u64>) -> Drawing {
    let number = |i: u64| 3 * i + 1;
    let mut edges: Vec<_> = (0..order)
        .flat_map(|i| to(i).into_iter().map(move |j| (number(i), 0, number(j))))
        .collect();
    edges.sort();
    edges.dedup();
    Drawing {
        classes: vec![0],
        names: vec![1],
        nodes: (0..order).map(|i| (number(i), 0, 0)).collect(),
        edges,
        more: Vec::new(),
    }
}

fn pattern(nodes: usize, edges: &[(usize, usize)]) -> Pattern {
    let mut edges: Vec<_> = edges.iter().map(|&(a, b)| (a, 0, b)).collect();
    edges.sort();
    Pattern { nodes: vec![(0, None); nodes], edges }
}

/// Cabinets in runs of ten: next to each other, with a width that they share, and doors.
fn kitchen(cabinets: u64) -> Drawing {
    let (cabinet, door) = (|i: u64| i, |i: u64| 1000 + i);
    let widths = [300, 400, 450, 500, 600];
    let mut nodes: Vec<_> = (0..cabinets).map(|i| (cabinet(i), 0, 0)).collect();
    nodes.extend((0..cabinets).map(|i| (door(i), 1, 0)));
    nodes.extend(widths.iter().enumerate().map(|(k, w)| (2000 + k as u64, 2, *w)));
    let mut edges = Vec::new();
    for i in 0..cabinets {
        if i % 10 != 9 && i + 1 < cabinets {
            edges.push((cabinet(i), 0, cabinet(i + 1)));
        }
        edges.push((cabinet(i), 1, 2000 + i * i % 7 % 5));
        edges.push((cabinet(i), 2, door(i)));
        if i % 2 == 0 {
            edges.push((cabinet(i), 2, door((i + 1) % cabinets)));
        }
    }
    edges.sort();
    Drawing { classes: vec![0, 0, 1], names: vec![0, 0, 1], nodes, edges, more: Vec::new() }
}

/// A round takes some 4 ms, and the least of so many rounds counts.
const ROUND: f64 = 4e6;
const ROUNDS: usize = 25;
const ROUNDS_OF_ONE: usize = 5;

/// Calls to be timed: `call(n)` makes n of them and takes `besides` nanoseconds for something else.
struct Timed<'a> {
    besides: f64,
    call: &'a dyn Fn(u64),
}

/// The least time of one call of each, in nanoseconds. Rounds of the one and of the other follow each other.
fn least<const N: usize>(timed: [Timed; N]) -> [f64; N] {
    let time = |t: &Timed, times: u64| {
        let start = Instant::now();
        (t.call)(times);
        start.elapsed().as_nanos() as f64 - t.besides
    };
    let times = timed.each_ref().map(|t| (ROUND / time(t, 1).max(100.0)).clamp(1.0, 20000.0) as u64);
    let mut least = [f64::MAX; N];
    for round in 0..ROUNDS {
        for i in (0..N).filter(|&i| round < ROUNDS_OF_ONE || times[i] > 1) {
            least[i] = least[i].min(time(&timed[i], times[i]) / times[i] as f64);
        }
    }
    least
}

/// The least times of one call of each. A call of the engine reads file and rule once, however often it does the rest, which is taken off.
fn both(engine: &dyn Fn(u64), rust: &dyn Fn(u64)) -> (f64, f64) {
    let reading = |times: u64| (0..times).for_each(|_| engine(0));
    let [read] = least([Timed { besides: 0.0, call: &reading }]);
    let [ours, theirs] = least([Timed { besides: read, call: engine }, Timed { besides: 0.0, call: rust }]);
    (ours, theirs)
}

fn row(name: &str, order: usize, drawing: &Drawing, pattern: &Pattern) -> (f64, f64) {
    let (file, rule, graph) = (drawing.file(), rule(0, pattern), drawing.graph());
    let engine = |times: u64| unsafe { count_matchings(file.as_ptr(), file.len(), rule.as_ptr(), rule.len(), times) };
    let counted = engine(1);
    assert_eq!((counted.refusal, counted.returned), (0, 0), "{name} is refused");
    let baseline = |times: u64| {
        let mut count = 0u64;
        for _ in 0..times {
            count = 0;
            Matcher::new(black_box(&graph), black_box(pattern)).visit_all(&mut |m| {
                black_box(m);
                count += 1;
            });
        }
        count
    };
    assert_eq!(counted.matchings, baseline(1), "{name}: the two count differently");
    let (ours, theirs) = both(
        &|times| {
            black_box(engine(times));
        },
        &|times| {
            black_box(baseline(times));
        },
    );
    println!(
        "| {name} | {order} | {} | {:.1} | {:.1} | {:.2} |",
        counted.matchings,
        ours / 1e3,
        theirs / 1e3,
        ours / theirs
    );
    (counted.matchings as f64, ours)
}

/// How matchings and time grow from each size to the next.
fn growth(name: &str, rows: &[(f64, f64)]) -> String {
    let times = |of: fn(&(f64, f64)) -> f64| {
        let steps: Vec<String> = rows.windows(2).map(|w| format!("{:.1}", of(&w[1]) / of(&w[0]).max(1.0))).collect();
        steps.join(", ")
    };
    format!("| {name} | {} | {} |", if rows[0].0 == 0.0 { "none".into() } else { times(|r| r.0) }, times(|r| r.1))
}

fn main() {
    println!("| pattern | nodes | matchings | engine, µs | Rust, µs | ratio |");
    println!("|---|---|---|---|---|---|");
    let path: Vec<_> = (0..5).map(|i| (i, i + 1)).collect();
    let star: Vec<_> = (1..6).map(|i| (0, i)).collect();
    let cycle: Vec<_> = (0..6).map(|i| (i, (i + 1) % 6)).collect();
    let ring = |n: u64| drawing(n, |i| vec![(i + 1) % n, (i + 5) % n]);
    // As many hubs as two edges a node allow.
    let hubs = |n: u64| drawing(n, |i| if i % 6 == 0 && i / 6 < n / 6 { (1..13).map(|k| (i + k) % n).collect() } else { vec![] });
    // Triples in a circle, each node joined with the next triple; the node that is left over is joined with the first two.
    let triples = |n: u64| {
        drawing(n, |i| {
            let own = i / 3 * 3;
            if own + 3 > n { vec![0, 1] } else { vec![own + (i + 1) % 3, (i + 3) % n] }
        })
    };
    // Four layers in a circle: a closed walk has a multiple of 4 edges.
    let layers = |n: u64| {
        drawing(n, |i| {
            let (layer, next) = (n / 4, (i / (n / 4) + 1) % 4 * (n / 4));
            vec![next + i % layer, next + (i + 1) % layer]
        })
    };
    let kinds: [(&str, &dyn Fn(u64) -> Drawing, Pattern); 5] = [
        ("path of 6", &ring, pattern(6, &path)),
        ("3 free nodes", &ring, pattern(3, &[])),
        ("star of 6, hubs of 12", &hubs, pattern(6, &star)),
        ("triangle", &triples, pattern(3, &[(0, 1), (1, 2), (2, 0)])),
        ("6-cycle, none", &layers, pattern(6, &cycle)),
    ];
    let mut grown = Vec::new();
    for (name, drawing, pattern) in &kinds {
        let rows: Vec<_> = [16, 64, 256].iter().map(|&n| row(name, n as usize, &drawing(n), pattern)).collect();
        grown.push(growth(name, &rows));
    }
    // A width, two neighbours that have it, and a door of the second.
    let d = kitchen(60);
    let p = Pattern {
        nodes: vec![(2, None), (0, None), (0, None), (1, None)],
        edges: vec![(1, 0, 2), (1, 1, 0), (2, 1, 0), (2, 2, 3)],
    };
    row("kitchen of 60 cabinets", d.nodes.len(), &d, &p);
    println!("\n| pattern | matchings, 16 to 64 to 256 nodes | time |\n|---|---|---|");
    println!("{}\n", grown.join("\n"));
    applying::table();
}
