//! Times the calls of the proved engine and of the second engine, in one run, and prints the tables
//! of docs/BENCHMARKS.md. A ratio is the proved engine's time over the second engine's: below 1 the
//! proved engine is faster.

#![forbid(unsafe_code)]

mod engines;
mod kitchens;
mod timing;

use engines::Engine;
use kitchens::{free, kitchen, ADDED, LISTED, RULES};
use std::hint::black_box;
use std::time::{Duration, Instant};
use timing::{row, timed, Row};

/// Nodes and edges of the three sizes.
const SIZES: [(&str, usize, usize); 3] = [("small", 10, 16), ("middle", 60, 120), ("full", 256, 512)];
/// How many copies there are at the most, and so how many undos in a row.
const COPIES: u32 = 8;
/// Calls that take well below a microsecond are timed so many at a time.
const BATCH: u32 = 16;

type Proved = hengvoat::Session;
type Second = second_engine::Engine;

fn opened<E: Engine>(file: &str) -> E {
    let mut engine = E::new();
    assert!(engine.open(file.as_bytes()), "the file opens");
    engine
}

fn time_open<'a, E: Engine + 'a>(file: &'a str) -> impl FnMut() -> (Duration, u32) + 'a {
    let mut engine = E::new();
    move || {
        let (_, took) = timed(|| engine.open(file.as_bytes()));
        engine.close();
        (took, 1)
    }
}

fn time_apply<'a, E: Engine + 'a>(file: &str, rule: &'a str) -> impl FnMut() -> (Duration, u32) + 'a {
    let mut engine: E = opened(file);
    move || {
        let (_, took) = timed(|| engine.apply(rule.as_bytes()));
        engine.undo();
        (took, 1)
    }
}

fn time_undo<E: Engine>(file: &str) -> impl FnMut() -> (Duration, u32) {
    let mut engine: E = opened(file);
    move || {
        for _ in 0..COPIES {
            let _ = engine.apply(RULES[0].text.as_bytes());
        }
        let (_, took) = timed(|| (0..COPIES).all(|_| engine.undo()));
        (took, COPIES)
    }
}

fn time_first<'a, E: Engine + 'a>(file: &str, rule: &'a str) -> impl FnMut() -> (Duration, u32) + 'a {
    let engine: E = opened(file);
    move || {
        let (_, took) = timed(|| (0..BATCH).all(|_| engine.first(black_box(rule.as_bytes()))));
        (took, BATCH)
    }
}

/// A whole listing, divided by its calls: first, and after on each matching.
fn time_listing<'a, E: Engine + 'a>(file: &str, rule: &'a str) -> impl FnMut() -> (Duration, u32) + 'a {
    let engine: E = opened(file);
    move || {
        let (count, took) = timed(|| engine.listing(rule.as_bytes()));
        (took, count as u32 + 1)
    }
}

fn time_save<E: Engine>(file: &str) -> impl FnMut() -> (Duration, u32) {
    let engine: E = opened(file);
    let mut buffer = vec![0; hengvoat::FILE_MOST];
    move || {
        let (_, took) = timed(|| (0..BATCH).all(|_| engine.save(black_box(&mut buffer)) > 0));
        (took, BATCH)
    }
}

/// Both engines answer the rule alike, or the run stops; how many matchings it has.
fn matchings(file: &str, rule: &str) -> u64 {
    let proved = Engine::apply(&mut opened::<Proved>(file), rule.as_bytes());
    let second = Engine::apply(&mut opened::<Second>(file), rule.as_bytes());
    assert_eq!(proved, second, "both answer alike");
    proved.expect("the rule is accepted")[0]
}

fn print_head(first: &str) {
    println!("\n| {first} | matchings | proved, µs | second, µs | proved, calls/s | second, calls/s | ratio |");
    println!("|---|---|---|---|---|---|---|");
}

fn print_row(title: &str, matchings: Option<u64>, row: &Row) {
    let matchings = matchings.map_or(String::new(), |m| m.to_string());
    println!(
        "| {title} | {matchings} | {:.2} | {:.2} | {:.0} | {:.0} | {:.2} |",
        row.proved / 1e3,
        row.second / 1e3,
        1e9 / row.proved,
        1e9 / row.second,
        row.ratio()
    );
}

/// A rule that adds gets a kitchen that is full only after it, where the kitchen would be full before.
fn print_applies(nodes: usize, edges: usize) {
    for rule in &RULES {
        let full = nodes + ADDED > hengvoat::NODES_MOST || edges + ADDED > hengvoat::EDGES_MOST;
        let left_out = if rule.adds && full { ADDED } else { 0 };
        let file = &kitchen(nodes - left_out, edges - left_out);
        let found = matchings(file, rule.text);
        let row = row(time_apply::<Proved>(file, rule.text), time_apply::<Second>(file, rule.text));
        print_row(rule.title, Some(found), &row);
    }
}

fn print_size(title: &str, nodes: usize, edges: usize) {
    let file = &kitchen(nodes, edges);
    print_head(&format!("{title}: {nodes} nodes, {edges} edges, {} bytes", file.len()));
    print_row("open", None, &row(time_open::<Proved>(file), time_open::<Second>(file)));
    print_applies(nodes, edges);
    let listed = matchings(file, LISTED);
    print_row(
        "first",
        Some(listed),
        &row(time_first::<Proved>(file, LISTED), time_first::<Second>(file, LISTED)),
    );
    print_row(
        "listing, each call",
        Some(listed),
        &row(time_listing::<Proved>(file, LISTED), time_listing::<Second>(file, LISTED)),
    );
    print_row("save", None, &row(time_save::<Proved>(file), time_save::<Second>(file)));
    print_row("undo", None, &row(time_undo::<Proved>(file), time_undo::<Second>(file)));
}

/// Growth with the nodes (two edges to each), and with the edges of 256 nodes.
fn print_growth(title: &str, sizes: &[(usize, usize)]) {
    print_head(title);
    for &(nodes, edges) in sizes {
        let file = &kitchen(nodes, edges);
        let label = |call: &str| format!("{call}, {nodes} nodes, {edges} edges");
        print_row(&label("open"), None, &row(time_open::<Proved>(file), time_open::<Second>(file)));
        let rule = RULES[0].text;
        let found = matchings(file, rule);
        print_row(
            &label("apply 0"),
            Some(found),
            &row(time_apply::<Proved>(file, rule), time_apply::<Second>(file, rule)),
        );
        print_row(&label("save"), None, &row(time_save::<Proved>(file), time_save::<Second>(file)));
    }
}

/// Growth with the matchings: free patterns in a kitchen of 60 nodes.
fn print_matchings() {
    let file = &kitchen(60, 120);
    print_head("middle, free pattern of");
    for cabinets in 0..=4 {
        let rule = free(cabinets);
        let found = matchings(file, &rule);
        let row = row(time_apply::<Proved>(file, &rule), time_apply::<Second>(file, &rule));
        print_row(&format!("{cabinets} cabinets"), Some(found), &row);
    }
}

fn main() {
    let begin = Instant::now();
    for (title, nodes, edges) in SIZES {
        print_size(title, nodes, edges);
    }
    print_growth("nodes", &[(16, 32), (32, 64), (64, 128), (128, 256), (256, 512)]);
    print_growth("edges", &[(256, 0), (256, 128), (256, 256), (256, 384), (256, 512)]);
    print_matchings();
    println!("\nin {:.0} s", begin.elapsed().as_secs_f64());
}
