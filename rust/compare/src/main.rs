//! Compares the two engines on random lists of calls.
//!
//! `compare [--lists N] [--seed S] [--minutes M]` runs the lists of the seeds S, S + 1, .. and prints what they reached.
//! `compare --list SEED` prints the list of one seed as a script for the program `replay`.

#![forbid(unsafe_code)]

use std::io::{self, Write};
use std::panic::{catch_unwind, AssertUnwindSafe};
use std::process::ExitCode;
use std::time::{Duration, Instant};

use compare::calls::script;
use compare::drive::run;
use compare::engines::{Hengvoat, Second};
use compare::report::report;
use compare::shorten::shorten;
use compare::tally::Tally;

/// How many lists are run when nothing else is said: about two minutes.
const LISTS: u64 = 40_000;

/// The seed of the first list when nothing else is said.
const SEED: u64 = 1;

/// After so many lists each a line on standard error tells how far the run is: an engine may end the whole program.
const PROGRESS: u64 = 5000;

const USAGE: &str = "compare [--lists N] [--seed S] [--minutes M], or compare --list SEED";

/// What the arguments ask for.
struct Order {
    seed: u64,
    lists: u64,
    time: Option<Duration>,
    print: bool,
}

impl Order {
    fn read(mut words: impl Iterator<Item = String>) -> Option<Order> {
        let mut order = Order { seed: SEED, lists: LISTS, time: None, print: false };
        while let Some(word) = words.next() {
            let number = words.next()?.parse().ok()?;
            match word.as_str() {
                "--lists" => order.lists = number,
                "--seed" => order.seed = number,
                "--minutes" => order.time = Some(Duration::from_secs(number.saturating_mul(60))),
                "--list" => (order.seed, order.print) = (number, true),
                _ => return None,
            }
        }
        Some(order)
    }
}

fn main() -> ExitCode {
    let Some(order) = Order::read(std::env::args().skip(1)) else {
        eprintln!("{USAGE}");
        return ExitCode::from(2);
    };
    let done = if order.print { print_list(order.seed) } else { compare_lists(&order) };
    match done {
        Ok(true) => ExitCode::SUCCESS,
        Ok(false) => ExitCode::FAILURE,
        Err(error) => {
            eprintln!("compare: {error}");
            ExitCode::from(2)
        }
    }
}

/// Prints the list of one seed, to its end or to the first difference.
fn print_list(seed: u64) -> io::Result<bool> {
    let calls = run(&Hengvoat::new(), &Second::new(), seed, &mut Tally::default());
    let calls = calls.unwrap_or_else(|difference| difference.calls);
    io::stdout().write_all(&script(&calls))?;
    Ok(true)
}

fn compare_lists(order: &Order) -> io::Result<bool> {
    let (left, right) = (Hengvoat::new(), Second::new());
    let (start, mut tally) = (Instant::now(), Tally::default());
    let more = |lists| order.time.map_or(lists < order.lists, |time| start.elapsed() < time);
    while more(tally.lists) {
        let seed = order.seed.wrapping_add(tally.lists);
        if tally.lists % PROGRESS == 0 {
            eprintln!("compare: {} lists so far, seed {seed} is next", tally.lists);
        }
        let Ok(done) = catch_unwind(AssertUnwindSafe(|| run(&left, &right, seed, &mut tally))) else {
            println!("compare: the comparison itself broke off at seed {seed}");
            return Ok(false);
        };
        if let Err(difference) = done {
            let shorter = shorten(&left, &right, difference.clone());
            io::stdout().write_all(&report(seed, &difference, &shorter))?;
            return Ok(false);
        }
    }
    conclude(&tally)
}

/// Prints the tally and the verdict; a run that has not reached everything has failed.
fn conclude(tally: &Tally) -> io::Result<bool> {
    let missing = tally.missing();
    let mut out = io::stdout().lock();
    writeln!(out, "{tally}")?;
    for missed in &missing {
        writeln!(out, "never reached: {missed}")?;
    }
    let verdict = match missing.len() {
        0 => "no difference".to_string(),
        count => format!("failed, {count} of what is to be reached was not"),
    };
    writeln!(out, "compare: {} lists, {} calls, {verdict}", tally.lists, tally.calls())?;
    Ok(missing.is_empty())
}
