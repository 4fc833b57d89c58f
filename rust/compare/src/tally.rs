//! What a run has reached, as a table, and what it has missed.

use std::collections::BTreeMap;
use std::fmt;

use crate::agreed::Agreed;
use crate::calls::{Answer, Call, Kind};
use crate::limits::Limit;
use crate::sights::sights;
use crate::text::{self, AT_THE_END, DRAWING_KEYS, NO_KEY, RULE_KEYS};

/// The table of document 01 has fourteen refusals.
const REFUSALS: usize = 14;

/// The operations have codes 0 to 5.
const CODES: usize = 6;

/// The lines at which each of the refusals 1 to 5 can be given.
const LINES: [(u64, &[&str]); 5] = [
    (
        1,
        &["class", "name", "may", "node", "edge", "op", "pnode", "pedge", "make", "arm", "put", "drop", "cut", "group", NO_KEY, AT_THE_END],
    ),
    (2, &["may", "node", "edge", "pnode", "pedge", "arm", "put", "cut"]),
    (3, &["may", "node", "edge", "pnode", "pedge", "make", "arm", "put", "drop", "cut", "group"]),
    (4, &["may", "node", "edge", "pnode", "pedge"]),
    (5, &["make", "arm", "put", "cut", "group"]),
];

/// The counts of a run.
#[derive(Clone, Debug)]
pub struct Tally {
    /// How many lists were run.
    pub lists: u64,
    accepted: [u64; Kind::ALL.len()],
    refused: [[u64; REFUSALS]; Kind::ALL.len()],
    applied: [u64; CODES],
    listed: [u64; CODES],
    lines: BTreeMap<(u64, &'static str), u64>,
    limits: Vec<u64>,
}

impl Default for Tally {
    fn default() -> Tally {
        Tally {
            lists: 0,
            accepted: Default::default(),
            refused: Default::default(),
            applied: [0; CODES],
            listed: [0; CODES],
            lines: BTreeMap::new(),
            limits: vec![0; Limit::ALL.len()],
        }
    }
}

impl Tally {
    /// Counts a call on which both engines agreed.
    pub fn count(&mut self, before: &Agreed, call: &Call, answer: &Answer, after: &Agreed) {
        let kind = call.kind() as usize;
        if let Answer::Refused(number, returned) = *answer {
            self.refused[kind][number as usize - 1] += 1;
            if let (1..=5, Some(text)) = (number, call.text()) {
                *self.lines.entry((number, text::key_at(text, returned))).or_default() += 1;
            }
        } else {
            self.accepted[kind] += 1;
        }
        if let (true, Some(rule)) = (answer.accepted(), call.rule()) {
            let counts = if call.kind() == Kind::Apply { &mut self.applied } else { &mut self.listed };
            counts[code(rule)] += 1;
        }
        sights(before, call, answer, after).into_iter().for_each(|limit| self.reach(limit));
    }

    /// Counts a limit that was reached.
    pub fn reach(&mut self, limit: Limit) {
        self.limits[limit as usize] += 1;
    }

    /// How many calls were made on each engine.
    pub fn calls(&self) -> u64 {
        self.accepted.iter().chain(self.refused.iter().flatten()).sum()
    }

    /// What was never reached though it can be.
    pub fn missing(&self) -> Vec<String> {
        let mut missing = Vec::new();
        for kind in Kind::ALL {
            let word = kind.word();
            if self.accepted[kind as usize] == 0 {
                missing.push(format!("{word} accepted"));
            }
            let never = |number: &&u64| self.refused[kind as usize][**number as usize - 1] == 0;
            missing.extend(kind.refusals().iter().filter(never).map(|number| format!("{word} refused with {number}")));
        }
        for code in 0..CODES {
            missing.extend((self.applied[code] == 0).then(|| format!("operation {code} applied")));
            missing.extend((self.listed[code] == 0).then(|| format!("operation {code} listed")));
        }
        for (number, keys) in LINES {
            let never = keys.iter().filter(|key| !self.lines.contains_key(&(number, key)));
            missing.extend(never.map(|key| format!("refusal {number} at {key}")));
        }
        let never = Limit::ALL.iter().filter(|limit| self.limits[**limit as usize] == 0);
        missing.extend(never.map(|limit| limit.words().to_string()));
        missing
    }

    fn calls_table(&self, out: &mut fmt::Formatter<'_>) -> fmt::Result {
        write!(out, "{:8}{:>9}", "call", "accepted")?;
        (1..=REFUSALS).try_for_each(|number| write!(out, "{number:>8}"))?;
        writeln!(out)?;
        for kind in Kind::ALL {
            write!(out, "{:8}{:>9}", kind.word(), self.accepted[kind as usize])?;
            for number in 1..=REFUSALS {
                let count = self.refused[kind as usize][number - 1];
                let can = kind.refusals().contains(&(number as u64));
                let cell = if can || count > 0 { count.to_string() } else { "-".to_string() };
                write!(out, "{cell:>8}")?;
            }
            writeln!(out)?;
        }
        write!(out, "{:8}{:>9}", "all", self.accepted.iter().sum::<u64>())?;
        for number in 0..REFUSALS {
            write!(out, "{:>8}", self.refused.iter().map(|row| row[number]).sum::<u64>())?;
        }
        writeln!(out)
    }

    fn codes_table(&self, out: &mut fmt::Formatter<'_>) -> fmt::Result {
        write!(out, "{:17}", "operation")?;
        (0..CODES).try_for_each(|code| write!(out, "{code:>8}"))?;
        for (word, counts) in [("applied", &self.applied), ("first and after", &self.listed)] {
            write!(out, "\n{word:17}")?;
            counts.iter().try_for_each(|count| write!(out, "{count:>8}"))?;
        }
        writeln!(out)
    }

    fn lines_table(&self, out: &mut fmt::Formatter<'_>) -> fmt::Result {
        write!(out, "{:17}", "refusal at")?;
        LINES.iter().try_for_each(|(number, _)| write!(out, "{number:>8}"))?;
        writeln!(out)?;
        for key in DRAWING_KEYS.into_iter().chain(RULE_KEYS).chain([NO_KEY, AT_THE_END]) {
            write!(out, "{key:17}")?;
            for (number, keys) in LINES {
                let count = self.lines.get(&(number, key)).copied().unwrap_or(0);
                let cell = if keys.contains(&key) || count > 0 { count.to_string() } else { "-".to_string() };
                write!(out, "{cell:>8}")?;
            }
            writeln!(out)?;
        }
        Ok(())
    }
}

/// The code of a rule that was accepted.
fn code(rule: &[u8]) -> usize {
    let code = text::read(rule).first().and_then(|line| line.numbers.first().copied());
    code.map_or(0, |code| code as usize)
}

impl fmt::Display for Tally {
    fn fmt(&self, out: &mut fmt::Formatter<'_>) -> fmt::Result {
        self.calls_table(out)?;
        writeln!(out)?;
        self.codes_table(out)?;
        writeln!(out)?;
        self.lines_table(out)?;
        writeln!(out)?;
        for limit in Limit::ALL {
            writeln!(out, "{:48}{:>9}", limit.words(), self.limits[*limit as usize])?;
        }
        Ok(())
    }
}
