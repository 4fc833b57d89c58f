//! A call and its answer as data, in the words of the program `replay`.

use std::fmt;

/// The seven calls.
#[derive(Clone, Copy, Debug, PartialEq, Eq)]
pub enum Kind {
    Open,
    Apply,
    Undo,
    Close,
    First,
    After,
    Save,
}

impl Kind {
    /// All of them, in the order of the tally's rows.
    pub const ALL: [Kind; 7] = [Kind::Open, Kind::Apply, Kind::Undo, Kind::Close, Kind::First, Kind::After, Kind::Save];

    /// The word for the call in a script.
    pub fn word(self) -> &'static str {
        match self {
            Kind::Open => "open",
            Kind::Apply => "apply",
            Kind::Undo => "undo",
            Kind::Close => "close",
            Kind::First => "first",
            Kind::After => "after",
            Kind::Save => "save",
        }
    }

    /// The refusals that the table of document 01 leaves open to the call.
    pub fn refusals(self) -> &'static [u64] {
        match self {
            Kind::Open => &[1, 2, 3, 4, 7],
            Kind::Apply => &[1, 2, 3, 4, 5, 6, 9, 10, 11, 12],
            Kind::Undo => &[6, 8],
            Kind::Close => &[6],
            Kind::First => &[1, 2, 3, 4, 5, 6],
            Kind::After => &[1, 2, 3, 4, 5, 6, 14],
            Kind::Save => &[6, 13],
        }
    }
}

/// A call with all that it is given.
#[derive(Clone, Debug, PartialEq, Eq)]
pub enum Call {
    Open(Vec<u8>),
    Apply(Vec<u8>),
    Undo,
    Close,
    First(Vec<u8>),
    After(Vec<u8>, Vec<u64>),
    /// Save into a buffer of this length.
    Save(usize),
}

/// The longest buffer that a script can lend to save.
pub const LONGEST_BUFFER: usize = 65536;

impl Call {
    /// Which call it is.
    pub fn kind(&self) -> Kind {
        match self {
            Call::Open(_) => Kind::Open,
            Call::Apply(_) => Kind::Apply,
            Call::Undo => Kind::Undo,
            Call::Close => Kind::Close,
            Call::First(_) => Kind::First,
            Call::After(..) => Kind::After,
            Call::Save(_) => Kind::Save,
        }
    }

    /// The text that the call is given.
    pub fn text(&self) -> Option<&Vec<u8>> {
        match self {
            Call::Open(text) | Call::Apply(text) | Call::First(text) => Some(text),
            Call::After(text, _) => Some(text),
            Call::Undo | Call::Close | Call::Save(_) => None,
        }
    }

    /// The rule text that the call is given.
    pub fn rule(&self) -> Option<&Vec<u8>> {
        self.text().filter(|_| self.kind() != Kind::Open)
    }

    /// The same call with another text.
    pub fn with_text(&self, text: Vec<u8>) -> Call {
        match self {
            Call::Open(_) => Call::Open(text),
            Call::Apply(_) => Call::Apply(text),
            Call::First(_) => Call::First(text),
            Call::After(_, list) => Call::After(text, list.clone()),
            Call::Undo | Call::Close | Call::Save(_) => self.clone(),
        }
    }

    /// The call as the program `replay` reads it.
    fn write(&self, script: &mut Vec<u8>) {
        let mut line = self.kind().word().to_string();
        if let Some(text) = self.text() {
            line.push_str(&format!("={}", text.len()));
        }
        if let Call::After(_, list) = self {
            list.iter().for_each(|number| line.push_str(&format!(",{number}")));
        }
        if let Call::Save(length) = self {
            line.push_str(&format!("={length}"));
        }
        line.push('\n');
        script.extend_from_slice(line.as_bytes());
        script.extend_from_slice(self.text().map_or(&[], Vec::as_slice));
    }
}

/// The calls as a script for the program `replay`.
pub fn script(calls: &[Call]) -> Vec<u8> {
    let mut script = Vec::new();
    calls.iter().for_each(|call| call.write(&mut script));
    script
}

/// What an engine answers.
#[derive(Clone, Debug, PartialEq, Eq)]
pub enum Answer {
    /// Accepted, with the report.
    Done(Vec<u64>),
    /// A matching.
    Matching(Vec<u64>),
    /// Accepted, and there is no such matching.
    None,
    /// Declined, with the table's number and what is returned.
    Refused(u64, u64),
    /// The engine ended in a panic, which no call may do.
    Broken,
}

impl Answer {
    /// Whether the call was accepted.
    pub fn accepted(&self) -> bool {
        !matches!(self, Answer::Refused(..) | Answer::Broken)
    }
}

impl fmt::Display for Answer {
    fn fmt(&self, out: &mut fmt::Formatter<'_>) -> fmt::Result {
        match self {
            Answer::Done(report) => write!(out, "done={}", commas(report)),
            Answer::Matching(list) => write!(out, "matching={}", commas(list)),
            Answer::None => write!(out, "none"),
            Answer::Refused(number, returned) => write!(out, "refused={number},{returned}"),
            Answer::Broken => write!(out, "panic"),
        }
    }
}

/// The numbers with a comma between.
pub fn commas(numbers: &[u64]) -> String {
    let words: Vec<String> = numbers.iter().map(u64::to_string).collect();
    words.join(",")
}
