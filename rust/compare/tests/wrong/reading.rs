//! The faults of reading texts, and of what is told about them.

use compare::calls::{Answer, Call, Kind};
use compare::engines::Engine;
use compare::text;

use super::{Fault, Wrong};

impl Wrong {
    /// The call as this engine takes it.
    pub(super) fn read(&self, call: &Call) -> Call {
        let Some(text) = call.text() else {
            return call.clone();
        };
        let read = match self.fault {
            Fault::Wraps16 => with_numbers(text, |number| wrapped(number, 16)),
            Fault::Wraps32 => with_numbers(text, |number| wrapped(number, 32)),
            Fault::Wraps64 => with_numbers(text, |number| wrapped(number, 64)),
            Fault::LeadingZeros => with_numbers(text, |number| wrapped(number, 127)),
            Fault::Signs => with_numbers(text, |number| number.trim_start_matches('+').to_string()),
            Fault::CarriageReturns => text.iter().copied().filter(|&byte| byte != b'\r').collect(),
            Fault::LastLineUnended if text.last().is_some_and(|&byte| byte != b'\n') => [text, &b"\n"[..]].concat(),
            Fault::EmptyLastLine => text.strip_suffix(b"\n").filter(|text| text.ends_with(b"\n")).unwrap_or(text).to_vec(),
            Fault::AnyCase => text.to_ascii_lowercase(),
            _ => return call.clone(),
        };
        call.with_text(read)
    }

    /// The answer as this engine gives it.
    pub(super) fn told(&mut self, call: &Call, answer: Answer) -> Answer {
        let (Some(text), Answer::Refused(number, returned)) = (call.text(), &answer) else {
            return answer;
        };
        let lines = text.iter().filter(|&&byte| byte == b'\n').count() as u64;
        match (self.fault, number) {
            (Fault::MissingLineIsTheLast, 1) if text.ends_with(b"\n") && *returned == lines + 1 => Answer::Refused(1, lines),
            (Fault::ThreeBeforeTwo, 2) if self.undeclared(call, *returned) => Answer::Refused(3, *returned),
            (Fault::LengthBeforeLines, 1..=5) => self.length_first(call).unwrap_or(answer),
            (Fault::LinesBeforeShut, 6) if !text.starts_with(b"op=") => Answer::Refused(1, 1),
            _ => answer,
        }
    }

    /// Whether the line names a class that isn't declared.
    fn undeclared(&mut self, call: &Call, line: u64) -> bool {
        let (Some(text), open) = (call.text(), self.kitchen()) else {
            return false;
        };
        let lines = text::read(text);
        let Some(found) = lines.get(line as usize - 1) else {
            return false;
        };
        let declared = |class: u64| match &open {
            Some(kitchen) => kitchen.classes.contains_key(&class),
            None => lines.iter().any(|line| line.key == "class" && line.numbers[0] == class),
        };
        match found.key {
            "node" => !declared(found.numbers[1]),
            "pnode" => !declared(found.numbers[0]),
            _ => false,
        }
    }

    /// 14 for a list that hasn't as many numbers as the text has pnode lines, whatever else is wrong with the text.
    fn length_first(&mut self, call: &Call) -> Option<Answer> {
        let (Kind::After, Call::After(rule, list)) = (call.kind(), call) else {
            return None;
        };
        self.inner.file().ok()?;
        let nodes = text::read(rule).iter().filter(|line| line.key == "pnode").count();
        (nodes != list.len()).then_some(Answer::Refused(14, nodes as u64))
    }
}

/// The text with every number, and what stands where one should, read in another way.
fn with_numbers(text: &[u8], read: impl Fn(&str) -> String) -> Vec<u8> {
    let Ok(text) = std::str::from_utf8(text) else {
        return text.to_vec();
    };
    let line = |line: &str| match line.split_once('=') {
        Some((key, numbers)) => format!("{key}={}", numbers.split(',').map(&read).collect::<Vec<_>>().join(",")),
        None => line.to_string(),
    };
    text.split('\n').map(line).collect::<Vec<_>>().join("\n").into_bytes()
}

/// The number as one of so many bits; no number stays what it is.
fn wrapped(word: &str, bits: u32) -> String {
    if word.is_empty() || !word.bytes().all(|byte| byte.is_ascii_digit()) {
        return word.to_string();
    }
    let zero_stays = if bits < 127 && word.len() > 1 && word.starts_with('0') { "0" } else { "" };
    let modulus = 1_u128 << bits;
    let value = word.bytes().fold(0, |value, byte| (value * 10 + u128::from(byte - b'0')) % modulus);
    format!("{zero_stays}{value}")
}
