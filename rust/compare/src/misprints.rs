//! What is wrong with the form of a line that was refused with 1, as far as its bytes show.

use crate::limits::Limit;
use crate::text::{DRAWING_KEYS, RULE_KEYS};

/// A number that takes more digits than 2^64 has.
const MANY_DIGITS: usize = 20;

/// What is to be seen in the line, counted from 1, of a text whose keys are these.
pub fn misprints(text: &[u8], line: u64, keys: &[&str]) -> Vec<Limit> {
    let mut lines = text.split_inclusive(|&byte| byte == b'\n');
    let Some(line) = lines.nth((line as usize).saturating_sub(1)) else {
        return Vec::new();
    };
    let (line, ended) = line.strip_suffix(b"\n").map_or((line, false), |line| (line, true));
    let words = String::from_utf8_lossy(line);
    let (key, numbers) = words.split_once('=').unwrap_or((&words, ""));
    let numbers: Vec<&str> = numbers.split(',').collect();
    let known = |key: &str| DRAWING_KEYS.contains(&key) || RULE_KEYS.contains(&key);
    let seen = [
        (!ended, Limit::Unended),
        (line.is_empty(), Limit::EmptyLine),
        (line.ends_with(b"\r"), Limit::Return),
        (line.contains(&b' '), Limit::Space),
        (known(key) && !keys.contains(&key), Limit::OtherFile),
        (!known(key) && known(&key.to_lowercase()), Limit::WrongCase),
        (numbers.iter().any(|number| is_number(number) && number.len() > 1 && number.starts_with('0')), Limit::LeadingZero),
        (numbers.iter().any(|number| number.strip_prefix(['-', '+']).is_some_and(is_number)), Limit::Sign),
        (numbers.iter().any(|number| is_number(number) && number.len() > MANY_DIGITS), Limit::ManyDigits),
        (numbers.contains(&"64"), Limit::Number64),
        (numbers.contains(&"65536"), Limit::Number65536),
        (numbers.contains(&"4294967296"), Limit::Number2To32),
        (numbers.contains(&"18446744073709551616"), Limit::Number2To64),
    ];
    seen.into_iter().filter(|(seen, _)| *seen).map(|(_, limit)| limit).collect()
}

fn is_number(word: &str) -> bool {
    !word.is_empty() && word.bytes().all(|byte| byte.is_ascii_digit())
}
