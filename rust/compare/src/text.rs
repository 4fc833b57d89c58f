//! The lines of both kinds of file: key=numbers, comma between, each ended by byte 10.

/// The keys of a drawing file, in their order.
pub const DRAWING_KEYS: [&str; 5] = ["class", "name", "may", "node", "edge"];

/// The keys of a rule text, in their order.
pub const RULE_KEYS: [&str; 9] = ["op", "pnode", "pedge", "make", "arm", "put", "drop", "cut", "group"];

/// One line.
#[derive(Clone, Debug, PartialEq, Eq)]
pub struct Line {
    /// What stands before the sign `=`.
    pub key: &'static str,
    /// What stands after it.
    pub numbers: Vec<u64>,
}

impl Line {
    /// The line of a key and its numbers.
    pub fn new(key: &'static str, numbers: impl Into<Vec<u64>>) -> Line {
        let numbers = numbers.into();
        Line { key, numbers }
    }
}

/// The text of the lines.
pub fn write(lines: &[Line]) -> Vec<u8> {
    let mut text = String::new();
    for line in lines {
        text.push_str(line.key);
        let mut sign = '=';
        for number in &line.numbers {
            text.push(sign);
            text.push_str(&number.to_string());
            sign = ',';
        }
        text.push('\n');
    }
    text.into_bytes()
}

/// The lines of a text that an engine has accepted. In another text what is no line is passed over.
pub fn read(text: &[u8]) -> Vec<Line> {
    let text = String::from_utf8_lossy(text);
    text.lines().filter_map(read_line).collect()
}

fn read_line(line: &str) -> Option<Line> {
    let (key, rest) = line.split_once('=')?;
    let numbers: Result<Vec<u64>, _> = rest.split(',').map(str::parse).collect();
    Some(Line::new(known(key)?, numbers.ok()?))
}

/// The key in the lists above that these bytes are.
fn known(key: &str) -> Option<&'static str> {
    let mut keys = DRAWING_KEYS.into_iter().chain(RULE_KEYS);
    keys.find(|known| *known == key)
}

/// Where an engine found a text wrong: the key of the line, counted from 1, or what else stands there.
pub fn key_at(text: &[u8], line: u64) -> &'static str {
    let Some(place) = usize::try_from(line).ok().and_then(|line| line.checked_sub(1)) else {
        return NO_KEY;
    };
    let mut lines = text.split_inclusive(|&byte| byte == b'\n');
    let Some(found) = lines.nth(place) else {
        return AT_THE_END;
    };
    let key = found.split(|&byte| byte == b'=').next().unwrap_or(found);
    std::str::from_utf8(key).ok().and_then(known).unwrap_or(NO_KEY)
}

/// Stands for a line that begins with no key.
pub const NO_KEY: &str = "no key";

/// Stands for the line after the last.
pub const AT_THE_END: &str = "the end";
