//! Texts that are wrong in one place or two, made from good ones.

use crate::kitchen::Kitchen;
use crate::numbers::{count, fitting_number, other_number};
use crate::random::Random;
use crate::text::{Line, DRAWING_KEYS, RULE_KEYS};

/// A line whose key and numbers may be any words.
#[derive(Clone)]
struct Loose {
    key: String,
    numbers: Vec<String>,
}

impl Loose {
    fn of(line: &Line) -> Loose {
        let numbers = line.numbers.iter().map(u64::to_string).collect();
        Loose { key: line.key.to_string(), numbers }
    }
}

/// The text of the lines with something wrong in it, as a rule; now and then the damage does no harm.
pub fn damaged(random: &mut Random, lines: &[Line], kitchen: &Kitchen) -> Vec<u8> {
    let mut loose: Vec<Loose> = lines.iter().map(Loose::of).collect();
    let mut bytes = 0;
    for _ in 0..random.weigh(&[(5, 1), (1, 2)]) {
        match random.weigh(&[(9, 0), (4, 1), (2, 2), (4, 3)]) {
            0 => change_a_number(random, &mut loose, kitchen),
            1 => change_the_lines(random, &mut loose, kitchen),
            2 => change_a_line(random, &mut loose),
            _ => bytes += 1,
        }
    }
    let mut text = written(&loose);
    (0..bytes).for_each(|_| change_bytes(random, &mut text));
    text
}

/// The text of the lines with another number in one of them, which is in most cases in its range.
pub fn damaged_line(random: &mut Random, lines: &[Line], place: usize, kitchen: &Kitchen) -> Vec<u8> {
    let mut loose: Vec<Loose> = lines.iter().map(Loose::of).collect();
    if let Some(line) = loose.get_mut(place) {
        change_its_number(random, line, kitchen);
    }
    written(&loose)
}

/// Bytes of which nothing is known, or of those that files consist of.
pub fn garbage(random: &mut Random) -> Vec<u8> {
    let length = random.weigh(&[(1, 0), (3, 12), (3, 60), (1, 900), (1, 30_000)]);
    let length = random.between(0, length);
    let usual = b"acdegklmnoprtuy==,,0123456789\n\n";
    let any = random.chance(40);
    let byte = |random: &mut Random| match any {
        true => random.draw() as u8,
        false => random.pick(usual).unwrap_or(b'0'),
    };
    (0..length).map(|_| byte(random)).collect()
}

fn written(lines: &[Loose]) -> Vec<u8> {
    let line = |line: &Loose| format!("{}={}\n", line.key, line.numbers.join(","));
    lines.iter().map(line).collect::<String>().into_bytes()
}

fn change_a_number(random: &mut Random, lines: &mut [Loose], kitchen: &Kitchen) {
    if let Some(place) = some_line(random, lines) {
        change_its_number(random, &mut lines[place], kitchen);
    }
}

/// In most cases the number stays in its range, so that what it means is looked at.
fn change_its_number(random: &mut Random, line: &mut Loose, kitchen: &Kitchen) {
    let at = random.below(line.numbers.len());
    if let Some(number) = line.numbers.get_mut(at) {
        *number = match random.chance(65) {
            true => fitting_number(random, &line.key, at, kitchen).to_string(),
            false => other_number(random, number),
        };
    }
}

/// A line, the last ones as often as all others: there stand the edges, or the action.
fn some_line(random: &mut Random, lines: &[Loose]) -> Option<usize> {
    let last = lines.len().checked_sub(1)?;
    let from = if random.chance(50) { last.saturating_sub(3) } else { 0 };
    Some(random.between(from, last))
}

fn change_the_lines(random: &mut Random, lines: &mut Vec<Loose>, kitchen: &Kitchen) {
    let Some(place) = some_line(random, lines) else {
        return lines.push(strange_line(random, kitchen));
    };
    let other = random.below(lines.len());
    match random.below(6) {
        0 => drop(lines.remove(place)),
        1 => lines.insert(place, lines[place].clone()),
        2 => lines.swap(place, place.saturating_sub(1)),
        3 => lines.swap(place, other),
        4 => lines.insert(place, strange_line(random, kitchen)),
        _ => lines.insert(place + 1, lines[other].clone()),
    }
}

/// A line of either kind of file, with numbers that mean something.
fn strange_line(random: &mut Random, kitchen: &Kitchen) -> Loose {
    let keys = [&DRAWING_KEYS[..], &RULE_KEYS[..]].concat();
    let key = random.pick(&keys).unwrap_or("op").to_string();
    let numbers = (0..count(&key)).map(|place| fitting_number(random, &key, place, kitchen).to_string());
    Loose { numbers: numbers.collect(), key }
}

fn change_a_line(random: &mut Random, lines: &mut [Loose]) {
    let Some(place) = some_line(random, lines) else {
        return;
    };
    let line = &mut lines[place];
    let at = random.below(line.numbers.len());
    let mut word = |words: &[&'static str]| random.pick(words).unwrap_or("").to_string();
    let number = word(&["", "0", "1", " "]);
    let key = word(&[&DRAWING_KEYS[..], &RULE_KEYS[..]].concat());
    let no_key = word(&["", " ", "#", "op ", "pnode=", "\u{feff}op"]);
    match random.below(6) {
        0 => line.numbers.rotate_left(at),
        1 => drop(line.numbers.pop()),
        2 => line.numbers.push(number),
        3 => line.key = line.key.to_uppercase(),
        4 => line.key = key,
        _ => line.key = no_key,
    }
}

fn change_bytes(random: &mut Random, text: &mut Vec<u8>) {
    let place = random.below(text.len());
    let Some(&byte) = text.get(place) else {
        return text.push(strange_byte(random));
    };
    match random.below(12) {
        0 => text.truncate(place),
        1 => drop(text.pop()),
        2 => text.push(b'\n'),
        3 => *text = with_returns(random, text),
        4 => text.extend(long_tail(random)),
        5 => drop(text.remove(place)),
        6 => text.insert(place, byte),
        7 => text.swap(place, place.saturating_sub(1)),
        8 => text[place] = strange_byte(random),
        9 => text[place] = byte ^ (1 << random.below(8)),
        _ => text.insert(place, strange_byte(random)),
    }
}

fn strange_byte(random: &mut Random) -> u8 {
    let bytes = b" \n\r\t=,.-+0159aAEe\0\x7f\x80\xff";
    random.pick(bytes).unwrap_or(0)
}

/// CR LF at all lines, or at one.
fn with_returns(random: &mut Random, text: &[u8]) -> Vec<u8> {
    let (all, only) = (random.chance(50), random.below(text.len()));
    let mut changed = Vec::new();
    for (place, &byte) in text.iter().enumerate() {
        if byte == b'\n' && (all || place >= only && !changed.contains(&b'\r')) {
            changed.push(b'\r');
        }
        changed.push(byte);
    }
    changed
}

/// So many bytes that the whole text may be longer than any that can be accepted.
fn long_tail(random: &mut Random) -> Vec<u8> {
    let tails: [&[u8]; 5] = [b"edge=65535,63,65535\n", b"put=5,63,5\n", b"0", b"9", b"\n"];
    let tail = tails[random.below(tails.len())];
    tail.repeat(random.weigh(&[(3, 50), (1, 2500)]))
}
