//! Texts that nobody would write: of random bytes, cut, stretched, shuffled and very long. Each gets an answer; a refusal changes
//! nothing, and a file that opens is saved as the same bytes.

mod common;

use common::{j_with, opened, saved, whole, Chance, J, ONE_FOR_EACH_WIDTH, R, TWO_FREE};
use hengvoat::{Refusal, Session, FILE_DECIDED, RULE_DECIDED};

/// Opens the file in a session of its own. Whatever comes of it is said of the file by document 01.
fn try_file(file: &[u8]) {
    let mut session = Session::new();
    match session.open(file) {
        Ok(opened) => {
            assert!(opened.classes <= 64 && opened.names <= 64);
            assert_eq!(session.save().unwrap(), file);
        }
        Err(refusal) => {
            assert!((1..=4).contains(&refusal.number()), "{refusal:?}");
            assert!(refusal.returned() >= 1 && refusal.returned() <= lines(file) + 1, "{refusal:?}");
            assert_eq!(session.save(), Err(Refusal::NotOpen));
        }
    }
}

/// Applies the rule; a refusal leaves drawing and copies as they were, and undo takes back what was done.
fn try_rule(session: &mut Session, rule: &[u8]) {
    let before = whole(session);
    let first = session.first(rule);
    match session.apply(rule) {
        Ok(applied) => {
            assert_eq!(first.unwrap().is_some(), applied.matchings > 0);
            session.undo().unwrap();
            assert_eq!(whole(session)[0], before[0]);
        }
        Err(refusal) => {
            assert!(matches!(refusal.number(), 1..=5 | 9..=12), "{refusal:?}");
            assert_eq!(first.is_err(), refusal.number() <= 5);
            assert_eq!(whole(session), before);
        }
    }
}

fn lines(text: &[u8]) -> u64 {
    text.iter().filter(|&&byte| byte == b'\n').count() as u64
}

/// A small change: a byte put in, taken out or exchanged, or a line taken out, doubled or moved.
fn mutate(text: &mut Vec<u8>, chance: &mut Chance) {
    const BYTES: &[u8] = b"0123456789,=\nclasnmeyodgpu \r-+\0\xff";
    let byte = BYTES[chance.below(BYTES.len())];
    let at = chance.below(text.len() + 1);
    match chance.below(6) {
        0 => text.insert(at, byte),
        1 if at < text.len() => drop(text.remove(at)),
        2 | 3 if at < text.len() => text[at] = byte,
        _ => {
            let mut all: Vec<Vec<u8>> = text.split_inclusive(|&byte| byte == b'\n').map(<[u8]>::to_vec).collect();
            if !all.is_empty() {
                let line = all.remove(chance.below(all.len()));
                for _ in 0..chance.below(3) {
                    all.insert(chance.below(all.len() + 1), line.clone());
                }
            }
            *text = all.concat();
        }
    }
}

#[test]
fn random_bytes_are_answered() {
    let mut chance = Chance(1);
    let mut session = opened(J);
    for _ in 0..2000 {
        let length = chance.below(200);
        let text: Vec<u8> = (0..length).map(|_| chance.below(256) as u8).collect();
        try_file(&text);
        try_rule(&mut session, &text);
    }
    assert_eq!(saved(&session), J);
}

#[test]
fn changed_files_are_answered() {
    let mut chance = Chance(2);
    let j7 = j_with(7);
    for _ in 0..3000 {
        let mut file = chance.of(&[J, &j7]).as_bytes().to_vec();
        for _ in 0..chance.below(4) {
            mutate(&mut file, &mut chance);
        }
        try_file(&file);
    }
}

#[test]
fn changed_rules_are_answered() {
    let mut chance = Chance(3);
    let mut session = opened(&j_with(7));
    session.apply(b"op=0\n").unwrap();
    let rules = [
        R,
        TWO_FREE,
        ONE_FOR_EACH_WIDTH,
        "op=5\npnode=0,0,0\ngroup=0,0,1,1\n",
        "op=4\npnode=0,0,0\npedge=0,1,0\ncut=0,1,0\n",
    ];
    for _ in 0..3000 {
        let mut rule = chance.of(&rules).as_bytes().to_vec();
        for _ in 0..chance.below(4) {
            mutate(&mut rule, &mut chance);
        }
        try_rule(&mut session, &rule);
    }
}

#[test]
fn every_first_part_of_a_text_is_answered() {
    for end in 0..J.len() {
        try_file(&J.as_bytes()[..end]);
    }
    let mut session = opened(J);
    for end in 0..R.len() {
        try_rule(&mut session, &R.as_bytes()[..end]);
    }
}

#[test]
fn odd_texts_are_refused_where_they_are_odd() {
    let odd: [(&[u8], u64); 12] = [
        (b"\0", 1),
        (b"\n", 1),
        (b"=", 1),
        (b"class\n", 1),
        (b"class=\n", 1),
        (b"class=0,0\r\n", 1),
        (b"\xef\xbb\xbfclass=0,0\n", 1),
        (b"class=0,0\nclass=1,0\n\n", 3),
        (b"class=0,0\nclass=18446744073709551616,0\n", 2),
        (b"class=0,0\nclass=-1,0\n", 2),
        (b"class=0,0\nclass=1,0\0\n", 2),
        (b"class=0,0\nclass=1,0\n\0", 3),
    ];
    for (file, line) in odd {
        assert_eq!(
            Session::new().open(file),
            Err(Refusal::Malformed { line }),
            "{:?}",
            String::from_utf8_lossy(file)
        );
    }
}

#[test]
fn very_long_texts_are_answered() {
    let mut session = opened(J);
    for byte in [b'0', b'\n', b',', b'=', 0, 255] {
        let text = vec![byte; 1 << 20];
        assert_eq!(Session::new().open(&text), Err(Refusal::Malformed { line: 1 }));
        assert_eq!(session.apply(&text), Err(Refusal::Malformed { line: 1 }));
    }
    let long_number = format!("class={},0\n", "1".repeat(1 << 20));
    assert_eq!(Session::new().open(long_number.as_bytes()), Err(Refusal::Malformed { line: 1 }));
    assert_eq!(saved(&session), J);
}

#[test]
fn the_first_part_of_a_long_text_decides() {
    let mut file = J.as_bytes().to_vec();
    file.extend(b"edge=5,1,3\n".iter().cycle().take(3 * FILE_DECIDED));
    let whole_file = Session::new().open(&file);
    assert_eq!(whole_file, Err(Refusal::Malformed { line: 13 }));
    assert_eq!(Session::new().open(&file[..FILE_DECIDED]), whole_file);
    let session = opened(J);
    let mut rule = b"op=0\n".to_vec();
    rule.extend(b"pnode=0,0,0\n".iter().cycle().take(3 * RULE_DECIDED));
    assert_eq!(session.first(&rule), Err(Refusal::TooMany { line: 8 }));
    assert_eq!(session.first(&rule[..RULE_DECIDED]), Err(Refusal::TooMany { line: 8 }));
}

#[test]
fn numbers_of_a_list_may_be_of_any_size() {
    let session = opened(J);
    let after = |list: &[u64]| session.after(TWO_FREE.as_bytes(), list).unwrap().map(|matching| matching.to_vec());
    assert_eq!(after(&[0, u64::MAX]), Some(vec![3, 3]));
    assert_eq!(after(&[3, u64::MAX]), Some(vec![5, 3]));
    assert_eq!(after(&[4, 70000]), Some(vec![5, 3]));
    assert_eq!(after(&[u64::MAX, 0]), None);
    assert_eq!(after(&[5, 5]), None);
}
