//! Each of the fourteen refusals, with what it returns, what it leaves and how it reads.

mod common;

use common::{applied, crowd, j_with, opened, saved, whole, J, ONE_MORE, R, TWO_FREE};
use hengvoat::{Refusal, Session};
use std::error::Error;

/// The number, what is returned, and how the text begins.
fn told(refusal: Refusal, number: u64, returned: u64, text: &str) {
    assert_eq!((refusal.number(), refusal.returned()), (number, returned), "{refusal:?}");
    assert!(refusal.to_string().starts_with(text), "{refusal}");
    // It can be handed on as any error.
    let boxed: Box<dyn Error + Send + Sync> = refusal.into();
    assert_eq!(boxed.to_string(), refusal.to_string());
}

/// J with an undo copy, so that there is something to lose.
fn with_a_copy() -> Session {
    let mut session = opened(J);
    session.apply(R.as_bytes()).unwrap();
    session
}

/// The file is refused, the session stays shut, and opens another file thereafter.
fn file_refused(file: &str) -> Refusal {
    let mut session = Session::new();
    let refusal = session.open(file.as_bytes()).expect_err(file);
    assert_eq!(session.save(), Err(Refusal::NotOpen));
    session.open(J.as_bytes()).unwrap();
    refusal
}

/// The rule is refused by apply, first, after and matchings alike, and changes nothing.
fn rule_refused(rule: &str) -> Refusal {
    let mut session = with_a_copy();
    let before = whole(&session);
    let refusal = session.apply(rule.as_bytes()).expect_err(rule);
    assert_eq!(session.first(rule.as_bytes()), Err(refusal));
    assert_eq!(session.after(rule.as_bytes(), &[]), Err(refusal));
    assert_eq!(session.matchings(rule.as_bytes()).map(Iterator::count), Err(refusal));
    assert_eq!(whole(&session), before);
    refusal
}

/// The rule is accepted, and refused for what its result would be.
fn result_refused(file: &str, rule: &str) -> Refusal {
    let mut session = opened(file);
    session.apply(b"op=0\n").unwrap();
    let before = whole(&session);
    let refusal = session.apply(rule.as_bytes()).expect_err(rule);
    assert!(session.first(rule.as_bytes()).is_ok());
    assert_eq!(whole(&session), before);
    refusal
}

#[test]
fn malformed() {
    let text = "line 2: not a line that may stand here";
    for second in [
        "class=0,0",
        "class=1,2",
        "class=64,0",
        "class=01,0",
        "class=1, 0",
        "Class=1,0",
        "class=1",
        "class=1,0,0",
        "",
        "op=0",
    ] {
        told(file_refused(&format!("class=0,0\n{second}\n")), 1, 2, text);
    }
    told(file_refused("class=0,0\nclass=1,0"), 1, 2, text);
    told(file_refused("name=0,0\nclass=0,0\n"), 1, 2, text);
    told(rule_refused("op=0\npnode=0,0,7\n"), 1, 2, text);
    told(rule_refused("op=0\nput=0,0,0\n"), 1, 2, text);
    // One past the last line, where a line is missing.
    told(rule_refused("op=1\n"), 1, 2, text);
    told(rule_refused(""), 1, 1, "line 1: ");
}

#[test]
fn too_many() {
    let text = "line 261: one more line of its kind than allowed: at most 256 may, 256 node and 512 edge lines";
    let nodes = crowd(0, 257, 0).replace("may=0,1,0\n", "");
    told(file_refused(&nodes), 2, 261, text);
    told(file_refused(&crowd(0, 32, 513)), 2, 5 + 32 + 513, "line 550: ");
    told(rule_refused(&format!("op=0\n{}", "pnode=0,0,0\n".repeat(7))), 2, 8, "line 8: ");
    let cuts = "pnode=0,0,0\npedge=0,1,0\ncut=0,1,0\n";
    assert!(with_a_copy().apply(format!("op=4\n{cuts}").as_bytes()).is_ok());
    let puts = "pnode=0,0,0\npnode=0,0,0\npnode=0,0,0\nput=0,1,0\nput=0,1,1\nput=0,1,2\nput=1,1,0\nput=1,1,1\n";
    told(rule_refused(&format!("op=2\n{puts}")), 2, 9, "line 9: ");
}

#[test]
fn undeclared() {
    let text = "line 2: names a class, edge name or node that is not declared above it";
    told(file_refused("class=0,0\nnode=1,2,0\n"), 3, 2, text);
    told(file_refused("class=0,0\nmay=0,0,0\n"), 3, 2, text);
    told(rule_refused("op=0\npnode=2,0,0\n"), 3, 2, text);
    told(rule_refused("op=0\npnode=0,0,0\npedge=0,1,1\n"), 3, 3, "line 3: ");
    told(rule_refused("op=3\npnode=0,0,0\ndrop=1\n"), 3, 3, "line 3: ");
}

#[test]
fn nonconforming() {
    told(file_refused("class=0,0\nnode=1,0,5\n"), 4, 2, "line 2: does not conform: ");
    told(file_refused("class=0,1\nname=0,0\nmay=0,0,0\n"), 4, 3, "line 3: does not conform: ");
    told(file_refused("class=0,1\nnode=1,0,5\nnode=2,0,5\n"), 4, 3, "line 3: ");
    told(file_refused(&format!("{J}edge=6,1,3\n")), 4, 12, "line 12: ");
    told(rule_refused("op=0\npnode=0,1,0\n"), 4, 2, "line 2: ");
    told(rule_refused("op=0\npnode=0,0,0\npnode=1,0,0\npedge=1,0,0\n"), 4, 4, "line 4: ");
}

#[test]
fn bad_action() {
    let text = "line 2: an action that does not suit the scheme or the pattern: ";
    told(rule_refused("op=1\nmake=1\n"), 5, 2, text);
    told(rule_refused("op=1\npnode=0,0,0\nmake=0\narm=1,0\n"), 5, 4, "line 4: ");
    told(rule_refused("op=2\npnode=0,0,0\nput=0,0,0\n"), 5, 3, "line 3: ");
    told(rule_refused("op=4\npnode=0,0,0\ncut=0,1,0\n"), 5, 3, "line 3: ");
    told(rule_refused("op=5\npnode=0,0,0\ngroup=0,0,0,1\n"), 5, 3, "line 3: ");
}

#[test]
fn not_open() {
    let mut session = Session::new();
    let text = "no drawing is open: open one first";
    for rule in [R, "nonsense"] {
        told(session.apply(rule.as_bytes()).unwrap_err(), 6, 0, text);
        told(session.first(rule.as_bytes()).unwrap_err(), 6, 0, text);
        told(session.after(rule.as_bytes(), &[1]).unwrap_err(), 6, 0, text);
        told(session.matchings(rule.as_bytes()).unwrap_err(), 6, 0, text);
    }
    told(session.undo().unwrap_err(), 6, 0, text);
    told(session.close().unwrap_err(), 6, 0, text);
    told(session.save().unwrap_err(), 6, 0, text);
    let mut buffer = *b"left";
    told(session.save_into(&mut buffer).unwrap_err(), 6, 0, text);
    told(session.save_into(&mut []).unwrap_err(), 6, 0, text);
    assert_eq!(&buffer, b"left");
    assert!(session.open(J.as_bytes()).is_ok());
}

#[test]
fn already_open() {
    let mut session = with_a_copy();
    let before = whole(&session);
    for file in [J, "", "nonsense"] {
        told(
            session.open(file.as_bytes()).unwrap_err(),
            7,
            0,
            "a drawing is open already: close it first",
        );
    }
    assert_eq!(whole(&session), before);
}

#[test]
fn no_copy() {
    let mut session = opened(J);
    told(session.undo().unwrap_err(), 8, 0, "nothing is left to undo");
    assert_eq!(saved(&session), J);
}

#[test]
fn nodes_full() {
    told(
        result_refused(&crowd(0, 256, 0), ONE_MORE),
        9,
        0,
        "no room for a new node: a drawing has at most 256",
    );
    // 9 is tried before 10, at each new node in turn.
    assert_eq!(result_refused(&crowd(65280, 256, 0), ONE_MORE), Refusal::NodesFull);
}

#[test]
fn numbers_full() {
    told(result_refused(&crowd(65535, 1, 0), ONE_MORE), 10, 0, "no number for a new node: ");
    // There is room for the first of two new nodes.
    assert_eq!(result_refused(&crowd(65533, 2, 0), ONE_MORE), Refusal::NumbersFull);
    assert_eq!(opened(&crowd(65533, 1, 0)).apply(ONE_MORE.as_bytes()), Ok(applied(1, 1, 1, 0, 0)));
}

#[test]
fn edges_full() {
    let full = crowd(0, 32, 512);
    told(
        result_refused(&full, ONE_MORE),
        11,
        0,
        "no room for a new edge: a drawing has at most 512",
    );
    // 11 is tried before 12.
    let both = "op=2\npnode=0,0,0\npnode=0,0,0\nput=0,0,1\n";
    assert_eq!(result_refused(&full, both), Refusal::EdgesFull);
}

#[test]
fn functional_clash() {
    let every_width = "op=2\npnode=0,0,0\npnode=1,0,0\nput=0,0,1\n";
    told(
        result_refused(&j_with(7), every_width),
        12,
        3,
        "node 3 would have two edges of one functional name",
    );
    let only_five = "op=2\npnode=0,0,0\npnode=0,0,0\npnode=1,0,0\npedge=0,1,1\nput=1,0,2\n";
    told(result_refused(&j_with(7), only_five), 12, 5, "node 5 would have");
}

#[test]
fn buffer_short() {
    let session = with_a_copy();
    let before = whole(&session);
    let length = before[0].len();
    for short in [0, 1, length - 1] {
        let mut buffer = vec![b'.'; short];
        let refusal = session.save_into(&mut buffer).unwrap_err();
        told(
            refusal,
            13,
            length as u64,
            &format!("the buffer is too short: the drawing file has {length} bytes"),
        );
        assert_eq!(refusal, Refusal::BufferShort { needed: length });
        assert_eq!(buffer, vec![b'.'; short]);
    }
    assert_eq!(whole(&session), before);
}

#[test]
fn length_differs() {
    let session = opened(J);
    for list in [&[][..], &[3], &[3, 5, 6], &[0; 100]] {
        let refusal = session.after(TWO_FREE.as_bytes(), list).unwrap_err();
        told(
            refusal,
            14,
            2,
            "the list is not as long as the pattern: give one number for each pattern node, 2 in all",
        );
        assert_eq!(refusal, Refusal::LengthDiffers { length: 2 });
    }
    // A bad line comes before it.
    assert_eq!(session.after(b"op=0\npnode=9,0,0\n", &[]), Err(Refusal::Undeclared { line: 2 }));
    assert_eq!(saved(&session), J);
}

#[test]
fn each_text_is_one_line_of_its_own() {
    let refusals = [
        file_refused("nonsense\n"),
        rule_refused(&format!("op=0\n{}", "pnode=0,0,0\n".repeat(7))),
        file_refused("node=1,2,0\n"),
        file_refused("class=0,0\nnode=1,0,5\n"),
        rule_refused("op=1\nmake=1\n"),
        Refusal::NotOpen,
        Refusal::AlreadyOpen,
        Refusal::NoCopy,
        Refusal::NodesFull,
        Refusal::NumbersFull,
        Refusal::EdgesFull,
        Refusal::FunctionalClash { node: 3 },
        Refusal::BufferShort { needed: 115 },
        Refusal::LengthDiffers { length: 2 },
        Refusal::Unknown { number: 15, returned: 0 },
    ];
    let texts: Vec<_> = refusals.iter().map(Refusal::to_string).collect();
    for (i, text) in texts.iter().enumerate() {
        assert_eq!(refusals[i].number(), i as u64 + 1);
        assert!(!text.contains('\n') && !text.contains("  ") && !text.ends_with('.'), "{text}");
        assert!(!texts[..i].contains(text), "{text}");
    }
}
