//! Files: opened and saved as the same bytes, into buffers of every kind.

mod common;

use common::{crowd, j_with, opened, saved, J, R};
use hengvoat::{Opened, Session, FILE_MOST};
use std::fmt::Write;

#[test]
fn what_is_opened_is_saved_as_the_same_bytes() {
    for file in [
        "",
        J,
        &j_with(7),
        &j_with(65535),
        &crowd(0, 256, 512),
        &crowd(65280, 256, 0),
        &crowd(9999, 2, 4),
    ] {
        assert_eq!(saved(&opened(file)), file);
    }
}

#[test]
fn what_is_saved_opens_as_the_same_drawing() {
    let mut session = opened(J);
    session.apply(R.as_bytes()).unwrap();
    let file = saved(&session);
    let again = opened(&file);
    assert_eq!(saved(&again), file);
    let listing = |session: &Session| session.matchings(R.as_bytes()).unwrap().collect::<Vec<_>>();
    assert_eq!(listing(&again), listing(&session));
}

#[test]
fn a_buffer_of_exactly_the_length_is_enough() {
    let session = opened(J);
    let mut buffer = vec![0; J.len()];
    assert_eq!(session.save_into(&mut buffer), Ok(J.len()));
    assert_eq!(buffer, J.as_bytes());
}

#[test]
fn the_rest_of_a_buffer_is_left() {
    let session = opened(J);
    for more in [1, 100, FILE_MOST] {
        let mut buffer = vec![b'~'; J.len() + more];
        assert_eq!(session.save_into(&mut buffer), Ok(J.len()));
        assert_eq!(&buffer[..J.len()], J.as_bytes());
        assert!(buffer[J.len()..].iter().all(|&byte| byte == b'~'));
    }
}

#[test]
fn only_the_lent_part_is_written() {
    let session = opened(J);
    let mut buffer = vec![b'~'; J.len() + 2];
    assert_eq!(session.save_into(&mut buffer[1..][..J.len()]), Ok(J.len()));
    assert_eq!((buffer[0], buffer[J.len() + 1]), (b'~', b'~'));
    assert_eq!(&buffer[1..=J.len()], J.as_bytes());
}

#[test]
fn an_empty_drawing_needs_no_buffer() {
    let session = opened("");
    assert_eq!(session.save_into(&mut []), Ok(0));
    assert_eq!(session.save(), Ok(Vec::new()));
}

/// All classes and names, and as many permitted triples, nodes and edges as there may be, written with the most digits that leave room
/// for all.
fn full() -> String {
    let mut file = String::new();
    for class in 0..64 {
        writeln!(file, "class={class},{}", u8::from(class >= 32)).unwrap();
    }
    for name in 0..64 {
        writeln!(file, "name={name},{}", u8::from(name >= 32)).unwrap();
    }
    for may in 0..256 {
        writeln!(file, "may={},{},63", 28 + may / 64, may % 64).unwrap();
    }
    // Sources of class 31, and targets of class 63, each with a value of its own.
    for node in 0..256 {
        let (class, value) = if node < 16 { (31, 0) } else { (63, 65000 + node) };
        writeln!(file, "node={},{class},{value}", 65280 + node).unwrap();
    }
    for source in 0..16 {
        for target in 16..48 {
            writeln!(file, "edge={},63,{}", 65280 + source, 65280 + target).unwrap();
        }
    }
    file
}

#[test]
fn a_file_of_full_size_is_not_too_long() {
    let file = full();
    let mut session = Session::new();
    assert_eq!(session.open(file.as_bytes()), Ok(Opened { classes: 64, names: 64 }));
    assert_eq!(saved(&session), file);
    assert!(file.len() <= FILE_MOST, "{}", file.len());
    assert!(file.len() > FILE_MOST - 500, "{}", file.len());
}
