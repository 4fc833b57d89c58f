//! Document 01's bench examples, E1 to E10.

mod common;

use common::{applied, j_with, opened, saved, J, ONE_FOR_EACH_WIDTH, R, TWO_FREE};
use hengvoat::{Opened, Refusal, Session};

#[test]
fn e1_joins_the_edge() {
    let mut session = Session::new();
    assert_eq!(session.open(J.as_bytes()), Ok(Opened { classes: 2, names: 2 }));
    assert_eq!(session.apply(R.as_bytes()), Ok(applied(1, 0, 1, 0, 0)));
    assert_eq!(saved(&session), format!("{J}edge=5,0,6\n"));
}

#[test]
fn e2_lists_every_pair() {
    let session = opened(J);
    let listing: Vec<_> = session.matchings(TWO_FREE.as_bytes()).unwrap().collect();
    let pairs: Vec<_> = listing.iter().map(|pair| (pair[0], pair[1])).collect();
    assert_eq!(pairs, [(3, 3), (3, 5), (5, 3), (5, 5)]);
    assert!(listing.iter().all(|pair| pair.len() == 2));
    assert!(listing.windows(2).all(|two| two[0] < two[1]));
    assert_eq!(opened(J).apply(TWO_FREE.as_bytes()), Ok(applied(4, 0, 0, 0, 0)));
}

#[test]
fn e3_the_empty_pattern_matches_once() {
    let session = opened(J);
    let listing: Vec<_> = session.matchings(b"op=0\n").unwrap().collect();
    assert_eq!(listing.len(), 1);
    assert!(listing[0].is_empty());
    assert_eq!(session.after(b"op=0\n", &[]), Ok(None));
}

#[test]
fn e4_a_node_without_arms_is_served_by_any() {
    let mut session = opened(J);
    assert_eq!(session.apply(b"op=1\nmake=0\n"), Ok(applied(1, 0, 0, 0, 0)));
    assert_eq!(saved(&session), J);
}

#[test]
fn e5_a_dropped_node_takes_its_edges() {
    let mut session = opened(J);
    assert_eq!(session.apply(b"op=3\npnode=1,0,0\ndrop=0\n"), Ok(applied(1, 0, 0, 1, 1)));
    assert_eq!(saved(&session), J.replace("node=6,1,600\nedge=3,0,6\n", ""));
}

#[test]
fn e6_two_widths_clash() {
    let mut session = opened(&j_with(7));
    let every_width = b"op=2\npnode=0,0,0\npnode=1,0,0\nput=0,0,1\n";
    assert_eq!(session.apply(every_width), Err(Refusal::FunctionalClash { node: 3 }));
    assert_eq!(saved(&session), j_with(7));
}

#[test]
fn e7_a_new_node_for_the_width_that_none_has() {
    let mut session = opened(&j_with(7));
    assert_eq!(session.apply(ONE_FOR_EACH_WIDTH.as_bytes()), Ok(applied(2, 1, 1, 0, 0)));
    let with_node = j_with(7).replace("node=7,1,720\n", "node=7,1,720\nnode=8,0,0\n");
    assert_eq!(saved(&session), format!("{with_node}edge=8,0,7\n"));
}

#[test]
fn e8_a_new_node_for_the_group_that_none_serves() {
    let mut session = opened(J);
    assert_eq!(session.apply(b"op=5\npnode=0,0,0\ngroup=0,0,1,1\n"), Ok(applied(2, 1, 1, 0, 0)));
    let with_node = J.replace("node=6,1,600\n", "node=6,1,600\nnode=7,0,0\n");
    assert_eq!(saved(&session), format!("{with_node}edge=7,1,3\n"));
}

#[test]
fn e9_no_number_above_65535() {
    let mut session = opened(&j_with(65535));
    assert_eq!(session.apply(ONE_FOR_EACH_WIDTH.as_bytes()), Err(Refusal::NumbersFull));
    assert_eq!(saved(&session), j_with(65535));
}

#[test]
fn e10_one_copy_is_undone_once() {
    let mut session = opened(J);
    session.apply(R.as_bytes()).unwrap();
    assert_eq!(session.undo(), Ok(()));
    assert_eq!(saved(&session), J);
    assert_eq!(session.undo(), Err(Refusal::NoCopy));
    assert_eq!(saved(&session), J);
}
