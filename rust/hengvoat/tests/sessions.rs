//! What a session is in Rust: sent and shared, cloned, shown, and the same in every thread.

mod common;

use common::{applied, crowd, j_with, opened, saved, whole, Chance, J, ONE_FOR_EACH_WIDTH, ONE_MORE, R, TWO_FREE};
use hengvoat::{Matching, Matchings, Refusal, Session, COPIES_MOST, STACK};
use std::iter::FusedIterator;
use std::panic::{RefUnwindSafe, UnwindSafe};
use std::sync::Arc;
use std::thread;

fn can_be_shared<T: Send + Sync + UnwindSafe + RefUnwindSafe>() {}

fn stays_ended<T: FusedIterator>(_: &T) {}

#[test]
fn sessions_can_be_sent_and_shared() {
    can_be_shared::<Session>();
    can_be_shared::<Matching>();
    can_be_shared::<Matchings<'static>>();
    can_be_shared::<Refusal>();
}

#[test]
fn a_default_session_is_a_new_one() {
    assert_eq!(Session::default().save(), Err(Refusal::NotOpen));
}

#[test]
fn debug_is_short() {
    let mut session = Session::new();
    assert_eq!(format!("{session:?}"), "Session(shut)");
    session.open(J.as_bytes()).unwrap();
    session.apply(R.as_bytes()).unwrap();
    assert_eq!(format!("{session:?}"), "Session { nodes: 3, edges: 3, copies: 1 }");
    let listing = session.matchings(b"op=0\n").unwrap();
    assert!(format!("{listing:?}").len() < 200);
}

#[test]
fn a_clone_goes_its_own_way() {
    let mut session = opened(J);
    session.apply(R.as_bytes()).unwrap();
    let snapshot = session.clone();
    let before = whole(&snapshot);
    session.undo().unwrap();
    session.close().unwrap();
    session.open(b"class=7,0\n").unwrap();
    assert_eq!(whole(&snapshot), before);
    assert_eq!(saved(&session), "class=7,0\n");
    let mut back = snapshot.clone();
    assert_eq!(back.undo(), Ok(()));
    assert_eq!(saved(&back), J);
    assert_eq!(whole(&snapshot), before);
}

#[test]
fn a_ninth_copy_is_dropped() {
    // Each time one node, the newest, has none with an arm to it, so each rule adds one node.
    let mut session = opened(&crowd(0, 1, 0));
    let files: Vec<_> = (0..10)
        .map(|_| {
            assert_eq!(session.apply(ONE_MORE.as_bytes()).unwrap().nodes_added, 1);
            saved(&session)
        })
        .collect();
    assert_eq!(whole(&session).len(), 1 + COPIES_MOST);
    for i in (1..9).rev() {
        assert_eq!(session.undo(), Ok(()));
        assert_eq!(saved(&session), files[i]);
    }
    assert_eq!(session.undo(), Err(Refusal::NoCopy));
    assert_eq!(saved(&session), files[1]);
}

#[test]
fn a_session_can_be_used_again() {
    let mut session = Session::new();
    for file in [J, "", &j_with(7), &crowd(0, 256, 512)] {
        session.open(file.as_bytes()).unwrap();
        assert_eq!(saved(&session), file);
        assert_eq!(session.undo(), Err(Refusal::NoCopy));
        session.apply(b"op=0\n").unwrap();
        session.close().unwrap();
        assert_eq!(session.save(), Err(Refusal::NotOpen));
    }
}

#[test]
fn a_listing_ends_and_stays_ended() {
    let session = opened(J);
    let mut listing = session.matchings(TWO_FREE.as_bytes()).unwrap();
    stays_ended(&listing);
    let again = listing.clone();
    assert_eq!(listing.by_ref().count(), 4);
    assert_eq!(listing.next(), None);
    assert_eq!(listing.next(), None);
    assert_eq!(again.count(), 4);
    assert_eq!(opened("class=0,0\n").matchings(TWO_FREE.as_bytes()).unwrap().next(), None);
}

#[test]
fn a_listing_of_six_free_nodes_is_in_rising_order() {
    let session = opened("class=0,0\nnode=0,0,0\nnode=65535,0,0\n");
    let rule = format!("op=0\n{}", "pnode=0,0,0\n".repeat(6));
    let listing: Vec<_> = session.matchings(rule.as_bytes()).unwrap().collect();
    assert_eq!(listing.len(), 64);
    for (i, matching) in listing.iter().enumerate() {
        let expected: Vec<u64> = (0..6).rev().map(|bit| if i >> bit & 1 == 1 { 65535 } else { 0 }).collect();
        assert_eq!(**matching, expected[..]);
    }
}

/// Some hundred calls chosen by a seed, and all that they answer.
fn run(seed: u64) -> Vec<String> {
    let mut chance = Chance(seed);
    let mut session = Session::new();
    let j7 = j_with(7);
    let files = [J, &j7, "class=0,0\n", "class=0,9\n"];
    let rules = [
        R,
        TWO_FREE,
        ONE_FOR_EACH_WIDTH,
        "op=1\nmake=0\n",
        "op=5\npnode=0,0,0\ngroup=0,0,1,1\n",
        "op=3\npnode=1,0,0\ndrop=0\n",
    ];
    (0..400)
        .map(|_| match chance.below(8) {
            0 => format!("{:?}", session.open(chance.of(&files).as_bytes())),
            1 if chance.below(8) == 0 => format!("{:?}", session.close()),
            2 => format!("{:?}", session.undo()),
            3 => format!("{:?}", session.save()),
            4 => format!(
                "{:?}",
                session
                    .matchings(chance.of(&rules).as_bytes())
                    .map(|listing| listing.take(50).collect::<Vec<_>>())
            ),
            _ => format!("{:?}", session.apply(chance.of(&rules).as_bytes())),
        })
        .collect()
}

#[test]
fn threads_get_what_one_gets() {
    let seeds = [11, 12, 13, 14];
    let alone: Vec<_> = seeds.iter().map(|&seed| run(seed)).collect();
    let threads: Vec<_> = seeds.iter().map(|&seed| thread::spawn(move || run(seed))).collect();
    for (thread, alone) in threads.into_iter().zip(&alone) {
        assert_eq!(&thread.join().unwrap(), alone);
    }
    assert_ne!(alone[0], alone[1]);
}

#[test]
fn threads_read_one_session_at_the_same_time() {
    let session = Arc::new(opened(&crowd(0, 20, 100)));
    let threads: Vec<_> = (0..4)
        .map(|_| {
            let session = Arc::clone(&session);
            thread::spawn(move || {
                let listing: Vec<_> = session.matchings(TWO_FREE.as_bytes()).unwrap().collect();
                (listing, session.save().unwrap())
            })
        })
        .collect();
    let expected: Vec<_> = (0..20).flat_map(|a| (0..20).map(move |b| vec![a, b])).collect();
    for thread in threads {
        let (listing, file) = thread.join().unwrap();
        assert_eq!(listing.iter().map(|pair| pair.to_vec()).collect::<Vec<_>>(), expected);
        assert_eq!(file, crowd(0, 20, 100).into_bytes());
    }
}

#[test]
fn a_session_moves_from_thread_to_thread() {
    let session = opened(J);
    let session = thread::spawn(move || {
        let mut session = session;
        session.apply(R.as_bytes()).unwrap();
        session
    })
    .join()
    .unwrap();
    assert_eq!(saved(&session), format!("{J}edge=5,0,6\n"));
}

#[test]
fn a_stack_of_the_stated_size_is_enough() {
    // Every call, at full size; the thread's own frames and the test's have 64 KiB.
    let calls = || {
        let mut session = opened(&crowd(0, 256, 512));
        assert_eq!(session.apply(R.as_bytes()), Err(Refusal::Undeclared { line: 4 }));
        assert_eq!(session.apply(b"op=2\npnode=0,0,0\nput=0,0,0\n"), Err(Refusal::EdgesFull));
        assert_eq!(session.apply(b"op=5\npnode=0,0,0\ngroup=0,0,1,1\n"), Err(Refusal::NodesFull));
        assert_eq!(session.apply(ONE_MORE.as_bytes()), Err(Refusal::NodesFull));
        assert_eq!(session.apply(TWO_FREE.as_bytes()), Ok(applied(65536, 0, 0, 0, 0)));
        assert_eq!(session.apply(b"op=3\npnode=0,0,0\ndrop=0\n"), Ok(applied(256, 0, 0, 256, 512)));
        session.undo().unwrap();
        assert_eq!(session.matchings(TWO_FREE.as_bytes()).unwrap().take(300).count(), 300);
        assert_eq!(saved(&session), crowd(0, 256, 512));
        session.close().unwrap();
    };
    thread::Builder::new()
        .stack_size(STACK + 64 * 1024)
        .spawn(calls)
        .unwrap()
        .join()
        .unwrap();
}
