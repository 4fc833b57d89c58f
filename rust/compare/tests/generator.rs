//! A list follows from its seed, its right texts are right, and the two engines agree on a few hundred lists.

use compare::agreed::Agreed;
use compare::calls::{script, Answer, Call};
use compare::cook::{Cook, Step};
use compare::damage::damaged;
use compare::drive::{run, Pair};
use compare::engines::{Hengvoat, Second};
use compare::furnish::{kitchen, Size};
use compare::lists::{Intent, Quality};
use compare::pattern::Room;
use compare::random::Random;
use compare::rules::rule;
use compare::tally::Tally;

/// The script of a list.
fn list(seed: u64) -> Vec<u8> {
    let calls = run(&Second::new(), &Second::new(), seed, &mut Tally::default());
    script(&calls.expect("an engine agrees with itself"))
}

#[test]
fn a_list_follows_from_its_seed() {
    for seed in 1..=40 {
        assert_eq!(list(seed), list(seed));
    }
    assert_ne!(list(1), list(2));
}

/// The list of a seed is the same whichever engine answers, so that a script can be made again.
#[test]
fn a_list_is_the_same_for_both_engines() {
    for seed in 1..=40 {
        let calls = run(&Hengvoat::new(), &Hengvoat::new(), seed, &mut Tally::default());
        assert_eq!(script(&calls.expect("an engine agrees with itself")), list(seed));
    }
}

/// So the refusals 9 to 12 and the operations are reached at all.
#[test]
fn right_texts_are_accepted() {
    let sizes = [Size::small, Size::middle, Size::high, Size::many_nodes, Size::many_edges, Size::many_mays, Size::brimful];
    for seed in 0..140 {
        let mut cook = Cook::new(Random::new(seed), sizes[seed as usize % sizes.len()]);
        let mut pair = Pair::new(&Second::new(), &Second::new());
        let Step::One(open) = cook.step(Intent::Open(Quality::Right), &Agreed::default()) else {
            panic!("open is one call");
        };
        let answer = pair.make(&open).expect("an engine agrees with itself");
        assert!(answer.accepted(), "{answer}");
        for _ in 0..10 {
            let Step::One(apply) = cook.step(Intent::Apply(Quality::Right), &pair.agreed) else {
                panic!("apply is one call");
            };
            let answer = pair.make(&apply).expect("an engine agrees with itself");
            assert!(answer.accepted() || matches!(answer, Answer::Refused(9..=12, _)), "{answer}");
        }
    }
}

/// Damage on top of damage finds lines without a number and texts without a line, above all in the shortest texts.
#[test]
fn every_text_can_be_damaged() {
    let mut random = Random::new(1);
    for _ in 0..400 {
        let size = Size::small(&mut random);
        let kitchen = kitchen(&mut random, &size);
        let code = random.number(6);
        let lines = rule(&mut random, &kitchen, Room::ALLOWED, code, 100).lines();
        for _ in 0..500 {
            damaged(&mut random, &lines[..1], &kitchen);
        }
        for lines in [&kitchen.lines()[..], &lines, &[]] {
            damaged(&mut random, lines, &kitchen);
        }
    }
}

#[test]
fn a_script_is_what_replay_reads() {
    let rule = b"op=0\npnode=0,0,0\n".to_vec();
    let calls = [
        Call::Open(b"class=0,0".to_vec()),
        Call::Apply(rule.clone()),
        Call::Undo,
        Call::Close,
        Call::First(rule.clone()),
        Call::After(rule.clone(), vec![u64::MAX]),
        Call::After(rule, Vec::new()),
        Call::Save(7),
    ];
    let due = "open=9\nclass=0,0apply=17\nop=0\npnode=0,0,0\nundo\nclose\nfirst=17\nop=0\npnode=0,0,0\n\
               after=17,18446744073709551615\nop=0\npnode=0,0,0\nafter=17\nop=0\npnode=0,0,0\nsave=7\n";
    assert_eq!(String::from_utf8(script(&calls)), Ok(due.to_string()));
}

#[test]
fn the_engines_agree() {
    let mut tally = Tally::default();
    for seed in 1..=400 {
        if let Err(difference) = run(&Hengvoat::new(), &Second::new(), seed, &mut tally) {
            panic!("list {seed}, call {}: {:?}", difference.calls.len(), difference.clash);
        }
    }
    assert_eq!(tally.lists, 400);
}
