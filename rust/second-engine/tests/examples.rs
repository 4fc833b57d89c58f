//! The bench examples E1 to E10, the limits, and each refusal of the table.

use second_engine::{Counts, Engine, Opened, Refused};

const J: &str = "class=0,0\nclass=1,1\nname=0,0\nname=1,1\nmay=0,0,1\nmay=0,1,0\n\
    node=3,0,0\nnode=5,0,0\nnode=6,1,600\nedge=3,0,6\nedge=3,1,5\n";

const R: &str = "op=2\npnode=0,0,0\npnode=0,0,0\npnode=1,0,0\npedge=0,0,2\npedge=0,1,1\nput=1,0,2\n";

/// The empty pattern alone: counts one matching and keeps a copy.
const NOTHING: &str = "op=0\n";

fn j7() -> String {
    J.replace("node=6,1,600\n", "node=6,1,600\nnode=7,1,720\n")
}

fn opened(file: &str) -> Engine {
    let mut engine = Engine::new();
    engine.open(file.as_bytes()).expect("the file opens");
    engine
}

fn saved(engine: &Engine) -> String {
    let mut buffer = vec![0; 1 << 16];
    let length = engine.save(&mut buffer).expect("the buffer is long enough");
    String::from_utf8(buffer[..length].to_vec()).expect("the file is ASCII")
}

fn refused<T>(number: u64, returned: u64) -> Result<T, Refused> {
    Err(Refused { number, returned })
}

fn done(counts: [u64; 5]) -> Result<Counts, Refused> {
    let [matchings, nodes_added, edges_added, nodes_removed, edges_removed] = counts;
    Ok(Counts {
        matchings,
        nodes_added,
        edges_added,
        nodes_removed,
        edges_removed,
    })
}

fn listing(engine: &Engine, rule: &str) -> Vec<Vec<u64>> {
    let mut list = Vec::new();
    let mut next = engine.first(rule.as_bytes()).expect("accepted");
    while let Some(matching) = next {
        next = engine.after(rule.as_bytes(), &matching).expect("accepted");
        list.push(matching);
    }
    list
}

/// Opens a file that must be refused, and checks that the engine is still shut.
fn refuse_file(file: &str, number: u64, returned: u64) {
    let mut engine = Engine::new();
    let answer = engine.open(file.as_bytes());
    assert_eq!(answer, refused(number, returned), "{file}");
    assert_eq!(engine.close(), refused(6, 0));
}

/// Applies a rule that must be refused, and checks that nothing has changed and that first and
/// after refuse it likewise.
fn refuse_text(file: &str, rule: &str, number: u64, returned: u64) {
    let mut engine = opened(file);
    let before = saved(&engine);
    let rule_bytes = rule.as_bytes();
    let answer = refused(number, returned);
    assert_eq!(engine.apply(rule_bytes), answer, "{rule}");
    assert_eq!(engine.first(rule_bytes), refused(number, returned));
    assert_eq!(engine.after(rule_bytes, &[9; 9]), refused(number, returned));
    assert_eq!(saved(&engine), before);
    assert_eq!(engine.undo(), refused(8, 0));
}

/// Applies an acceptable rule that can't be carried out.
fn refuse_run(file: &str, rule: &str, number: u64, returned: u64) {
    let mut engine = opened(file);
    let before = saved(&engine);
    assert_eq!(engine.apply(rule.as_bytes()), refused(number, returned));
    assert_eq!(saved(&engine), before);
    assert_eq!(engine.undo(), refused(8, 0));
    assert!(engine.first(rule.as_bytes()).is_ok());
}

/// Applies a rule and gives the nodes and edges of the new drawing.
fn run(file: &str, rule: &str, counts: [u64; 5]) -> String {
    let mut engine = opened(file);
    assert_eq!(engine.apply(rule.as_bytes()), done(counts), "{rule}");
    drawing_lines(&saved(&engine))
}

fn drawing_lines(file: &str) -> String {
    let lines = file.lines();
    lines
        .filter(|line| line.starts_with("node=") || line.starts_with("edge="))
        .collect::<Vec<_>>()
        .join(" ")
}

/// Lines of one shape, one for each number of the range.
fn lines(range: std::ops::Range<u32>, line: impl Fn(u32) -> String) -> String {
    range.map(|number| line(number) + "\n").collect()
}

/// A drawing with one object class, a functional name 0 and a multivalued name 1, both from the
/// class to itself, with so many nodes and so many edges of name 1.
fn field(nodes: u32, edges: u32) -> String {
    let scheme = "class=0,0\nname=0,0\nname=1,1\nmay=0,0,0\nmay=0,1,0\n".to_string();
    scheme
        + &lines(0..nodes, |number| format!("node={number},0,0"))
        + &lines(0..edges, |number| format!("edge={},1,{}", number / nodes, number % nodes))
}

// The bench examples.

#[test]
fn e1_edge_addition() {
    let mut engine = Engine::new();
    let report = Opened { classes: 2, names: 2 };
    assert_eq!(engine.open(J.as_bytes()), Ok(report));
    assert_eq!(engine.apply(R.as_bytes()), done([1, 0, 1, 0, 0]));
    assert_eq!(saved(&engine), J.to_string() + "edge=5,0,6\n");
}

#[test]
fn e2_two_free_nodes() {
    let list = listing(&opened(J), "op=0\npnode=0,0,0\npnode=0,0,0\n");
    assert_eq!(list, [[3, 3], [3, 5], [5, 3], [5, 5]]);
}

#[test]
fn e3_empty_pattern() {
    assert_eq!(listing(&opened(J), NOTHING), [[0; 0]]);
    assert_eq!(run(J, NOTHING, [1, 0, 0, 0, 0]), drawing_lines(J), "a pattern only changes nothing");
}

#[test]
fn e4_served_without_arms() {
    run(J, "op=1\nmake=0\n", [1, 0, 0, 0, 0]);
}

#[test]
fn e5_drop() {
    let new = run(J, "op=3\npnode=1,0,0\ndrop=0\n", [1, 0, 0, 1, 1]);
    assert_eq!(new, "node=3,0,0 node=5,0,0 edge=3,1,5");
}

#[test]
fn e6_two_edges_of_a_functional_name() {
    let rule = "op=2\npnode=0,0,0\npnode=1,0,0\nput=0,0,1\n";
    refuse_run(&j7(), rule, 12, 3);
}

#[test]
fn e7_node_addition() {
    let rule = "op=1\npnode=1,0,0\nmake=0\narm=0,0\n";
    let new = run(&j7(), rule, [2, 1, 1, 0, 0]);
    assert!(new.contains("node=8,0,0") && new.ends_with("edge=8,0,7"));
}

#[test]
fn e8_abstraction() {
    let new = run(J, "op=5\npnode=0,0,0\ngroup=0,0,1,1\n", [2, 1, 1, 0, 0]);
    assert!(new.contains("node=7,0,0") && new.ends_with("edge=7,1,3"));
}

#[test]
fn e9_number_past_65535() {
    let file = j7().replace("node=7,", "node=65535,");
    refuse_run(&file, "op=1\npnode=1,0,0\nmake=0\narm=0,0\n", 10, 0);
}

#[test]
fn e10_undo_twice() {
    let mut engine = opened(J);
    assert_eq!(engine.apply(R.as_bytes()), done([1, 0, 1, 0, 0]));
    assert_eq!(engine.undo(), Ok(()));
    assert_eq!(saved(&engine), J);
    assert_eq!(engine.undo(), refused(8, 0));
    assert_eq!(saved(&engine), J);
}

// The calls.

#[test]
fn shut_engine_opens_only() {
    let mut engine = Engine::new();
    let mut buffer = [7; 4];
    assert_eq!(engine.apply(b"nonsense"), refused(6, 0));
    assert_eq!(engine.undo(), refused(6, 0));
    assert_eq!(engine.close(), refused(6, 0));
    assert_eq!(engine.first(b"nonsense"), refused(6, 0));
    assert_eq!(engine.after(b"nonsense", &[1]), refused(6, 0));
    assert_eq!(engine.save(&mut buffer), refused(6, 0));
    assert_eq!(buffer, [7; 4]);
    assert!(engine.open(J.as_bytes()).is_ok());
    assert_eq!(engine.open(b"nonsense"), refused(7, 0));
    assert_eq!(saved(&engine), J);
    assert_eq!(engine.close(), Ok(()));
    assert_eq!(engine.close(), refused(6, 0));
}

#[test]
fn opening_again_forgets_the_copies() {
    let mut engine = opened(J);
    assert!(engine.apply(R.as_bytes()).is_ok());
    assert_eq!(engine.close(), Ok(()));
    assert!(engine.open(J.as_bytes()).is_ok());
    assert_eq!(engine.undo(), refused(8, 0));
}

#[test]
fn the_ninth_copy_is_dropped() {
    let mut engine = opened("class=0,0\n");
    // Each apply drops all nodes or adds one, so that neighbouring copies differ.
    let add: &[u8] = b"op=1\nmake=0\n";
    let delete: &[u8] = b"op=3\npnode=0,0,0\ndrop=0\n";
    let mut seen = Vec::new();
    for turn in 0..9 {
        seen.push(saved(&engine));
        let rule = if turn % 2 == 0 { add } else { delete };
        assert!(engine.apply(rule).is_ok());
    }
    for before in seen.iter().rev().take(8) {
        assert_eq!(engine.undo(), Ok(()));
        assert_eq!(&saved(&engine), before);
    }
    assert_eq!(engine.undo(), refused(8, 0));
}

#[test]
fn an_equal_drawing_is_copied_too() {
    let mut engine = opened(J);
    assert_eq!(engine.apply(NOTHING.as_bytes()), done([1, 0, 0, 0, 0]));
    assert_eq!(engine.undo(), Ok(()));
    assert_eq!(engine.undo(), refused(8, 0));
}

#[test]
fn save_wants_room_for_the_whole_file() {
    let engine = opened(J);
    let needed = J.len();
    let mut short = vec![7; needed - 1];
    assert_eq!(engine.save(&mut short), refused(13, needed as u64));
    assert!(short.iter().all(|&byte| byte == 7));
    let mut exact = vec![7; needed];
    assert_eq!(engine.save(&mut exact), Ok(needed));
    assert_eq!(exact, J.as_bytes());
    let mut long = vec![7; needed + 2];
    assert_eq!(engine.save(&mut long), Ok(needed));
    assert_eq!(&long[..needed], J.as_bytes());
    assert_eq!(&long[needed..], [7, 7]);
    assert_eq!(opened("").save(&mut []), Ok(0));
}

#[test]
fn after_takes_any_list_of_the_right_length() {
    let engine = opened(J);
    let rule = b"op=0\npnode=0,0,0\npnode=0,0,0\n";
    let next = |list: &[u64]| engine.after(rule, list).expect("accepted");
    assert_eq!(next(&[0, 0]), Some(vec![3, 3]));
    assert_eq!(next(&[3, 4]), Some(vec![3, 5]));
    assert_eq!(next(&[3, u64::MAX]), Some(vec![5, 3]));
    assert_eq!(next(&[4, 70_000]), Some(vec![5, 3]));
    assert_eq!(next(&[5, 4]), Some(vec![5, 5]));
    assert_eq!(next(&[5, 5]), None);
    assert_eq!(next(&[65_536, 0]), None);
    assert_eq!(engine.after(rule, &[3]), refused(14, 2));
    assert_eq!(engine.after(rule, &[3, 3, 3]), refused(14, 2));
    assert_eq!(engine.after(NOTHING.as_bytes(), &[]), Ok(None));
    assert_eq!(engine.after(NOTHING.as_bytes(), &[0]), refused(14, 0));
    // A bad line comes before the length.
    assert_eq!(engine.after(b"op=0\npnode=2,0,0\n", &[3, 3]), refused(3, 2));
}

#[test]
fn first_asks_for_the_action_too() {
    let engine = opened(J);
    assert_eq!(engine.first(R.as_bytes()), Ok(Some(vec![3, 5, 6])));
    assert_eq!(engine.after(R.as_bytes(), &[3, 5, 6]), Ok(None));
    assert_eq!(engine.first(b"op=2\npnode=0,0,0\n"), refused(1, 3));
    assert_eq!(engine.first(b"op=0\npnode=1,1,601\n"), Ok(None));
    assert_eq!(engine.first(b"op=0\npnode=1,1,600\n"), Ok(Some(vec![6])));
}

#[test]
fn matchings_with_loops_and_edges_both_ways() {
    let file = "class=0,0\nname=1,1\nmay=0,1,0\nnode=1,0,0\nnode=2,0,0\nnode=4,0,0\n\
        edge=1,1,1\nedge=1,1,2\nedge=2,1,1\nedge=2,1,4\nedge=4,1,4\n";
    let engine = opened(file);
    let lone_loop = "op=0\npnode=0,0,0\npedge=0,1,0\n";
    assert_eq!(listing(&engine, lone_loop), [[1], [4]]);
    let both_ways = "op=0\npnode=0,0,0\npnode=0,0,0\npedge=0,1,1\npedge=1,1,0\n";
    assert_eq!(listing(&engine, both_ways), [[1, 1], [1, 2], [2, 1], [4, 4]]);
    let backwards = "op=0\npnode=0,0,0\npnode=0,0,0\npedge=1,1,0\n";
    assert_eq!(listing(&engine, backwards), [[1, 1], [1, 2], [2, 1], [4, 2], [4, 4]]);
}

// Files.

#[test]
fn empty_text_opens() {
    let mut engine = Engine::new();
    let report = Opened { classes: 0, names: 0 };
    assert_eq!(engine.open(b""), Ok(report));
    assert_eq!(saved(&engine), "");
    assert_eq!(engine.apply(b"op=0\n"), done([1, 0, 0, 0, 0]));
}

#[test]
fn lines_out_of_form() {
    for line in [
        "",
        " ",
        "\r",
        "class",
        "class=",
        "=0,0",
        "class=0",
        "class=0,",
        "class=0,0,",
        "class=,0",
        "class=0,0,0",
        "class==0,0",
        "class=0=0",
        "class=0,0=",
        "class=00,0",
        "class=01,0",
        "class=+1,0",
        "class=-1,0",
        "class= 0,0",
        "class=0, 0",
        "class=0,0 ",
        " class=0,0",
        "class=0,0\r",
        "Class=0,0",
        "CLASS=0,0",
        "class=a,0",
        "class=0x1,0",
        "class=0.0,0",
        "classes=0,0",
        "op=0",
        "pnode=0,0,0",
        "class=64,0",
        "class=0,2",
        "name=64,0",
        "name=0,2",
        "class=\u{0661},0",
        "class=0\0,0",
    ] {
        refuse_file(&format!("{line}\n"), 1, 1);
    }
    let scheme = "class=0,0\nclass=1,1\nname=0,0\n";
    for line in [
        "may=64,0,0",
        "may=0,64,0",
        "may=0,0,64",
        "may=0,0",
        "node=65536,0,0",
        "node=0,64,0",
        "node=0,1,65536",
        "edge=65536,0,0",
        "edge=0,64,0",
        "edge=0,0,65536",
        "edge=0,0",
    ] {
        refuse_file(&format!("{scheme}{line}\n"), 1, 4);
    }
    let mut engine = Engine::new();
    assert_eq!(engine.open(b"class=0,0\n\xff\xfe=0\n"), refused(1, 2));
}

#[test]
fn long_numbers_are_out_of_range() {
    for number in [
        "256",
        "65536",
        "65537",
        "65600",
        "4294967296",
        "18446744073709551615",
        "18446744073709551616",
        "340282366920938463463374607431768211456",
        "1000000000000000000000000000000000000000",
    ] {
        refuse_file(&format!("class={number},0\n"), 1, 1);
        refuse_file(&format!("class=0,{number}\n"), 1, 1);
        refuse_text(J, &format!("op={number}\n"), 1, 1);
        refuse_text(J, &format!("op=3\npnode=0,0,0\ndrop={number}\n"), 1, 3);
        if number != "256" {
            refuse_file(&format!("class=1,1\nnode=0,1,{number}\n"), 1, 2);
            refuse_file(&format!("class=1,1\nnode={number},1,0\n"), 1, 2);
            refuse_text(J, &format!("op=0\npnode=1,1,{number}\n"), 1, 2);
        }
    }
    refuse_file(&format!("class={},0\n", "9".repeat(100_000)), 1, 1);
    opened("class=1,1\nnode=65535,1,65535\n");
}

#[test]
fn a_line_not_ended_is_out_of_form() {
    refuse_file(J.trim_end(), 1, 11);
    refuse_file("class=0,0", 1, 1);
    refuse_text(J, "op=0", 1, 1);
    refuse_text(J, R.trim_end(), 1, 7);
    // The bad line above it comes first.
    refuse_file("class=0,0\nnode=0,5,0\nnode=1,0,0", 3, 2);
    refuse_file(&J.replace('\n', "\r\n"), 1, 1);
    refuse_file(&(J.to_string() + "\n"), 1, 12);
}

#[test]
fn drawing_keys_in_turn_and_order() {
    refuse_file("name=0,0\nclass=0,0\n", 1, 2);
    refuse_file("class=0,0\nnode=0,0,0\nmay=0,0,0\n", 1, 3);
    refuse_file("class=0,0\nclass=0,1\n", 1, 2);
    refuse_file("class=1,0\nclass=0,0\n", 1, 2);
    refuse_file("name=3,0\nname=3,1\n", 1, 2);
    let scheme = "class=0,0\nclass=1,1\nname=0,0\nname=1,1\nmay=0,1,0\nmay=0,1,1\n";
    refuse_file(&format!("{scheme}may=0,1,1\n"), 1, 7);
    refuse_file(&format!("{scheme}may=0,0,1\n"), 1, 7);
    refuse_file(&format!("{scheme}node=2,0,0\nnode=2,1,5\n"), 1, 8);
    refuse_file(&format!("{scheme}node=2,0,0\nnode=1,0,0\n"), 1, 8);
    let nodes = "node=1,0,0\nnode=2,0,0\n";
    refuse_file(&format!("{scheme}{nodes}edge=1,1,2\nedge=1,1,2\n"), 1, 10);
    refuse_file(&format!("{scheme}{nodes}edge=1,1,2\nedge=1,1,1\n"), 1, 10);
    refuse_file(&format!("{scheme}{nodes}edge=2,1,1\nedge=1,1,2\n"), 1, 10);
    opened(&format!("{scheme}{nodes}edge=1,1,1\nedge=1,1,2\nedge=2,1,1\n"));
}

#[test]
fn drawing_declared_above() {
    refuse_file("class=0,0\nname=0,0\nmay=1,0,0\n", 3, 3);
    refuse_file("class=0,0\nname=0,0\nmay=0,1,0\n", 3, 3);
    refuse_file("class=0,0\nname=0,0\nmay=0,0,1\n", 3, 3);
    refuse_file("class=0,0\nnode=0,1,0\n", 3, 2);
    let above = "class=0,0\nname=0,0\nmay=0,0,0\nnode=1,0,0\n";
    refuse_file(&format!("{above}edge=0,0,1\n"), 3, 5);
    refuse_file(&format!("{above}edge=1,1,1\n"), 3, 5);
    refuse_file(&format!("{above}edge=1,0,0\n"), 3, 5);
    // Undeclared comes before conformity.
    refuse_file("class=0,1\nname=0,0\nmay=0,0,1\n", 3, 3);
    refuse_file("node=0,0,5\n", 3, 1);
}

#[test]
fn drawing_conforms() {
    let scheme = "class=0,0\nclass=1,1\nclass=2,1\nname=0,0\nname=1,1\nmay=0,0,0\nmay=0,1,0\n";
    refuse_file(&format!("{scheme}may=1,0,0\n"), 4, 8);
    refuse_file(&format!("{scheme}node=0,0,1\n"), 4, 8);
    refuse_file(&format!("{scheme}node=0,1,7\nnode=1,1,7\n"), 4, 9);
    refuse_file(&format!("{scheme}node=0,1,0\nnode=1,1,0\n"), 4, 9);
    let nodes = "node=0,0,0\nnode=1,0,0\nnode=2,1,7\nnode=3,2,7\nnode=4,1,0\nnode=5,2,0\n";
    opened(&format!("{scheme}{nodes}"));
    refuse_file(&format!("{scheme}{nodes}edge=0,0,2\n"), 4, 14);
    refuse_file(&format!("{scheme}{nodes}edge=2,0,0\n"), 4, 14);
    refuse_file(&format!("{scheme}{nodes}edge=0,0,0\nedge=0,0,1\n"), 4, 15);
    opened(&format!("{scheme}{nodes}edge=0,0,0\nedge=0,1,0\nedge=0,1,1\nedge=1,0,0\n"));
    // The first class line may declare a value class.
    opened("class=0,1\nclass=1,0\nname=0,0\nmay=1,0,0\nmay=1,0,1\n");
}

#[test]
fn drawing_limits() {
    opened(&field(256, 0));
    refuse_file(&field(257, 0), 2, 5 + 257);
    opened(&field(32, 512));
    refuse_file(&field(32, 513), 2, 5 + 32 + 513);
    // A 257th node out of order is 1, an undeclared one 2.
    refuse_file(&(field(256, 0) + "node=255,0,0\n"), 1, 262);
    refuse_file(&(field(256, 0) + "node=256,9,0\n"), 2, 262);
    // A 513th edge that stands already is 1, one at an undeclared node 2.
    refuse_file(&(field(32, 512) + "edge=0,0,0\n"), 1, 550);
    refuse_file(&(field(32, 512) + "edge=99,9,99\n"), 2, 550);
    let triples = |count| {
        lines(0..64, |class| format!("class={class},0"))
            + &lines(0..8, |name| format!("name={name},0"))
            + &lines(0..count, |number| {
                format!("may={},{},{}", number / 512, number / 64 % 8, number % 64)
            })
    };
    opened(&triples(256));
    refuse_file(&triples(257), 2, 72 + 257);
}

// Rule texts.

#[test]
fn rule_lines_missing_at_the_end() {
    refuse_text(J, "", 1, 1);
    for op in 1..=5 {
        refuse_text(J, &format!("op={op}\n"), 1, 2);
        refuse_text(J, &format!("op={op}\npnode=0,0,0\npedge=0,1,0\n"), 1, 4);
    }
    // A bad line above comes first.
    refuse_text(J, "op=2\npnode=9,0,0\n", 3, 2);
}

#[test]
fn rule_keys_in_turn_and_order() {
    let nodes = "pnode=0,0,0\npnode=0,0,0\npnode=1,0,0\n";
    for rule in [
        "pnode=0,0,0\n",
        "op=6\n",
        "op=\n",
        "op=0,0\n",
        "class=0,0\n",
        "make=0\n",
        "\n",
        "op=00\n",
    ] {
        refuse_text(J, rule, 1, 1);
    }
    for (op, line) in [
        (0, "op=0"),
        (0, "make=0"),
        (0, "arm=0,0"),
        (0, "put=0,1,0"),
        (0, "drop=0"),
        (0, "cut=0,1,0"),
        (0, "group=0,0,1,1"),
        (0, "node=0,0,0"),
        (1, "arm=0,2"),
        (1, "put=0,1,0"),
        (1, "drop=0"),
        (2, "make=0"),
        (2, "cut=0,1,0"),
        (3, "cut=0,1,0"),
        (3, "group=0,0,1,1"),
        (4, "put=0,1,0"),
        (5, "drop=0"),
        (5, "op=5"),
        (0, "pedge=0,1,6"),
        (0, "pedge=6,1,0"),
        (0, "pedge=0,64,0"),
        (0, "pnode=0,2,0"),
        (0, "pnode=0,0,1"),
        (0, "pnode=9,0,1"),
        (0, "pnode=1,0,65536"),
        (0, "pnode=64,0,0"),
        (1, "make=64"),
        (2, "put=0,1,6"),
        (2, "put=6,1,0"),
        (2, "put=0,64,0"),
        (3, "drop=6"),
        (4, "cut=0,1,6"),
        (5, "group=6,0,1,1"),
        (5, "group=0,64,1,1"),
        (5, "group=0,0,64,1"),
        (5, "group=0,0,1,64"),
        (5, "group=0,0,1"),
    ] {
        refuse_text(J, &format!("op={op}\n{nodes}{line}\n"), 1, 5);
    }
    for (op, first, second) in [
        (0, "pedge=0,1,1", "pedge=0,1,1"),
        (0, "pedge=1,1,0", "pedge=0,1,1"),
        (0, "pedge=0,1,1", "pnode=0,0,0"),
        (1, "make=0", "make=0"),
        (1, "make=0", "make=1"),
        (1, "make=0", "pedge=0,1,1"),
        (1, "make=0", "arm=64,2"),
        (1, "make=0", "arm=0,6"),
        (2, "put=0,1,1", "put=0,1,1"),
        (2, "put=0,1,1", "put=0,1,0"),
        (2, "put=0,1,1", "pedge=0,1,1"),
        (3, "drop=0", "drop=1"),
        (5, "group=0,0,1,1", "group=1,0,1,1"),
    ] {
        refuse_text(J, &format!("op={op}\n{nodes}{first}\n{second}\n"), 1, 6);
    }
    let cut = "pedge=0,1,0\npedge=0,1,1\ncut=0,1,1\n";
    refuse_text(J, &format!("op=4\n{nodes}{cut}cut=0,1,0\n"), 1, 8);
    refuse_text(J, &format!("op=4\n{nodes}{cut}cut=0,1,1\n"), 1, 8);
    refuse_text(J, &format!("op=1\n{nodes}make=0\narm=0,2\narm=0,2\n"), 1, 7);
    // A missing make shows at the arm, although one follows.
    refuse_text(J, &format!("op=1\n{nodes}arm=0,2\nmake=0\n"), 1, 5);
}

#[test]
fn rule_limits() {
    let nodes = "pnode=0,0,0\n".repeat(6);
    let edges = lines(0..8, |number| format!("pedge={},1,{}", number / 6, number % 6));
    let mut engine = opened(J);
    assert!(engine.apply(format!("op=0\n{nodes}{edges}").as_bytes()).is_ok());
    refuse_text(J, &format!("op=0\n{nodes}pnode=0,0,0\n"), 2, 8);
    refuse_text(J, &format!("op=0\n{nodes}pnode=9,0,0\n"), 2, 8);
    refuse_text(J, &format!("op=0\n{nodes}pnode=0,0,5\n"), 1, 8);
    refuse_text(J, &format!("op=0\n{nodes}{edges}pedge=2,1,0\n"), 2, 16);
    refuse_text(J, &format!("op=0\n{nodes}{edges}pedge=2,9,0\n"), 2, 16);
    refuse_text(J, &format!("op=0\n{nodes}{edges}pedge=0,1,0\n"), 1, 16);
    let puts = lines(0..4, |number| format!("put=0,1,{number}"));
    assert!(engine.apply(format!("op=2\n{nodes}{puts}").as_bytes()).is_ok());
    refuse_text(J, &format!("op=2\n{nodes}{puts}put=0,9,5\n"), 2, 12);
    let cuts = lines(0..4, |number| format!("cut=0,1,{number}"));
    assert!(engine.apply(format!("op=4\n{nodes}{edges}{cuts}").as_bytes()).is_ok());
    refuse_text(J, &format!("op=4\n{nodes}{edges}{cuts}cut=0,1,4\n"), 2, 20);
    let names = lines(0..5, |name| format!("name={name},0"));
    let mays = lines(0..5, |name| format!("may=0,{name},0"));
    let file = format!("class=0,0\n{names}{mays}node=0,0,0\n");
    let arms = lines(0..4, |name| format!("arm={name},0"));
    let rule = format!("op=1\npnode=0,0,0\nmake=0\n{arms}");
    let new = run(&file, &rule, [1, 1, 4, 0, 0]);
    assert_eq!(new, "node=0,0,0 node=1,0,0 edge=1,0,0 edge=1,1,0 edge=1,2,0 edge=1,3,0");
    refuse_text(&file, &(rule.clone() + "arm=4,0\n"), 2, 8);
    refuse_text(&file, &(rule + "arm=9,0\n"), 2, 8);
}

#[test]
fn rule_declared() {
    let nodes = "pnode=0,0,0\npnode=1,0,0\n";
    refuse_text(J, "op=0\npnode=2,0,0\n", 3, 2);
    refuse_text(J, "op=0\npnode=2,1,5\n", 3, 2);
    refuse_text(J, "op=0\npedge=0,1,0\n", 3, 2);
    for (op, line) in [
        (0, "pedge=0,1,2"),
        (0, "pedge=2,1,0"),
        (0, "pedge=0,2,0"),
        (1, "make=2"),
        (2, "put=0,2,0"),
        (2, "put=2,1,0"),
        (2, "put=0,1,2"),
        (3, "drop=2"),
        (4, "cut=0,2,0"),
        (4, "cut=2,1,0"),
        (5, "group=2,0,1,1"),
        (5, "group=0,2,1,1"),
        (5, "group=0,0,2,1"),
        (5, "group=0,0,1,2"),
        // Wrong kinds and triples come after.
        (5, "group=1,1,0,2"),
        (2, "put=1,0,2"),
    ] {
        refuse_text(J, &format!("op={op}\n{nodes}{line}\n"), 3, 4);
    }
    refuse_text(J, &format!("op=1\n{nodes}make=0\narm=2,0\n"), 3, 5);
    refuse_text(J, &format!("op=1\n{nodes}make=0\narm=0,2\n"), 3, 5);
}

#[test]
fn pattern_conforms() {
    refuse_text(J, "op=0\npnode=0,1,0\n", 4, 2);
    refuse_text(J, "op=0\npnode=0,1,5\n", 4, 2);
    refuse_text(J, "op=0\npnode=1,1,600\npnode=1,0,0\npnode=1,1,600\n", 4, 4);
    refuse_text(J, "op=0\npnode=0,0,0\npnode=1,0,0\npedge=0,1,1\n", 4, 4);
    refuse_text(J, "op=0\npnode=0,0,0\npnode=1,0,0\npedge=1,0,0\n", 4, 4);
    let two = "op=0\npnode=0,0,0\npnode=1,0,0\npnode=1,0,0\npedge=0,0,1\npedge=0,0,2\n";
    refuse_text(J, two, 4, 6);
    // Values left out share with nobody, and values differ.
    let free = "op=0\npnode=1,0,0\npnode=1,0,0\npnode=1,1,0\npnode=1,1,600\n";
    assert_eq!(opened(J).first(free.as_bytes()), Ok(None));
}

#[test]
fn action_lines() {
    let nodes = "pnode=0,0,0\npnode=1,0,0\npedge=0,0,1\n";
    for (op, line) in [
        (1, "make=1"),
        (2, "put=0,1,1"),
        (2, "put=0,0,0"),
        (2, "put=1,0,0"),
        (4, "cut=0,1,0"),
        (4, "cut=0,0,0"),
        (5, "group=0,1,1,1"),
        (5, "group=0,0,0,1"),
        (5, "group=0,0,1,0"),
        (5, "group=1,0,1,1"),
    ] {
        refuse_text(J, &format!("op={op}\n{nodes}{line}\n"), 5, 5);
    }
    // An arm wants a functional name, and (K, name, class of the node) permitted.
    refuse_text(J, &format!("op=1\n{nodes}make=0\narm=1,0\n"), 5, 6);
    refuse_text(J, &format!("op=1\n{nodes}make=0\narm=0,0\n"), 5, 6);
    // A put may equal a pedge, and the triple of a needn't be permitted.
    run(J, &format!("op=2\n{nodes}put=0,0,1\n"), [1, 0, 0, 0, 0]);
    let file = "class=0,0\nclass=1,1\nname=1,1\nname=2,1\nmay=0,1,1\nnode=4,1,8\n";
    let new = run(file, "op=5\npnode=1,0,0\ngroup=0,0,2,1\n", [1, 1, 1, 0, 0]);
    assert_eq!(new, "node=4,1,8 node=5,0,0 edge=5,1,4");
}

#[test]
fn the_first_bad_line_is_named() {
    refuse_file("class=0,0\nnode=0,0,5\nnode=0,0,0\n", 4, 2);
    refuse_file("class=0,0\nnode=0,7,5\nrubbish\n", 3, 2);
    refuse_text(J, "op=5\npnode=0,0,0\ngroup=0,1,1,1\nrubbish\n", 5, 3);
    refuse_text(J, "op=5\npnode=0,1,0\nrubbish\n", 4, 2);
}

// Operations.

#[test]
fn node_addition_sees_nodes_just_added_as_servers_only() {
    // Two matchings with the same image under the arm: one new node serves both.
    let file = "class=0,0\nclass=1,0\nclass=2,1\nname=0,0\nname=1,1\nmay=0,0,2\nmay=1,1,2\n\
        node=0,2,5\nnode=1,1,0\nnode=2,1,0\nedge=1,1,0\nedge=2,1,0\n";
    let rule = "op=1\npnode=1,0,0\npnode=2,0,0\npedge=0,1,1\nmake=0\narm=0,1\n";
    let new = run(file, rule, [2, 1, 1, 0, 0]);
    assert!(new.contains("node=3,0,0") && new.ends_with("edge=3,0,0"));
    // A chain grows by one node a call: the new ones aren't matched.
    let chain = "class=0,0\nname=0,0\nmay=0,0,0\nnode=9,0,0\n";
    let mut engine = opened(chain);
    for _ in 1..=3 {
        let grow = b"op=1\npnode=0,0,0\nmake=0\narm=0,0\n";
        assert_eq!(engine.apply(grow).map(|counts| counts.nodes_added), Ok(1));
    }
    assert_eq!(
        drawing_lines(&saved(&engine)),
        "node=9,0,0 node=10,0,0 node=11,0,0 node=12,0,0 edge=10,0,9 edge=11,0,10 edge=12,0,11"
    );
    // No arm: the first new node serves all the others.
    let file = "class=0,0\nclass=1,0\nnode=3,1,0\nnode=4,1,0\n";
    let new = run(file, "op=1\npnode=1,0,0\nmake=0\n", [2, 1, 0, 0, 0]);
    assert_eq!(new, "node=3,1,0 node=4,1,0 node=5,0,0");
    // In an empty drawing the new node is 0.
    let new = run("class=0,0\n", "op=1\nmake=0\n", [1, 1, 0, 0, 0]);
    assert_eq!(new, "node=0,0,0");
    // No matching, no node.
    run("class=0,0\n", "op=1\npnode=0,0,0\nmake=0\n", [0; 5]);
}

#[test]
fn a_serving_node_may_have_further_edges_but_must_have_all() {
    let file = "class=0,0\nclass=1,1\nname=0,0\nname=1,0\nmay=0,0,1\nmay=0,1,1\n\
        node=0,1,5\nnode=1,0,0\nedge=1,0,0\n";
    run(file, "op=1\npnode=1,0,0\nmake=0\narm=0,0\n", [1, 0, 0, 0, 0]);
    let both = "op=1\npnode=1,0,0\nmake=0\narm=0,0\narm=1,0\n";
    let new = run(file, both, [1, 1, 2, 0, 0]);
    assert!(new.ends_with("edge=1,0,0 edge=2,0,0 edge=2,1,0"));
    run(&(file.to_string() + "edge=1,1,0\n"), both, [1, 0, 0, 0, 0]);
}

#[test]
fn the_257th_node_and_the_513th_edge() {
    let grow = "op=1\npnode=0,0,0\nmake=0\narm=0,0\n";
    let add = "op=1\nmake=1\n";
    let with_class = |file: String| file.replace("class=0,0\n", "class=0,0\nclass=1,0\n");
    run(&with_class(field(255, 0)), add, [1, 1, 0, 0, 0]);
    refuse_run(&with_class(field(256, 0)), add, 9, 0);
    // 128 nodes may be doubled, not 129.
    run(&field(128, 0), grow, [128, 128, 128, 0, 0]);
    refuse_run(&field(129, 0), grow, 9, 0);
    run(&field(32, 480), grow, [32, 32, 32, 0, 0]);
    refuse_run(&field(32, 481), grow, 11, 0);
    // 9 before 10 before 11.
    let high = |file: String, last: &str| file.replace(&format!("node={last},"), "node=65535,");
    refuse_run(&high(field(256, 0), "255"), grow, 9, 0);
    refuse_run(&high(field(200, 0), "199"), grow, 10, 0);
    let full = lines(0..512, |number| format!("edge={},1,{}", number / 32, number % 32));
    refuse_run(&(high(field(33, 0), "32") + &full), grow, 10, 0);
    // Each new node in turn: the first passes the edges before the last would pass the nodes.
    let full = lines(0..512, |number| format!("edge={},1,{}", number / 129, number % 129));
    refuse_run(&(field(129, 0) + &full), grow, 11, 0);
}

#[test]
fn edge_addition_is_a_union() {
    let all = "op=2\npnode=0,0,0\npnode=0,0,0\nput=0,1,1\n";
    run(&field(16, 0), all, [256, 0, 256, 0, 0]);
    run(&field(22, 100), all, [484, 0, 384, 0, 0]);
    // 23 times 23 is 529.
    refuse_run(&field(23, 0), all, 11, 0);
    // Up to 512 edges, and one more.
    let line = "op=2\npnode=0,0,0\npnode=0,0,0\npedge=0,0,1\nput=0,1,1\n";
    let file = |edges| field(32, edges) + "edge=31,0,30\n";
    run(&file(510), line, [1, 0, 1, 0, 0]);
    refuse_run(&file(511), line, 11, 0);
    // An edge that stands already isn't a 513th.
    let standing = "op=2\npnode=0,0,0\npnode=0,0,0\npedge=0,1,1\nput=0,1,1\n";
    run(&field(32, 512), standing, [512, 0, 0, 0, 0]);
}

#[test]
fn eleven_before_twelve() {
    let clash = "op=2\npnode=0,0,0\npnode=0,0,0\nput=0,0,1\nput=0,1,1\n";
    refuse_run(&field(16, 0), clash, 12, 0);
    refuse_run(&field(17, 0), clash, 11, 0);
    // The smallest node, with an edge that stood before.
    let file = "class=0,0\nname=0,0\nmay=0,0,0\nnode=2,0,0\nnode=4,0,0\nnode=6,0,0\n\
        edge=2,0,2\nedge=4,0,6\n";
    let back = "op=2\npnode=0,0,0\npnode=0,0,0\npedge=0,0,1\nput=1,0,0\n";
    run(file, back, [2, 0, 1, 0, 0]);
    let looped = "op=2\npnode=0,0,0\nput=0,0,0\n";
    refuse_run(file, looped, 12, 4);
}

#[test]
fn deletions() {
    let file = "class=0,0\nclass=1,0\nname=1,1\nmay=0,1,0\nmay=0,1,1\n\
        node=1,0,0\nnode=2,0,0\nnode=3,1,0\nedge=1,1,1\nedge=1,1,2\nedge=1,1,3\nedge=2,1,1\n";
    // An edge from a node to itself goes once.
    let looped = "op=3\npnode=0,0,0\npedge=0,1,0\ndrop=0\n";
    assert_eq!(run(file, looped, [1, 0, 0, 1, 4]), "node=2,0,0 node=3,1,0");
    let all = "op=3\npnode=0,0,0\npnode=0,0,0\ndrop=1\n";
    assert_eq!(run(file, all, [4, 0, 0, 2, 4]), "node=3,1,0");
    let cut = "op=4\npnode=0,0,0\npnode=0,0,0\npedge=0,1,1\npedge=1,1,0\ncut=0,1,1\n";
    assert_eq!(run(file, cut, [3, 0, 0, 0, 3]), "node=1,0,0 node=2,0,0 node=3,1,0 edge=1,1,3");
    // The places are free at once: the largest number standing counts.
    let mut engine = opened(file);
    assert!(engine.apply(b"op=3\npnode=1,0,0\ndrop=0\n").is_ok());
    assert!(engine.apply(b"op=1\nmake=1\n").is_ok());
    assert!(saved(&engine).contains("node=3,1,0"));
}

#[test]
fn abstraction_groups() {
    let scheme = "class=0,0\nclass=1,0\nname=1,1\nname=2,1\nmay=0,1,0\nmay=1,2,0\n";
    let nodes = "node=1,0,0\nnode=2,0,0\nnode=3,0,0\nnode=4,0,0\n";
    let edges = "edge=1,1,4\nedge=3,1,4\n";
    let rule = "op=5\npnode=0,0,0\ngroup=0,1,1,2\n";
    let new = run(&format!("{scheme}{nodes}{edges}"), rule, [4, 2, 4, 0, 0]);
    assert!(new.ends_with("edge=5,2,1 edge=5,2,3 edge=6,2,2 edge=6,2,4"));
    // Exactly the group serves; a node with one target more, or one less, doesn't.
    let servers = "node=7,1,0\nnode=8,1,0\n";
    let exact = "edge=7,2,1\nedge=7,2,3\nedge=8,2,2\nedge=8,2,3\nedge=8,2,4\n";
    let file = format!("{scheme}{nodes}{servers}{edges}{exact}");
    let new = run(&file, rule, [4, 1, 2, 0, 0]);
    assert!(new.ends_with("edge=9,2,2 edge=9,2,4"));
    let less = "edge=7,2,1\nedge=8,2,2\nedge=8,2,4\n";
    let file = format!("{scheme}{nodes}{servers}{edges}{less}");
    let new = run(&file, rule, [4, 1, 2, 0, 0]);
    assert!(new.ends_with("edge=9,2,1 edge=9,2,3"));
    // No image, no group.
    run(scheme, rule, [0; 5]);
    // Only images of p are grouped.
    let some = "op=5\npnode=0,0,0\npnode=0,0,0\npedge=0,1,1\ngroup=1,1,1,2\n";
    let new = run(&format!("{scheme}{nodes}{edges}"), some, [2, 1, 1, 0, 0]);
    assert!(new.ends_with("edge=5,2,4"));
}

#[test]
fn abstraction_limits() {
    let rule = "op=5\npnode=0,0,0\ngroup=0,0,1,1\n";
    // All nodes without an edge are one group.
    run(&field(255, 0), rule, [255, 1, 255, 0, 0]);
    refuse_run(&field(256, 0), rule, 9, 0);
    let high = field(200, 0).replace("node=199,", "node=65535,");
    refuse_run(&high, rule, 10, 0);
    // Nodes 0 to 14 share their 32 targets, the others have no edge: two groups.
    run(&field(32, 480), rule, [32, 2, 32, 0, 0]);
    // Here node 15 has an edge of its own and the third of three groups passes 512.
    refuse_run(&field(32, 481), rule, 11, 0);
}

#[test]
fn mangled_texts_never_upset_the_engine() {
    let mut seed: u32 = 1;
    let mut below = |bound: usize| {
        seed = seed.wrapping_mul(1_664_525).wrapping_add(1_013_904_223);
        (seed >> 8) as usize % bound
    };
    let mut mangle = |text: &str| {
        let mut bytes = text.as_bytes().to_vec();
        for _ in 0..=below(2) {
            let at = below(bytes.len());
            let bytes_to_take = b"0123456789,=\n\r npem\xff";
            let byte = bytes_to_take[below(bytes_to_take.len())];
            match below(3) {
                0 => bytes[at] = byte,
                1 => bytes.insert(at, byte),
                _ => bytes.truncate(at + 1),
            }
        }
        bytes
    };
    for _ in 0..20_000 {
        let mut engine = opened(J);
        let rule = mangle(R);
        let first = engine.first(&rule);
        match engine.apply(&rule) {
            Ok(_) => assert_eq!(engine.undo(), Ok(())),
            Err(refusal) if refusal.number <= 5 => assert_eq!(first, Err(refusal)),
            Err(_) => assert!(first.is_ok()),
        }
        assert_eq!(saved(&engine), J);
        assert_eq!(engine.undo(), refused(8, 0));
        let file = mangle(J);
        let mut engine = Engine::new();
        match engine.open(&file) {
            Ok(_) => assert_eq!(saved(&engine).as_bytes(), file),
            Err(refusal) => assert!((1..=4).contains(&refusal.number)),
        }
    }
}
