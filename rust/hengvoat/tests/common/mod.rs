//! The drawings and rules of document 01's examples, and what the tests do with every session.

#![allow(dead_code)] // each test file takes what it needs

use hengvoat::{Applied, Session};
use std::fmt::Write;

/// Document 01's J: a cabinet with a width beside a cabinet without one.
pub const J: &str = "\
class=0,0
class=1,1
name=0,0
name=1,1
may=0,0,1
may=0,1,0
node=3,0,0
node=5,0,0
node=6,1,600
edge=3,0,6
edge=3,1,5
";

/// Document 01's R: the cabinet beside gets the same width.
pub const R: &str = "op=2\npnode=0,0,0\npnode=0,0,0\npnode=1,0,0\npedge=0,0,2\npedge=0,1,1\nput=1,0,2\n";

/// Two free nodes of class 0, as in E2.
pub const TWO_FREE: &str = "op=0\npnode=0,0,0\npnode=0,0,0\n";

/// A node for each width, as in E7.
pub const ONE_FOR_EACH_WIDTH: &str = "op=1\npnode=1,0,0\nmake=0\narm=0,0\n";

/// In a crowd: a node for each node to which no edge of name 0 goes.
pub const ONE_MORE: &str = "op=1\npnode=0,0,0\nmake=0\narm=0,0\n";

/// J with a second width, whose node has the given number, after node 6.
pub fn j_with(number: u64) -> String {
    J.replace("node=6,1,600\n", &format!("node=6,1,600\nnode={number},1,720\n"))
}

pub fn opened(file: &str) -> Session {
    let mut session = Session::new();
    session.open(file.as_bytes()).expect("the file opens");
    session
}

pub fn applied(matchings: u64, nodes_added: u64, edges_added: u64, nodes_removed: u64, edges_removed: u64) -> Applied {
    Applied {
        matchings,
        nodes_added,
        edges_added,
        nodes_removed,
        edges_removed,
    }
}

pub fn saved(session: &Session) -> String {
    String::from_utf8(session.save().expect("something is open")).expect("a file is ASCII")
}

/// The drawing and the undo copies, newest first, all as files: all that a session holds, save the scheme's own lines, which every file
/// has.
pub fn whole(session: &Session) -> Vec<Vec<u8>> {
    let mut clone = session.clone();
    let mut files = Vec::new();
    while let Ok(file) = clone.save() {
        files.push(file);
        if clone.undo().is_err() {
            break;
        }
    }
    files
}

/// A scheme of one class, with a functional name (0) and a multivalued one (1) between its nodes; so many nodes from number `from` on; and
/// so many edges of name 1, from the first node to each in turn, then from the second, and so on.
pub fn crowd(from: usize, nodes: usize, edges: usize) -> String {
    let mut file = String::from("class=0,0\nname=0,0\nname=1,1\nmay=0,0,0\nmay=0,1,0\n");
    for node in from..from + nodes {
        writeln!(file, "node={node},0,0").unwrap();
    }
    for edge in 0..edges {
        writeln!(file, "edge={},1,{}", from + edge / nodes, from + edge % nodes).unwrap();
    }
    file
}

/// Numbers that look random, and are the same in every run.
pub struct Chance(pub u64);

impl Chance {
    pub fn below(&mut self, bound: usize) -> usize {
        self.0 ^= self.0 << 13;
        self.0 ^= self.0 >> 7;
        self.0 ^= self.0 << 17;
        (self.0 % bound as u64) as usize
    }

    pub fn of<'a, T: ?Sized>(&mut self, choices: &[&'a T]) -> &'a T {
        choices[self.below(choices.len())]
    }
}
