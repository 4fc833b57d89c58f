//! Kitchens of a given size, and a rule for each operation.

use std::fmt::Write;

/// Cabinets in a run, each with a width; doors on cabinets; sets, which rules make.
///
/// Classes: 0 cabinet, 1 width (a value), 2 door, 3 set. Names: 0 width of a cabinet or door
/// (functional), 1 the neighbour of a cabinet (functional), 2 a door or another part of a cabinet
/// (multivalued), 3 a member of a set (multivalued), 4 a label of a new node (functional).
const SCHEME: &str = "class=0,0\nclass=1,1\nclass=2,0\nclass=3,0\n\
    name=0,0\nname=1,0\nname=2,1\nname=3,1\nname=4,0\n\
    may=0,0,1\nmay=0,1,0\nmay=0,2,0\nmay=0,2,2\nmay=2,0,1\nmay=2,2,0\nmay=3,3,0\nmay=3,3,2\nmay=3,4,0\nmay=3,4,2\n";

/// The drawing file of a kitchen with so many nodes and edges; of the nodes a tenth are widths,
/// three tenths doors and the rest cabinets. Edges: widths, neighbours, doors, in this order as far
/// as the number goes, then further parts.
pub fn kitchen(nodes: usize, edges: usize) -> String {
    let widths = nodes.div_ceil(10);
    let doors = nodes * 3 / 10;
    let cabinets = nodes - widths - doors;
    let mut file = String::from(SCHEME);
    for n in 0..nodes {
        let (class, value) = match n {
            n if n < cabinets => (0, 0),
            n if n < cabinets + doors => (2, 0),
            n => (1, 300 + 50 * (n - cabinets - doors)),
        };
        writeln!(file, "node={n},{class},{value}").expect("a string takes all");
    }
    let width = |k: usize| cabinets + doors + k % widths;
    let mut wanted: Vec<[usize; 3]> = Vec::new();
    wanted.extend((0..cabinets).map(|c| [c, 0, width(c / 3)]));
    wanted.extend((1..cabinets).map(|c| [c - 1, 1, c]));
    wanted.extend((0..doors).map(|d| [d % cabinets, 2, cabinets + d]));
    wanted.extend((0..doors).map(|d| [cabinets + d, 0, width(d / 3)]));
    for step in 1..cabinets {
        wanted.extend((0..cabinets).map(|c| [c, 2, (c + step) % cabinets]));
    }
    wanted.truncate(edges);
    wanted.sort_unstable();
    for [source, name, target] in wanted {
        writeln!(file, "edge={source},{name},{target}").expect("a string takes all");
    }
    file
}

/// A rule, with what it is called in the tables.
pub struct Rule {
    /// What it does.
    pub title: &'static str,
    /// Its text.
    pub text: &'static str,
    /// It adds nodes and edges, at most [`ADDED`] of each.
    pub adds: bool,
}

/// No rule adds more nodes or edges to a kitchen of these sizes.
pub const ADDED: usize = 6;

/// One rule for each code. Those that add do so at the few cabinets that are 30 mm wide, so that a full kitchen has room for it once
/// [`ADDED`] nodes and edges are left out.
pub const RULES: [Rule; 6] = [
    Rule {
        title: "apply 0, pattern only",
        text: "op=0\npnode=0,0,0\npnode=0,0,0\npnode=1,0,0\npedge=0,0,2\npedge=0,1,1\n",
        adds: false,
    },
    Rule {
        title: "apply 1, node addition",
        text: "op=1\npnode=0,0,0\npnode=1,1,300\npedge=0,0,1\nmake=3\narm=4,0\n",
        adds: true,
    },
    Rule {
        title: "apply 2, edge addition",
        text: "op=2\npnode=0,0,0\npnode=2,0,0\npnode=1,1,300\npedge=0,0,2\npedge=0,2,1\nput=1,2,0\n",
        adds: true,
    },
    Rule {
        title: "apply 3, node deletion",
        text: "op=3\npnode=0,0,0\npnode=2,0,0\npedge=0,2,1\ndrop=1\n",
        adds: false,
    },
    Rule {
        title: "apply 4, edge deletion",
        text: "op=4\npnode=0,0,0\npnode=0,0,0\npedge=0,1,1\ncut=0,1,1\n",
        adds: false,
    },
    Rule {
        title: "apply 5, abstraction",
        text: "op=5\npnode=0,0,0\npnode=1,1,300\npedge=0,0,1\ngroup=0,3,2,3\n",
        adds: true,
    },
];

/// Two neighbours and their width, and a door of the first.
pub const LISTED: &str = "op=0\npnode=0,0,0\npnode=0,0,0\npnode=1,0,0\npnode=2,0,0\npedge=0,0,2\npedge=0,1,1\npedge=0,2,3\n";

/// So many cabinets with nothing between them: each list of as many cabinets is a matching.
pub fn free(cabinets: usize) -> String {
    format!("op=0\n{}", "pnode=0,0,0\n".repeat(cabinets))
}
