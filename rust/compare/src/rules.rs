//! Random rule texts that an engine with the kitchen open accepts.

use crate::kitchen::Kitchen;
use crate::pattern::{pattern, Pattern, Room};
use crate::random::Random;
use crate::text::{self, Line};

/// A rule.
#[derive(Clone, Debug)]
pub struct Rule {
    /// The operation's code, 0 to 5.
    pub code: u64,
    /// Its pattern.
    pub pattern: Pattern,
    /// The lines after the pattern.
    pub action: Vec<Line>,
}

impl Rule {
    /// The lines of the rule text.
    pub fn lines(&self) -> Vec<Line> {
        let mut lines = vec![Line::new("op", [self.code])];
        lines.extend(self.pattern.lines());
        lines.extend(self.action.iter().cloned());
        lines
    }

    /// The rule text.
    pub fn text(&self) -> Vec<u8> {
        text::write(&self.lines())
    }

    /// Whether there are more lines of some kind than document 01 allows.
    pub fn is_too_long(&self) -> bool {
        let parts = self.action.iter().filter(|line| line.key != "make").count();
        let allowed = Room::ALLOWED;
        self.pattern.nodes.len() > allowed.nodes || self.pattern.edges.len() > allowed.edges || parts > allowed.parts
    }
}

/// How many patterns are tried for an operation.
const PATTERNS: usize = 4;

/// A random rule with the operation that is wished for, if a pattern is found that has room for one, else with none.
/// The pattern has about so many matchings at the most.
pub fn rule(random: &mut Random, kitchen: &Kitchen, room: Room, code: u64, most: u64) -> Rule {
    for _ in 0..PATTERNS {
        let pattern = pattern(random, kitchen, room, most);
        let action = match code {
            1 => addition(random, kitchen, room, &pattern),
            2 => edge_addition(random, kitchen, room, &pattern),
            3 => deletion(random, &pattern),
            4 => edge_deletion(random, room, &pattern),
            5 => abstraction(random, kitchen, &pattern),
            _ => Some(Vec::new()),
        };
        if let Some(action) = action {
            return Rule { code, pattern, action };
        }
    }
    Rule { code: 0, pattern: pattern(random, kitchen, room, most), action: Vec::new() }
}

/// How many arms, puts or cuts, from the least number on.
fn parts(random: &mut Random, room: Room, least: usize) -> usize {
    if room.fill {
        return room.parts;
    }
    random.between(least, room.parts)
}

fn addition(random: &mut Random, kitchen: &Kitchen, room: Room, pattern: &Pattern) -> Option<Vec<Line>> {
    let mut classes = kitchen.objects();
    random.shuffle(&mut classes);
    let wanted = parts(random, room, 0);
    let enough = |class: &&u64| arm_names(kitchen, pattern, **class).len() >= wanted;
    let class = *classes.iter().find(enough).or(classes.first())?;
    let mut lines = vec![Line::new("make", [class])];
    for name in random.some(&arm_names(kitchen, pattern, class), wanted) {
        let nodes = arm_nodes(kitchen, pattern, class, name);
        lines.push(Line::new("arm", [name, random.pick(&nodes)?]));
    }
    Some(lines)
}

/// The functional names by which a new node of the class can be joined to a pattern node.
fn arm_names(kitchen: &Kitchen, pattern: &Pattern, class: u64) -> Vec<u64> {
    let names = kitchen.names.keys().copied().filter(|&name| kitchen.is_functional(name));
    names.filter(|&name| !arm_nodes(kitchen, pattern, class, name).is_empty()).collect()
}

fn arm_nodes(kitchen: &Kitchen, pattern: &Pattern, class: u64, name: u64) -> Vec<u64> {
    let fits = |place: &u64| {
        let target = pattern.nodes[*place as usize].0;
        kitchen.mays.contains(&[class, name, target])
    };
    (0..pattern.nodes.len() as u64).filter(fits).collect()
}

fn edge_addition(random: &mut Random, kitchen: &Kitchen, room: Room, pattern: &Pattern) -> Option<Vec<Line>> {
    let mut edges = pattern.permitted(kitchen);
    if random.chance(40) {
        // Without functional names there is no clash, and more rules go through.
        edges.retain(|edge| !kitchen.is_functional(edge[1]));
    }
    let wanted = parts(random, room, 1);
    let chosen = random.some(&edges, wanted);
    let lines = chosen.into_iter().map(|edge| Line::new("put", edge));
    Some(lines.collect()).filter(|lines: &Vec<Line>| !lines.is_empty())
}

fn deletion(random: &mut Random, pattern: &Pattern) -> Option<Vec<Line>> {
    let places: Vec<u64> = (0..pattern.nodes.len() as u64).collect();
    Some(vec![Line::new("drop", [random.pick(&places)?])])
}

fn edge_deletion(random: &mut Random, room: Room, pattern: &Pattern) -> Option<Vec<Line>> {
    let edges: Vec<_> = pattern.edges.iter().copied().collect();
    let wanted = parts(random, room, 1);
    let chosen = random.some(&edges, wanted);
    let lines = chosen.into_iter().map(|edge| Line::new("cut", edge));
    Some(lines.collect()).filter(|lines: &Vec<Line>| !lines.is_empty())
}

/// Two times in three the first name leads away from the grouped class, else every member is without such an edge.
fn abstraction(random: &mut Random, kitchen: &Kitchen, pattern: &Pattern) -> Option<Vec<Line>> {
    let place = random.below(pattern.nodes.len());
    let grouped = pattern.nodes.get(place)?.0;
    let fits = kitchen.mays.iter().filter(|may| may[2] == grouped);
    let fits: Vec<_> = fits.copied().filter(|may| !kitchen.is_functional(may[1])).collect();
    let [class, to_members, _] = random.pick(&fits)?;
    let mut names = kitchen.multivalued();
    if random.chance(67) {
        let leads = |name: &u64| kitchen.mays.iter().any(|may| may[0] == grouped && may[1] == *name);
        let leading: Vec<u64> = names.iter().copied().filter(leads).collect();
        names = if leading.is_empty() { names } else { leading };
    }
    let by = random.pick(&names)?;
    Some(vec![Line::new("group", [place as u64, class, by, to_members])])
}
