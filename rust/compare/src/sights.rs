//! Which limits a call has reached, as far as its texts, its answer and the files before and after it show.

use std::collections::BTreeSet;

use crate::agreed::Agreed;
use crate::calls::{Answer, Call};
use crate::kitchen::{Kitchen, Triple, DECLARED, EDGES, MAYS, NODES, TOP};
use crate::limits::Limit;
use crate::misprints::misprints;
use crate::pattern::Room;
use crate::text::{self, DRAWING_KEYS, RULE_KEYS};

/// What counts as many applies in a row.
const MANY_APPLIES: usize = 20;

/// What counts as a long file; the longest has 20,008 bytes.
const LONG_FILE: usize = 20_000;

/// What counts as a long rule text.
const LONG_RULE: usize = 230;

/// From here on a number needs all 64 bits.
const HUGE: u64 = 1 << 63;

/// The limits that the call reached, between the two states.
pub fn sights(before: &Agreed, call: &Call, answer: &Answer, after: &Agreed) -> Vec<Limit> {
    let empty = Kitchen::default();
    let old = before.open.as_ref().map_or(&empty, |open| &open.kitchen);
    let new = after.open.as_ref().map_or(&empty, |open| &open.kitchen);
    let mut seen = Sights(Vec::new());
    match (call, answer) {
        (Call::Open(file), Answer::Done(_)) => seen.opened(file, new),
        (Call::Apply(rule), Answer::Done(report)) => {
            let rule = Outline::read(rule);
            seen.pattern(&rule, report.first() > Some(&0));
            seen.applied(&rule, report, old, new);
            seen.note(after.applies == MANY_APPLIES, Limit::ManyApplies);
            let freed = before.last_copy().is_some_and(|copy| copy.kitchen.nodes.len() == NODES);
            let grown = new.nodes.len() > old.nodes.len();
            seen.note(freed && grown && old.nodes.len() < NODES, Limit::NewNodeFreed);
        }
        (Call::Apply(rule), Answer::Refused(number, _)) if *number >= 9 => seen.declined(&Outline::read(rule), *number, old),
        (Call::Undo, Answer::Refused(8, _)) => seen.note(before.dropped, Limit::NinthCopy),
        (Call::First(rule) | Call::After(rule, _), Answer::Matching(matching)) => {
            seen.pattern(&Outline::read(rule), true);
            let images: BTreeSet<&u64> = matching.iter().collect();
            seen.note(images.len() < matching.len(), Limit::TwoOnOne);
        }
        (Call::Save(length), _) => seen.saved(*length, before),
        (Call::Open(text), Answer::Refused(1, line)) => seen.0 = misprints(text, *line, &DRAWING_KEYS),
        (Call::Apply(text) | Call::First(text) | Call::After(text, _), Answer::Refused(1, line)) => {
            seen.0 = misprints(text, *line, &RULE_KEYS);
        }
        _ => {}
    }
    let rule = call.rule().filter(|_| answer.accepted());
    seen.note(rule.is_some_and(|rule| rule.len() >= LONG_RULE), Limit::RuleLong);
    if let Call::After(_, list) = call {
        seen.list(list, answer, old);
    }
    seen.0
}

/// The numbers of a rule text that was accepted.
struct Outline {
    code: u64,
    nodes: Vec<[u64; 3]>,
    edges: Vec<Triple>,
    arms: usize,
    puts: Vec<Triple>,
    group: [u64; 4],
}

impl Outline {
    fn read(rule: &[u8]) -> Outline {
        let mut outline = Outline { code: 0, nodes: Vec::new(), edges: Vec::new(), arms: 0, puts: Vec::new(), group: [0; 4] };
        for line in text::read(rule) {
            match (line.key, &line.numbers[..]) {
                ("op", &[code]) => outline.code = code,
                ("pnode", &[class, given, value]) => outline.nodes.push([class, given, value]),
                ("pedge", &[from, name, to]) => outline.edges.push([from, name, to]),
                ("arm", _) => outline.arms += 1,
                ("put", &[from, name, to]) => outline.puts.push([from, name, to]),
                ("group", &[place, class, by, to]) => outline.group = [place, class, by, to],
                _ => {}
            }
        }
        outline
    }

    fn class(&self, place: u64) -> u64 {
        self.nodes[place as usize][0]
    }

    /// Into how many parts the pattern falls that no edge joins.
    fn components(&self) -> usize {
        let mut part: Vec<usize> = (0..self.nodes.len()).collect();
        for &[from, _, to] in &self.edges {
            let (from, to) = (part[from as usize], part[to as usize]);
            part.iter_mut().filter(|part| **part == from).for_each(|part| *part = to);
        }
        part.into_iter().collect::<BTreeSet<usize>>().len()
    }

    /// A case in which edge addition is sure to clash: free nodes, one of which is joined by a functional name to
    /// every node of a class that has two.
    fn surely_clashes(&self, old: &Kitchen) -> bool {
        let free = self.edges.is_empty() && self.nodes.iter().all(|&[class, given, _]| given == 0 && old.count(class) > 0);
        let clash = |&[from, name, to]: &Triple| from != to && old.is_functional(name) && old.count(self.class(to)) > 1;
        free && self.puts.iter().any(clash)
    }
}

struct Sights(Vec<Limit>);

impl Sights {
    fn note(&mut self, reached: bool, limit: Limit) {
        self.0.extend(reached.then_some(limit));
    }

    fn opened(&mut self, file: &[u8], new: &Kitchen) {
        self.note(file.is_empty(), Limit::OpenEmpty);
        self.note(new.nodes.len() == NODES - 1, Limit::OpenNodes255);
        self.note(new.nodes.len() == NODES, Limit::OpenNodes256);
        self.note(new.edges.len() == EDGES - 1, Limit::OpenEdges511);
        self.note(new.edges.len() == EDGES, Limit::OpenEdges512);
        self.note(new.mays.len() == MAYS - 1, Limit::OpenMays255);
        self.note(new.mays.len() == MAYS, Limit::OpenMays256);
        self.note(new.nodes.contains_key(&TOP), Limit::OpenTop);
        let declared = new.classes.len().min(new.names.len()) as u64;
        self.note(declared == DECLARED, Limit::OpenDeclared);
        self.note(file.len() >= LONG_FILE, Limit::OpenLong);
    }

    fn pattern(&mut self, rule: &Outline, matching: bool) {
        self.note(rule.nodes.is_empty(), Limit::PatternEmpty);
        self.note(matching && rule.nodes.len() == Room::ALLOWED.nodes, Limit::PatternNodes6);
        self.note(matching && rule.edges.len() == Room::ALLOWED.edges, Limit::PatternEdges8);
        self.note(matching && rule.edges.iter().any(|edge| edge[0] == edge[2]), Limit::PatternLoop);
        self.note(matching && rule.components() > 1, Limit::PatternParts);
        self.note(matching && rule.nodes.iter().any(|node| node[1] == 1), Limit::PatternGiven);
    }

    fn applied(&mut self, rule: &Outline, report: &[u64], old: &Kitchen, new: &Kitchen) {
        let &[matchings, nodes, edges, _, gone] = report else {
            return;
        };
        let largest = new.nodes.last_key_value().map(|(&number, _)| number);
        self.note(nodes > 0 && new.nodes.len() == NODES, Limit::NewNode256);
        self.note(nodes > 0 && largest == Some(TOP), Limit::NewNodeTop);
        self.note(nodes > 0 && old.nodes.is_empty(), Limit::NewNode0);
        self.note(edges > 0 && new.edges.len() == EDGES, Limit::NewEdge512);
        let arms = [Limit::Arms0, Limit::Arms1, Limit::Arms2, Limit::Arms3, Limit::Arms4];
        match rule.code {
            1 => {
                self.note(nodes > 0, arms[rule.arms]);
                self.note(nodes == 0 && matchings > 0, Limit::AllServed);
                self.note(nodes > 0 && nodes < matchings, Limit::SomeServed);
            }
            2 => self.note(matchings > 0 && edges == 0, Limit::NothingPut),
            3 => self.note(gone > 0, Limit::DropEdges),
            4 => self.note(gone > 0, Limit::CutEdges),
            5 => self.grouped(rule, matchings, old, new),
            _ => {}
        }
    }

    fn grouped(&mut self, rule: &Outline, matchings: u64, old: &Kitchen, new: &Kitchen) {
        let [place, class, by, to] = rule.group;
        let fresh = new.nodes.keys().filter(|node| !old.nodes.contains_key(node));
        let groups: Vec<BTreeSet<u64>> = fresh.map(|&node| new.targets(node, to)).collect();
        let with = |member: &u64| !old.targets(*member, by).is_empty();
        self.note(groups.iter().flatten().any(with), Limit::GroupWith);
        self.note(groups.iter().flatten().any(|member| !with(member)), Limit::GroupWithout);
        self.note(!groups.is_empty() && !old.is_object(rule.class(place)), Limit::GroupValues);
        self.note(groups.is_empty() && matchings > 0, Limit::GroupServed);
        // With one pattern node every node of its class is a member, and those without a new node were served.
        let members: usize = groups.iter().map(BTreeSet::len).sum();
        let some = rule.nodes.len() == 1 && !groups.is_empty() && (members as u64) < matchings;
        self.note(some && old.is_object(class), Limit::GroupSomeServed);
    }

    fn declined(&mut self, rule: &Outline, number: u64, old: &Kitchen) {
        let top = old.nodes.contains_key(&TOP);
        let full = old.edges.len() == EDGES && (rule.code == 5 || rule.arms > 0);
        match (number, rule.code) {
            (9, 1) => self.note(true, Limit::Nine1),
            (9, _) => self.note(true, Limit::Nine5),
            (10, 1) => self.note(true, Limit::Ten1),
            (10, _) => self.note(true, Limit::Ten5),
            (11, 1) => self.note(true, Limit::Eleven1),
            (11, 2) => self.note(true, Limit::Eleven2),
            (11, _) => self.note(true, Limit::Eleven5),
            _ => {}
        }
        self.note(number == 9 && top, Limit::NineTen);
        self.note(number == 10 && top && full, Limit::TenEleven);
        self.note(number == 11 && rule.code == 2 && rule.surely_clashes(old), Limit::ElevenTwelve);
    }

    fn list(&mut self, list: &[u64], answer: &Answer, old: &Kitchen) {
        let accepted = answer.accepted();
        self.note(accepted && list.iter().any(|node| !old.nodes.contains_key(node)), Limit::AfterNoNode);
        self.note(accepted && list.iter().any(|&node| node >= HUGE), Limit::AfterHuge);
        self.note(accepted && list.is_empty(), Limit::AfterEmpty);
        if let Answer::Refused(14, length) = *answer {
            self.note((list.len() as u64) < length, Limit::AfterShort);
            self.note(list.len() as u64 > length, Limit::AfterLong);
        }
    }

    fn saved(&mut self, length: usize, before: &Agreed) {
        let file = before.file().len();
        let open = before.open.is_some();
        self.note(open && length > file, Limit::SaveLong);
        self.note(open && length == file, Limit::SaveExact);
        self.note(open && length + 1 == file, Limit::SaveShort);
        self.note(open && length == 0 && file > 0, Limit::SaveNothing);
    }
}
