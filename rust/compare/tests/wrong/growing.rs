//! Node addition and abstraction done once more, with a turn that is wrong.

use std::collections::{BTreeMap, BTreeSet};

use compare::kitchen::{Kitchen, EDGES, NODES, TOP};
use compare::text;

use super::Fault;

/// The drawing that an engine with the fault makes of the old one by the rule with these matchings, whatever the limits.
/// None if the fault has nothing to do with the rule.
pub fn grown(fault: Fault, rule: &[u8], old: &Kitchen, matchings: &[Vec<u64>]) -> Option<Kitchen> {
    let lines = text::read(rule);
    let (first, action) = (lines.first()?, lines.last()?);
    match (fault, first.numbers[0], action.key) {
        (Fault::JustAddedDontServe | Fault::ServesExactly | Fault::NineForTheWhole, 1, _) => {
            Some(node_addition(fault, &lines, old, matchings))
        }
        (Fault::GroupsByFirstTarget | Fault::GroupsTheWholeClass | Fault::NineForTheWhole, 5, "group") => {
            let [place, class, by, to] = action.numbers.clone().try_into().ok()?;
            let mut members: BTreeSet<u64> = matchings.iter().map(|matching| matching[place as usize]).collect();
            if let (Fault::GroupsTheWholeClass, Some(one)) = (fault, members.first()) {
                members = old.of_class(old.nodes[one].0).into_iter().collect();
            }
            Some(abstraction(fault, [class, by, to], old, &members))
        }
        _ => None,
    }
}

/// Whether a drawing keeps to the limits.
pub fn keeps_the_limits(kitchen: &Kitchen) -> bool {
    let top = kitchen.nodes.last_key_value().is_none_or(|(&largest, _)| largest <= TOP);
    top && kitchen.nodes.len() <= NODES && kitchen.edges.len() <= EDGES
}

fn node_addition(fault: Fault, lines: &[text::Line], old: &Kitchen, matchings: &[Vec<u64>]) -> Kitchen {
    let class = lines.iter().find(|line| line.key == "make").map_or(0, |line| line.numbers[0]);
    let arms: Vec<_> = lines.iter().filter(|line| line.key == "arm").collect();
    let mut new = old.clone();
    for matching in matchings {
        let image = |arm: &&text::Line| (arm.numbers[0], matching[arm.numbers[1] as usize]);
        let wanted: BTreeSet<(u64, u64)> = arms.iter().map(image).collect();
        let standing = if fault == Fault::JustAddedDontServe { old } else { &new };
        let serves = |node: &u64| {
            let edges = standing.edges.iter().filter(|edge| edge[0] == *node);
            let edges: BTreeSet<(u64, u64)> = edges.map(|edge| (edge[1], edge[2])).collect();
            edges == wanted || fault != Fault::ServesExactly && edges.is_superset(&wanted)
        };
        if !standing.of_class(class).iter().any(serves) {
            add(&mut new, class, wanted);
        }
    }
    new
}

fn abstraction(fault: Fault, [class, by, to]: [u64; 3], old: &Kitchen, members: &BTreeSet<u64>) -> Kitchen {
    let mut groups: BTreeMap<BTreeSet<u64>, BTreeSet<u64>> = BTreeMap::new();
    for &member in members {
        let mut targets = old.targets(member, by);
        if fault == Fault::GroupsByFirstTarget {
            targets = targets.into_iter().take(1).collect();
        }
        groups.entry(targets).or_default().insert(member);
    }
    let mut groups: Vec<BTreeSet<u64>> = groups.into_values().collect();
    groups.sort();
    let mut new = old.clone();
    for group in groups {
        if !old.of_class(class).iter().any(|&node| old.targets(node, to) == group) {
            add(&mut new, class, group.into_iter().map(|member| (to, member)).collect());
        }
    }
    new
}

fn add(kitchen: &mut Kitchen, class: u64, edges: BTreeSet<(u64, u64)>) {
    let number = kitchen.nodes.last_key_value().map_or(0, |(largest, _)| largest + 1);
    kitchen.nodes.insert(number, (class, 0));
    kitchen.edges.extend(edges.into_iter().map(|(name, target)| [number, name, target]));
}
