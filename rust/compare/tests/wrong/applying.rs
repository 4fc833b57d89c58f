//! The faults of apply.

use std::collections::BTreeSet;

use compare::calls::{Answer, Call};
use compare::engines::Engine;
use compare::kitchen::{Kitchen, EDGES, NODES, TOP};
use compare::text;

use super::growing::{grown, keeps_the_limits};
use super::{Fault, Wrong};

impl Wrong {
    /// Applies the rule as the inner engine does, and then does wrong. The copies are left to the caller.
    pub(super) fn applied(&mut self, rule: &[u8]) -> Answer {
        let old = self.kitchen();
        let answer = self.inner.make(&Call::Apply(rule.to_vec()), &mut []);
        match (old, answer) {
            (Some(old), Answer::Done(report)) => self.otherwise(rule, &old, report),
            (Some(old), Answer::Refused(number, returned)) if number >= 9 => self.refused(rule, &old, number, returned),
            (_, answer) => answer,
        }
    }

    /// What this engine makes of a rule that was accepted.
    fn otherwise(&mut self, rule: &[u8], old: &Kitchen, mut report: Vec<u64>) -> Answer {
        let Some(new) = self.kitchen() else {
            return Answer::Done(report);
        };
        match (self.fault, code(rule)) {
            (Fault::MatchesOneToOne | Fault::NoMatchingOfTheEmptyPattern, _) => report[0] = self.matchings(rule, old),
            (Fault::CountsOneMatchingMore, 2) => report[0] += 1,
            (Fault::CountsOneNodeLess, _) => report[1] = report[1].saturating_sub(1),
            (Fault::MatchesNodesJustAdded, 1) if report[1] > 0 => {
                if let Answer::Done(more) = self.inner.make(&Call::Apply(rule.to_vec()), &mut []) {
                    (report[1], report[2]) = (report[1] + more[1], report[2] + more[2]);
                }
            }
            (Fault::KeepsAnEdgeToADeletedNode, 3) => {
                let kept = |edge: &&[u64; 3]| new.nodes.contains_key(&edge[0]) && !new.nodes.contains_key(&edge[2]);
                report[4] -= old.edges.iter().filter(kept).count() as u64;
            }
            (Fault::ServesWithExtraTargets, 5) => {
                let [_, class, _, to] = group(rule);
                let serves = |node: &u64, members: &BTreeSet<u64>| old.targets(*node, to).is_superset(members);
                let nodes = old.of_class(class);
                self.grow(old, &new, &mut report, |members| !nodes.iter().any(|node| serves(node, members)));
            }
            (Fault::NoGroupWithoutEdges, 5) => {
                let [_, _, by, _] = group(rule);
                let joined = |members: &BTreeSet<u64>| members.iter().all(|&member| !old.targets(member, by).is_empty());
                self.grow(old, &new, &mut report, joined);
            }
            (Fault::FillsGaps, 1 | 5) => self.grow(old, &new, &mut report, |_| true),
            (_, 1 | 5) => {
                let grown = grown(self.fault, rule, old, &self.listing_in(rule, old));
                if let Some(grown) = grown.filter(keeps_the_limits) {
                    self.take(old, &grown, &mut report);
                }
            }
            _ => {}
        }
        Answer::Done(report)
    }

    /// Adds to the old drawing those new nodes that are wanted for their targets.
    fn grow(&mut self, old: &Kitchen, new: &Kitchen, report: &mut [u64], wanted: impl Fn(&BTreeSet<u64>) -> bool) {
        let mut grown = old.clone();
        for (&node, &body) in new.nodes.iter().filter(|(node, _)| !old.nodes.contains_key(node)) {
            let edges: Vec<_> = new.edges.iter().filter(|edge| edge[0] == node).collect();
            if !wanted(&edges.iter().map(|edge| edge[2]).collect()) {
                continue;
            }
            let number = match self.has(Fault::FillsGaps) {
                true => (0..).find(|number| !grown.nodes.contains_key(number)).unwrap_or(0),
                false => grown.nodes.last_key_value().map_or(0, |(largest, _)| largest + 1),
            };
            grown.nodes.insert(number, body);
            grown.edges.extend(edges.iter().map(|edge| [number, edge[1], edge[2]]));
        }
        self.take(old, &grown, report);
    }

    /// Takes the grown drawing for the new one.
    fn take(&mut self, old: &Kitchen, grown: &Kitchen, report: &mut [u64]) {
        report[1] = (grown.nodes.len() - old.nodes.len()) as u64;
        report[2] = (grown.edges.len() - old.edges.len()) as u64;
        self.set(&grown.text());
    }

    /// How many matchings this engine sees in the old drawing.
    fn matchings(&self, rule: &[u8], old: &Kitchen) -> u64 {
        let listing = self.listing_in(rule, old);
        listing.iter().filter(|matching| self.matches(matching)).count() as u64
    }

    fn listing_in(&self, rule: &[u8], old: &Kitchen) -> Vec<Vec<u64>> {
        let mut engine = self.inner.fresh();
        engine.make(&Call::Open(old.text()), &mut []);
        engine.listing(rule, usize::MAX).unwrap_or_default()
    }

    /// What this engine answers where 9 to 12 is right.
    fn refused(&mut self, rule: &[u8], old: &Kitchen, number: u64, returned: u64) -> Answer {
        let top = old.nodes.contains_key(&TOP);
        let full = old.edges.len() == EDGES && (code(rule) == 5 || rule.windows(4).any(|four| four == b"arm="));
        match (self.fault, number) {
            (Fault::TwelveThoughEleven, 11) if code(rule) == 2 => {
                let clash = self.clashes(rule, old).first().copied();
                clash.map_or(Answer::Refused(11, 0), |node| Answer::Refused(12, node))
            }
            (Fault::LargestClash, 12) => Answer::Refused(12, self.clashes(rule, old).last().copied().unwrap_or(returned)),
            (Fault::NineForTheWhole, 10 | 11) => {
                let grown = grown(self.fault, rule, old, &self.listing_in(rule, old));
                let whole = grown.is_some_and(|grown| grown.nodes.len() > NODES);
                Answer::Refused(if whole { 9 } else { number }, returned)
            }
            (Fault::TenBeforeNine, 9) if top => Answer::Refused(10, 0),
            (Fault::ElevenBeforeTen, 10) if top && full => Answer::Refused(11, 0),
            (Fault::RefusalDropsAnEdge, 12) => {
                let mut less = old.clone();
                less.edges.pop_last();
                self.set(&less.text());
                Answer::Refused(number, returned)
            }
            _ => Answer::Refused(number, returned),
        }
    }

    /// The nodes to which the edge addition gives two edges of one functional name.
    fn clashes(&self, rule: &[u8], old: &Kitchen) -> BTreeSet<u64> {
        let mut joined = old.clone();
        let puts: Vec<_> = text::read(rule).into_iter().filter(|line| line.key == "put").collect();
        for matching in self.listing_in(rule, old) {
            let image = |place: u64| matching[place as usize];
            joined.edges.extend(puts.iter().map(|put| [image(put.numbers[0]), put.numbers[1], image(put.numbers[2])]));
        }
        let twice = |edge: &&[u64; 3]| old.is_functional(edge[1]) && joined.targets(edge[0], edge[1]).len() > 1;
        joined.edges.iter().filter(twice).map(|edge| edge[0]).collect()
    }
}

fn code(rule: &[u8]) -> u64 {
    text::read(rule).first().map_or(0, |line| line.numbers[0])
}

fn group(rule: &[u8]) -> [u64; 4] {
    let line = text::read(rule).pop();
    line.and_then(|line| line.numbers.try_into().ok()).unwrap_or_default()
}
