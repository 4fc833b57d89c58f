//! "Five operations".
//!
//! "All matchings are those in the drawing before the operation": each operation walks through the
//! matchings in the old drawing and changes a copy of it.

use crate::drawing::{Drawing, Edge, NodeNumber, MOST_EDGES};
use crate::matching::{visit_matchings, Pattern, PatternEdge};
use crate::refusal::{Cause, Refused};
use crate::rule::{Action, Arm, Group, Rule};
use crate::scheme::{ClassNumber, NameNumber, Scheme};
use std::collections::{BTreeMap, BTreeSet};
use std::convert::Infallible;

/// The drawing after a rule, and how many matchings its pattern has in the drawing before.
pub(crate) fn run(rule: &Rule, scheme: &Scheme, old: &Drawing) -> Result<(Drawing, u64), Refused> {
    let pattern = &rule.pattern;
    match &rule.action {
        Action::Nothing => Ok((old.clone(), visit_all(pattern, old, |_| {}))),
        Action::AddNode { class, arms } => add_nodes(pattern, old, *class, arms),
        Action::AddEdges(edges) => add_edges(pattern, old, scheme, edges),
        Action::DeleteNode(node) => Ok(delete_nodes(pattern, old, *node)),
        Action::DeleteEdges(edges) => Ok(delete_edges(pattern, old, edges)),
        Action::Group(group) => add_groups(pattern, old, group),
    }
}

/// "In rising order, a matching for which no K node, old or just added, has all the arm edges to
/// its images gets a new K node with exactly those edges."
fn add_nodes(pattern: &Pattern, old: &Drawing, class: ClassNumber, arms: &[Arm]) -> Result<(Drawing, u64), Refused> {
    let mut new = old.clone();
    let mut edges = Vec::with_capacity(arms.len());
    let matchings = try_visit_all(pattern, old, |matching| {
        edges.clear();
        edges.extend(arms.iter().map(|arm| (arm.name, matching[arm.node])));
        if has_node_with(&new, class, &edges) {
            Ok(())
        } else {
            new.add_new_node(class, &edges)
        }
    })?;
    Ok((new, matchings))
}

/// Whether a node of the class has all these edges, and perhaps more.
fn has_node_with(drawing: &Drawing, class: ClassNumber, edges: &[(NameNumber, NodeNumber)]) -> bool {
    let Some((&(name, target), others)) = edges.split_first() else {
        return drawing.nodes_of(class, 0).next().is_some();
    };
    drawing.sources(target, name, 0).any(|source| {
        let node = drawing.nodes().get(&source);
        node.is_some_and(|node| node.class == class)
            && others
                .iter()
                .all(|&(name, target)| drawing.edges().contains(&Edge { source, name, target }))
    })
}

/// "The images of all matchings are joined to the edges." Of the two causes that may come up, "11
/// before 12": the edges must all be there before 12 is looked for.
fn add_edges(pattern: &Pattern, old: &Drawing, scheme: &Scheme, edges: &[PatternEdge]) -> Result<(Drawing, u64), Refused> {
    let mut new = old.clone();
    let matchings = try_visit_all(pattern, old, |matching| {
        for edge in edges {
            new.insert_edge(edge.image(matching));
        }
        // Edges are only ever joined here, so that one too many stays one too many.
        if new.edges().len() > MOST_EDGES {
            return Err(Cause::EdgeLimit.refused());
        }
        Ok(())
    })?;
    match node_with_two_edges(&new, scheme) {
        Some(node) => Err(Cause::NotFunctional.returning(node.into())),
        None => Ok((new, matchings)),
    }
}

/// The smallest node with two edges of one functional name. Edges of one node and name are
/// neighbours in the rising order of triples.
fn node_with_two_edges(drawing: &Drawing, scheme: &Scheme) -> Option<NodeNumber> {
    let edges = drawing.edges().iter();
    let mut neighbours = edges.clone().zip(edges.skip(1));
    neighbours
        .find(|(one, next)| one.source == next.source && one.name == next.name && scheme.is_functional(one.name))
        .map(|(edge, _)| edge.source)
}

/// "Its images go, with every edge at them."
fn delete_nodes(pattern: &Pattern, old: &Drawing, node: usize) -> (Drawing, u64) {
    let (images, matchings) = images_of(pattern, old, node);
    let mut new = old.clone();
    for image in images {
        new.remove_node(image);
    }
    (new, matchings)
}

/// "Their images go."
fn delete_edges(pattern: &Pattern, old: &Drawing, edges: &[PatternEdge]) -> (Drawing, u64) {
    let mut new = old.clone();
    let matchings = visit_all(pattern, old, |matching| {
        for edge in edges {
            new.remove_edge(edge.image(matching));
        }
    });
    (new, matchings)
}

/// "The images of p are grouped by equal sets of a-targets; images with no a-edge form one group.
/// Groups are taken by smallest member. A group for which no K node of the old drawing has exactly
/// that group as its b-targets gets a new K node with those b-edges."
fn add_groups(pattern: &Pattern, old: &Drawing, group: &Group) -> Result<(Drawing, u64), Refused> {
    let (images, matchings) = images_of(pattern, old, group.node);

    // Sets are written as rising lists here; the images come rising.
    let mut members_by_targets: BTreeMap<Vec<NodeNumber>, Vec<NodeNumber>> = BTreeMap::new();
    for image in images {
        let targets = old.targets(image, group.compared, 0).collect();
        members_by_targets.entry(targets).or_default().push(image);
    }
    let mut groups: Vec<Vec<NodeNumber>> = members_by_targets.into_values().collect();
    groups.sort_unstable_by_key(|members| members.first().copied());

    let served: BTreeSet<Vec<NodeNumber>> = old
        .nodes_of(group.class, 0)
        .map(|node| old.targets(node, group.joining, 0).collect())
        .collect();

    let mut new = old.clone();
    for members in groups {
        if !served.contains(&members) {
            let edges: Vec<_> = members.into_iter().map(|member| (group.joining, member)).collect();
            new.add_new_node(group.class, &edges)?;
        }
    }
    Ok((new, matchings))
}

/// The images of one pattern node under all matchings, and how many matchings there are.
fn images_of(pattern: &Pattern, drawing: &Drawing, node: usize) -> (BTreeSet<NodeNumber>, u64) {
    let mut images = BTreeSet::new();
    let matchings = visit_all(pattern, drawing, |matching| {
        images.insert(matching[node]);
    });
    (images, matchings)
}

/// Visits every matching in rising order and counts them, unless `visit` fails.
fn try_visit_all<E>(pattern: &Pattern, drawing: &Drawing, mut visit: impl FnMut(&[NodeNumber]) -> Result<(), E>) -> Result<u64, E> {
    let mut matchings = 0;
    visit_matchings(pattern, drawing, None, |matching| {
        matchings += 1;
        visit(matching)
    })?;
    Ok(matchings)
}

/// Visits every matching in rising order and counts them.
fn visit_all(pattern: &Pattern, drawing: &Drawing, mut visit: impl FnMut(&[NodeNumber])) -> u64 {
    let counted = try_visit_all(pattern, drawing, |matching| {
        visit(matching);
        Ok::<(), Infallible>(())
    });
    match counted {
        Ok(matchings) => matchings,
        Err(never) => match never {},
    }
}
