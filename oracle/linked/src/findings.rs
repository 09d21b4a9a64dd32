//! Where the entries of a list stand, so that a run shows what its agreement on lists is about.

use std::ops::RangeInclusive;

use plain::lists::Entry;
use plain::names::{named, only, Names};
use plain::{NameNumber, Node, Record};

use crate::listed::{Listed, Step};
use crate::shapes::{bound_by_aggregate, bound_by_exists, is_aggregate};

/// The labels of those that it has, in the order of the groups.
pub fn findings_of(record: &Record, list: &[Entry]) -> Vec<&'static str> {
    let listed = Listed::new(record, list);
    GROUPS
        .into_iter()
        .flatten()
        .filter(|finding| (finding.is_in)(&listed))
        .map(|finding| finding.label)
        .collect()
}

pub fn groups() -> impl Iterator<Item = Vec<&'static str>> {
    GROUPS
        .into_iter()
        .map(|group| group.iter().map(|finding| finding.label).collect())
}

struct Finding {
    label: &'static str,
    is_in: fn(&Listed) -> bool,
}

const fn finding(label: &'static str, is_in: fn(&Listed) -> bool) -> Finding {
    Finding { label, is_in }
}

const GROUPS: [&[Finding]; 7] = [
    &[
        finding("22 at exists", |listed| is_reserved_at(listed, is_exists)),
        finding("22 at tp", |listed| is_reserved_at(listed, is_tp)),
        finding("22 at a binder cell", |listed| {
            is_reserved_at(listed, is_binder_cell)
        }),
    ],
    &[
        finding("20 as an argument", |listed| {
            is_met_at(listed, 20, Place::Argument)
        }),
        finding("20 in an argument's array", |listed| {
            is_met_at(listed, 20, Place::ArrayInArgument)
        }),
        finding("20 in an operand's array", |listed| {
            is_met_at(listed, 20, Place::ArrayInOperand)
        }),
        finding("20 of an aggregate call", has_misplaced_call),
    ],
    &[
        finding("21 as an argument", |listed| {
            is_met_at(listed, 21, Place::Argument)
        }),
        finding("21 in an argument's array", |listed| {
            is_met_at(listed, 21, Place::ArrayInArgument)
        }),
        finding("21 in an operand's array", |listed| {
            is_met_at(listed, 21, Place::ArrayInOperand)
        }),
    ],
    &[
        finding("24 in an inner aggregate", |listed| is_inner(listed, 24)),
        finding("25 in an inner aggregate", |listed| is_inner(listed, 25)),
        finding("26 in an inner aggregate", |listed| is_inner(listed, 26)),
        finding("27 in an inner aggregate", |listed| is_inner(listed, 27)),
    ],
    &[
        finding("23 skipped under a sigil", skips_an_exists),
        finding("27 for one name at two cells", is_at_two_cells),
        finding("node above 255", is_above_255),
    ],
    &[
        finding("demand before And ties more", owes_before_a_tie),
        finding(
            "demand right of Since for a name of its left",
            owes_right_of_since,
        ),
        finding("left of Since tied by its right", is_tied_left_of_since),
    ],
    &[
        finding("demand below a comparison under Not", |listed| {
            owes_below_unasked(listed, is_not)
        }),
        finding("demand below a comparison under Refine", |listed| {
            owes_below_unasked(listed, is_refine)
        }),
        finding("demand for a tied name that an aggregate binds", |listed| {
            owes_what_is_bound_anew(listed, bound_by_aggregate)
        }),
        finding("demand for a tied name that exists binds", |listed| {
            owes_what_is_bound_anew(listed, bound_by_exists)
        }),
    ],
];

const DEMANDS: RangeInclusive<u32> = 30..=32;

fn is_exists(node: Node) -> bool {
    matches!(node, Node::Exists { .. })
}

fn is_tp(node: Node) -> bool {
    matches!(node, Node::Tp { .. })
}

fn is_binder_cell(node: Node) -> bool {
    matches!(node, Node::BinderCell { .. })
}

fn is_not(node: Node) -> bool {
    matches!(node, Node::Not { .. })
}

fn is_refine(node: Node) -> bool {
    matches!(node, Node::Refine { .. })
}

fn is_comparison(node: Node) -> bool {
    matches!(node, Node::Comparison { .. })
}

fn is_reserved_at(listed: &Listed, wanted: fn(Node) -> bool) -> bool {
    listed.has(22..=22, |entry| wanted(listed.node_of(entry)))
}

/// Where terms are searched and not entered.
#[derive(PartialEq)]
enum Place {
    Argument,
    ArrayInArgument,
    ArrayInOperand,
}

fn is_met_at(listed: &Listed, rule: u32, place: Place) -> bool {
    listed.has(rule..=rule, |entry| {
        place_of(listed, entry).is_some_and(|met_at| met_at == place)
    })
}

fn place_of(listed: &Listed, entry: &Entry) -> Option<Place> {
    let mut nodes_above = listed
        .steps_from(entry)
        .map(|step| listed.record.node(step.to));
    if matches!(nodes_above.next()?, Node::ArgumentCell { .. }) {
        return Some(Place::Argument);
    }
    nodes_above.find_map(|node| match node {
        Node::Predicate { .. } => Some(Place::ArrayInArgument),
        Node::Comparison { .. } => Some(Place::ArrayInOperand),
        _ => None,
    })
}

fn has_misplaced_call(listed: &Listed) -> bool {
    listed.has(20..=20, |entry| {
        matches!(listed.node_of(entry), Node::AggregateCall { .. })
    })
}

/// At an aggregate in another's body, or at a binder cell of one.
fn is_inner(listed: &Listed, rule: u32) -> bool {
    listed.has(rule..=rule, |entry| {
        let above = listed
            .steps_from(entry)
            .filter(|step| is_aggregate(listed.record.node(step.to)));
        let own = usize::from(is_aggregate(listed.node_of(entry)));
        own + above.count() > 1
    })
}

/// An exists that would be 23, were there no sigil in its body.
fn skips_an_exists(listed: &Listed) -> bool {
    let record = listed.record;
    record.nodes.iter().any(|&node| match node {
        Node::Exists { slot, body, .. } => {
            named(slot) & !record.restricted(body) != 0 && record.holds_sigil(body)
        }
        _ => false,
    })
}

fn is_at_two_cells(listed: &Listed) -> bool {
    listed.has(27..=27, |entry| match listed.node_of(entry) {
        Node::BinderCell { slot, rest, .. } => listed.record.bound(rest) & named(slot) != 0,
        _ => false,
    })
}

/// Past the first byte of a node's number.
fn is_above_255(listed: &Listed) -> bool {
    listed.has(20..=32, |entry| entry.node > 255)
}

/// A finding that must not keep the And above it from tying what its right needs.
fn owes_before_a_tie(listed: &Listed) -> bool {
    let record = listed.record;
    listed.has(DEMANDS, |entry| {
        listed
            .steps_from(entry)
            .any(|step| match record.node(step.to) {
                Node::And { left, right } => {
                    step.from == left && record.restricted(left) & record.free(right) != 0
                }
                _ => false,
            })
    })
}

/// It would be gone if the right of Since were given what the left restricts.
fn owes_right_of_since(listed: &Listed) -> bool {
    let record = listed.record;
    listed.has(DEMANDS, |entry| {
        listed
            .steps_from(entry)
            .any(|step| match record.node(step.to) {
                Node::Since { left, right, .. } => {
                    step.from == right && record.restricted(left) & name_of(entry) != 0
                }
                _ => false,
            })
    })
}

fn is_tied_left_of_since(listed: &Listed) -> bool {
    let record = listed.record;
    let is_tied = |node: &Node| match *node {
        Node::Since { left, right, .. } => record.free(left) & record.restricted(right) != 0,
        _ => false,
    };
    !record.holds_sigil(record.root()) && record.nodes.iter().any(is_tied)
}

/// In the body of an aggregate of a comparison that is itself not asked.
fn owes_below_unasked(listed: &Listed, is_above: fn(Node) -> bool) -> bool {
    let record = listed.record;
    listed.has(DEMANDS, |entry| {
        listed
            .steps_from(entry)
            .any(|step| is_comparison(record.node(step.from)) && is_above(record.node(step.to)))
    })
}

/// A name that was tied, and is another's below what binds it.
fn owes_what_is_bound_anew(listed: &Listed, bound: fn(&Record, Node) -> Names) -> bool {
    let record = listed.record;
    listed.has(DEMANDS, |entry| {
        let name = name_of(entry);
        let is_tied = |node| {
            listed
                .steps_up(node)
                .any(|step| tied_by(record, &step) & name != 0)
        };
        listed
            .steps_from(entry)
            .any(|step| bound(record, record.node(step.to)) & name != 0 && is_tied(step.to))
    })
}

fn name_of(entry: &Entry) -> Names {
    entry.name.map_or(0, |name| only(NameNumber(name)))
}

/// What a place has more than the one above it.
fn tied_by(record: &Record, step: &Step) -> Names {
    match record.node(step.to) {
        Node::And { left, right } if step.from == right => record.restricted(left),
        Node::Since { left, right, .. } if step.from == left => record.restricted(right),
        _ => 0,
    }
}
