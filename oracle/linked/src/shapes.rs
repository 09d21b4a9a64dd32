//! How many records had each shape, so that a run shows what its agreement is about.

use std::collections::{BTreeMap, BTreeSet};
use std::ops::RangeInclusive;

use plain::lists::Entry;
use plain::names::{is_sigil, named, Names};
use plain::{Node, NodeNumber, Record};

use crate::findings::{self, findings_of};

#[derive(Default)]
pub struct Shapes {
    kinds: BTreeMap<u8, usize>,
    others: BTreeMap<&'static str, usize>,
}

impl Shapes {
    pub fn add(&mut self, record: &Record, list: &[Entry]) {
        for kind in kinds_of(record) {
            *self.kinds.entry(kind).or_default() += 1;
        }
        let findings = findings_of(record, list);
        for shape in shapes_of(record).into_iter().chain(findings) {
            *self.others.entry(shape).or_default() += 1;
        }
    }

    /// One for each group.
    pub fn lines(&self) -> Vec<String> {
        let kinds = KINDS.iter().map(|kinds| self.line_of_kinds(kinds));
        let others = groups().map(|group| self.line_of_shapes(&group));
        kinds.chain(others).collect()
    }

    fn line_of_kinds(&self, kinds: &RangeInclusive<u8>) -> String {
        let counts: Vec<usize> = kinds.clone().map(|kind| self.with_kind(kind)).collect();
        let (first, last) = (kinds.start(), kinds.end());
        format!("records with each kind from {first:02X} to {last:02X}: {counts:?}")
    }

    fn line_of_shapes(&self, group: &[&'static str]) -> String {
        let counts: Vec<String> = group
            .iter()
            .map(|label| format!("{label} {}", self.with_shape(label)))
            .collect();
        format!("records with: {}", counts.join(", "))
    }

    /// Those that at most so many records had.
    pub fn seldom_met(&self, most: usize) -> Vec<String> {
        let kinds = KINDS
            .into_iter()
            .flatten()
            .filter(|&kind| self.with_kind(kind) <= most)
            .map(|kind| format!("kind {kind:02X}"));
        let others = groups()
            .flatten()
            .filter(|label| self.with_shape(label) <= most)
            .map(str::to_string);
        kinds.chain(others).collect()
    }

    fn with_kind(&self, kind: u8) -> usize {
        self.kinds.get(&kind).copied().unwrap_or(0)
    }

    fn with_shape(&self, label: &str) -> usize {
        self.others.get(label).copied().unwrap_or(0)
    }
}

/// The labels of shapes and of findings.
fn groups() -> impl Iterator<Item = Vec<&'static str>> {
    let shapes = GROUPS
        .iter()
        .map(|group| group.iter().map(|shape| shape.label).collect());
    shapes.chain(findings::groups())
}

/// Document 01's conditions, terms and lists.
const KINDS: [RangeInclusive<u8>; 3] = [0x10..=0x1C, 0x20..=0x2B, 0x30..=0x33];

fn kinds_of(record: &Record) -> BTreeSet<u8> {
    record.nodes.iter().map(Node::kind).collect()
}

/// The labels of those that it has, in the order of the groups.
pub fn shapes_of(record: &Record) -> Vec<&'static str> {
    GROUPS
        .into_iter()
        .flatten()
        .filter(|shape| (shape.is_in)(record))
        .map(|shape| shape.label)
        .collect()
}

struct Shape {
    label: &'static str,
    is_in: fn(&Record) -> bool,
}

const fn shape(label: &'static str, is_in: fn(&Record) -> bool) -> Shape {
    Shape { label, is_in }
}

const GROUPS: [&[Shape]; 5] = [
    &[
        shape("exists that shadows", exists_shadows),
        shape("aggregate that shadows", aggregate_shadows),
        shape("aggregate in an aggregate's body", has_aggregate_in_body),
    ],
    &[
        shape("sigil exists", has_sigil_exists),
        shape("sigil binder cell", has_sigil_binder_cell),
        shape("sigil sum", has_sigil_sum),
        shape("sigil tp", has_sigil_tp),
    ],
    &[
        shape("array", has_array),
        shape("arithmetic with a wildcard", has_arithmetic_with_wildcard),
        shape(
            "arithmetic without a wildcard",
            has_arithmetic_without_wildcard,
        ),
    ],
    &[
        shape("refine of no predicate", refines_no_predicate),
        shape("right child numbered below its left", has_right_below_left),
    ],
    &[
        shape("two free names", has_two_free_names),
        shape("free name above 63", has_free_name_above_63),
    ],
];

fn exists_shadows(record: &Record) -> bool {
    shadows(record, bound_by_exists)
}

fn aggregate_shadows(record: &Record) -> bool {
    shadows(record, bound_by_aggregate)
}

/// Whether a name bound at one node is bound again in that node's body.
fn shadows(record: &Record, bound_again: fn(&Record, Node) -> Names) -> bool {
    bodies(record).any(|(binder, body)| {
        let bound = bound_by_exists(record, binder) | bound_by_aggregate(record, binder);
        is_within(record, body, &|node| bound_again(record, node) & bound != 0)
    })
}

pub(crate) fn bound_by_exists(_: &Record, node: Node) -> Names {
    match node {
        Node::Exists { slot, .. } => named(slot),
        _ => 0,
    }
}

pub(crate) fn bound_by_aggregate(record: &Record, node: Node) -> Names {
    match node {
        Node::Sum { binders, .. } | Node::Count { binders, .. } => record.bound(binders),
        _ => 0,
    }
}

/// Each node that binds names, with the body where they are bound.
fn bodies(record: &Record) -> impl Iterator<Item = (Node, NodeNumber)> + '_ {
    record.nodes.iter().filter_map(|&node| match node {
        Node::Exists { body, .. } | Node::Sum { body, .. } | Node::Count { body, .. } => {
            Some((node, body))
        }
        _ => None,
    })
}

fn is_within(record: &Record, top: NodeNumber, wanted: &dyn Fn(Node) -> bool) -> bool {
    let node = record.node(top);
    wanted(node)
        || node
            .children()
            .into_iter()
            .any(|child| is_within(record, child, wanted))
}

fn has_aggregate_in_body(record: &Record) -> bool {
    bodies(record)
        .filter(|(binder, _)| is_aggregate(*binder))
        .any(|(_, body)| is_within(record, body, &is_aggregate))
}

pub(crate) fn is_aggregate(node: Node) -> bool {
    matches!(node, Node::Sum { .. } | Node::Count { .. })
}

fn has(record: &Record, wanted: impl Fn(Node) -> bool) -> bool {
    record.nodes.iter().copied().any(wanted)
}

fn has_sigil_exists(record: &Record) -> bool {
    has(
        record,
        |node| matches!(node, Node::Exists { slot, .. } if is_sigil(slot)),
    )
}

fn has_sigil_binder_cell(record: &Record) -> bool {
    has(
        record,
        |node| matches!(node, Node::BinderCell { slot, .. } if is_sigil(slot)),
    )
}

fn has_sigil_sum(record: &Record) -> bool {
    has(
        record,
        |node| matches!(node, Node::Sum { summed, .. } if is_sigil(summed)),
    )
}

fn has_sigil_tp(record: &Record) -> bool {
    has(
        record,
        |node| matches!(node, Node::Tp { slot } if is_sigil(slot)),
    )
}

fn has_array(record: &Record) -> bool {
    has(record, |node| matches!(node, Node::Array { .. }))
}

fn has_arithmetic_with_wildcard(record: &Record) -> bool {
    arithmetic(record).any(|number| record.has_wildcard(number))
}

fn has_arithmetic_without_wildcard(record: &Record) -> bool {
    arithmetic(record).any(|number| !record.has_wildcard(number))
}

fn arithmetic(record: &Record) -> impl Iterator<Item = NodeNumber> + '_ {
    (0..)
        .map(NodeNumber)
        .zip(&record.nodes)
        .filter(|(_, node)| matches!(node, Node::Arith { .. }))
        .map(|(number, _)| number)
}

fn refines_no_predicate(record: &Record) -> bool {
    has(record, |node| match node {
        Node::Refine { base, .. } => !matches!(record.node(base), Node::Predicate { .. }),
        _ => false,
    })
}

fn has_right_below_left(record: &Record) -> bool {
    has(record, |node| match node {
        Node::And { left, right }
        | Node::Or { left, right }
        | Node::Since { left, right, .. }
        | Node::Comparison { left, right, .. }
        | Node::Arith { left, right, .. } => right.0 < left.0,
        _ => false,
    })
}

/// Without these any free name would be the least.
fn has_two_free_names(record: &Record) -> bool {
    record.free(record.root()).count_ones() > 1
}

/// Past the first word of a set that is kept in two.
fn has_free_name_above_63(record: &Record) -> bool {
    record.free(record.root()) >> 64 != 0
}
