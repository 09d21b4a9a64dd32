//! A record with its list, and the way up from each entry.

use std::iter;
use std::ops::RangeInclusive;

use plain::lists::Entry;
use plain::{Node, NodeNumber, Record};

pub struct Listed<'a> {
    pub record: &'a Record,
    list: &'a [Entry],
    parents: Vec<Option<NodeNumber>>,
}

/// From a node to the one that refers to it.
pub struct Step {
    pub from: NodeNumber,
    pub to: NodeNumber,
}

impl Listed<'_> {
    pub fn new<'a>(record: &'a Record, list: &'a [Entry]) -> Listed<'a> {
        let mut parents = vec![None; record.nodes.len()];
        for (number, node) in (0..).map(NodeNumber).zip(&record.nodes) {
            for child in node.children() {
                parents[usize::from(child.0)] = Some(number);
            }
        }
        Listed {
            record,
            list,
            parents,
        }
    }

    /// Whether an entry of such a rule is as wanted.
    pub fn has(&self, rules: RangeInclusive<u32>, wanted: impl Fn(&Entry) -> bool) -> bool {
        self.list
            .iter()
            .any(|entry| rules.contains(&entry.rule) && wanted(entry))
    }

    pub fn node_of(&self, entry: &Entry) -> Node {
        self.record.node(NodeNumber(entry.node))
    }

    /// From the entry's node up to the root.
    pub fn steps_from(&self, entry: &Entry) -> impl Iterator<Item = Step> + '_ {
        self.steps_up(NodeNumber(entry.node))
    }

    pub fn steps_up(&self, node: NodeNumber) -> impl Iterator<Item = Step> + '_ {
        iter::successors(self.step_up(node), |last| self.step_up(last.to))
    }

    fn step_up(&self, from: NodeNumber) -> Option<Step> {
        self.parents[usize::from(from.0)].map(|to| Step { from, to })
    }
}
