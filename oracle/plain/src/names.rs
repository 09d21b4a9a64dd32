//! Document 01's free and restricted names, and what holds a sigil. What stands in quotes is document 01's text, or document 02's where that
//! is said.

use std::collections::BTreeSet;
use std::iter;

use crate::record::{NameNumber, Node, NodeNumber, Record, Slot};

/// A bit for each name of the table.
pub type Names = u128;

/// "Comparison op 0 is equality".
pub const EQUALITY: u8 = 0;

pub fn only(name: NameNumber) -> Names {
    1 << name.0
}

pub fn named(slot: Slot) -> Names {
    match slot {
        Slot::Name(name) => only(name),
        Slot::Parameter(_) | Slot::Binder(_) => 0,
    }
}

pub fn is_sigil(slot: Slot) -> bool {
    match slot {
        Slot::Name(_) => false,
        Slot::Parameter(_) | Slot::Binder(_) => true,
    }
}

pub fn ascending(mut names: Names) -> impl Iterator<Item = NameNumber> {
    iter::from_fn(move || {
        let least = (names != 0).then(|| NameNumber(names.trailing_zeros() as u8))?;
        names &= !only(least);
        Some(least)
    })
}

/// What an equality ties. Document 02, W-205: "which side is tied, or which of four reasons holds".
#[derive(Debug, Clone, Copy, PartialEq, Eq)]
pub enum Equality {
    Left(NameNumber),
    Right(NameNumber),
    Nothing(Reason),
}

/// Why an equality ties nothing. Document 02, W-205: "both bare, neither bare, wildcard, arithmetic with a wildcard".
#[derive(Debug, Clone, Copy, PartialEq, Eq)]
pub enum Reason {
    BothBare,
    NeitherBare,
    Wildcard,
    Arithmetic,
}

pub struct BinderCell {
    pub node: NodeNumber,
    pub slot: Slot,
}

impl Record {
    /// The names of the table that are among these; a bit past the table is no name's.
    pub fn texts(&self, names: Names) -> BTreeSet<String> {
        (0..)
            .map(NameNumber)
            .zip(&self.names)
            .filter(|(number, _)| names & only(*number) != 0)
            .map(|(_, text)| text.clone())
            .collect()
    }

    /// Of a condition, a term, or a list of arguments or items: "variables anywhere in terms (arrays, arithmetic, predicate arguments,
    /// refinement fields), named tp slots; exists removes its named binder; an aggregate gives its body's free names less its named
    /// binders. The summed slot adds nothing. Calls and sigils give none."
    pub fn free(&self, number: NodeNumber) -> Names {
        match self.node(number) {
            Node::And { left, right }
            | Node::Or { left, right }
            | Node::Since { left, right, .. }
            | Node::Comparison { left, right, .. }
            | Node::Arith { left, right, .. } => self.free(left) | self.free(right),
            Node::Not { inner } => self.free(inner),
            Node::Formerly { body, .. } | Node::Previous { body, .. } => self.free(body),
            Node::Exists { slot, body, .. } => self.free(body) & !named(slot),
            Node::Predicate { arguments, .. } => self.free(arguments),
            Node::Refine { base, arguments } => self.free(base) | self.free(arguments),
            Node::Tp { slot } => named(slot),
            Node::Var { name } => only(name),
            Node::Array { items } => self.free(items),
            Node::Sum { binders, body, .. } | Node::Count { binders, body } => {
                self.free(body) & !self.bound(binders)
            }
            Node::ArgumentCell { term, rest, .. } | Node::ItemCell { term, rest } => {
                self.free(term) | self.free(rest)
            }
            Node::Call { .. }
            | Node::SigilRef { .. }
            | Node::Wildcard
            | Node::Literal { .. }
            | Node::ScopeField { .. }
            | Node::ContextField { .. }
            | Node::ParamRef { .. }
            | Node::BinderRef { .. }
            | Node::AggregateCall { .. }
            | Node::ListEnd
            | Node::BinderCell { .. } => 0,
        }
    }

    /// "And joins both sides; Not and Or give none; a predicate's direct Var arguments; a named tp; Formerly and Previous their body; Since
    /// its right; Exists its body less the binder; Refine its base plus direct Var fields; an equality with exactly one bare variable gives it".
    pub fn restricted(&self, condition: NodeNumber) -> Names {
        match self.node(condition) {
            Node::And { left, right } => self.restricted(left) | self.restricted(right),
            Node::Formerly { body, .. } | Node::Previous { body, .. } => self.restricted(body),
            Node::Since { right, .. } => self.restricted(right),
            Node::Exists { slot, body, .. } => self.restricted(body) & !named(slot),
            Node::Comparison {
                op: EQUALITY,
                left,
                right,
            } => tied_by(self.equality(left, right)),
            Node::Predicate { arguments, .. } => self.direct(arguments),
            Node::Refine { base, arguments } => self.restricted(base) | self.direct(arguments),
            Node::Tp { slot } => named(slot),
            _ => 0,
        }
    }

    /// Of "an equality with exactly one bare variable", or with two or none. It gets no op: who asks has looked at that.
    pub fn equality(&self, left: NodeNumber, right: NodeNumber) -> Equality {
        let (tied, other_side) = match (self.bare(left), self.bare(right)) {
            (Some(_), Some(_)) => return Equality::Nothing(Reason::BothBare),
            (None, None) => return Equality::Nothing(Reason::NeitherBare),
            (Some(name), None) => (Equality::Left(name), right),
            (None, Some(name)) => (Equality::Right(name), left),
        };
        self.why_open(other_side).map_or(tied, Equality::Nothing)
    }

    /// Every comparison with op 0, ascending by node, and what it ties. Where it stands has no effect.
    pub fn equalities(&self) -> Vec<(NodeNumber, Equality)> {
        (0..)
            .map(NodeNumber)
            .zip(&self.nodes)
            .filter_map(|(number, node)| match *node {
                Node::Comparison {
                    op: EQUALITY,
                    left,
                    right,
                } => Some((number, self.equality(left, right))),
                _ => None,
            })
            .collect()
    }

    fn bare(&self, term: NodeNumber) -> Option<NameNumber> {
        match self.node(term) {
            Node::Var { name } => Some(name),
            _ => None,
        }
    }

    /// "A wildcard or arithmetic containing one": an array that has one is a value.
    fn why_open(&self, term: NodeNumber) -> Option<Reason> {
        match self.node(term) {
            Node::Wildcard => Some(Reason::Wildcard),
            Node::Arith { .. } => self.has_wildcard(term).then_some(Reason::Arithmetic),
            _ => None,
        }
    }

    /// Of a term or a list of items: "at any depth through arithmetic and arrays".
    pub fn has_wildcard(&self, number: NodeNumber) -> bool {
        match self.node(number) {
            Node::Wildcard => true,
            Node::Arith { left, right, .. } => self.has_wildcard(left) || self.has_wildcard(right),
            Node::Array { items } => self.has_wildcard(items),
            Node::ItemCell { term, rest } => self.has_wildcard(term) || self.has_wildcard(rest),
            _ => false,
        }
    }

    fn direct(&self, arguments: NodeNumber) -> Names {
        match self.node(arguments) {
            Node::ArgumentCell { term, rest, .. } => {
                self.bare(term).map_or(0, only) | self.direct(rest)
            }
            _ => 0,
        }
    }

    pub fn binder_cells(&self, mut list: NodeNumber) -> Vec<BinderCell> {
        let mut cells = Vec::new();
        while let Node::BinderCell { slot, rest, .. } = self.node(list) {
            cells.push(BinderCell { node: list, slot });
            list = rest;
        }
        cells
    }

    pub fn bound(&self, binders: NodeNumber) -> Names {
        self.binder_cells(binders)
            .iter()
            .fold(0, |names, cell| names | named(cell.slot))
    }

    /// Of a condition, a term, or a list: "Call, SigilRef, aggregate Call, ParamRef, BinderRef anywhere, or a sigil tp slot. Sigil slots of
    /// exists, binder cells and sums don't count."
    pub fn holds_sigil(&self, number: NodeNumber) -> bool {
        let node = self.node(number);
        is_itself_sigil(&node)
            || node
                .children()
                .into_iter()
                .any(|child| self.holds_sigil(child))
    }
}

fn tied_by(equality: Equality) -> Names {
    match equality {
        Equality::Left(name) | Equality::Right(name) => only(name),
        Equality::Nothing(_) => 0,
    }
}

fn is_itself_sigil(node: &Node) -> bool {
    match *node {
        Node::Call { .. }
        | Node::SigilRef { .. }
        | Node::AggregateCall { .. }
        | Node::ParamRef { .. }
        | Node::BinderRef { .. } => true,
        Node::Tp { slot } => is_sigil(slot),
        _ => false,
    }
}
