//! Document 01's list: every rule that is not met, with its node and its name, in its order. What stands in quotes is document 01's text.

use crate::names::{ascending, is_sigil, named, Equality, Names, EQUALITY};
use crate::record::{NameNumber, Node, NodeNumber, Record, Slot};

#[derive(Debug, Clone, Copy, PartialEq, Eq)]
pub struct Entry {
    pub rule: u32,
    pub node: u16,
    pub name: Option<u8>,
}

const RESERVED: [&str; 4] = ["principal", "action", "resource", "context"];
const NO_NAME: u8 = 255;

/// 20 to 27, with the names that the caller has in scope. "Bits past the table have no effect": no slot and no variable has such a name.
pub fn scoping(record: &Record, seed: u128) -> Vec<Entry> {
    let mut walk = Scoping {
        record,
        found: Vec::new(),
    };
    walk.condition(record.root(), seed);
    walk.found
}

/// "28: each free name, ascending, at the root."
pub fn closedness(record: &Record) -> Vec<Entry> {
    let root = record.root();
    about_each(28, root, record.free(root)).collect()
}

/// 30 to 32. "If the whole condition holds a sigil, no demand is asked. Otherwise the tied names of a place follow its path: none at the
/// root".
pub fn demands(record: &Record) -> Vec<Entry> {
    let mut walk = Demands {
        record,
        found: Vec::new(),
    };
    if !record.holds_sigil(record.root()) {
        walk.asked(record.root(), 0);
    }
    walk.found
}

/// "Parts: 20 to 27 with an empty seed, then 28, then 30 to 32."
pub fn list(record: &Record) -> Vec<Entry> {
    [scoping(record, 0), closedness(record), demands(record)].concat()
}

/// "One 32-bit number: rule times 16,777,216, plus node times 256, plus name, or 255 where there is none".
pub fn pack(entry: &Entry) -> u32 {
    entry.rule * 16_777_216 + u32::from(entry.node) * 256 + u32::from(entry.name.unwrap_or(NO_NAME))
}

/// "If Arith is a comparison operand, also inside an operand aggregate's body. Arrays, predicate arguments and fields are not searched."
pub fn arithmetic(record: &Record) -> bool {
    condition_has_arithmetic(record, record.root())
}

fn about(rule: u32, node: NodeNumber, name: NameNumber) -> Entry {
    Entry {
        rule,
        node: node.0,
        name: Some(name.0),
    }
}

fn about_each(rule: u32, node: NodeNumber, names: Names) -> impl Iterator<Item = Entry> {
    ascending(names).map(move |name| about(rule, node, name))
}

fn nameless(rule: u32, node: NodeNumber) -> Entry {
    Entry {
        rule,
        node: node.0,
        name: None,
    }
}

/// "Entries go in preorder, node before children, left first": the order in which the walk comes to them, whatever the numbers are.
struct Scoping<'a> {
    record: &'a Record,
    found: Vec<Entry>,
}

struct Aggregate {
    node: NodeNumber,
    summed: Option<Slot>,
    binders: NodeNumber,
    body: NodeNumber,
}

impl Scoping<'_> {
    /// "The walk enters every condition child." A scope grows on the way down alone: "the named binders above".
    fn condition(&mut self, number: NodeNumber, scope: Names) {
        match self.record.node(number) {
            Node::And { left, right }
            | Node::Or { left, right }
            | Node::Since { left, right, .. } => {
                self.condition(left, scope);
                self.condition(right, scope);
            }
            Node::Not { inner: child }
            | Node::Formerly { body: child, .. }
            | Node::Previous { body: child, .. }
            | Node::Refine { base: child, .. } => self.condition(child, scope),
            // "At one exists by rule."
            Node::Exists { slot, body, .. } => {
                self.reserved(number, slot);
                self.unrestricted_exists(number, slot, body);
                self.condition(body, scope | named(slot));
            }
            Node::Comparison { left, right, .. } => {
                self.operand(left, scope);
                self.operand(right, scope);
            }
            // "Each predicate argument" is searched; "Refinement fields are not searched."
            Node::Predicate { arguments, .. } => self.search(arguments),
            Node::Tp { slot } => self.reserved(number, slot),
            _ => {}
        }
    }

    /// "It enters operands through arithmetic to aggregates; any other operand [..] is searched". An aggregate Call has nothing to enter.
    fn operand(&mut self, number: NodeNumber, scope: Names) {
        match self.record.node(number) {
            Node::Arith { left, right, .. } => {
                self.operand(left, scope);
                self.operand(right, scope);
            }
            Node::Sum {
                summed,
                binders,
                body,
            } => self.aggregate(
                Aggregate {
                    node: number,
                    summed: Some(summed),
                    binders,
                    body,
                },
                scope,
            ),
            Node::Count { binders, body } => self.aggregate(
                Aggregate {
                    node: number,
                    summed: None,
                    binders,
                    body,
                },
                scope,
            ),
            Node::AggregateCall { .. } => {}
            _ => self.search(number),
        }
    }

    /// In a term, or a list of arguments or items: "through arrays: an aggregate there is 20, arithmetic 21, and neither is entered".
    fn search(&mut self, number: NodeNumber) {
        match self.record.node(number) {
            Node::Sum { .. } | Node::Count { .. } | Node::AggregateCall { .. } => {
                self.found.push(nameless(20, number));
            }
            Node::Arith { .. } => self.found.push(nameless(21, number)),
            Node::Array { items } => self.search(items),
            Node::ArgumentCell { term, rest, .. } | Node::ItemCell { term, rest } => {
                self.search(term);
                self.search(rest);
            }
            _ => {}
        }
    }

    /// "22: a named exists, binder-cell or tp slot is principal, action, resource or context." A summed slot is none of these.
    fn reserved(&mut self, node: NodeNumber, slot: Slot) {
        if let Slot::Name(name) = slot {
            if RESERVED.contains(&self.record.name(name)) {
                self.found.push(about(22, node, name));
            }
        }
    }

    /// "23: a named exists binder is not restricted in its body. Skipped if the body holds a sigil."
    fn unrestricted_exists(&mut self, node: NodeNumber, slot: Slot, body: NodeNumber) {
        if !self.record.holds_sigil(body) {
            let unrestricted = named(slot) & !self.record.restricted(body);
            self.found.extend(about_each(23, node, unrestricted));
        }
    }

    /// "24: summed name not among its binders; 25: a free name of the body neither in scope nor a binder; 26: a binder not free in the
    /// body; 27: a binder not restricted in it", and "by rule, then list order, or name for 25, all before its body's".
    fn aggregate(&mut self, aggregate: Aggregate, scope: Names) {
        if self.has_sigil_slot(&aggregate) {
            return;
        }
        let bound = self.record.bound(aggregate.binders);
        let free = self.record.free(aggregate.body);
        let restricted = self.record.restricted(aggregate.body);
        let summed = aggregate.summed.map_or(0, named);
        for cell in self.record.binder_cells(aggregate.binders) {
            self.reserved(cell.node, cell.slot);
        }
        self.found
            .extend(about_each(24, aggregate.node, summed & !bound));
        self.found
            .extend(about_each(25, aggregate.node, free & !scope & !bound));
        self.cells_outside(26, aggregate.binders, free);
        self.cells_outside(27, aggregate.binders, restricted);
        self.condition(aggregate.body, scope | bound);
    }

    /// "An aggregate whose summed slot or any binder is a sigil is skipped, body included."
    fn has_sigil_slot(&self, aggregate: &Aggregate) -> bool {
        aggregate.summed.is_some_and(is_sigil)
            || self
                .record
                .binder_cells(aggregate.binders)
                .iter()
                .any(|cell| is_sigil(cell.slot))
    }

    /// "22, 26, 27 of an aggregate stand at the binder cell": two cells that bind one name have an entry each.
    fn cells_outside(&mut self, rule: u32, binders: NodeNumber, names: Names) {
        for cell in self.record.binder_cells(binders) {
            self.found
                .extend(about_each(rule, cell.node, named(cell.slot) & !names));
        }
    }
}

/// "Entries in preorder, then by name." What is tied at a place is known from the path to it: no finding changes it.
struct Demands<'a> {
    record: &'a Record,
    found: Vec<Entry>,
}

impl Demands<'_> {
    fn asked(&mut self, number: NodeNumber, tied: Names) {
        self.ask(number, tied);
        self.below(number, tied);
    }

    /// "30, binding equality: the other side's free names must be tied. 31, other comparison, or Not: all its free names. 32, Since: free
    /// names of the left, tied or restricted by the right."
    fn ask(&mut self, number: NodeNumber, tied: Names) {
        let (rule, demanded) = match self.record.node(number) {
            Node::Comparison {
                op: EQUALITY,
                left,
                right,
            } => match self.record.equality(left, right) {
                Equality::Left(_) => (30, self.record.free(right)),
                Equality::Right(_) => (30, self.record.free(left)),
                Equality::Nothing(_) => (31, self.record.free(number)),
            },
            Node::Comparison { .. } | Node::Not { .. } => (31, self.record.free(number)),
            Node::Since { left, right, .. } => {
                let restricted = self.record.restricted(right);
                (32, self.record.free(left) & !restricted)
            }
            _ => return,
        };
        self.found
            .extend(about_each(rule, number, demanded & !tied));
    }

    /// "Right of And adds what the left restricts; left of Since adds what the right restricts; exists and aggregate bodies drop their named
    /// binders; every other step keeps the set. Every reached condition is asked, unless it is directly under Not or Refine."
    fn below(&mut self, number: NodeNumber, tied: Names) {
        match self.record.node(number) {
            Node::And { left, right } => {
                self.asked(left, tied);
                self.asked(right, tied | self.record.restricted(left));
            }
            Node::Or { left, right } => {
                self.asked(left, tied);
                self.asked(right, tied);
            }
            Node::Since { left, right, .. } => {
                self.asked(left, tied | self.record.restricted(right));
                self.asked(right, tied);
            }
            Node::Not { inner: child } | Node::Refine { base: child, .. } => {
                self.below(child, tied);
            }
            Node::Formerly { body, .. } | Node::Previous { body, .. } => self.asked(body, tied),
            Node::Exists { slot, body, .. } => self.asked(body, tied & !named(slot)),
            Node::Comparison { left, right, .. } => {
                self.operand(left, tied);
                self.operand(right, tied);
            }
            _ => {}
        }
    }

    /// "Aggregate bodies are reached from comparisons through arithmetic only, also unasked ones, whatever their binders."
    fn operand(&mut self, number: NodeNumber, tied: Names) {
        match self.record.node(number) {
            Node::Arith { left, right, .. } => {
                self.operand(left, tied);
                self.operand(right, tied);
            }
            Node::Sum { binders, body, .. } | Node::Count { binders, body } => {
                self.asked(body, tied & !self.record.bound(binders));
            }
            _ => {}
        }
    }
}

fn condition_has_arithmetic(record: &Record, number: NodeNumber) -> bool {
    match record.node(number) {
        Node::And { left, right } | Node::Or { left, right } | Node::Since { left, right, .. } => {
            condition_has_arithmetic(record, left) || condition_has_arithmetic(record, right)
        }
        Node::Not { inner: child }
        | Node::Formerly { body: child, .. }
        | Node::Previous { body: child, .. }
        | Node::Exists { body: child, .. }
        | Node::Refine { base: child, .. } => condition_has_arithmetic(record, child),
        Node::Comparison { left, right, .. } => {
            operand_has_arithmetic(record, left) || operand_has_arithmetic(record, right)
        }
        _ => false,
    }
}

fn operand_has_arithmetic(record: &Record, number: NodeNumber) -> bool {
    match record.node(number) {
        Node::Arith { .. } => true,
        Node::Sum { body, .. } | Node::Count { body, .. } => condition_has_arithmetic(record, body),
        _ => false,
    }
}
