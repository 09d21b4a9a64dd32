//! Records that have every kind of node between them, and nothing to find.

use plain::random::Rng;

use super::rules::{event, not_yet, WINDOW};
use super::writer::Writer;

type Clause = fn(&mut Writer, u8, u8) -> u16;

/// On a name that an event before them ties; the second name is free for a binder of their own.
const CLAUSES: [Clause; 13] = [
    |record, name, _| not_yet(record, name),
    |record, name, _| either(record, name),
    |record, name, _| formerly(record, 0x13, name),
    |record, name, _| formerly(record, 0x14, name),
    |record, name, _| since(record, name),
    |record, name, _| refined(record, name),
    |record, name, _| with_an_array(record, name),
    |record, name, _| computed(record, name),
    |record, name, _| some_field(record, name),
    |record, _, own| timepoint(record, own),
    |record, _, own| equality(record, own),
    |record, name, own| aggregate(record, name, own, &[0x2A]),
    |record, name, own| aggregate(record, name, own, &[0x29, 0, own]),
];

/// So many clauses, each kind in turn from one at random on. A record with sigils has those as well; it is not asked for demands.
pub fn every_shape(rng: &mut Rng, clauses: usize, sigils: bool) -> Vec<u8> {
    let mut record = Writer::with_names(2);
    let (name, own) = (0, 1);
    let mut condition = event(&mut record, &[name]);
    let first = rng.below(CLAUSES.len());
    for number in 0..clauses {
        let clause = CLAUSES[(first + number) % CLAUSES.len()](&mut record, name, own);
        condition = record.node(&[0x10], &[condition, clause], &[]);
    }
    if sigils {
        let unknown = all_sigils(&mut record);
        condition = record.node(&[0x10], &[condition, unknown], &[]);
    }
    record.node(&[0x16, 0, name, 0], &[condition], &[]);
    record.ended()
}

fn either(record: &mut Writer, name: u8) -> u16 {
    let left = event(record, &[name]);
    let right = event(record, &[name]);
    record.node(&[0x11], &[left, right], &[])
}

fn formerly(record: &mut Writer, kind: u8, name: u8) -> u16 {
    let before = event(record, &[name]);
    record.node(&[kind], &[before], &WINDOW)
}

fn since(record: &mut Writer, name: u8) -> u16 {
    let left = not_yet(record, name);
    let right = event(record, &[name]);
    record.node(&[0x15], &[left, right], &WINDOW)
}

fn refined(record: &mut Writer, name: u8) -> u16 {
    let base = event(record, &[name]);
    let [term, rest] = [record.var(name), record.list_end()];
    let fields = record.argument(term, rest);
    record.node(&[0x19], &[base, fields], &[])
}

/// A wildcard, and an array of a variable and fields of the scope and of the context.
fn with_an_array(record: &mut Writer, name: u8) -> u16 {
    let mut items = record.list_end();
    let terms = [
        record.node(&[0x24, 0, 0], &[], &[]),
        record.node(&[0x23, 0, 0], &[], &[]),
        record.var(name),
    ];
    for term in terms {
        items = record.item(term, items);
    }
    let array = record.node(&[0x27], &[items], &[]);
    let [any, rest] = [record.node(&[0x21], &[], &[]), record.list_end()];
    let last = record.argument(any, rest);
    let arguments = record.argument(array, last);
    record.predicate(arguments)
}

fn computed(record: &mut Writer, name: u8) -> u16 {
    let [left, right] = [record.var(name), record.literal()];
    let sum = record.node(&[0x28, 0], &[left, right], &[]);
    record.comparison(sum)
}

fn some_field(record: &mut Writer, name: u8) -> u16 {
    let [left, right] = [record.var(name), record.node(&[0x24, 0, 0], &[], &[])];
    record.node(&[0x17, 1], &[left, right], &[])
}

fn timepoint(record: &mut Writer, own: u8) -> u16 {
    let now = record.tp(own);
    record.node(&[0x16, 0, own, 0], &[now], &[])
}

/// A value that ties a variable.
fn equality(record: &mut Writer, own: u8) -> u16 {
    let [left, right] = [record.var(own), record.literal()];
    let equal = record.node(&[0x17, 0], &[left, right], &[]);
    record.node(&[0x16, 0, own, 0], &[equal], &[])
}

/// Over events that carry its binder and the name.
fn aggregate(record: &mut Writer, name: u8, own: u8, kind: &[u8]) -> u16 {
    let body = event(record, &[name, own]);
    let rest = record.list_end();
    let binders = record.binder(own, rest);
    let many = record.node(kind, &[binders, body], &[]);
    record.comparison(many)
}

fn all_sigils(record: &mut Writer) -> u16 {
    let conditions = vec![
        record.call(),
        record.node(&[0x1C, 0, 0], &[], &[]),
        compared(record, &[0x25, 0]),
        compared(record, &[0x26, 0]),
        compared(record, &[0x2B, 0, 0]),
    ];
    record.joined(0x11, conditions)
}

fn compared(record: &mut Writer, term: &[u8]) -> u16 {
    let left = record.node(term, &[], &[]);
    record.comparison(left)
}
