//! Records of a given size, for the limits and the measurements.

mod every_shape;
mod layers;
mod rules;
mod writer;

pub use every_shape::every_shape;
pub use layers::{Layer, LAYERS};
pub use rules::{rule, Plan};

use layers::NOT;
use writer::Writer;

const AND: u8 = 0x10;
const OR: u8 = 0x11;

/// So many names, and a balanced tree of Ands over Calls; an odd count of nodes.
pub fn balanced(names: usize, nodes: usize) -> Vec<u8> {
    let mut record = Writer::with_names(names);
    let calls = (0..nodes / 2 + 1).map(|_| record.call()).collect();
    record.joined(AND, calls);
    record.ended()
}

/// So many names, and Nots over a Call, so many nodes deep.
pub fn chain(names: usize, depth: usize) -> Vec<u8> {
    let mut record = Writer::with_names(names);
    let call = record.call();
    around(&mut record, call, depth - 1, names, || &NOT);
    record.ended()
}

/// Layers around a predicate with a variable, so many nodes deep, over one of so many names after the other. It holds no sigil.
pub fn tower(names: usize, depth: usize, layers: impl FnMut() -> &'static Layer) -> Vec<u8> {
    let mut record = Writer::with_names(names);
    let [term, rest] = [record.var(0), record.list_end()];
    let arguments = record.argument(term, rest);
    let predicate = record.predicate(arguments);
    around(&mut record, predicate, depth - 3, names, layers);
    record.ended()
}

/// Layers around a balanced tree in which each name is free, so that a rule is unmet for many names at once. It holds no sigil.
pub fn tower_over_all(
    names: usize,
    depth: usize,
    layers: impl FnMut() -> &'static Layer,
) -> Vec<u8> {
    let mut record = Writer::with_names(names);
    let leaves = (0..names).map(|name| record.tp(name as u8)).collect();
    let ors = record.joined(OR, leaves);
    let height = 1 + names.next_power_of_two().trailing_zeros() as usize;
    around(&mut record, ors, depth - height, names, layers);
    record.ended()
}

/// Layers around a condition, until they are so high. One that would be too high is a Not.
fn around(
    record: &mut Writer,
    mut condition: u16,
    mut room: usize,
    names: usize,
    mut layers: impl FnMut() -> &'static Layer,
) {
    while room > 0 {
        let layer = Some(layers())
            .filter(|layer| layer.height <= room)
            .unwrap_or(&NOT);
        let name = room % names.max(1);
        condition = (layer.around)(record, name as u8, condition);
        room -= layer.height;
    }
}

/// Records that are so many nodes deep, an even number, by a term or a list.
pub fn deep_by_terms(names: usize, depth: usize) -> [(&'static str, Vec<u8>); 4] {
    [
        ("arrays", nested_arrays(names, depth)),
        ("arithmetic", nested_arithmetic(names, depth)),
        ("arguments", many_arguments(names, depth)),
        ("binders", many_binders(names, depth)),
    ]
}

/// An argument that is an array, whose only item is an array, and so on.
fn nested_arrays(names: usize, depth: usize) -> Vec<u8> {
    let mut record = Writer::with_names(names);
    let nothing = record.list_end();
    let mut array = record.node(&[0x27], &[nothing], &[]);
    for _ in 0..(depth - 4) / 2 {
        let rest = record.list_end();
        let items = record.item(array, rest);
        array = record.node(&[0x27], &[items], &[]);
    }
    let rest = record.list_end();
    let arguments = record.argument(array, rest);
    record.predicate(arguments);
    record.ended()
}

fn nested_arithmetic(names: usize, depth: usize) -> Vec<u8> {
    let mut record = Writer::with_names(names);
    let mut left = record.var(0);
    for _ in 0..depth - 2 {
        let right = record.var(0);
        left = record.node(&[0x28, 0], &[left, right], &[]);
    }
    record.comparison(left);
    record.ended()
}

fn many_arguments(names: usize, depth: usize) -> Vec<u8> {
    let mut record = Writer::with_names(names);
    let mut arguments = record.list_end();
    for number in 0..depth - 2 {
        let term = record.var((number % names) as u8);
        arguments = record.argument(term, arguments);
    }
    record.predicate(arguments);
    record.ended()
}

fn many_binders(names: usize, depth: usize) -> Vec<u8> {
    let mut record = Writer::with_names(names);
    let body = record.tp(0);
    let mut binders = record.list_end();
    for number in 0..depth - 3 {
        binders = record.binder((number % names) as u8, binders);
    }
    let count = record.node(&[0x2A], &[binders, body], &[]);
    record.comparison(count);
    record.ended()
}
