//! What one condition more around a condition can be.

use super::writer::Writer;

pub struct Layer {
    pub label: &'static str,
    /// How much deeper the condition around is.
    pub(super) height: usize,
    /// The condition around, over a name and a condition that is at least two deep.
    pub(super) around: fn(&mut Writer, u8, u16) -> u16,
}

const fn layer(
    label: &'static str,
    height: usize,
    around: fn(&mut Writer, u8, u16) -> u16,
) -> Layer {
    Layer {
        label,
        height,
        around,
    }
}

pub const LAYERS: [Layer; 13] = [
    NOT,
    layer("left of And", 1, |record, name, below| {
        let right = record.tp(name);
        record.node(&[0x10], &[below, right], &[])
    }),
    layer("right of And", 1, |record, name, below| {
        let left = record.tp(name);
        record.node(&[0x10], &[left, below], &[])
    }),
    layer("left of Or", 1, |record, name, below| {
        let right = record.tp(name);
        record.node(&[0x11], &[below, right], &[])
    }),
    layer("right of Or", 1, |record, name, below| {
        let left = record.tp(name);
        record.node(&[0x11], &[left, below], &[])
    }),
    layer("Formerly", 1, |record, _, below| {
        record.node(&[0x13], &[below], &WINDOW)
    }),
    layer("Previous", 1, |record, _, below| {
        record.node(&[0x14], &[below], &WINDOW)
    }),
    layer("left of Since", 1, |record, name, below| {
        let right = record.tp(name);
        record.node(&[0x15], &[below, right], &WINDOW)
    }),
    layer("right of Since", 1, |record, name, below| {
        let left = record.tp(name);
        record.node(&[0x15], &[left, below], &WINDOW)
    }),
    layer("Exists", 1, |record, name, below| {
        record.node(&[0x16, 0, name, 0], &[below], &[])
    }),
    layer("Refine", 1, |record, _, below| {
        let fields = record.list_end();
        record.node(&[0x19], &[below, fields], &[])
    }),
    layer("Count", 2, |record, name, below| {
        let binders = one_binder(record, name);
        let count = record.node(&[0x2A], &[binders, below], &[]);
        record.comparison(count)
    }),
    layer("Sum in arithmetic", 3, |record, name, below| {
        let binders = one_binder(record, name);
        let sum = record.node(&[0x29, 0, name], &[binders, below], &[]);
        let other = record.literal();
        let arithmetic = record.node(&[0x28, 0], &[sum, other], &[]);
        record.comparison(arithmetic)
    }),
];

pub const NOT: Layer = layer("Not", 1, |record, _, below| {
    record.node(&[0x12], &[below], &[])
});

const WINDOW: [u8; 2] = [0, 0];

fn one_binder(record: &mut Writer, name: u8) -> u16 {
    let end = record.list_end();
    record.binder(name, end)
}
