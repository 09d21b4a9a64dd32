//! Damaged copies of records, and noise.

use super::Rng;
use crate::reader::node_body_length;

/// A copy with one or two faults. It may happen to be accepted.
pub fn damaged(rng: &mut Rng, bytes: &[u8]) -> Vec<u8> {
    let mut damaged = bytes.to_vec();
    for _ in 0..rng.choose(&[1, 1, 1, 2]) {
        damage(rng, &mut damaged);
    }
    damaged
}

fn damage(rng: &mut Rng, bytes: &mut Vec<u8>) {
    let records = records(bytes);
    if records.is_empty() || rng.one_in(12) {
        let more = 1 + rng.below(4);
        bytes.extend((0..more).map(|_| likely_byte(rng)));
        return;
    }
    // By records, so that the long name records are not hit most of the time.
    let record = rng.below(records.len());
    let start = records[..record].concat().len();
    let place = start + rng.below(records[record].len());
    match rng.below(12) {
        0..=2 => bytes[place] = likely_byte(rng),
        3..=5 => bytes[place] = byte_of_another(rng, &records, record, place - start),
        6 => bytes.truncate(place),
        7 => bytes.insert(place, likely_byte(rng)),
        8 => {
            bytes.remove(place);
        }
        9..=10 => *bytes = with_swapped_records(&records, record, rng.below(records.len())),
        _ => *bytes = with_a_childless_node(&records, record),
    }
}

/// Out of a record of the same kind, where there is another byte in its place: a reference is then one that is used already.
fn byte_of_another(rng: &mut Rng, records: &[&[u8]], record: usize, place: usize) -> u8 {
    let record = records[record];
    let others: Vec<u8> = records
        .iter()
        .filter(|other| other[0] == record[0])
        .filter_map(|other| other.get(place).copied())
        .filter(|&byte| byte != record[place])
        .collect();
    if others.is_empty() {
        likely_byte(rng)
    } else {
        rng.choose(&others)
    }
}

fn with_swapped_records(records: &[&[u8]], first: usize, second: usize) -> Vec<u8> {
    let mut swapped = records.to_vec();
    swapped.swap(first, second);
    swapped.concat()
}

fn with_a_childless_node(records: &[&[u8]], replaced: usize) -> Vec<u8> {
    let mut others = records.to_vec();
    others[replaced] = match records[replaced][0] {
        0x10..=0x1C => &[0x1B, 0x00, 0x00],
        0x20..=0x2B => &[0x21],
        0x30..=0x33 => &[0x30],
        _ => records[replaced],
    };
    others.concat()
}

fn records(mut bytes: &[u8]) -> Vec<&[u8]> {
    let mut records = Vec::new();
    while let Some(&kind) = bytes.first() {
        let length = 1 + body_length(kind);
        let (record, rest) = bytes.split_at(length.min(bytes.len()));
        records.push(record);
        bytes = rest;
    }
    records
}

fn body_length(kind: u8) -> usize {
    match kind {
        0x01 => 1,
        0x02 => 24,
        0x7F => 2,
        _ => node_body_length(kind).unwrap_or(0),
    }
}

/// A few records of any kinds, most of them of the right length.
pub fn noise(rng: &mut Rng) -> Vec<u8> {
    let mut bytes = Vec::new();
    if !rng.one_in(8) {
        bytes.extend([0x01, 0x01]);
    }
    for _ in 0..rng.below(8) {
        let kind = rng.choose(&KINDS);
        let length = if rng.one_in(6) {
            rng.below(4)
        } else {
            body_length(kind)
        };
        bytes.push(kind);
        bytes.extend((0..length).map(|_| likely_byte(rng)));
    }
    bytes
}

const KINDS: [u8; 32] = [
    0x01, 0x02, 0x10, 0x11, 0x12, 0x13, 0x14, 0x15, 0x16, 0x17, 0x18, 0x19, 0x1A, 0x1B, 0x1C, 0x20,
    0x21, 0x22, 0x23, 0x24, 0x25, 0x26, 0x27, 0x28, 0x29, 0x2A, 0x2B, 0x30, 0x31, 0x32, 0x33, 0x7F,
];

fn likely_byte(rng: &mut Rng) -> u8 {
    match rng.below(8) {
        0 => rng.byte(),
        1 => rng.choose(&KINDS),
        _ => rng.choose(&[0, 0, 0, 0, 0, 1, 1, 2, 3, 4, 5, 6, 7]),
    }
}
