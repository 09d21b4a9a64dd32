mod agreement;

use std::collections::{BTreeSet, HashSet};
use std::mem::discriminant;

use agreement::assert_the_rust_agrees;
use plain::lists::list;
use plain::random::{damaged, noise, record, Rng};
use plain::{read, Node, Record};

const RECORDS: usize = 20_000;
const MOST_NODES: usize = 60;

struct Sample {
    rng: Rng,
    left: usize,
}

impl Sample {
    fn new(seed: u64) -> Sample {
        Sample {
            rng: Rng::new(seed),
            left: RECORDS,
        }
    }
}

impl Iterator for Sample {
    type Item = Record;

    fn next(&mut self) -> Option<Record> {
        self.left = self.left.checked_sub(1)?;
        let size = 1 + self.rng.below(MOST_NODES);
        let bytes = record(&mut self.rng, size);
        let record = read(&bytes).unwrap_or_else(|refusal| panic!("{refusal:?}: {bytes:02X?}"));
        assert!(record.nodes.len() <= size);
        Some(record)
    }
}

#[test]
fn all_29_kinds_are_made() {
    let kinds: HashSet<_> = Sample::new(1)
        .flat_map(|record| record.nodes)
        .map(|node| discriminant(&node))
        .collect();
    assert_eq!(kinds.len(), 29);
}

#[test]
fn every_rule_is_listed() {
    let rules: BTreeSet<u32> = Sample::new(2)
        .flat_map(|record| list(&record))
        .map(|entry| entry.rule)
        .collect();
    assert_eq!(rules, (20..=28).chain(30..=32).collect());
}

#[test]
fn a_right_child_may_be_numbered_below_the_left() {
    let mut sample = Sample::new(3).flat_map(|record| record.nodes);
    assert!(sample.any(|node| matches!(node, Node::And { left, right } if right.0 < left.0)));
}

#[test]
fn the_rust_has_the_first_entries_and_every_rule_among_them() {
    let mut seeds = Rng::new(4);
    let mut rules = BTreeSet::new();
    for record in Sample::new(5) {
        let seed = u128::from(seeds.number()) << 64 | u128::from(seeds.number());
        for seed in [0, seed] {
            rules.extend(assert_the_rust_agrees(&record, seed).map(|answer| answer.rule));
        }
    }
    let accepted_and_arithmetic = [0, 40];
    assert_eq!(
        rules,
        (20..=28)
            .chain(30..=32)
            .chain(accepted_and_arithmetic)
            .collect()
    );
}

#[test]
fn damage_and_noise_meet_every_refusal_that_small_records_have() {
    let mut rng = Rng::new(6);
    let mut refusals = BTreeSet::new();
    for _ in 0..RECORDS {
        let size = 1 + rng.below(MOST_NODES);
        let whole = record(&mut rng, size);
        for bytes in [damaged(&mut rng, &whole), noise(&mut rng)] {
            refusals.extend(read(&bytes).err().map(|refusal| refusal.number));
        }
    }
    let capacity_and_depth = [6, 10];
    for number in (1..=13).filter(|number| !capacity_and_depth.contains(number)) {
        assert!(
            refusals.contains(&number),
            "{number} is not among {refusals:?}"
        );
    }
}
