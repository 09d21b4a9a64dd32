mod common;

use std::collections::BTreeSet;

use common::full_record;
use plain::answers::{arithmetic, closedness, demands, scoping};
use plain::random::Rng;
use plain::{condition, read};

const ROUNDS: usize = 300_000;

fn read_and_ask(bytes: &[u8]) -> bool {
    let Ok(record) = read(bytes) else {
        return false;
    };
    let c = condition(&record);
    scoping(&c, &BTreeSet::new());
    closedness(&c);
    demands(&c);
    arithmetic(&c);
    true
}

#[test]
fn nothing_panics_on_changed_records() {
    let mut rng = Rng::new(1);
    let mut accepted = 0;
    for _ in 0..ROUNDS {
        let mut bytes = full_record();
        for _ in 0..1 + rng.below(3) {
            let place = rng.below(bytes.len());
            bytes[place] = rng.byte();
        }
        accepted += usize::from(read_and_ask(&bytes));
    }
    assert!(accepted > 0);
}

#[test]
fn nothing_panics_on_any_bytes() {
    const LIKELY: [u8; 12] = [0, 1, 2, 3, 0x10, 0x16, 0x17, 0x1B, 0x20, 0x22, 0x30, 0x7F];
    let mut rng = Rng::new(2);
    for _ in 0..ROUNDS {
        let mut bytes = vec![0x01, 0x01];
        for _ in 0..rng.below(40) {
            bytes.push(rng.choose(&LIKELY));
        }
        read_and_ask(&bytes);
    }
}
