mod common;

use std::collections::BTreeSet;

use common::{ended, full_record};
use dogwood::extension::temporal::ast::Condition;
use plain::answers::{arithmetic, closedness, demands, scoping, Answer};
use plain::{condition, read};

fn tree(names: &[&str], nodes: &[&[u8]]) -> Condition {
    condition(&read(&ended(names, nodes)).unwrap())
}

fn unseeded_scoping(c: &Condition) -> Answer {
    scoping(c, &BTreeSet::new())
}

fn about(rule: u32, name: &str) -> Answer {
    Answer {
        rule,
        name: Some(name.to_string()),
    }
}

fn nameless(rule: u32) -> Answer {
    Answer { rule, name: None }
}

#[test]
fn the_record_in_full() {
    let c = condition(&read(&full_record()).unwrap());
    assert_eq!(unseeded_scoping(&c), Answer::ACCEPTED);
    assert_eq!(closedness(&c), about(28, "g"));
    assert_eq!(demands(&c), about(31, "g"));
    assert_eq!(arithmetic(&c), Answer::ACCEPTED);
}

#[test]
fn rule_20_an_aggregate_as_an_argument() {
    let nodes: [&[u8]; 4] = [
        &[0x2B, 0, 0],
        &[0x30],
        &[0x31, 0, 0, 0, 0, 1, 0],
        &[0x18, 0, 0, 2, 0],
    ];
    assert_eq!(unseeded_scoping(&tree(&[], &nodes)), nameless(20));
}

#[test]
fn rule_21_arithmetic_as_an_argument() {
    let nodes: [&[u8]; 6] = [
        &[0x22, 0, 0],
        &[0x22, 0, 0],
        &[0x28, 0, 0, 0, 1, 0],
        &[0x30],
        &[0x31, 0, 0, 2, 0, 3, 0],
        &[0x18, 0, 0, 4, 0],
    ];
    let c = tree(&[], &nodes);
    assert_eq!(unseeded_scoping(&c), nameless(21));
    assert_eq!(arithmetic(&c), Answer::ACCEPTED);
}

#[test]
fn rule_22_the_four_reserved_words() {
    let names = ["action", "context", "principal", "resource"];
    for (number, name) in (0..).zip(names) {
        let c = tree(&names, &[&[0x1A, 0, number]]);
        assert_eq!(unseeded_scoping(&c), about(22, name));
    }
}

#[test]
fn rule_23_an_exists_binder_not_restricted() {
    let nodes: [&[u8]; 4] = [
        &[0x20, 0],
        &[0x22, 0, 0],
        &[0x17, 1, 0, 0, 1, 0],
        &[0x16, 0, 0, 0, 2, 0],
    ];
    assert_eq!(unseeded_scoping(&tree(&["x"], &nodes)), about(23, "x"));
}

/// `(sum .. for x where (tp(u) && tp(x))) > 0`, with u (0) or x (1) summed.
fn sum_for_x(summed: u8) -> Condition {
    let nodes: [&[u8]; 8] = [
        &[0x1A, 0, 0],
        &[0x1A, 0, 1],
        &[0x10, 0, 0, 1, 0],
        &[0x30],
        &[0x33, 0, 1, 0, 3, 0],
        &[0x29, 0, summed, 4, 0, 2, 0],
        &[0x22, 0, 0],
        &[0x17, 3, 5, 0, 6, 0],
    ];
    tree(&["u", "x"], &nodes)
}

#[test]
fn rule_24_a_summed_name_not_among_the_binders() {
    assert_eq!(unseeded_scoping(&sum_for_x(0)), about(24, "u"));
}

#[test]
fn rule_25_a_name_of_the_body_not_in_scope() {
    assert_eq!(unseeded_scoping(&sum_for_x(1)), about(25, "u"));
}

#[test]
fn the_seed_is_in_scope() {
    let seed = BTreeSet::from(["u".to_string()]);
    assert_eq!(scoping(&sum_for_x(1), &seed), Answer::ACCEPTED);
}

#[test]
fn rule_26_a_binder_not_free_in_the_body_whatever_its_name() {
    for name in ["x", "for", "sum"] {
        let nodes: [&[u8]; 6] = [
            &[0x1B, 0, 0],
            &[0x30],
            &[0x33, 0, 0, 0, 1, 0],
            &[0x2A, 2, 0, 0, 0],
            &[0x22, 0, 0],
            &[0x17, 1, 3, 0, 4, 0],
        ];
        assert_eq!(unseeded_scoping(&tree(&[name], &nodes)), about(26, name));
    }
}

#[test]
fn rule_27_a_binder_not_restricted_in_the_body() {
    let nodes: [&[u8]; 7] = [
        &[0x1A, 0, 0],
        &[0x12, 0, 0],
        &[0x30],
        &[0x33, 0, 0, 0, 2, 0],
        &[0x2A, 3, 0, 1, 0],
        &[0x22, 0, 0],
        &[0x17, 1, 4, 0, 5, 0],
    ];
    assert_eq!(unseeded_scoping(&tree(&["x"], &nodes)), about(27, "x"));
}

#[test]
fn rule_28_the_first_free_name() {
    let nodes: [&[u8]; 3] = [&[0x1A, 0, 1], &[0x1A, 0, 0], &[0x10, 0, 0, 1, 0]];
    assert_eq!(closedness(&tree(&["x", "y"], &nodes)), about(28, "x"));
}

/// `left == right + 0`, with one bare name on each side.
fn equality_with_arithmetic(left: u8, right: u8) -> Condition {
    let nodes: [&[u8]; 5] = [
        &[0x20, left],
        &[0x20, right],
        &[0x22, 0, 0],
        &[0x28, 0, 1, 0, 2, 0],
        &[0x17, 0, 0, 0, 3, 0],
    ];
    tree(&["x", "y"], &nodes)
}

#[test]
fn rule_30_is_about_the_name_that_is_read() {
    assert_eq!(demands(&equality_with_arithmetic(0, 1)), about(30, "y"));
    assert_eq!(demands(&equality_with_arithmetic(1, 0)), about(30, "x"));
    assert_eq!(demands(&equality_with_arithmetic(1, 1)), about(30, "y"));
}

#[test]
fn rule_31_comparisons_and_negations() {
    let comparison: [&[u8]; 3] = [&[0x20, 0], &[0x21], &[0x17, 0, 0, 0, 1, 0]];
    assert_eq!(demands(&tree(&["x"], &comparison)), about(31, "x"));
    let negation: [&[u8]; 2] = [&[0x1A, 0, 0], &[0x12, 0, 0]];
    assert_eq!(demands(&tree(&["x"], &negation)), about(31, "x"));
}

#[test]
fn rule_32_the_left_of_a_since() {
    let nodes: [&[u8]; 3] = [&[0x1A, 0, 0], &[0x1A, 0, 1], &[0x15, 0, 0, 1, 0, 0, 0]];
    assert_eq!(demands(&tree(&["x", "y"], &nodes)), about(32, "x"));
}

#[test]
fn a_sigil_anywhere_ends_all_demands() {
    let nodes: [&[u8]; 5] = [
        &[0x20, 0],
        &[0x21],
        &[0x17, 0, 0, 0, 1, 0],
        &[0x1B, 0, 0],
        &[0x10, 2, 0, 3, 0],
    ];
    assert_eq!(demands(&tree(&["x"], &nodes)), Answer::ACCEPTED);
}

#[test]
fn rule_40_arithmetic_as_an_operand() {
    assert_eq!(arithmetic(&equality_with_arithmetic(0, 1)), nameless(40));
}
