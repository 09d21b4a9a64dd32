mod nodes;

use linked::findings::findings_of;
use linked::records::{tower_over_all, LAYERS};
use nodes::record;
use plain::lists::list;
use plain::read;

const CALL: &[u8] = &[0x1B, 0, 0];
const TP_RESERVED: &[u8] = &[0x1A, 0, 0];
const TP_X: &[u8] = &[0x1A, 0, 1];
const TP_Y: &[u8] = &[0x1A, 0, 2];
const RESERVED: &[u8] = &[0x20, 0];
const X: &[u8] = &[0x20, 1];
const Y: &[u8] = &[0x20, 2];
const ZERO: &[u8] = &[0x22, 0, 0];
const AGGREGATE_CALL: &[u8] = &[0x2B, 0, 0];
const LIST_END: &[u8] = &[0x30];

/// Of nodes over a table of principal, number 0, x, number 1, and y, number 2.
fn assert_findings<const N: usize>(nodes: &[&[u8]], findings: [&str; N]) {
    let record = record(&["principal", "x", "y"], nodes);
    assert_eq!(findings_of(&record, &list(&record)), findings);
}

#[test]
fn a_reserved_word_at_each_slot() {
    // exists principal. P{a: principal}
    assert_findings(
        &[
            RESERVED,
            LIST_END,
            &[0x31, 0, 0, 0, 0, 1, 0],
            &[0x18, 0, 0, 2, 0],
            &[0x16, 0, 0, 0, 3, 0],
        ],
        ["22 at exists"],
    );
    // tp(principal)
    assert_findings(&[TP_RESERVED], ["22 at tp"]);
    // (count for principal where P{a: principal}) > 0
    assert_findings(
        &[
            RESERVED,
            LIST_END,
            &[0x31, 0, 0, 0, 0, 1, 0],
            &[0x18, 0, 0, 2, 0],
            LIST_END,
            &[0x33, 0, 0, 0, 4, 0],
            &[0x2A, 5, 0, 3, 0],
            ZERO,
            &[0x17, 3, 6, 0, 7, 0],
        ],
        ["22 at a binder cell"],
    );
}

#[test]
fn an_aggregate_where_terms_are_searched() {
    // P{a: count for where call}
    assert_findings(
        &[
            CALL,
            LIST_END,
            &[0x2A, 1, 0, 0, 0],
            LIST_END,
            &[0x31, 0, 0, 2, 0, 3, 0],
            &[0x18, 0, 0, 4, 0],
        ],
        ["20 as an argument"],
    );
    // P{a: [c()]}
    assert_findings(
        &[
            AGGREGATE_CALL,
            LIST_END,
            &[0x32, 0, 0, 1, 0],
            &[0x27, 2, 0],
            LIST_END,
            &[0x31, 0, 0, 3, 0, 4, 0],
            &[0x18, 0, 0, 5, 0],
        ],
        ["20 in an argument's array", "20 of an aggregate call"],
    );
    // [[c()]] == 0
    assert_findings(
        &[
            AGGREGATE_CALL,
            LIST_END,
            &[0x32, 0, 0, 1, 0],
            &[0x27, 2, 0],
            LIST_END,
            &[0x32, 3, 0, 4, 0],
            &[0x27, 5, 0],
            ZERO,
            &[0x17, 0, 6, 0, 7, 0],
        ],
        ["20 in an operand's array", "20 of an aggregate call"],
    );
    // c() == 0
    assert_findings(&[AGGREGATE_CALL, ZERO, &[0x17, 0, 0, 0, 1, 0]], []);
}

#[test]
fn arithmetic_where_terms_are_searched() {
    let sum: [&[u8]; 3] = [ZERO, ZERO, &[0x28, 0, 0, 0, 1, 0]];
    let below = |rest: &[&'static [u8]]| [&sum[..], rest].concat();
    // P{a: 0 + 0}
    let argument = below(&[LIST_END, &[0x31, 0, 0, 2, 0, 3, 0], &[0x18, 0, 0, 4, 0]]);
    assert_findings(&argument, ["21 as an argument"]);
    let array: [&[u8]; 3] = [LIST_END, &[0x32, 2, 0, 3, 0], &[0x27, 4, 0]];
    // P{a: [0 + 0]}
    let end: [&[u8]; 3] = [LIST_END, &[0x31, 0, 0, 5, 0, 6, 0], &[0x18, 0, 0, 7, 0]];
    let in_argument = below(&[array, end].concat());
    assert_findings(&in_argument, ["21 in an argument's array"]);
    // [0 + 0] == 0
    let end: [&[u8]; 2] = [ZERO, &[0x17, 0, 5, 0, 6, 0]];
    let in_operand = below(&[&array[..], &end[..]].concat());
    assert_findings(&in_operand, ["21 in an operand's array"]);
    // 0 + 0 == 0
    assert_findings(&below(&[ZERO, &[0x17, 0, 2, 0, 3, 0]]), []);
}

/// `(sum x for y where tp(x)) > 0`
const SUM: [&[u8]; 6] = [
    TP_X,
    LIST_END,
    &[0x33, 0, 2, 0, 1, 0],
    &[0x29, 0, 1, 2, 0, 0, 0],
    ZERO,
    &[0x17, 3, 3, 0, 4, 0],
];

#[test]
fn an_aggregate_in_an_aggregates_body() {
    // (count for where (sum x for y where tp(x)) > 0) > 0
    let around: [&[u8]; 4] = [LIST_END, &[0x2A, 6, 0, 5, 0], ZERO, &[0x17, 3, 7, 0, 8, 0]];
    assert_findings(
        &[&SUM[..], &around[..]].concat(),
        [
            "24 in an inner aggregate",
            "25 in an inner aggregate",
            "26 in an inner aggregate",
            "27 in an inner aggregate",
        ],
    );
    assert_findings(&SUM, []);
}

#[test]
fn an_exists_over_a_sigil() {
    // exists x. call
    assert_findings(
        &[CALL, &[0x16, 0, 1, 0, 0, 0]],
        ["23 skipped under a sigil"],
    );
    // exists x. (tp(x) && call)
    assert_findings(
        &[TP_X, CALL, &[0x10, 0, 0, 1, 0], &[0x16, 0, 1, 0, 2, 0]],
        [],
    );
    // exists ?0. call
    assert_findings(&[CALL, &[0x16, 1, 0, 0, 0, 0]], []);
}

#[test]
fn two_cells_that_bind_one_name() {
    for (second, findings) in [(1, vec!["27 for one name at two cells"]), (2, vec![])] {
        // (count for x, .. where call) > 0
        let record = record(
            &["principal", "x", "y"],
            &[
                CALL,
                LIST_END,
                &[0x33, 0, second, 0, 1, 0],
                &[0x33, 0, 1, 0, 2, 0],
                &[0x2A, 3, 0, 0, 0],
                ZERO,
                &[0x17, 3, 4, 0, 5, 0],
            ],
        );
        assert_eq!(findings_of(&record, &list(&record)), findings);
    }
}

#[test]
fn an_entry_at_a_node_above_255() {
    let formerly = LAYERS
        .iter()
        .find(|layer| layer.label == "Formerly")
        .unwrap();
    // the root is around 255 nodes, 8 deep, and has the entries of rule 28
    for (around, findings) in [(1, vec![]), (2, vec!["node above 255"])] {
        let record = read(&tower_over_all(128, 8 + around, || formerly)).unwrap();
        assert_eq!(findings_of(&record, &list(&record)), findings);
    }
}

/// `x > 0`
const X_ABOVE: [&[u8]; 3] = [X, ZERO, &[0x17, 3, 0, 0, 1, 0]];

#[test]
fn a_finding_before_a_tie() {
    // (x > 0 && tp(y)) && y > 0
    let tied: [&[u8]; 6] = [
        TP_Y,
        &[0x10, 2, 0, 3, 0],
        Y,
        ZERO,
        &[0x17, 3, 5, 0, 6, 0],
        &[0x10, 4, 0, 7, 0],
    ];
    assert_findings(
        &[&X_ABOVE[..], &tied[..]].concat(),
        ["demand before And ties more"],
    );
    // x > 0 && y > 0
    let untied: [&[u8]; 4] = [Y, ZERO, &[0x17, 3, 3, 0, 4, 0], &[0x10, 2, 0, 5, 0]];
    assert_findings(&[&X_ABOVE[..], &untied[..]].concat(), []);
}

#[test]
fn a_since_both_ways() {
    let with_tp_x = |since: &'static [u8]| [&X_ABOVE[..], &[TP_X, since]].concat();
    // tp(x) since x > 0
    assert_findings(
        &with_tp_x(&[0x15, 3, 0, 2, 0, 0, 0]),
        ["demand right of Since for a name of its left"],
    );
    // x > 0 since tp(x)
    assert_findings(
        &with_tp_x(&[0x15, 2, 0, 3, 0, 0, 0]),
        ["left of Since tied by its right"],
    );
    // x > 0 since tp(y)
    let other: [&[u8]; 2] = [TP_Y, &[0x15, 2, 0, 3, 0, 0, 0]];
    assert_findings(&[&X_ABOVE[..], &other[..]].concat(), []);
}

#[test]
fn a_comparison_that_is_not_asked() {
    // (count for where x > 0) > 0
    let count: [&[u8]; 4] = [LIST_END, &[0x2A, 3, 0, 2, 0], ZERO, &[0x17, 3, 4, 0, 5, 0]];
    let around = |rest: &[&'static [u8]]| [&X_ABOVE[..], &count[..], rest].concat();
    assert_findings(
        &around(&[&[0x12, 6, 0]]),
        ["demand below a comparison under Not"],
    );
    assert_findings(
        &around(&[LIST_END, &[0x19, 6, 0, 7, 0]]),
        ["demand below a comparison under Refine"],
    );
    assert_findings(&around(&[]), []);
    // not formerly (count for where x > 0) > 0
    assert_findings(&around(&[&[0x13, 6, 0, 0, 0], &[0x12, 7, 0]]), []);
}

#[test]
fn a_tied_name_that_is_bound_anew() {
    // tp(x) && (count for x where x > 0) > 0
    let count: [&[u8]; 5] = [
        LIST_END,
        &[0x33, 0, 1, 0, 3, 0],
        &[0x2A, 4, 0, 2, 0],
        ZERO,
        &[0x17, 3, 5, 0, 6, 0],
    ];
    let tied: [&[u8]; 2] = [TP_X, &[0x10, 8, 0, 7, 0]];
    assert_findings(
        &[&X_ABOVE[..], &count[..], &tied[..]].concat(),
        ["demand for a tied name that an aggregate binds"],
    );
    assert_findings(&[&X_ABOVE[..], &count[..]].concat(), []);
    // tp(x) && exists x. x > 0
    let exists: [&[u8]; 3] = [&[0x16, 0, 1, 0, 2, 0], TP_X, &[0x10, 4, 0, 3, 0]];
    assert_findings(
        &[&X_ABOVE[..], &exists[..]].concat(),
        ["demand for a tied name that exists binds"],
    );
    // (exists x. x > 0) && tp(x)
    let exists: [&[u8]; 3] = [&[0x16, 0, 1, 0, 2, 0], TP_X, &[0x10, 3, 0, 4, 0]];
    assert_findings(&[&X_ABOVE[..], &exists[..]].concat(), []);
}
