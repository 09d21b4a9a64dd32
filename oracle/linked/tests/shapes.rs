mod nodes;

use linked::shapes::{shapes_of, Shapes};
use nodes::record;
use plain::lists::list;
use plain::Record;

const CALL: &[u8] = &[0x1B, 0, 0];
const TP_X: &[u8] = &[0x1A, 0, 0];
const ZERO: &[u8] = &[0x22, 0, 0];
const WILDCARD: &[u8] = &[0x21];
const LIST_END: &[u8] = &[0x30];

/// Of nodes over a table of x, number 0, and y, number 1.
fn assert_shapes<const N: usize>(nodes: &[&[u8]], shapes: [&str; N]) {
    assert_eq!(shapes_of(&record(&["x", "y"], nodes)), shapes);
}

#[test]
fn exists_that_shadows() {
    // exists x. exists x. tp(x)
    assert_shapes(
        &[TP_X, &[0x16, 0, 0, 0, 0, 0], &[0x16, 0, 0, 0, 1, 0]],
        ["exists that shadows"],
    );
    // (count for x where exists x. tp(x)) > 0
    assert_shapes(
        &[
            TP_X,
            &[0x16, 0, 0, 0, 0, 0],
            LIST_END,
            &[0x33, 0, 0, 0, 2, 0],
            &[0x2A, 3, 0, 1, 0],
            ZERO,
            &[0x17, 3, 4, 0, 5, 0],
        ],
        ["exists that shadows"],
    );
}

#[test]
fn exists_of_another_name_or_beside_does_not_shadow() {
    // exists y. exists x. tp(x)
    assert_shapes(&[TP_X, &[0x16, 0, 0, 0, 0, 0], &[0x16, 0, 1, 0, 1, 0]], []);
    // (exists x. tp(x)) && (exists x. tp(x))
    assert_shapes(
        &[
            TP_X,
            &[0x16, 0, 0, 0, 0, 0],
            TP_X,
            &[0x16, 0, 0, 0, 2, 0],
            &[0x10, 1, 0, 3, 0],
        ],
        [],
    );
}

/// `exists x. (sum x for .. where tp(x)) > 0`, with this name as the binder.
fn sum_below_exists(binder: u8) -> Record {
    record(
        &["x", "y"],
        &[
            TP_X,
            LIST_END,
            &[0x33, 0, binder, 0, 1, 0],
            &[0x29, 0, 0, 2, 0, 0, 0],
            ZERO,
            &[0x17, 3, 3, 0, 4, 0],
            &[0x16, 0, 0, 0, 5, 0],
        ],
    )
}

#[test]
fn aggregate_that_shadows_by_a_binder_and_not_by_its_summed_name() {
    assert_eq!(shapes_of(&sum_below_exists(0)), ["aggregate that shadows"]);
    assert!(shapes_of(&sum_below_exists(1)).is_empty());
}

#[test]
fn aggregate_in_an_aggregates_body() {
    // (count where (count where call) > 0) > 0
    assert_shapes(
        &[
            CALL,
            LIST_END,
            &[0x2A, 1, 0, 0, 0],
            ZERO,
            &[0x17, 3, 2, 0, 3, 0],
            LIST_END,
            &[0x2A, 5, 0, 4, 0],
            ZERO,
            &[0x17, 3, 6, 0, 7, 0],
        ],
        ["aggregate in an aggregate's body"],
    );
    // (count where call) > (count where call)
    assert_shapes(
        &[
            CALL,
            LIST_END,
            &[0x2A, 1, 0, 0, 0],
            CALL,
            LIST_END,
            &[0x2A, 4, 0, 3, 0],
            &[0x17, 3, 2, 0, 5, 0],
        ],
        [],
    );
}

#[test]
fn sigils_of_both_sorts_in_each_slot() {
    for sort in [1, 2] {
        // exists ?0. call
        assert_shapes(&[CALL, &[0x16, sort, 0, 0, 0, 0]], ["sigil exists"]);
        // (count for ?0 where call) > 0
        assert_shapes(
            &[
                CALL,
                LIST_END,
                &[0x33, sort, 0, 0, 1, 0],
                &[0x2A, 2, 0, 0, 0],
                ZERO,
                &[0x17, 3, 3, 0, 4, 0],
            ],
            ["sigil binder cell"],
        );
        // (sum ?0 where call) > 0
        assert_shapes(
            &[
                CALL,
                LIST_END,
                &[0x29, sort, 0, 1, 0, 0, 0],
                ZERO,
                &[0x17, 3, 2, 0, 3, 0],
            ],
            ["sigil sum"],
        );
        // tp(?0)
        assert_shapes(&[&[0x1A, sort, 0]], ["sigil tp"]);
    }
}

#[test]
fn array() {
    // [] == 0
    assert_shapes(
        &[LIST_END, &[0x27, 0, 0], ZERO, &[0x17, 0, 1, 0, 2, 0]],
        ["array"],
    );
}

#[test]
fn arithmetic_with_a_wildcard() {
    // * + 0 == 0
    assert_shapes(
        &[
            WILDCARD,
            ZERO,
            &[0x28, 0, 0, 0, 1, 0],
            ZERO,
            &[0x17, 0, 2, 0, 3, 0],
        ],
        ["arithmetic with a wildcard"],
    );
    // [*] + 0 == 0
    assert_shapes(
        &[
            WILDCARD,
            LIST_END,
            &[0x32, 0, 0, 1, 0],
            &[0x27, 2, 0],
            ZERO,
            &[0x28, 0, 3, 0, 4, 0],
            ZERO,
            &[0x17, 0, 5, 0, 6, 0],
        ],
        ["array", "arithmetic with a wildcard"],
    );
}

#[test]
fn arithmetic_without_a_wildcard() {
    // 0 + 0 == *
    assert_shapes(
        &[
            ZERO,
            ZERO,
            &[0x28, 0, 0, 0, 1, 0],
            WILDCARD,
            &[0x17, 0, 2, 0, 3, 0],
        ],
        ["arithmetic without a wildcard"],
    );
}

#[test]
fn refine_of_no_predicate() {
    // call{}
    assert_shapes(
        &[CALL, LIST_END, &[0x19, 0, 0, 1, 0]],
        ["refine of no predicate"],
    );
    // P{}{}
    assert_shapes(
        &[LIST_END, &[0x18, 0, 0, 0, 0], LIST_END, &[0x19, 1, 0, 2, 0]],
        [],
    );
}

#[test]
fn right_child_numbered_below_its_left() {
    // call && call
    assert_shapes(
        &[CALL, CALL, &[0x10, 1, 0, 0, 0]],
        ["right child numbered below its left"],
    );
    assert_shapes(&[CALL, CALL, &[0x10, 0, 0, 1, 0]], []);
}

#[test]
fn two_free_names() {
    // tp(x) && tp(y)
    assert_shapes(
        &[TP_X, &[0x1A, 0, 1], &[0x10, 0, 0, 1, 0]],
        ["two free names"],
    );
    // tp(x) && tp(x)
    assert_shapes(&[TP_X, TP_X, &[0x10, 0, 0, 1, 0]], []);
}

#[test]
fn free_name_above_63() {
    let names: Vec<String> = (0..65).map(|number| format!("n{number:02}")).collect();
    let names: Vec<&str> = names.iter().map(String::as_str).collect();
    // tp(n64), tp(n63)
    assert_eq!(
        shapes_of(&record(&names, &[&[0x1A, 0, 64]])),
        ["free name above 63"]
    );
    assert!(shapes_of(&record(&names, &[&[0x1A, 0, 63]])).is_empty());
}

#[test]
fn each_record_counts_once_and_what_it_has_is_met() {
    let mut shapes = Shapes::default();
    let all = shapes.seldom_met(0);
    assert_eq!(all.len(), 29 + 14 + 24);
    // exists ?0. tp(x)
    let sigil = record(&["x"], &[TP_X, &[0x16, 1, 0, 0, 0, 0]]);
    // exists ?0. exists ?0. call
    let sigils = record(&[], &[CALL, &[0x16, 1, 0, 0, 0, 0], &[0x16, 1, 0, 0, 1, 0]]);
    shapes.add(&sigil, &list(&sigil));
    shapes.add(&sigils, &list(&sigils));
    let met = ["kind 16", "kind 1A", "kind 1B", "sigil exists"];
    let never: Vec<String> = all
        .into_iter()
        .filter(|shape| !met.contains(&shape.as_str()))
        .collect();
    assert_eq!(shapes.seldom_met(0), never);
    assert_eq!(
        shapes.lines()[0],
        "records with each kind from 10 to 1C: [0, 0, 0, 0, 0, 0, 2, 0, 0, 0, 1, 1, 0]"
    );
    assert!(shapes.lines()[4].starts_with("records with: sigil exists 2, sigil binder cell 0"));
}
