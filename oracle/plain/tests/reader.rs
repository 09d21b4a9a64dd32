mod common;

use common::{end, ended, full_record, name, unended, FORMAT};
use plain::{read, NameNumber, Node, NodeNumber, Refusal, Slot};

const CALL: &[u8] = &[0x1B, 0, 0];
const LITERAL: &[u8] = &[0x22, 0, 0];

fn assert_refused(bytes: &[u8], number: u32, offset: usize) {
    assert_eq!(read(bytes), Err(Refusal { number, offset }));
}

fn assert_accepted(bytes: &[u8]) {
    assert_eq!(read(bytes).err(), None);
}

/// Without names, the last of these nodes is refused.
fn assert_last_node_refused(nodes: &[&[u8]], number: u32) {
    let last = nodes.last().unwrap().len();
    let bytes = unended(&[], nodes);
    assert_refused(&bytes, number, bytes.len() - last);
}

fn ascending_names(count: usize) -> Vec<u8> {
    (0..count).flat_map(|i| name(&format!("n{i:03}"))).collect()
}

/// `not not .. call`, one node for each step of depth.
fn nots_over_a_call(depth: u8) -> Vec<u8> {
    let nots = (0..depth - 1).flat_map(|below| [0x12, below, 0]);
    [CALL.to_vec(), nots.collect()].concat()
}

/// 256 calls, joined in pairs to one `and`, under a `not`.
fn nodes_512() -> Vec<u8> {
    let calls = CALL.repeat(256);
    let ands = (0..255_u16).flat_map(|i| {
        let [left, right] = [2 * i, 2 * i + 1].map(u16::to_le_bytes);
        [0x10, left[0], left[1], right[0], right[1]]
    });
    [calls, ands.collect(), vec![0x12, 0xFE, 0x01]].concat()
}

#[test]
fn the_record_in_full_is_read() {
    let record = read(&full_record()).unwrap();
    assert_eq!(record.names, ["f", "g"]);
    assert_eq!(
        record.nodes,
        [
            Node::Var {
                name: NameNumber(1)
            },
            Node::Literal { symbol: 3 },
            Node::Comparison {
                op: 2,
                left: NodeNumber(0),
                right: NodeNumber(1)
            },
            Node::Var {
                name: NameNumber(0)
            },
            Node::ListEnd,
            Node::ArgumentCell {
                field: 7,
                term: NodeNumber(3),
                rest: NodeNumber(4)
            },
            Node::Predicate {
                action: 9,
                arguments: NodeNumber(5)
            },
            Node::And {
                left: NodeNumber(2),
                right: NodeNumber(6)
            },
            Node::Exists {
                slot: Slot::Name(NameNumber(0)),
                type_byte: 0,
                body: NodeNumber(7)
            },
        ]
    );
}

/// All but Predicate and Literal, which the record in full has.
const NODES_OF_27_KINDS: [&[u8]; 35] = [
    &[0x1C, 0x01, 0x02],
    &[0x13, 0, 0, 0x03, 0x04],
    &[0x1A, 1, 200],
    &[0x14, 2, 0, 0x05, 0x06],
    &[0x11, 1, 0, 3, 0],
    &[0x1A, 2, 201],
    &[0x15, 4, 0, 5, 0, 0x07, 0x08],
    &[0x30],
    &[0x24, 0x09, 0x0A],
    &[0x31, 0x0B, 0x0C, 8, 0, 7, 0],
    &[0x19, 6, 0, 9, 0],
    &[0x12, 10, 0],
    &[0x30],
    &[0x33, 0, 0, 202, 12, 0],
    &[0x29, 1, 203, 13, 0, 11, 0],
    &[0x2B, 0x0D, 0x0E],
    &[0x28, 2, 14, 0, 15, 0],
    &[0x21],
    &[0x23, 0x0F, 0x10],
    &[0x25, 204],
    &[0x26, 205],
    &[0x30],
    &[0x32, 20, 0, 21, 0],
    &[0x32, 19, 0, 22, 0],
    &[0x32, 18, 0, 23, 0],
    &[0x32, 17, 0, 24, 0],
    &[0x27, 25, 0],
    &[0x17, 5, 16, 0, 26, 0],
    &[0x30],
    &[0x2A, 28, 0, 27, 0],
    &[0x20, 0],
    &[0x17, 0, 29, 0, 30, 0],
    &[0x16, 2, 206, 207, 31, 0],
    &[0x1B, 0x11, 0x12],
    &[0x10, 32, 0, 33, 0],
];

#[test]
fn every_kind_is_read_with_all_its_fields() {
    let bytes = ended(&["x"], &NODES_OF_27_KINDS);
    let node = NodeNumber;
    assert_eq!(
        read(&bytes).unwrap().nodes,
        [
            Node::SigilRef { symbol: 0x0201 },
            Node::Formerly {
                body: node(0),
                window: 0x0403
            },
            Node::Tp {
                slot: Slot::Parameter(200)
            },
            Node::Previous {
                body: node(2),
                window: 0x0605
            },
            Node::Or {
                left: node(1),
                right: node(3)
            },
            Node::Tp {
                slot: Slot::Binder(201)
            },
            Node::Since {
                left: node(4),
                right: node(5),
                window: 0x0807
            },
            Node::ListEnd,
            Node::ContextField { symbol: 0x0A09 },
            Node::ArgumentCell {
                field: 0x0C0B,
                term: node(8),
                rest: node(7)
            },
            Node::Refine {
                base: node(6),
                arguments: node(9)
            },
            Node::Not { inner: node(10) },
            Node::ListEnd,
            Node::BinderCell {
                slot: Slot::Name(NameNumber(0)),
                type_byte: 202,
                rest: node(12)
            },
            Node::Sum {
                summed: Slot::Parameter(203),
                binders: node(13),
                body: node(11)
            },
            Node::AggregateCall { symbol: 0x0E0D },
            Node::Arith {
                op: 2,
                left: node(14),
                right: node(15)
            },
            Node::Wildcard,
            Node::ScopeField { symbol: 0x100F },
            Node::ParamRef { number: 204 },
            Node::BinderRef { number: 205 },
            Node::ListEnd,
            Node::ItemCell {
                term: node(20),
                rest: node(21)
            },
            Node::ItemCell {
                term: node(19),
                rest: node(22)
            },
            Node::ItemCell {
                term: node(18),
                rest: node(23)
            },
            Node::ItemCell {
                term: node(17),
                rest: node(24)
            },
            Node::Array { items: node(25) },
            Node::Comparison {
                op: 5,
                left: node(16),
                right: node(26)
            },
            Node::ListEnd,
            Node::Count {
                binders: node(28),
                body: node(27)
            },
            Node::Var {
                name: NameNumber(0)
            },
            Node::Comparison {
                op: 0,
                left: node(29),
                right: node(30)
            },
            Node::Exists {
                slot: Slot::Binder(206),
                type_byte: 207,
                body: node(31)
            },
            Node::Call { symbol: 0x1211 },
            Node::And {
                left: node(32),
                right: node(33)
            },
        ]
    );
}

#[test]
fn each_node_has_the_kind_that_was_read() {
    let kinds = |bytes: &[u8]| -> Vec<u8> {
        let nodes = read(bytes).unwrap().nodes;
        nodes.iter().map(Node::kind).collect()
    };
    let most = ended(&["x"], &NODES_OF_27_KINDS);
    assert_eq!(kinds(&most), NODES_OF_27_KINDS.map(|node| node[0]));
    assert_eq!(
        kinds(&full_record()),
        [0x20, 0x22, 0x17, 0x20, 0x30, 0x31, 0x18, 0x10, 0x16]
    );
}

#[test]
fn empty_input_is_1_at_0() {
    assert_refused(&[], 1, 0);
}

#[test]
fn refusal_1_every_cut_of_the_record_in_full() {
    let record_lengths = [2, 25, 25, 2, 3, 6, 2, 1, 7, 5, 5, 6, 3];
    let bytes = full_record();
    let mut start = 0;
    for length in record_lengths {
        for cut in start..start + length {
            assert_refused(&bytes[..cut], 1, start);
        }
        start += length;
    }
    assert_eq!(start, bytes.len());
}

#[test]
fn refusal_2_unknown_kinds_and_kinds_out_of_order() {
    assert_refused(&[0x02, 0x01], 2, 0);
    assert_refused(&[0x1B, 0, 0], 2, 0);
    assert_refused(&[0xFF], 2, 0);
    assert_refused(&[FORMAT, FORMAT].concat(), 2, 2);
    for unknown in [0x00, 0x03, 0x0F, 0x1D, 0x1F, 0x2C, 0x2F, 0x34, 0x7E, 0x80] {
        assert_refused(&[FORMAT.to_vec(), vec![unknown; 30]].concat(), 2, 2);
    }
    let name_after_node = [unended(&[], &[CALL]), name("x")].concat();
    assert_refused(&name_after_node, 2, 5);
    let format_after_node = unended(&[], &[CALL, &FORMAT]);
    assert_refused(&format_after_node, 2, 5);
}

#[test]
fn refusal_3_another_edition() {
    assert_refused(&[0x01, 0x00], 3, 0);
    assert_refused(&[0x01, 0x02], 3, 0);
}

#[test]
fn refusal_4_bad_names() {
    for bad in ["", "1x", "x-y", "x y", "é", "`x"] {
        assert_refused(&unended(&["a", bad], &[]), 4, 27);
    }
}

#[test]
fn refusal_5_names_not_above_the_one_before() {
    assert_refused(&unended(&["x", "y", "a"], &[]), 5, 52);
    assert_refused(&unended(&["xy", "x"], &[]), 5, 27);
    assert_accepted(&ended(&["X", "_", "x", "x0", "xY", "x_", "xy"], &[CALL]));
}

#[test]
fn refusal_6_the_129th_name() {
    let names_128 = [FORMAT.to_vec(), ascending_names(128)].concat();
    assert_accepted(&[&names_128, CALL, &end(1)].concat());
    let names_129 = [FORMAT.to_vec(), ascending_names(129)].concat();
    assert_refused(&names_129, 6, names_128.len());
}

#[test]
fn refusal_6_the_513th_node() {
    let nodes_512 = [FORMAT.to_vec(), nodes_512()].concat();
    assert_accepted(&[nodes_512.clone(), end(512)].concat());
    let nodes_513 = [nodes_512.clone(), vec![0x12, 0xFF, 0x01], end(513)].concat();
    assert_refused(&nodes_513, 6, nodes_512.len());
}

#[test]
fn refusal_7_op_slot_sort_or_name_number_out_of_range() {
    assert_last_node_refused(&[LITERAL, LITERAL, &[0x17, 6, 0, 0, 1, 0]], 7);
    assert_last_node_refused(&[LITERAL, LITERAL, &[0x28, 3, 0, 0, 1, 0]], 7);
    assert_last_node_refused(&[&[0x1A, 3, 0]], 7);
    assert_last_node_refused(&[CALL, &[0x16, 3, 0, 0, 0, 0]], 7);
    assert_last_node_refused(&[&[0x30], &[0x33, 255, 0, 0, 0, 0]], 7);
    assert_last_node_refused(&[CALL, &[0x30], &[0x29, 3, 0, 1, 0, 0, 0]], 7);
    assert_last_node_refused(&[&[0x20, 0]], 7);
    assert_last_node_refused(&[&[0x1A, 0, 0]], 7);
    assert_refused(&unended(&["x", "y"], &[&[0x20, 2]]), 7, 52);
    assert_refused(&unended(&["x", "y"], &[&[0x1A, 0, 2]]), 7, 52);
}

#[test]
fn refusal_7_goes_by_the_order_of_the_fields() {
    assert_last_node_refused(&[&[0x17, 6, 9, 0, 9, 0]], 7);
    assert_last_node_refused(&[&[0x16, 0, 0, 0, 9, 0]], 7);
    assert_last_node_refused(&[&[0x29, 0, 0, 9, 0, 9, 0]], 7);
}

#[test]
fn refusal_8_references_not_below_their_own_node() {
    assert_last_node_refused(&[&[0x12, 0, 0]], 8);
    assert_last_node_refused(&[CALL, &[0x12, 1, 0]], 8);
    assert_last_node_refused(&[CALL, &[0x12, 2, 0]], 8);
    assert_last_node_refused(&[CALL, &[0x10, 0, 0, 1, 0]], 8);
}

#[test]
fn refusal_9_references_of_the_wrong_sort() {
    let nodes: [&[u8]; 6] = [
        CALL,
        LITERAL,
        &[0x30],
        &[0x31, 0, 0, 1, 0, 2, 0],
        &[0x32, 1, 0, 2, 0],
        &[0x33, 1, 0, 0, 2, 0],
    ];
    let [call, literal, list_end, argument, item, binder] = nodes;
    for not_a_condition in [literal, list_end] {
        assert_last_node_refused(&[not_a_condition, &[0x12, 0, 0]], 9);
    }
    for not_a_term in [call, list_end] {
        assert_last_node_refused(&[not_a_term, literal, &[0x17, 0, 0, 0, 1, 0]], 9);
    }
    for not_a_list in [call, literal] {
        assert_last_node_refused(&[not_a_list, &[0x27, 0, 0]], 9);
        assert_last_node_refused(&[not_a_list, &[0x18, 0, 0, 0, 0]], 9);
    }
    for not_items in [argument, binder] {
        assert_last_node_refused(&[call, literal, list_end, not_items, &[0x27, 3, 0]], 9);
    }
    for not_arguments in [item, binder] {
        let predicate = &[0x18, 0, 0, 3, 0];
        assert_last_node_refused(&[call, literal, list_end, not_arguments, predicate], 9);
    }
    for not_binders in [argument, item] {
        let count = &[0x2A, 3, 0, 0, 0];
        assert_last_node_refused(&[call, literal, list_end, not_binders, count], 9);
    }
}

#[test]
fn refusal_10_depth_above_64() {
    let deep_64 = [FORMAT.to_vec(), nots_over_a_call(64)].concat();
    assert_accepted(&[deep_64.clone(), end(64)].concat());
    let deep_65 = [FORMAT.to_vec(), nots_over_a_call(65), end(65)].concat();
    assert_refused(&deep_65, 10, deep_64.len());
}

#[test]
fn refusal_10_counts_list_cells() {
    let list_of = |cells: u8| -> Vec<Vec<u8>> {
        let mut nodes = vec![vec![0x30]];
        for cell in 0..cells {
            nodes.push(vec![0x21]);
            nodes.push(vec![0x31, 0, 0, 2 * cell + 1, 0, 2 * cell, 0]);
        }
        nodes.push(vec![0x18, 0, 0, 2 * cells, 0]);
        nodes
    };
    let bytes_of = |cells| {
        let nodes = list_of(cells);
        ended(&[], &nodes.iter().map(Vec::as_slice).collect::<Vec<_>>())
    };
    assert_accepted(&bytes_of(62));
    let one_more = bytes_of(63);
    assert_refused(&one_more, 10, one_more.len() - 3 - 5);
}

#[test]
fn refusal_11_nodes_already_referred_to() {
    assert_last_node_refused(&[CALL, &[0x12, 0, 0], &[0x12, 0, 0]], 11);
    assert_last_node_refused(&[&[0x30], &[0x27, 0, 0], &[0x27, 0, 0]], 11);
}

#[test]
fn refusal_12_the_end_record() {
    let one_node = unended(&[], &[CALL]);
    assert_refused(&[one_node.clone(), end(0)].concat(), 12, 5);
    assert_refused(&[one_node.clone(), end(2)].concat(), 12, 5);
    assert_refused(&[one_node.clone(), end(257)].concat(), 12, 5);
    assert_refused(&[one_node, end(1), vec![0]].concat(), 12, 5);
}

#[test]
fn refusal_13_no_node_root_not_a_condition_or_a_node_unused() {
    assert_refused(&ended(&[], &[]), 13, 2);
    assert_refused(&ended(&["x"], &[]), 13, 27);
    assert_refused(&ended(&[], &[LITERAL]), 13, 5);
    assert_refused(&ended(&[], &[&[0x30]]), 13, 3);
    assert_refused(&ended(&[], &[CALL, CALL]), 13, 8);
    assert_refused(&ended(&[], &[CALL, CALL, &[0x12, 0, 0]]), 13, 11);
}

#[test]
fn refusal_13_comes_after_12() {
    let unused = unended(&[], &[CALL, CALL]);
    assert_refused(&[unused.clone(), end(1)].concat(), 12, 8);
    assert_refused(&[unused, end(2), vec![0]].concat(), 12, 8);
}

#[test]
fn reading_1_only_a_missing_end_record_is_1_at_the_length() {
    assert_refused(&FORMAT, 1, 2);
    assert_refused(&[0x01], 1, 0);
    assert_refused(&unended(&["x"], &[CALL]), 1, 30);
    assert_refused(&unended(&[], &[CALL, &[0x12, 0]]), 1, 5);
    assert_refused(&unended(&[], &[CALL, &[0x7F]]), 1, 5);
    assert_refused(&unended(&[], &[CALL, &[0x7F, 1]]), 1, 5);
}

#[test]
fn reading_2_all_that_stands_after_an_end_record_is_12() {
    for after in [0x00, 0x01, 0x02, 0x1B, 0x7F, 0xFF] {
        assert_refused(&[ended(&[], &[CALL]), vec![after]].concat(), 12, 5);
        assert_refused(&[ended(&[], &[]), vec![after]].concat(), 12, 2);
    }
    assert_refused(&[ended(&[], &[CALL]), end(1)].concat(), 12, 5);
    let both = [unended(&[], &[CALL]), end(2), vec![0]].concat();
    assert_refused(&both, 12, 5);
}

#[test]
fn reading_3_order_then_cut_then_capacity() {
    assert_refused(&unended(&[], &[CALL, &[0x02]]), 2, 5);
    assert_refused(&[0x02], 2, 0);

    let names_128 = [FORMAT.to_vec(), ascending_names(128)].concat();
    let then = |next: &[u8]| [names_128.as_slice(), next].concat();
    assert_refused(&then(&[0x02, b'z']), 1, names_128.len());
    assert_refused(&then(&name("1")), 6, names_128.len());
    assert_refused(&then(&name("a")), 6, names_128.len());
    assert_refused(&then(&[0x03]), 2, names_128.len());

    let nodes_512 = [FORMAT.to_vec(), nodes_512()].concat();
    let then = |next: &[u8]| [nodes_512.as_slice(), next].concat();
    assert_refused(&then(&[0x12, 0]), 1, nodes_512.len());
    assert_refused(&then(&[0x03]), 2, nodes_512.len());
    assert_refused(&then(&name("x")), 2, nodes_512.len());
    assert_refused(&then(&[0x20, 0]), 6, nodes_512.len());
    assert_refused(&then(&[0x12, 0, 0]), 6, nodes_512.len());
}

#[test]
fn reading_4_an_end_record_straight_after_the_format_record() {
    assert_refused(&[FORMAT.to_vec(), end(0)].concat(), 13, 2);
    assert_refused(&[FORMAT.to_vec(), end(1)].concat(), 12, 2);
    assert_refused(&end(0), 2, 0);
}

#[test]
fn reading_5_depth_is_last_and_the_first_reference_counts() {
    let deep = [FORMAT.to_vec(), nots_over_a_call(64), LITERAL.to_vec()].concat();
    let and_with = |second: [u8; 2]| [deep.as_slice(), &[0x10, 63, 0], &second].concat();
    assert_refused(&and_with([65, 0]), 8, deep.len());
    assert_refused(&and_with([64, 0]), 9, deep.len());
    assert_refused(&and_with([62, 0]), 11, deep.len());

    let other_call = [deep.as_slice(), CALL].concat();
    let too_deep = [other_call.as_slice(), &[0x10, 63, 0, 65, 0]].concat();
    assert_refused(&too_deep, 10, other_call.len());

    assert_last_node_refused(&[CALL, &[0x10, 0, 0, 0, 0]], 11);
}

#[test]
fn reading_6_what_has_no_range() {
    let window: &[u8] = &[0x13, 0, 0, 255, 255];
    assert_accepted(&ended(&[], &[&[0x1B, 255, 255], window]));
    assert_accepted(&ended(&[], &[CALL, &[0x16, 1, 255, 255, 0, 0]]));
    assert_accepted(&ended(&[], &[CALL, &[0x16, 2, 255, 255, 0, 0]]));
    let sigils: [&[u8]; 3] = [&[0x25, 255], &[0x26, 255], &[0x17, 0, 0, 0, 1, 0]];
    assert_accepted(&ended(&[], &sigils));
    assert_accepted(&ended(&[], &[&[0x1A, 1, 255]]));
}

#[test]
fn reading_6_references_have_16_bits() {
    assert_last_node_refused(&[CALL, &[0x12, 0, 1]], 8);
    assert_last_node_refused(&[CALL, &[0x12, 0, 2]], 8);
    assert_last_node_refused(&[CALL, &[0x12, 255, 255]], 8);
    let nodes_512 = [FORMAT.to_vec(), nodes_512(), end(512)].concat();
    let root = *read(&nodes_512).unwrap().nodes.last().unwrap();
    let inner = NodeNumber(510);
    assert_eq!(root, Node::Not { inner });
}

#[test]
fn reading_7_names() {
    assert_refused(&unended(&["x", "1"], &[]), 4, 27);
    assert_refused(&unended(&["x", "x"], &[]), 5, 27);
    assert_refused(&unended(&["x\0y"], &[]), 4, 2);
    let mut late_byte = name("x");
    late_byte[24] = b'y';
    assert_refused(&[FORMAT.to_vec(), late_byte].concat(), 4, 2);
    let longest = "abcdefghijklmnopqrstuvwx";
    let record = read(&ended(&[longest], &[CALL])).unwrap();
    assert_eq!(record.names, [longest]);
}
