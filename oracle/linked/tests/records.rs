use std::collections::BTreeSet;

use linked::records::{balanced, chain, deep_by_terms, every_shape, tower, tower_over_all, LAYERS};
use plain::lists::list;
use plain::random::Rng;
use plain::{read, Node, Refusal};

/// 64 deep is accepted and one more is 10, so that the depth is what was asked for.
fn assert_deep(label: &str, record: impl Fn(usize) -> Vec<u8>) {
    assert!(read(&record(64)).is_ok(), "{label}");
    let refusal = read(&record(65)).unwrap_err();
    assert!(matches!(refusal, Refusal { number: 10, .. }), "{label}");
}

#[test]
fn each_layer_makes_towers_of_any_depth() {
    for layer in &LAYERS {
        assert_deep(layer.label, |depth| tower(128, depth, || layer));
        assert_deep(layer.label, |depth| tower_over_all(128, depth, || layer));
        assert_deep(layer.label, |depth| tower(1, depth, || layer));
    }
    assert_deep("Nots over a Call", |depth| chain(128, depth));
}

#[test]
fn a_term_or_a_list_can_be_as_deep() {
    for (label, bytes) in deep_by_terms(128, 64) {
        assert!(read(&bytes).is_ok(), "{label}");
    }
    for (label, bytes) in deep_by_terms(128, 66) {
        assert_eq!(read(&bytes).unwrap_err().number, 10, "{label}");
    }
}

#[test]
fn towers_hold_no_sigil_so_that_their_demands_are_asked() {
    for layer in &LAYERS {
        for bytes in [tower(4, 64, || layer), tower_over_all(128, 64, || layer)] {
            let record = read(&bytes).unwrap();
            assert!(!record.holds_sigil(record.root()), "{}", layer.label);
        }
    }
}

#[test]
fn a_balanced_tree_has_as_many_names_and_nodes_as_asked_for() {
    for (names, nodes) in [(0, 1), (10, 15), (63, 229), (128, 511)] {
        let record = read(&balanced(names, nodes)).unwrap();
        assert_eq!((record.names.len(), record.nodes.len()), (names, nodes));
    }
}

#[test]
fn records_of_every_shape_have_every_kind_and_nothing_to_find() {
    let mut rng = Rng::new(1);
    let mut met = BTreeSet::new();
    for sigils in [false, true].into_iter().cycle().take(20) {
        let record = read(&every_shape(&mut rng, 13, sigils)).unwrap();
        assert_eq!(list(&record), []);
        assert_eq!(record.holds_sigil(record.root()), sigils);
        met.extend(record.nodes.iter().map(Node::kind));
    }
    let kinds = (0x10..=0x1C).chain(0x20..=0x2B).chain(0x30..=0x33);
    assert_eq!(met, kinds.collect());
}
