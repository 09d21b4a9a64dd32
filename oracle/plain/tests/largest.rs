//! How large a record can be: counted over every tree that document 01's table allows, and a record of that size.

use plain::read;

const LARGEST: usize = 6_258;
const NAMES: usize = 128;
const NODES: usize = 512;
const DEPTH: usize = 64;

const FORMAT: [u8; 2] = [1, 1];
const END: [u8; 3] = [0x7F, 0, 2];

/// What a node may stand for, which is also where one may be referred to.
#[derive(Clone, Copy)]
enum Sort {
    Condition,
    Term,
    Arguments,
    Items,
    Binders,
}

use Sort::{Arguments, Binders, Condition, Items, Term};

/// Document 01's table of kinds: what a node of the kind is, what it refers to, and the bytes of its body. The list end is any list.
const KINDS: [(Sort, &[Sort], usize); 31] = [
    (Condition, &[Condition, Condition], 4),
    (Condition, &[Condition, Condition], 4),
    (Condition, &[Condition], 2),
    (Condition, &[Condition], 4),
    (Condition, &[Condition], 4),
    (Condition, &[Condition, Condition], 6),
    (Condition, &[Condition], 5),
    (Condition, &[Term, Term], 5),
    (Condition, &[Arguments], 4),
    (Condition, &[Condition, Arguments], 4),
    (Condition, &[], 2),
    (Condition, &[], 2),
    (Condition, &[], 2),
    (Term, &[], 1),
    (Term, &[], 0),
    (Term, &[], 2),
    (Term, &[], 2),
    (Term, &[], 2),
    (Term, &[], 1),
    (Term, &[], 1),
    (Term, &[Items], 2),
    (Term, &[Term, Term], 5),
    (Term, &[Binders, Condition], 6),
    (Term, &[Binders, Condition], 4),
    (Term, &[], 2),
    (Arguments, &[], 0),
    (Items, &[], 0),
    (Binders, &[], 0),
    (Arguments, &[Term, Arguments], 6),
    (Items, &[Term, Items], 4),
    (Binders, &[Binders], 5),
];

/// The most bytes of so many nodes that make one tree, or none where no such tree is.
type Sizes = Vec<Option<usize>>;

/// By the sort of the root.
type BySort = [Sizes; 5];

fn none() -> Sizes {
    vec![None; NODES + 1]
}

fn nothing() -> Sizes {
    let mut sizes = none();
    sizes[0] = Some(0);
    sizes
}

fn side_by_side(left: &Sizes, right: &Sizes) -> Sizes {
    let mut sizes = none();
    for (first, bytes) in left.iter().enumerate() {
        let Some(bytes) = bytes else { continue };
        for (second, others) in right[..=NODES - first].iter().enumerate() {
            let both = others.map(|others| bytes + others);
            sizes[first + second] = sizes[first + second].max(both);
        }
    }
    sizes
}

/// Trees that are at most one deeper than those below.
fn over(below: &BySort) -> BySort {
    let mut trees = [(); 5].map(|()| none());
    for (sort, places, body) in KINDS {
        let parts = places.iter().fold(nothing(), |parts, place| {
            side_by_side(&parts, &below[*place as usize])
        });
        let sizes = &mut trees[sort as usize];
        for (nodes, bytes) in parts[..NODES].iter().enumerate() {
            sizes[nodes + 1] = sizes[nodes + 1].max(bytes.map(|bytes| bytes + 1 + body));
        }
    }
    trees
}

fn most_bytes_of_nodes() -> usize {
    let no_trees = [(); 5].map(|()| none());
    let trees = (0..DEPTH).fold(no_trees, |trees, _| over(&trees));
    let conditions = &trees[Condition as usize];
    conditions.iter().flatten().copied().max().unwrap()
}

#[test]
fn no_tree_is_larger() {
    let names = NAMES * name(0).len();
    let around = FORMAT.len() + names + END.len();
    assert_eq!(around + most_bytes_of_nodes(), LARGEST);
}

/// A Call under 55 Exists, and nine of those joined by Sinces.
fn towers() -> Vec<Vec<u8>> {
    let mut nodes = tower(0);
    for _ in 0..8 {
        let left = nodes.len() - 1;
        nodes.extend(tower(nodes.len()));
        let [left, right] = [left, nodes.len() - 1].map(reference);
        nodes.push([&[0x15][..], &left, &right, &[0, 0]].concat());
    }
    nodes
}

fn tower(bottom: usize) -> Vec<Vec<u8>> {
    let exists = |below| [&[0x16, 0, 0, 0][..], &reference(below)].concat();
    let call = vec![0x1B, 0, 0];
    [call]
        .into_iter()
        .chain((bottom..bottom + 55).map(exists))
        .collect()
}

fn reference(node: usize) -> [u8; 2] {
    (node as u16).to_le_bytes()
}

fn name(number: usize) -> Vec<u8> {
    format!("\u{2}n{number:023}").into_bytes()
}

#[test]
fn a_record_of_that_size_is_accepted() {
    let names: Vec<u8> = (0..NAMES).flat_map(name).collect();
    let bytes = [&FORMAT[..], &names, &towers().concat(), &END].concat();
    assert_eq!(bytes.len(), LARGEST);
    let record = read(&bytes).unwrap();
    assert_eq!((record.names.len(), record.nodes.len()), (NAMES, NODES));
}
