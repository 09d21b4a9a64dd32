//! What an equality ties, over every pair of some terms, and whether the Rust ties the same name.

mod agreement;
mod common;

use agreement::assert_the_rust_agrees;
use common::{ended, full_record};
use plain::answers::Answer;
use plain::names::{Equality, Reason};
use plain::{read, NameNumber, NodeNumber, Record};
use Term::{Array, Count, One, Parameter, Plus, Var, Wildcard};

const NAMES: [&str; 2] = ["x", "y"];
const X: NameNumber = NameNumber(0);
const Y: NameNumber = NameNumber(1);
const BOTH_IN_SCOPE: u128 = 0b11;

#[derive(Debug, Clone, Copy)]
enum Term {
    Var(NameNumber),
    Wildcard,
    One,
    /// `?p`
    Parameter,
    /// Of one item.
    Array(&'static Term),
    Plus(&'static Term, &'static Term),
    /// `count where P{a: term}`
    Count(&'static Term),
}

/// `1`, `?p`, `[*]`, `[1 + *]`, `x + 1`, `[x]`, `count where P{a: *}`, `1 + count where P{a: *}`: in an array outside of arithmetic, and in
/// an aggregate's body, a wildcard does not count.
const VALUES: [Term; 8] = [
    One,
    Parameter,
    Array(&Wildcard),
    Array(&Plus(&One, &Wildcard)),
    Plus(&Var(X), &One),
    Array(&Var(X)),
    Count(&Wildcard),
    Plus(&One, &Count(&Wildcard)),
];

/// `1 + *`, `* + 1`, `1 + [*]`, `1 + [1 + *]`, `(1 + [[*]]) + 1`, `x + *`
const ARITHMETIC_WITH_A_WILDCARD: [Term; 6] = [
    Plus(&One, &Wildcard),
    Plus(&Wildcard, &One),
    Plus(&One, &Array(&Wildcard)),
    Plus(&One, &Array(&Plus(&One, &Wildcard))),
    Plus(&Plus(&One, &Array(&Array(&Wildcard))), &One),
    Plus(&Var(X), &Wildcard),
];

fn all_but_bare_variables() -> Vec<Term> {
    [&VALUES[..], &[Wildcard], &ARITHMETIC_WITH_A_WILDCARD].concat()
}

fn all_pairs(terms: &[Term]) -> impl Iterator<Item = (Term, Term)> + '_ {
    terms
        .iter()
        .flat_map(move |left| terms.iter().map(move |right| (*left, *right)))
}

type Reference = [u8; 2];

#[derive(Default)]
struct Nodes(Vec<Vec<u8>>);

impl Nodes {
    fn add(&mut self, pieces: &[&[u8]]) -> Reference {
        self.0.push(pieces.concat());
        (self.0.len() as u16 - 1).to_le_bytes()
    }

    fn term(&mut self, term: Term) -> Reference {
        match term {
            Var(name) => self.add(&[&[0x20, name.0]]),
            Wildcard => self.add(&[&[0x21]]),
            One => self.add(&[&[0x22, 1, 0]]),
            Parameter => self.add(&[&[0x25, 0]]),
            Array(&item) => {
                let [item, end] = [self.term(item), self.list_end()];
                let items = self.add(&[&[0x32], &item, &end]);
                self.add(&[&[0x27], &items])
            }
            Plus(&left, &right) => {
                let [left, right] = [left, right].map(|side| self.term(side));
                self.add(&[&[0x28, 0], &left, &right])
            }
            Count(&argument) => {
                let [argument, end] = [self.term(argument), self.list_end()];
                let arguments = self.add(&[&[0x31, 0, 0], &argument, &end]);
                let body = self.add(&[&[0x18, 0, 0], &arguments]);
                let no_binder = self.list_end();
                self.add(&[&[0x2A], &no_binder, &body])
            }
        }
    }

    fn list_end(&mut self) -> Reference {
        self.add(&[&[0x30]])
    }

    fn comparison(&mut self, op: u8, left: Term, right: Term) -> Reference {
        let [left, right] = [left, right].map(|side| self.term(side));
        self.add(&[&[0x17, op], &left, &right])
    }

    fn equality(&mut self, left: Term, right: Term) -> Reference {
        self.comparison(0, left, right)
    }

    fn exists(&mut self, name: NameNumber, body: Reference) -> Reference {
        self.add(&[&[0x16, 0, name.0, 0], &body])
    }

    /// `(count for name where body) == other`
    fn count_for(&mut self, name: NameNumber, body: Reference, other: Term) -> Reference {
        let end = self.list_end();
        let binders = self.add(&[&[0x33, 0, name.0, 0], &end]);
        let count = self.add(&[&[0x2A], &binders, &body]);
        let other = self.term(other);
        self.add(&[&[0x17, 0], &count, &other])
    }

    fn record(self) -> Record {
        let nodes: Vec<&[u8]> = self.0.iter().map(Vec::as_slice).collect();
        read(&ended(&NAMES, &nodes)).unwrap()
    }
}

fn answer(left: Term, right: Term) -> Equality {
    let mut nodes = Nodes::default();
    nodes.equality(left, right);
    let record = nodes.record();
    match record.equalities()[..] {
        [(node, answer)] if node == record.root() => answer,
        _ => panic!("{left:?} == {right:?} is one equality, at the root"),
    }
}

fn assert_nothing(left: Term, right: Term, reason: Reason) {
    let said = answer(left, right);
    assert_eq!(said, Equality::Nothing(reason), "{left:?} == {right:?}");
}

#[test]
fn one_bare_variable_is_tied_to_a_value() {
    for value in VALUES {
        for name in [X, Y] {
            assert_eq!(answer(Var(name), value), Equality::Left(name), "{value:?}");
            assert_eq!(answer(value, Var(name)), Equality::Right(name), "{value:?}");
        }
    }
}

#[test]
fn both_bare() {
    for (left, right) in all_pairs(&[Var(X), Var(Y)]) {
        assert_nothing(left, right, Reason::BothBare);
    }
}

#[test]
fn neither_bare_whatever_wildcards_there_are() {
    for (left, right) in all_pairs(&all_but_bare_variables()) {
        assert_nothing(left, right, Reason::NeitherBare);
    }
}

#[test]
fn a_wildcard() {
    for name in [X, Y] {
        assert_nothing(Var(name), Wildcard, Reason::Wildcard);
        assert_nothing(Wildcard, Var(name), Reason::Wildcard);
    }
}

#[test]
fn arithmetic_with_a_wildcard() {
    for value in ARITHMETIC_WITH_A_WILDCARD {
        for name in [X, Y] {
            assert_nothing(Var(name), value, Reason::Arithmetic);
            assert_nothing(value, Var(name), Reason::Arithmetic);
        }
    }
}

/// `(count for x where (x > 1 && not x == *)) == y`: in a tree's order the last node would come first.
#[test]
fn every_equality_of_a_record_ascending_and_no_other_comparison() {
    let mut nodes = Nodes::default();
    let greater = nodes.comparison(3, Var(X), One);
    let wildcard = nodes.equality(Var(X), Wildcard);
    let negation = nodes.add(&[&[0x12], &wildcard]);
    let both = nodes.add(&[&[0x10], &greater, &negation]);
    let count = nodes.count_for(X, both, Var(Y));
    let [wildcard, count] = [wildcard, count].map(|node| NodeNumber(u16::from_le_bytes(node)));
    assert_eq!(
        nodes.record().equalities(),
        [
            (wildcard, Equality::Nothing(Reason::Wildcard)),
            (count, Equality::Right(Y))
        ]
    );
}

#[test]
fn the_record_in_full_has_no_equality() {
    assert_eq!(read(&full_record()).unwrap().equalities(), []);
}

fn ties(equality: Equality, name: NameNumber) -> bool {
    equality == Equality::Left(name) || equality == Equality::Right(name)
}

/// Each pair of terms, each name, and whether the equality of the pair ties it.
fn ties_of_all_pairs() -> Vec<(Term, Term, NameNumber, bool)> {
    let terms = [all_but_bare_variables(), vec![Var(X), Var(Y)]].concat();
    all_pairs(&terms)
        .flat_map(|(left, right)| [X, Y].map(|name| (left, right, name)))
        .map(|(left, right, name)| (left, right, name, ties(answer(left, right), name)))
        .collect()
}

fn about(rule: u32, name: NameNumber) -> Answer {
    Answer {
        rule,
        name: Some(NAMES[usize::from(name.0)].to_string()),
    }
}

/// "23: a named exists binder is not restricted in its body. Skipped if the body holds a sigil."
#[test]
fn the_rust_has_23_of_an_exists_where_its_name_is_not_tied() {
    for (left, right, name, is_tied) in ties_of_all_pairs() {
        let mut nodes = Nodes::default();
        let equality = nodes.equality(left, right);
        nodes.exists(name, equality);
        let record = nodes.record();
        let [scoping, ..] = assert_the_rust_agrees(&record, 0);
        let is_asked = !record.holds_sigil(record.root());
        assert_eq!(
            scoping == about(23, name),
            is_asked && !is_tied,
            "exists {name:?}. {left:?} == {right:?}"
        );
    }
}

/// "26: a binder not free in the body; 27: a binder not restricted in it", with a sigil too: it shows that "`x == ?p` gives x".
#[test]
fn the_rust_has_26_or_27_of_an_aggregate_where_its_name_is_not_tied() {
    for (left, right, name, is_tied) in ties_of_all_pairs() {
        let mut nodes = Nodes::default();
        let equality = nodes.equality(left, right);
        nodes.count_for(name, equality, One);
        let [scoping, ..] = assert_the_rust_agrees(&nodes.record(), BOTH_IN_SCOPE);
        assert_eq!(
            [26, 27].map(|rule| about(rule, name)).contains(&scoping),
            !is_tied,
            "count for {name:?} where {left:?} == {right:?}"
        );
    }
}
