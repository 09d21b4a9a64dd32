//! What a library answers to the questions, and what the plain second implementation and the Rust do, in the same numbers.

use std::fmt::Debug;

use plain::answers::{self, Answer};
use plain::lists::{self, Entry};
use plain::{Record, Refusal};

use crate::seeds::{Seeds, SEEDS};
use crate::{Asked, Library, Reading, NO_NAME};

const HAS_ARITHMETIC: u32 = 40;

const QUESTIONS: [&str; SEEDS + 3] = [
    "scoping without a seed",
    "scoping with the full seed",
    "scoping with the first random seed",
    "scoping with the second random seed",
    "scoping with the third random seed",
    "closedness",
    "demands",
    "arithmetic",
];

/// In document 01's numbers, or what of them the Rust has.
#[derive(Debug, Clone, Copy, PartialEq, Eq)]
pub struct Answers<A> {
    /// One for each seed.
    pub scoping: [A; SEEDS],
    pub closedness: A,
    pub demands: A,
    pub arithmetic: A,
}

/// The Rust has no nodes.
#[derive(Debug, Clone, Copy, PartialEq, Eq)]
pub struct RuleAndName {
    pub rule: u32,
    pub name: u32,
}

impl Answers<Asked> {
    pub fn of_the_library(library: &impl Library, bytes: &[u8], seeds: &Seeds) -> Answers<Asked> {
        Answers {
            scoping: seeds.map(|seed| library.scoping(bytes, seed)),
            closedness: library.closedness(bytes),
            demands: library.demands(bytes),
            arithmetic: library.arithmetic(bytes),
        }
    }

    pub fn of_the_plain(reading: &Reading, seeds: &Seeds) -> Answers<Asked> {
        match reading {
            Ok(record) => Answers {
                scoping: seeds.map(|seed| first(&lists::scoping(record, seed))),
                closedness: first(&lists::closedness(record)),
                demands: first(&lists::demands(record)),
                arithmetic: yes_or_no(lists::arithmetic(record)),
            },
            Err(refusal) => Answers::all_alike(refused(refusal)),
        }
    }

    fn all_alike(answer: Asked) -> Answers<Asked> {
        Answers {
            scoping: [answer; SEEDS],
            closedness: answer,
            demands: answer,
            arithmetic: answer,
        }
    }

    pub fn rules_and_names(&self) -> Answers<RuleAndName> {
        Answers {
            scoping: self.scoping.map(rule_and_name),
            closedness: rule_and_name(self.closedness),
            demands: rule_and_name(self.demands),
            arithmetic: rule_and_name(self.arithmetic),
        }
    }
}

impl Answers<RuleAndName> {
    pub fn of_the_rust(record: &Record, seeds: &Seeds) -> Answers<RuleAndName> {
        let condition = plain::condition(record);
        let said = |answer: Answer| numbered(&answer, record);
        Answers {
            scoping: seeds.map(|seed| said(answers::scoping(&condition, &record.texts(seed)))),
            closedness: said(answers::closedness(&condition)),
            demands: said(answers::demands(&condition)),
            arithmetic: said(answers::arithmetic(&condition)),
        }
    }
}

impl<A: Copy + Debug + PartialEq> Answers<A> {
    /// The first question that another answers otherwise, and both answers.
    pub fn difference(&self, other: &Answers<A>) -> Option<(&'static str, A, A)> {
        let both = self.in_order().into_iter().zip(other.in_order());
        QUESTIONS
            .into_iter()
            .zip(both)
            .map(|(question, (one, another))| (question, one, another))
            .find(|(_, one, another)| one != another)
    }

    fn in_order(&self) -> [A; SEEDS + 3] {
        let [none, full, first, second, third] = self.scoping;
        [
            none,
            full,
            first,
            second,
            third,
            self.closedness,
            self.demands,
            self.arithmetic,
        ]
    }
}

/// "Accepted", and the arithmetic test's "no".
pub const NOTHING: Asked = Asked {
    number: 0,
    place: 0,
    name: NO_NAME,
};

pub fn first<'a>(entries: impl IntoIterator<Item = &'a Entry>) -> Asked {
    entries.into_iter().next().map_or(NOTHING, |entry| Asked {
        number: entry.rule,
        place: u32::from(entry.node),
        name: entry.name.map_or(NO_NAME, u32::from),
    })
}

fn yes_or_no(yes: bool) -> Asked {
    Asked {
        number: if yes { HAS_ARITHMETIC } else { 0 },
        ..NOTHING
    }
}

pub fn refused(refusal: &Refusal) -> Asked {
    Asked {
        number: refusal.number,
        place: refusal.offset.try_into().expect("no fault is so far in"),
        name: NO_NAME,
    }
}

fn rule_and_name(answer: Asked) -> RuleAndName {
    RuleAndName {
        rule: answer.number,
        name: answer.name,
    }
}

fn numbered(answer: &Answer, record: &Record) -> RuleAndName {
    RuleAndName {
        rule: answer.rule,
        name: answer
            .name
            .as_ref()
            .map_or(NO_NAME, |name| number_of(name, record)),
    }
}

fn number_of(name: &str, record: &Record) -> u32 {
    (0..)
        .zip(&record.names)
        .find(|(_, known)| *known == name)
        .expect("the Rust is given no names but the table's")
        .0
}
