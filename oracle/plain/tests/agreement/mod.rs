use plain::answers::{self, Answer};
use plain::lists::{self, Entry};
use plain::{condition, NameNumber, Record};

/// The Rust has the first entry of each part, by rule and name, and the arithmetic answer. Returns what it has.
pub fn assert_the_rust_agrees(record: &Record, seed: u128) -> [Answer; 4] {
    let c = condition(record);
    let said = [
        answers::scoping(&c, &record.texts(seed)),
        answers::closedness(&c),
        answers::demands(&c),
        answers::arithmetic(&c),
    ];
    let listed = [
        first(record, &lists::scoping(record, seed)),
        first(record, &lists::closedness(record)),
        first(record, &lists::demands(record)),
        arithmetic(record),
    ];
    assert_eq!(said, listed, "seed {seed} over {record:?}");
    said
}

fn first(record: &Record, entries: &[Entry]) -> Answer {
    entries.first().map_or(Answer::ACCEPTED, |entry| Answer {
        rule: entry.rule,
        name: entry
            .name
            .map(|name| record.name(NameNumber(name)).to_string()),
    })
}

fn arithmetic(record: &Record) -> Answer {
    if lists::arithmetic(record) {
        Answer {
            rule: 40,
            name: None,
        }
    } else {
        Answer::ACCEPTED
    }
}
