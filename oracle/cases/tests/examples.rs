//! What examples/EXPECTED says of each example record, which was worked out by hand, is what the plain second implementation lists and what the
//! Rust answers first in each part.

use std::collections::{BTreeMap, BTreeSet};
use std::fs;
use std::ops::RangeInclusive;
use std::path::PathBuf;

use plain::answers::{self, Answer};
use plain::lists::{self, Entry};
use plain::{condition, read, Record};

#[test]
fn every_record_is_expected_and_every_expected_record_is_there() {
    let names: BTreeSet<String> = records().into_keys().collect();
    assert_eq!(names, expected().into_keys().collect());
    assert!(names.len() >= 12);
}

#[test]
fn the_plain_implementation_says_what_is_expected() {
    let expected = expected();
    for (name, bytes) in records() {
        assert_eq!(worded(&bytes), expected[&name], "{name}");
    }
}

#[test]
fn the_readme_says_what_is_expected() {
    let readme = fs::read_to_string(folder().join("README.md")).unwrap();
    for (name, said) in expected() {
        let start = format!("| `{name}` |");
        let mut rows = readme.lines().filter(|line| line.starts_with(&start));
        let row = rows.next().unwrap_or_else(|| panic!("no row of {name}"));
        let last = row.split(" | ").last().unwrap().to_lowercase();
        assert!(last.starts_with(&said), "{name}: {last}");
    }
}

#[test]
fn the_rust_answers_the_first_of_each_part() {
    let mut asked = 0;
    for (name, bytes) in records() {
        if let Ok(record) = read(&bytes) {
            assert_eq!(of_the_rust(&record), of_the_list(&record), "{name}");
            asked += 1;
        }
    }
    let refused = expected()
        .values()
        .filter(|said| said.contains("refused"))
        .count();
    assert_eq!(asked + refused, records().len());
}

#[test]
fn a_record_is_worded_in_each_way() {
    let mended = &records()["02_neighbours_barley_mended"];
    assert_eq!(worded(mended), "accepted");
    assert_eq!(worded(&mended[..1]), "refused 1 at byte 0");
    // x != x + *
    let name = [&[2, b'x'][..], &[0; 23]].concat();
    let nodes = [
        0x20, 0, 0x20, 0, 0x21, 0x28, 0, 1, 0, 2, 0, 0x17, 5, 0, 0, 3, 0,
    ];
    let bytes = [&[1, 1][..], &name, &nodes, &[0x7F, 5, 0]].concat();
    assert_eq!(worded(&bytes), "28@4 x, 31@4 x; arithmetic yes");
}

fn folder() -> PathBuf {
    PathBuf::from(env!("CARGO_MANIFEST_DIR")).join("../../examples")
}

fn records() -> BTreeMap<String, Vec<u8>> {
    let mut records = BTreeMap::new();
    for file in fs::read_dir(folder()).unwrap() {
        let path = file.unwrap().path();
        if path.extension().is_some_and(|sort| sort == "record") {
            let name = path.file_stem().unwrap().to_str().unwrap();
            records.insert(name.to_string(), fs::read(&path).unwrap());
        }
    }
    records
}

fn expected() -> BTreeMap<String, String> {
    let text = fs::read_to_string(folder().join("EXPECTED")).unwrap();
    text.lines()
        .filter(|line| !line.is_empty() && !line.starts_with('#'))
        .map(|line| line.split_once(": ").expect("NAME: what is expected"))
        .map(|(name, said)| (name.to_string(), said.to_string()))
        .collect()
}

/// As a line of EXPECTED has it.
fn worded(bytes: &[u8]) -> String {
    let record = match read(bytes) {
        Ok(record) => record,
        Err(refusal) => return format!("refused {} at byte {}", refusal.number, refusal.offset),
    };
    let entries = lists::list(&record);
    let entries: Vec<String> = entries
        .iter()
        .map(|entry| entry_worded(entry, &record))
        .collect();
    let list = match entries[..] {
        [] => "accepted".to_string(),
        _ => entries.join(", "),
    };
    let yes = if lists::arithmetic(&record) {
        "; arithmetic yes"
    } else {
        ""
    };
    list + yes
}

fn entry_worded(entry: &Entry, record: &Record) -> String {
    let place = format!("{}@{}", entry.rule, entry.node);
    match name_of(entry, record) {
        Some(name) => format!("{place} {name}"),
        None => place,
    }
}

fn name_of(entry: &Entry, record: &Record) -> Option<String> {
    let number = usize::from(entry.name?);
    Some(record.names[number].clone())
}

fn of_the_rust(record: &Record) -> [Answer; 4] {
    let asked = condition(record);
    [
        answers::scoping(&asked, &BTreeSet::new()),
        answers::closedness(&asked),
        answers::demands(&asked),
        answers::arithmetic(&asked),
    ]
}

fn of_the_list(record: &Record) -> [Answer; 4] {
    let list = lists::list(record);
    let arithmetic = Answer {
        rule: if lists::arithmetic(record) { 40 } else { 0 },
        name: None,
    };
    [
        first(&list, 20..=27, record),
        first(&list, 28..=28, record),
        first(&list, 30..=32, record),
        arithmetic,
    ]
}

fn first(list: &[Entry], rules: RangeInclusive<u32>, record: &Record) -> Answer {
    match list.iter().find(|entry| rules.contains(&entry.rule)) {
        None => Answer::ACCEPTED,
        Some(entry) => Answer {
            rule: entry.rule,
            name: name_of(entry, record),
        },
    }
}
