mod agreement;
mod common;

use agreement::assert_the_rust_agrees;
use common::{ended, full_record};
use plain::cases::{all, parse, Case};
use plain::lists::{arithmetic, list, pack, scoping, Entry};
use plain::{read, Record};

fn record_of(case: &Case) -> Record {
    read(&case.bytes)
        .unwrap_or_else(|refusal| panic!("case {} is refused: {refusal:?}", case.label))
}

fn assert_listed(cases: &[Case]) {
    for case in cases {
        let record = record_of(case);
        assert_eq!(list(&record), case.list, "the list of case {}", case.label);
        assert_eq!(
            arithmetic(&record),
            case.arithmetic,
            "the arithmetic of case {}",
            case.label
        );
        assert_the_rust_agrees(&record, 0);
    }
}

#[test]
fn the_cases_of_document_01_and_ours() {
    let cases = all().unwrap();
    assert_eq!(cases.len(), 21);
    assert_listed(&cases);
}

#[test]
fn the_readings_8_to_16() {
    let cases = parse(include_str!("readings.txt")).unwrap();
    assert_eq!(cases.len(), 20);
    assert_listed(&cases);
}

#[test]
fn the_numbers_of_the_record_in_full() {
    let record = read(&full_record()).unwrap();
    let packed: Vec<u32> = list(&record).iter().map(pack).collect();
    assert_eq!(packed, [469_764_097, 520_094_209]);
}

#[test]
fn an_entry_without_a_name_has_255() {
    let entry = Entry {
        rule: 20,
        node: 511,
        name: None,
    };
    assert_eq!(pack(&entry), 20 * 16_777_216 + 511 * 256 + 255);
}

/// `(count for x where (tp(u) && tp(x))) > 0`
fn count_for_x() -> Record {
    let nodes: [&[u8]; 8] = [
        &[0x1A, 0, 0],
        &[0x1A, 0, 1],
        &[0x10, 0, 0, 1, 0],
        &[0x30],
        &[0x33, 0, 1, 0, 3, 0],
        &[0x2A, 4, 0, 2, 0],
        &[0x22, 0, 0],
        &[0x17, 3, 5, 0, 6, 0],
    ];
    read(&ended(&["u", "x"], &nodes)).unwrap()
}

#[test]
fn the_seed_is_in_scope_and_its_bits_past_the_table_have_no_effect() {
    let unbound = Entry {
        rule: 25,
        node: 5,
        name: Some(0),
    };
    let record = count_for_x();
    assert_eq!(scoping(&record, 0), [unbound]);
    assert_eq!(scoping(&record, !1), [unbound]);
    assert_eq!(scoping(&record, 1), []);
}
