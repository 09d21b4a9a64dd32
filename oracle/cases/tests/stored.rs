//! The list that `oracle_cases` replays is what the Rust answers, and shows every answer.

use std::fs;

use cases::stored::{chosen, list_path, seldom_met, stored, summary, summary_path, CASES, SEED};

#[test]
fn the_stored_list_is_what_the_rust_answers() {
    let cases = chosen(CASES, SEED);
    assert!(
        fs::read(list_path()).unwrap() == stored(&cases).unwrap(),
        "write it anew by 'cargo run --release --bin stored'"
    );
    assert_eq!(fs::read_to_string(summary_path()).unwrap(), summary(&cases));
}

#[test]
fn every_answer_is_met() {
    let none: [String; 0] = [];
    assert_eq!(seldom_met(&chosen(CASES, SEED)), none);
}

#[test]
fn a_list_that_shows_too_little_is_noticed() {
    let seldom = seldom_met(&chosen(8, SEED));
    assert!(seldom.contains(&"demands 30".to_string()), "{seldom:?}");
}

#[test]
fn a_list_for_which_there_is_no_room_is_not_written() {
    assert!(stored(&chosen(2 * CASES, SEED)).is_err());
}
