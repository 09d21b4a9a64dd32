mod slips;

use linked::comparing::Comparer;
use linked::inputs::Input;
use linked::seeds::SEEDS;
use linked::tally::Tally;
use plain::cases::all;
use slips::NO_SLIP;

#[test]
fn an_empty_run_has_met_nothing() {
    let seldom = Tally::default().seldom_met();
    assert_eq!(seldom[0], "refusal 1");
    assert_eq!(seldom[13..16], ["refusal 50", "scoping 0", "scoping 20"]);
    assert_eq!(seldom[31..33], ["list with 20", "list with 21"]);
    assert_eq!(
        seldom[43..46],
        ["scoping told apart by seeds", "name found", "empty list"]
    );
    assert_eq!(seldom[46], "kind 10");
}

/// The cases, with every name in scope for all seeds but the first, and bytes that are refused.
fn tally_of_the_cases() -> Tally {
    let mut tally = Tally::default();
    let mut comparer = Comparer::new(NO_SLIP);
    let cases = all().unwrap().into_iter().map(|case| case.bytes);
    for bytes in cases.chain([vec![0x01, 0x02]]) {
        let mut seeds = [u128::MAX; SEEDS];
        seeds[0] = 0;
        let input = Input {
            bytes,
            name: 0,
            seeds,
        };
        tally.add(&comparer.compare(&input).ok().unwrap());
    }
    tally
}

#[test]
fn the_cases_and_one_refusal_are_counted() {
    assert_eq!(
        tally_of_the_cases().lines()[..8],
        [
            "accepted 21",
            "refusal: 1 0, 2 0, 3 1, 4 0, 5 0, 6 0, 7 0, 8 0, 9 0, 10 0, 11 0, 12 0, 13 0, 50 17",
            "scoping: 0 8, 20 0, 21 1, 22 1, 23 5, 24 3, 25 0, 26 2, 27 1",
            "closedness: 0 17, 28 4",
            "demands: 0 12, 30 1, 31 7, 32 1",
            "arithmetic: 0 20, 40 1",
            "list with: 20 0, 21 2, 22 1, 23 5, 24 3, 25 1, 26 3, 27 4, 28 4, 30 1, 31 8, 32 1",
            "scoping told apart by seeds: 0; names found: 21; lists: 4 empty, the longest has 4 entries",
        ]
    );
}

#[test]
fn what_was_met_is_not_seldom_in_a_short_run() {
    let seldom = tally_of_the_cases().seldom_met();
    for met in ["refusal 3", "scoping 21", "list with 25", "empty list"] {
        assert!(!seldom.contains(&met.to_string()), "{met}");
    }
    for not_met in ["refusal 10", "scoping 25", "list with 20"] {
        assert!(seldom.contains(&not_met.to_string()), "{not_met}");
    }
}
