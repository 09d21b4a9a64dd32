mod slips;

use linked::comparing::Comparer;
use linked::inputs::{any_input, Input};
use linked::lending::NO_ROOM;
use linked::seeds::{Seeds, SEEDS};
use linked::{Asked, Stretch, NO_STRETCH};
use plain::cases::all;
use plain::random::Rng;
use slips::{Question, Slip, NO_SLIP};

/// Document 01's: its list has two entries, 28 and 31 about name 1, and scoping accepts it.
fn record_in_full() -> Vec<u8> {
    let mut cases = all().unwrap().into_iter();
    cases.find(|case| case.label == "full").unwrap().bytes
}

/// Refused with 1.
fn cut_record() -> Vec<u8> {
    let mut bytes = record_in_full();
    bytes.pop();
    bytes
}

fn input(bytes: Vec<u8>, seeds: Seeds) -> Input {
    Input {
        bytes,
        name: 1,
        seeds,
    }
}

/// What is said of the slip begins with this.
fn assert_noticed_in(input: &Input, slip: Slip, beginning: &str) {
    let met = Comparer::new(slip).compare(input);
    let said = met.err().expect("the slip is noticed");
    assert!(said.starts_with(beginning), "{said}");
}

fn assert_noticed(bytes: Vec<u8>, slip: Slip, beginning: &str) {
    assert_noticed_in(&input(bytes, [0; SEEDS]), slip, beginning);
}

#[test]
fn nothing_is_said_against_a_library_without_a_slip() {
    let mut rng = Rng::new(1);
    let mut comparer = Comparer::new(NO_SLIP);
    for _ in 0..2_000 {
        let input = any_input(&mut rng);
        if let Err(difference) = comparer.compare(&input) {
            panic!("{difference}\n{input:02X?}");
        }
    }
}

#[test]
fn what_was_met_is_the_reading_the_answers_and_the_list() {
    let input = input(record_in_full(), [0; SEEDS]);
    let met = Comparer::new(NO_SLIP).compare(&input).ok().unwrap();
    assert_eq!(met.reading.unwrap().nodes.len(), 9);
    assert_eq!(met.answers.closedness.number, 28);
    let rules: Vec<u32> = met.list.iter().map(|entry| entry.rule).collect();
    assert_eq!(rules, [28, 31]);
}

fn assert_stretch_noticed(bytes: Vec<u8>, slip: &dyn Fn(Stretch) -> Stretch) {
    let slip = Slip {
        name: slip,
        ..NO_SLIP
    };
    assert_noticed(bytes, slip, "where a name stands: ");
}

fn one_byte_early(said: Stretch) -> Stretch {
    Stretch {
        at: said.at - 1,
        ..said
    }
}

fn one_byte_late(said: Stretch) -> Stretch {
    Stretch {
        at: said.at + 1,
        ..said
    }
}

#[test]
fn a_name_at_a_wrong_place() {
    assert_stretch_noticed(record_in_full(), &one_byte_early);
    assert_stretch_noticed(record_in_full(), &one_byte_late);
    let first_name = |said| Stretch { at: 3, ..said };
    assert_stretch_noticed(record_in_full(), &first_name);
}

#[test]
fn a_name_with_a_wrong_length() {
    for len in [0, 2, 24] {
        let slip = move |said| Stretch { len, ..said };
        assert_stretch_noticed(record_in_full(), &slip);
    }
    assert_stretch_noticed(record_in_full(), &|_| NO_STRETCH);
}

/// Of bytes that are turned away, and of a number that no name has.
#[test]
fn an_empty_stretch_at_a_wrong_place() {
    assert_stretch_noticed(cut_record(), &one_byte_late);
    let at_the_name = |_| Stretch { at: 28, len: 0 };
    assert_stretch_noticed(cut_record(), &at_the_name);
    let at_the_name = Slip {
        name: &at_the_name,
        ..NO_SLIP
    };
    let unknown = Input {
        name: 2,
        ..input(record_in_full(), [0; SEEDS])
    };
    assert_noticed_in(&unknown, at_the_name, "where a name stands: ");
}

#[test]
fn a_name_where_there_is_none() {
    let the_first = |_| Stretch { at: 3, len: 1 };
    assert_stretch_noticed(cut_record(), &the_first);
}

#[test]
fn a_wrong_number_place_or_name_in_any_answer() {
    let questions = [
        (Question::Scoping { seed: 0 }, "scoping without a seed: "),
        (Question::Closedness, "closedness: "),
        (Question::Demands, "demands: "),
        (Question::Arithmetic, "arithmetic: "),
    ];
    let slips: [fn(&mut Asked); 3] = [
        |said| said.number += 1,
        |said| said.place += 1,
        |said| said.name -= 1,
    ];
    for (wrong_in, beginning) in questions {
        for make_wrong in slips {
            let slip = Slip {
                answer: &|question, mut said| {
                    if question == wrong_in {
                        make_wrong(&mut said);
                    }
                    said
                },
                ..NO_SLIP
            };
            assert_noticed(record_in_full(), slip, beginning);
            assert_noticed(cut_record(), slip, beginning);
        }
    }
}

/// Without its node, which the Rust does not have.
#[test]
fn the_rust_has_its_say_too() {
    let slip = Slip {
        answer: &|_, mut said| {
            said.number += 1;
            said
        },
        ..NO_SLIP
    };
    let said = "scoping without a seed: the library says RuleAndName { rule: 1, name: 255 }, the Rust RuleAndName";
    assert_noticed(record_in_full(), slip, said);
}

/// An answer to scoping that is wrong for some seeds.
fn wrong_for(is_wrong: impl Fn(u128) -> bool) -> impl Fn(Question, Asked) -> Asked {
    move |question, mut said| {
        if matches!(question, Question::Scoping { seed } if is_wrong(seed)) {
            said.place += 1;
        }
        said
    }
}

#[test]
fn a_wrong_answer_for_any_one_of_the_seeds() {
    let seeds = [0, u128::MAX, 1, 2, 3];
    let beginnings = [
        "scoping without a seed: ",
        "scoping with the full seed: ",
        "scoping with the first random seed: ",
        "scoping with the second random seed: ",
        "scoping with the third random seed: ",
    ];
    for (wrong_at, beginning) in seeds.into_iter().zip(beginnings) {
        let slip = Slip {
            answer: &wrong_for(|seed| seed == wrong_at),
            ..NO_SLIP
        };
        assert_noticed_in(&input(record_in_full(), seeds), slip, beginning);
        assert_noticed_in(&input(cut_record(), seeds), slip, beginning);
    }
}

#[test]
fn bits_past_the_table_that_have_an_effect() {
    let slip = Slip {
        answer: &wrong_for(|seed| seed >> 2 != 0),
        ..NO_SLIP
    };
    assert_noticed(
        record_in_full(),
        slip,
        "scoping with the bits past the table turned: ",
    );
}

/// A slip of the list where the right answer has this number and the buffer this room.
fn at(
    number: u32,
    room: usize,
    slip: fn(&mut Asked, &mut [u32]),
) -> impl Fn(Asked, &mut [u32]) -> Asked {
    move |mut said, lent| {
        if said.number == number && lent.len() == room {
            slip(&mut said, lent);
        }
        said
    }
}

fn assert_list_noticed(slip: &dyn Fn(Asked, &mut [u32]) -> Asked, beginning: &str) {
    let slip = Slip {
        list: slip,
        ..NO_SLIP
    };
    assert_noticed(record_in_full(), slip, beginning);
}

#[test]
fn a_wrong_entry() {
    for (place, beginning) in [
        (0, "the list, with room for 7: entry 0 is "),
        (1, "the list, with room for 7: entry 1 is "),
    ] {
        let wrong = move |said: Asked, lent: &mut [u32]| {
            if said.number == 0 {
                lent[place] += 1;
            }
            said
        };
        assert_list_noticed(&wrong, beginning);
    }
    assert_list_noticed(
        &at(0, 2, |_, lent| lent.swap(0, 1)),
        "the list, with room for 2: entry 0 is ",
    );
}

#[test]
fn a_wrong_count() {
    assert_list_noticed(
        &at(0, 7, |said, _| said.place += 1),
        "the list, with room for 7: the library says ",
    );
    assert_list_noticed(
        &at(0, 2, |said, _| said.place -= 1),
        "the list, with room for 2: the library says ",
    );
    assert_list_noticed(
        &at(NO_ROOM, 1, |said, _| said.place -= 1),
        "the list, with room for 1: the library says ",
    );
}

#[test]
fn a_list_that_is_refused_or_cut_where_it_should_not_be() {
    assert_list_noticed(
        &at(0, 2, |said, _| said.number = NO_ROOM),
        "the list, with room for 2: the library says ",
    );
    assert_list_noticed(
        &at(NO_ROOM, 1, |said, _| (said.number, said.place) = (0, 1)),
        "the list, with room for 1: the library says ",
    );
}

#[test]
fn an_entry_written_to_past_the_count() {
    assert_list_noticed(
        &at(0, 7, |_, lent| lent[2] = 0),
        "the list, with room for 7: entry 2 was written to",
    );
    assert_list_noticed(
        &at(0, 7, |_, lent| lent[6] += 1),
        "the list, with room for 7: entry 6 was written to",
    );
}

#[test]
fn a_buffer_written_to_where_nothing_is_listed() {
    assert_list_noticed(
        &at(NO_ROOM, 1, |_, lent| lent[0] = 469_764_097),
        "the list, with room for 1: entry 0 was written to",
    );
    let slip = Slip {
        list: &at(1, 5, |_, lent| lent[4] = 0),
        ..NO_SLIP
    };
    assert_noticed(
        cut_record(),
        slip,
        "the list, with room for 5: entry 4 was written to",
    );
}

#[test]
fn a_list_that_does_not_pass_a_refusal_up_unchanged() {
    for room in [5, 0] {
        let slip = Slip {
            list: &at(1, room, |said, _| said.place += 1),
            ..NO_SLIP
        };
        let beginning = format!("the list, with room for {room}: the library says ");
        assert_noticed(cut_record(), slip, &beginning);
    }
}
