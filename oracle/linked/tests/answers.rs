use linked::answers::{refused, Answers, NOTHING};
use linked::seeds::SEEDS;
use linked::{Asked, Library, Proved, Stretch, NO_NAME, NO_STRETCH};
use plain::cases::{all, Case};
use plain::lists::{pack, Entry};
use plain::read;

/// The case's first entry of each part, and its arithmetic.
fn of_the_case(case: &Case) -> Answers<Asked> {
    let first = |is_of_the_part: fn(&Entry) -> bool| {
        let mut entries = case.list.iter();
        entries
            .find(|entry| is_of_the_part(entry))
            .map_or(NOTHING, asked)
    };
    Answers {
        scoping: [first(|entry| entry.rule < 28); SEEDS],
        closedness: first(|entry| entry.rule == 28),
        demands: first(|entry| entry.rule > 28),
        arithmetic: Asked {
            number: if case.arithmetic { 40 } else { 0 },
            ..NOTHING
        },
    }
}

fn asked(entry: &Entry) -> Asked {
    Asked {
        number: entry.rule,
        place: u32::from(entry.node),
        name: entry.name.map_or(NO_NAME, u32::from),
    }
}

const NO_SEED: [u128; SEEDS] = [0; SEEDS];

#[test]
fn all_agree_on_the_cases_all() {
    for case in all().unwrap() {
        let expected = of_the_case(&case);
        let reading = read(&case.bytes);
        let proved = Answers::of_the_library(&Proved, &case.bytes, &NO_SEED);
        let rust = Answers::of_the_rust(reading.as_ref().unwrap(), &NO_SEED);
        let label = &case.label;
        assert_eq!(proved, expected, "{label}");
        assert_eq!(
            Answers::of_the_plain(&reading, &NO_SEED),
            expected,
            "{label}"
        );
        assert_eq!(rust, expected.rules_and_names(), "{label}");
    }
}

#[test]
fn the_lists_of_the_cases() {
    for case in all().unwrap() {
        let entries: Vec<u32> = case.list.iter().map(pack).collect();
        let mut lent = vec![0; entries.len() + 1];
        let said = Proved.list(&case.bytes, &mut lent);
        let expected = Asked {
            place: entries.len() as u32,
            ..NOTHING
        };
        assert_eq!(said, expected, "{}", case.label);
        assert_eq!(lent, [entries, vec![0]].concat(), "{}", case.label);
    }
}

#[test]
fn every_cut_of_a_case_is_passed_up_as_it_is_refused() {
    for case in all().unwrap() {
        for length in 0..case.bytes.len() {
            let cut = &case.bytes[..length];
            let refusal = read(cut).unwrap_err();
            let said = [
                Proved.scoping(cut, u128::MAX),
                Proved.closedness(cut),
                Proved.demands(cut),
                Proved.arithmetic(cut),
                Proved.list(cut, &mut []),
            ];
            assert_eq!(
                said,
                [refused(&refusal); 5],
                "{} cut to {length}",
                case.label
            );
            assert_eq!(Proved.name(cut, 0), NO_STRETCH);
        }
    }
}

#[test]
fn the_names_of_the_cases() {
    for case in all().unwrap() {
        let names = read(&case.bytes).unwrap().names;
        let said: Vec<&[u8]> = (0..=u8::MAX)
            .map(|number| Proved.name(&case.bytes, number))
            .take_while(|&stretch| stretch != NO_STRETCH)
            .map(|Stretch { at, len }| &case.bytes[at..at + len])
            .collect();
        let expected: Vec<&[u8]> = names.iter().map(String::as_bytes).collect();
        assert_eq!(said, expected, "{}", case.label);
    }
}

/// `(count for x where (tp(u) && tp(x))) > 0`, with u as name 0 and x as name 127.
fn record_of_128_names() -> Vec<u8> {
    let mut bytes = vec![1, 1];
    for number in 0..128 {
        bytes.push(2);
        bytes.extend(format!("n{number:03}").bytes().chain([0; 20]));
    }
    bytes.extend([0x1A, 0, 0, 0x1A, 0, 127, 0x10, 0, 0, 1, 0]);
    bytes.extend([0x30, 0x33, 0, 127, 0, 3, 0, 0x2A, 4, 0, 2, 0]);
    bytes.extend([0x22, 0, 0, 0x17, 3, 5, 0, 6, 0, 0x7F, 8, 0]);
    bytes
}

#[test]
fn the_lowest_bit_of_a_seed_is_name_0() {
    let bytes = record_of_128_names();
    let unbound = Asked {
        number: 25,
        place: 5,
        name: 0,
    };
    assert_eq!(Proved.scoping(&bytes, 0), unbound);
    assert_eq!(Proved.scoping(&bytes, !1), unbound);
    assert_eq!(Proved.scoping(&bytes, 1), NOTHING);
}

#[test]
fn the_last_name_of_a_full_table() {
    let bytes = record_of_128_names();
    let last = Stretch { at: 3178, len: 4 };
    assert_eq!(&bytes[3178..3182], b"n127");
    assert_eq!(Proved.name(&bytes, 127), last);
    assert_eq!(Proved.name(&bytes, 128), NO_STRETCH);
    assert_eq!(Proved.name(&bytes, 255), NO_STRETCH);
}
