//! `bench`: nanoseconds a record of the list and of each of the four questions, reading included, beside the Rust's four checks on trees that are built already. A
//! ratio above 1 says how many times as fast the proved library is. Each figure is the best of several runs over the same records, all measured in one call.

use std::collections::BTreeSet;
use std::hint::black_box;
use std::process::ExitCode;
use std::time::Instant;

use dogwood::extension::temporal::ast::Condition;
use dogwood::extension::temporal::check::{
    check_condition, check_demands, check_leaf_closed, reject_arithmetic_unless_enabled,
};
use linked::records::{deep_by_terms, every_shape, rule, tower, tower_over_all, Plan, LAYERS};
use linked::{Library, Proved};
use plain::random::{record, Rng};

/// Enough that the processor is at its pace for some of them.
const RUNS: usize = 300;
/// Of each record, to find the slowest.
const TRIES: usize = 15;
const RECORDS: usize = 200;
/// Of a record of every shape: each kind of clause once.
const CLAUSES: usize = 13;
/// More than any of these lists has.
const ROOM: usize = 65_536;
const MOST_NANOSECONDS: f64 = 1e6;

const SMALL_RULES: [Plan; 2] = [plan(1, 2, 1), plan(1, 1, 2)];
const LARGE_RULES: [Plan; 4] = [
    plan(12, 3, 1),
    plan(7, 5, 2),
    plan(2, 8, 14),
    plan(2, 3, 16),
];

const fn plan(parts: usize, names_of_a_part: usize, clauses_of_a_part: usize) -> Plan {
    Plan {
        parts,
        names_of_a_part,
        clauses_of_a_part,
    }
}

struct Subject {
    bytes: Vec<u8>,
    nodes: usize,
    condition: Condition,
}

/// What each of the four questions is asked as, in the order of [`Figures::questions`].
const QUESTIONS: [fn(&[u8]) -> u32; 4] = [
    |bytes| Proved.scoping(bytes, 0).number,
    |bytes| Proved.closedness(bytes).number,
    |bytes| Proved.demands(bytes).number,
    |bytes| Proved.arithmetic(bytes).number,
];

struct Figures {
    rust: f64,
    list: f64,
    questions: [f64; 4],
    reading: f64,
}

fn main() -> ExitCode {
    let mut rng = Rng::new(6);
    say("small rules", &rules(&mut rng, &SMALL_RULES));
    say("large rules", &rules(&mut rng, &LARGE_RULES));
    say("small records at random", &at_random(&mut rng, 14, 18));
    say("large records at random", &at_random(&mut rng, 220, 240));
    say("every shape, nothing to find", &shapes(&mut rng));
    let (label, subject) = slowest(&mut rng);
    let worst = [subject];
    say(&format!("the slowest found, {label}"), &worst);
    if measure(&worst).list > MOST_NANOSECONDS {
        eprintln!("a list takes longer than a millisecond");
        return ExitCode::FAILURE;
    }
    ExitCode::SUCCESS
}

fn rules(rng: &mut Rng, plans: &[Plan]) -> Vec<Subject> {
    (0..RECORDS)
        .map(|number| subject(rule(rng, plans[number % plans.len()])))
        .collect()
}

fn shapes(rng: &mut Rng) -> Vec<Subject> {
    (0..RECORDS)
        .map(|number| subject(every_shape(rng, CLAUSES, number % 2 == 0)))
        .collect()
}

fn at_random(rng: &mut Rng, least: usize, most: usize) -> Vec<Subject> {
    let mut subjects = Vec::new();
    while subjects.len() < RECORDS {
        let subject = subject(record(rng, most));
        if subject.nodes >= least {
            subjects.push(subject);
        }
    }
    subjects
}

/// Among records at the limits, and the largest at random.
fn slowest(rng: &mut Rng) -> (String, Subject) {
    let towers = LAYERS.iter().flat_map(|layer| {
        [
            (format!("{} 64 deep", layer.label), tower(128, 64, || layer)),
            (
                format!("{} over 128 names", layer.label),
                tower_over_all(128, 64, || layer),
            ),
        ]
    });
    let terms = deep_by_terms(128, 64).map(|(label, bytes)| (label.to_string(), bytes));
    let random = (0..RECORDS).map(|_| ("at random".to_string(), record(rng, 512)));
    towers
        .chain(terms)
        .chain(random)
        .map(|(label, bytes)| (label, subject(bytes)))
        .max_by(|(_, one), (_, other)| a_list(one).total_cmp(&a_list(other)))
        .expect("there is a record")
}

fn subject(bytes: Vec<u8>) -> Subject {
    let record = plain::read(&bytes).expect("what is measured is accepted");
    Subject {
        nodes: record.nodes.len(),
        condition: plain::condition(&record),
        bytes,
    }
}

fn say(label: &str, subjects: &[Subject]) {
    let nodes: usize = subjects.iter().map(|subject| subject.nodes).sum();
    let Figures {
        rust,
        list,
        questions: [scoping, closedness, demands, arithmetic],
        reading,
    } = measure(subjects);
    println!(
        "{label}, {} nodes: the Rust's four checks {rust:.0} ns; the list {list:.0} ns, ratio {:.1}; scoping {scoping:.0}, closedness {closedness:.0}, demands {demands:.0}, arithmetic {arithmetic:.0} ns; reading alone {reading:.0} ns",
        nodes / subjects.len(),
        rust / list,
    );
}

/// All take turns, so that a slow moment of the machine falls on all of them.
fn measure(subjects: &[Subject]) -> Figures {
    let mut lent = vec![0; ROOM];
    let mut best = Figures {
        rust: f64::MAX,
        list: f64::MAX,
        questions: [f64::MAX; 4],
        reading: f64::MAX,
    };
    for _ in 0..RUNS {
        best.rust = best
            .rust
            .min(timed(subjects, |subject| the_rust(&subject.condition)));
        best.list = best.list.min(timed(subjects, |subject| {
            Proved.list(&subject.bytes, &mut lent)
        }));
        for (question, least) in QUESTIONS.iter().zip(&mut best.questions) {
            *least = least.min(timed(subjects, |subject| question(&subject.bytes)));
        }
        best.reading = best
            .reading
            .min(timed(subjects, |subject| Proved.name(&subject.bytes, 255)));
    }
    best
}

fn a_list(subject: &Subject) -> f64 {
    let mut lent = vec![0; ROOM];
    let one = std::slice::from_ref(subject);
    (0..TRIES)
        .map(|_| timed(one, |subject| Proved.list(&subject.bytes, &mut lent)))
        .fold(f64::MAX, f64::min)
}

fn the_rust(condition: &Condition) -> [bool; 4] {
    [
        check_condition(condition, &BTreeSet::new()).is_ok(),
        check_leaf_closed(condition).is_ok(),
        check_demands(condition).is_ok(),
        reject_arithmetic_unless_enabled(condition).is_ok(),
    ]
}

/// Nanoseconds a record.
fn timed<T>(subjects: &[Subject], mut ask: impl FnMut(&Subject) -> T) -> f64 {
    let start = Instant::now();
    for subject in subjects {
        black_box(ask(black_box(subject)));
    }
    start.elapsed().as_nanos() as f64 / subjects.len() as f64
}
