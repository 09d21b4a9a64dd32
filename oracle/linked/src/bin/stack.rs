//! `stack`: how many bytes of stack the proved library uses on records at the limits. Fails above 56 KiB, the bound that we set
//! for a question; document 01 has none.

use std::hint::black_box;
use std::process::ExitCode;
use std::ptr;
use std::thread;

use linked::records::{balanced, chain, deep_by_terms, tower, tower_over_all, LAYERS};
use linked::{Library, Proved};

const MOST: usize = 56 * 1024;
/// Painted below the caller, and left out because the painter stands there itself.
const PAINTED: usize = 256 * 1024;
const SKIPPED: usize = 512;
const PAINT: u8 = 0xA5;

const NAMES: usize = 128;
const DEPTH: usize = 64;
/// No list has more entries.
const ROOM: usize = 262_272;

/// By the bytes and a buffer to lend; document 01's number.
type Ask = fn(&[u8], &mut [u32]) -> u32;

const QUESTIONS: [(&str, Ask); 6] = [
    ("the name lookup", |bytes, _| look_up_the_last(bytes)),
    ("scoping", |bytes, _| Proved.scoping(bytes, 0).number),
    ("closedness", |bytes, _| Proved.closedness(bytes).number),
    ("demands", |bytes, _| Proved.demands(bytes).number),
    ("the arithmetic test", |bytes, _| {
        Proved.arithmetic(bytes).number
    }),
    ("the list", |bytes, lent| Proved.list(bytes, lent).number),
];

fn look_up_the_last(bytes: &[u8]) -> u32 {
    let last = Proved.name(bytes, (NAMES - 1) as u8);
    assert_ne!(last.len, 0, "the table is full");
    0
}

/// A record, and what it is at the limit by.
type Limit = (&'static str, Vec<u8>);

fn main() -> ExitCode {
    let [deep, wide] = [deep(), wide()];
    let mut most = 0;
    for (question, ask) in QUESTIONS {
        for (limit, records) in [("64 deep", &deep), ("at the widest", &wide)] {
            let (used, by) = most_used(ask, records);
            println!("{question} {limit}: {used} bytes of stack, by {by}");
            most = most.max(used);
        }
    }
    if most > MOST {
        eprintln!("more than {MOST} bytes");
        return ExitCode::FAILURE;
    }
    ExitCode::SUCCESS
}

/// Each way to go deep once, since it is not known here which of them takes the most.
fn deep() -> Vec<Limit> {
    let towers = LAYERS
        .iter()
        .map(|layer| (layer.label, tower(NAMES, DEPTH, || layer)));
    towers
        .chain(deep_by_terms(NAMES, DEPTH))
        .chain([("Nots over a Call", chain(NAMES, DEPTH))])
        .collect()
}

fn wide() -> Vec<Limit> {
    let towers = LAYERS
        .iter()
        .map(|layer| (layer.label, tower_over_all(NAMES, DEPTH, || layer)));
    towers
        .chain([("511 nodes", balanced(NAMES, 511))])
        .collect()
}

/// The most, and the first record that takes it.
fn most_used(ask: Ask, records: &[Limit]) -> (usize, &'static str) {
    records
        .iter()
        .rev()
        .map(|(by, bytes)| (on_own_stack(bytes.clone(), ask), *by))
        .max_by_key(|(used, _)| *used)
        .expect("there is a record")
}

/// A thread of its own, so that what is painted belongs to nobody.
fn on_own_stack(bytes: Vec<u8>, ask: Ask) -> usize {
    let mut lent = vec![0; ROOM];
    thread::Builder::new()
        .stack_size(2 * PAINTED)
        .spawn(move || {
            let top = paint();
            let number = black_box(ask(black_box(&bytes), &mut lent));
            let used = deepest(top);
            assert!(!is_refusal(number), "the record is accepted: {number}");
            used
        })
        .expect("a thread starts")
        .join()
        .expect("the question answers")
}

fn is_refusal(number: u32) -> bool {
    matches!(number, 1..=13 | 50)
}

#[inline(never)]
fn paint() -> usize {
    let here = 0u8;
    let top = ptr::addr_of!(here) as usize;
    for below in SKIPPED..PAINTED {
        // SAFETY: the thread's stack has twice as many bytes, and nothing below this frame is in use.
        unsafe { ptr::write_volatile((top - below) as *mut u8, PAINT) };
    }
    top
}

#[inline(never)]
fn deepest(top: usize) -> usize {
    (SKIPPED..PAINTED)
        .rev()
        // SAFETY: as above.
        .find(|below| unsafe { ptr::read_volatile((top - below) as *const u8) } != PAINT)
        .unwrap_or(SKIPPED)
}
