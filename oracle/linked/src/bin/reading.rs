//! `reading`: what the proved reader takes for a record, a name and a node, in nanoseconds, the best of several runs.

use std::hint::black_box;
use std::time::Instant;

use linked::records::balanced;
use linked::{Library, Proved};
use plain::random::{record, Rng};
use plain::Record;

const RUNS: usize = 15;
const READS: usize = 500;
const MIXED: usize = 200;

fn main() {
    let fixed = again(&balanced(0, 1));
    let name = (again(&balanced(128, 1)) - fixed) / 128.0;
    let node = (again(&balanced(0, 511)) - fixed) / 510.0;
    println!("fixed {fixed:.0} ns, a name {name:.1} ns, a node of two kinds {node:.1} ns");
    among_all_kinds(fixed, name);
    for (names, nodes) in [(10, 15), (63, 229), (128, 511)] {
        let bytes = balanced(names, nodes);
        println!(
            "{names} names and {nodes} nodes, {} bytes: {:.2} microseconds",
            bytes.len(),
            again(&bytes) / 1000.0
        );
    }
}

/// Random records, each again and again, and then one after the other, where the processor can't have learnt a record's branches.
fn among_all_kinds(fixed: f64, name: f64) {
    let mut rng = Rng::new(1);
    let records: Vec<_> = (0..MIXED).map(|_| record(&mut rng, 400)).collect();
    let readings: Vec<_> = records.iter().map(|bytes| accepted(bytes)).collect();
    let names: usize = readings.iter().map(|record| record.names.len()).sum();
    let nodes: usize = readings.iter().map(|record| record.nodes.len()).sum();
    let a_node = |all: f64| (all - fixed * MIXED as f64 - name * names as f64) / nodes as f64;
    println!(
        "a node of all kinds {:.1} ns, {:.1} ns in a record seen for the first time",
        a_node(records.iter().map(|bytes| again(bytes)).sum()),
        a_node(best(|| {
            for bytes in &records {
                read(bytes);
            }
        }))
    );
}

/// What is measured is read to its end, by the library too: its arithmetic test says yes or no.
fn accepted(bytes: &[u8]) -> Record {
    assert!(matches!(Proved.arithmetic(bytes).number, 0 | 40));
    plain::read(bytes).expect("the plain second reader accepts it")
}

/// No table has so many names: the library reads the record, and looks nothing up.
fn read(bytes: &[u8]) {
    black_box(Proved.name(black_box(bytes), u8::MAX));
}

fn again(bytes: &[u8]) -> f64 {
    accepted(bytes);
    let all = best(|| {
        for _ in 0..READS {
            read(bytes);
        }
    });
    all / READS as f64
}

fn best(run: impl Fn()) -> f64 {
    (0..RUNS)
        .map(|_| {
            let start = Instant::now();
            run();
            start.elapsed().as_nanos() as f64
        })
        .fold(f64::MAX, f64::min)
}
