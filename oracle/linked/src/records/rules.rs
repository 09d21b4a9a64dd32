//! Rules as the editor sends them: each name bound by an exists around events that carry it, and nothing to find.

use plain::random::Rng;

use super::writer::Writer;

/// How many parts a rule has, and what each of them binds and says.
#[derive(Clone, Copy)]
pub struct Plan {
    pub parts: usize,
    pub names_of_a_part: usize,
    pub clauses_of_a_part: usize,
}

/// The parts are joined by Ands. The names are those of a full table where there are more parts than it has names for.
pub fn rule(rng: &mut Rng, plan: Plan) -> Vec<u8> {
    let mut record = Writer::with_names(plan.parts * plan.names_of_a_part);
    let parts = (0..plan.parts)
        .map(|number| part(rng, &mut record, plan, number * plan.names_of_a_part))
        .collect();
    record.joined(0x10, parts);
    record.ended()
}

/// An event with all names of the part, then clauses on one of them each, under an exists for each name.
fn part(rng: &mut Rng, record: &mut Writer, plan: Plan, first: usize) -> u16 {
    let names: Vec<u8> = (first..first + plan.names_of_a_part)
        .map(|name| name as u8)
        .collect();
    let mut condition = event(record, &names);
    if rng.one_in(2) {
        condition = record.node(&[0x13], &[condition], &WINDOW);
    }
    for _ in 0..plan.clauses_of_a_part {
        let name = rng.choose(&names);
        let clause = clause(rng, record, name);
        condition = record.node(&[0x10], &[condition, clause], &[]);
    }
    names.iter().rev().fold(condition, |body, &name| {
        record.node(&[0x16, 0, name, 0], &[body], &[])
    })
}

fn clause(rng: &mut Rng, record: &mut Writer, name: u8) -> u16 {
    match rng.below(5) {
        0 => not_yet(record, name),
        1 => {
            let tank = record.var(name);
            record.comparison(tank)
        }
        2 => {
            let before = event(record, &[name]);
            record.node(&[0x14], &[before], &WINDOW)
        }
        3 => {
            let left = not_yet(record, name);
            let right = event(record, &[name]);
            record.node(&[0x15], &[left, right], &WINDOW)
        }
        _ => event(record, &[name]),
    }
}

pub fn not_yet(record: &mut Writer, name: u8) -> u16 {
    let happened = event(record, &[name]);
    record.node(&[0x12], &[happened], &[])
}

pub fn event(record: &mut Writer, names: &[u8]) -> u16 {
    let mut arguments = record.list_end();
    for &name in names {
        let term = record.var(name);
        arguments = record.argument(term, arguments);
    }
    record.predicate(arguments)
}

pub const WINDOW: [u8; 2] = [60, 0];
