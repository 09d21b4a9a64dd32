//! Accepted records of every shape.

use std::collections::BTreeSet;

use super::Rng;

const MOST_NODES: usize = 512;
const MOST_DEPTH: usize = 64;
const MOST_NAMES: usize = 128;
// The widest rooms in which a childless node and a list of terms are grown: in wider ones they would make the record small.
const MOST_WASTED: usize = 5;
const MOST_SPARSE: usize = 12;

/// An accepted record of at most so many nodes.
pub fn record(rng: &mut Rng, size: usize) -> Vec<u8> {
    let table = table(rng);
    let mut growth = Growth {
        names: few_of(rng, table.len()),
        sigils: rng.choose(&[
            Sigils::Never,
            Sigils::Never,
            Sigils::OneIn(12),
            Sigils::OneIn(4),
        ]),
        sigil_binders: rng.choose(&[Sigils::Never, Sigils::OneIn(8)]),
        rng,
        nodes: Vec::new(),
    };
    let room = Room {
        nodes: size.clamp(1, MOST_NODES),
        depth: MOST_DEPTH,
    };
    let root = growth.condition(room);
    let nodes = growth.nodes;
    let order = any_order(rng, &nodes, root);
    written(&table, &nodes, &order)
}

const RESERVED: [&str; 4] = ["action", "context", "principal", "resource"];
const OTHERS: [&str; 10] = [
    "x",
    "y",
    "z",
    "a",
    "_",
    "A1",
    "actions",
    "princip",
    "Context",
    "abcdefghijklmnopqrstuvwx",
];

fn table(rng: &mut Rng) -> Vec<String> {
    let mut table = BTreeSet::new();
    let reserved_too = rng.one_in(3);
    for _ in 0..rng.choose(&[0, 1, 1, 1, 2, 2, 2, 2, 3, 3, 4]) {
        let name = if reserved_too && rng.one_in(2) {
            rng.choose(&RESERVED)
        } else {
            rng.choose(&OTHERS)
        };
        table.insert(name.to_string());
    }
    if rng.one_in(20) {
        for number in table.len()..rng.choose(&[64, 66, MOST_NAMES]) {
            table.insert(format!("n{number:03}"));
        }
    }
    table.into_iter().collect()
}

/// Few, so that they meet often.
fn few_of(rng: &mut Rng, names: usize) -> Vec<u8> {
    match names {
        0 => Vec::new(),
        1..=4 => (0..names as u8).collect(),
        _ => (0..3).map(|_| rng.below(names) as u8).collect(),
    }
}

#[derive(Clone, Copy)]
enum Sigils {
    Never,
    OneIn(usize),
}

/// How many nodes a subtree may have, and how deep it may be.
#[derive(Clone, Copy)]
struct Room {
    nodes: usize,
    depth: usize,
}

impl Room {
    fn takes(self, shape: &Shape) -> bool {
        if self.has_children() {
            (shape.least..=shape.most).contains(&self.nodes)
        } else {
            shape.least == 1
        }
    }

    fn has_children(self) -> bool {
        self.nodes > 1 && self.depth > 1
    }

    fn for_one_child(self) -> Room {
        Room {
            nodes: self.nodes - 1,
            depth: self.depth - 1,
        }
    }

    fn for_two_children(self, first: usize) -> [Room; 2] {
        let below = self.for_one_child();
        [first, below.nodes - first].map(|nodes| Room { nodes, ..below })
    }
}

/// What may be grown in a room of from `least` to `most` nodes.
struct Shape {
    kind: u8,
    least: usize,
    most: usize,
    weight: usize,
}

const fn shape(kind: u8, least: usize, most: usize, weight: usize) -> Shape {
    Shape {
        kind,
        least,
        most,
        weight,
    }
}

const CONDITIONS: [Shape; 11] = [
    shape(0x10, 3, MOST_NODES, 6),
    shape(0x11, 3, MOST_NODES, 2),
    shape(0x12, 2, MOST_NODES, 2),
    shape(0x13, 2, MOST_NODES, 1),
    shape(0x14, 2, MOST_NODES, 1),
    shape(0x15, 3, MOST_NODES, 3),
    shape(0x16, 2, MOST_NODES, 4),
    shape(0x17, 3, MOST_NODES, 6),
    shape(0x18, 4, MOST_SPARSE, 8),
    shape(0x19, 3, MOST_NODES, 2),
    shape(0x1A, 1, MOST_WASTED, 2),
];

const VARIABLES: [Shape; 1] = [shape(0x20, 1, MOST_NODES, 1)];

const OPERANDS: [Shape; 9] = [
    shape(0x20, 1, MOST_WASTED, 6),
    shape(0x21, 1, MOST_WASTED, 2),
    shape(0x22, 1, MOST_WASTED, 1),
    shape(0x23, 1, MOST_WASTED, 1),
    shape(0x24, 1, MOST_WASTED, 1),
    shape(0x27, 2, MOST_SPARSE, 3),
    shape(0x28, 3, MOST_NODES, 4),
    shape(0x29, 3, MOST_NODES, 2),
    shape(0x2A, 3, MOST_NODES, 4),
];

const SUMMANDS: [Shape; 7] = [
    shape(0x20, 1, MOST_WASTED, 3),
    shape(0x21, 1, MOST_WASTED, 2),
    shape(0x22, 1, MOST_WASTED, 2),
    shape(0x27, 2, MOST_SPARSE, 3),
    shape(0x28, 3, MOST_NODES, 2),
    shape(0x29, 3, MOST_NODES, 1),
    shape(0x2A, 3, MOST_NODES, 2),
];

const ARGUMENTS: [Shape; 10] = [
    shape(0x20, 1, MOST_NODES, 12),
    shape(0x21, 1, MOST_NODES, 5),
    shape(0x22, 1, MOST_NODES, 1),
    shape(0x23, 1, MOST_NODES, 1),
    shape(0x24, 1, MOST_NODES, 1),
    shape(0x27, 2, MOST_NODES, 3),
    // In such a room an array can hold what may not stand in it.
    shape(0x27, 6, MOST_NODES, 60),
    shape(0x28, 3, MOST_NODES, 3),
    shape(0x29, 3, MOST_NODES, 1),
    shape(0x2A, 3, MOST_NODES, 1),
];

const ITEMS: [Shape; 9] = [
    shape(0x20, 1, MOST_NODES, 6),
    shape(0x21, 1, MOST_NODES, 3),
    shape(0x22, 1, MOST_NODES, 1),
    shape(0x23, 1, MOST_NODES, 1),
    shape(0x24, 1, MOST_NODES, 1),
    shape(0x27, 2, MOST_NODES, 2),
    shape(0x28, 3, MOST_NODES, 9),
    shape(0x29, 3, MOST_NODES, 4),
    shape(0x2A, 3, MOST_NODES, 4),
];

enum Field {
    Byte(u8),
    Child(usize),
}

struct Grown {
    kind: u8,
    fields: Vec<Field>,
}

impl Grown {
    fn children(&self) -> impl Iterator<Item = usize> + '_ {
        self.fields.iter().filter_map(|field| match field {
            Field::Byte(_) => None,
            Field::Child(child) => Some(*child),
        })
    }
}

struct Growth<'a> {
    rng: &'a mut Rng,
    names: Vec<u8>,
    sigils: Sigils,
    sigil_binders: Sigils,
    nodes: Vec<Grown>,
}

impl Growth<'_> {
    fn condition(&mut self, room: Room) -> usize {
        if room.nodes <= MOST_WASTED && self.is_sigil(self.sigils) {
            let kind = self.rng.choose(&[0x1B, 0x1C]);
            return self.symbol(kind);
        }
        let kind = self.kind(&CONDITIONS, room);
        match kind {
            0x10 | 0x11 => {
                let [left, right] = self.halves(room);
                let fields = [self.child_condition(left), self.child_condition(right)];
                self.node(kind, fields)
            }
            0x12 => {
                let fields = [self.child_condition(room.for_one_child())];
                self.node(kind, fields)
            }
            0x13 | 0x14 => {
                let body = self.child_condition(room.for_one_child());
                let [low, high] = self.any_two();
                self.node(kind, [body, low, high])
            }
            0x15 => {
                let [left, right] = self.halves(room);
                let [left, right] = [self.child_condition(left), self.child_condition(right)];
                let [low, high] = self.any_two();
                self.node(kind, [left, right, low, high])
            }
            0x16 => {
                let [sort, number] = self.slot(self.sigil_binders);
                let type_byte = self.any();
                let body = self.child_condition(room.for_one_child());
                self.node(kind, [sort, number, type_byte, body])
            }
            0x17 if self.rng.one_in(2) => self.equality_with_a_bare_variable(room),
            0x17 => {
                let op = Field::Byte(self.rng.below(6) as u8);
                let [left, right] = self.halves(room).map(|half| self.term(&OPERANDS, half));
                self.node(kind, [op, left, right])
            }
            0x18 => {
                let [low, high] = self.any_two();
                let arguments = self.list(0x31, room.for_one_child());
                self.node(kind, [low, high, arguments])
            }
            0x19 => {
                let [arguments, base] = self.small_and_rest(room, MOST_SPARSE);
                let fields = [self.child_condition(base), self.list(0x31, arguments)];
                self.node(kind, fields)
            }
            _ => {
                let fields = self.slot(self.sigils);
                self.node(0x1A, fields)
            }
        }
    }

    fn child_condition(&mut self, room: Room) -> Field {
        Field::Child(self.condition(room))
    }

    fn equality_with_a_bare_variable(&mut self, room: Room) -> usize {
        let [variable, value] = room.for_two_children(1);
        let mut sides = [self.term(&VARIABLES, variable), self.term(&OPERANDS, value)];
        if self.rng.one_in(2) {
            sides.reverse();
        }
        let [left, right] = sides;
        self.node(0x17, [Field::Byte(0), left, right])
    }

    fn term(&mut self, shapes: &[Shape], room: Room) -> Field {
        let kind = self.kind(shapes, room);
        Field::Child(if room.nodes <= MOST_WASTED && self.is_sigil(self.sigils) {
            self.sigil_term()
        } else {
            self.term_of_kind(kind, room)
        })
    }

    fn term_of_kind(&mut self, kind: u8, room: Room) -> usize {
        match kind {
            0x20 if !self.names.is_empty() => {
                let fields = [self.any_name()];
                self.node(kind, fields)
            }
            0x22..=0x24 => self.symbol(kind),
            0x27 => {
                let fields = [self.list(0x32, room.for_one_child())];
                self.node(kind, fields)
            }
            0x28 => {
                let op = Field::Byte(self.rng.below(3) as u8);
                let [left, right] = self.halves(room).map(|half| self.term(&SUMMANDS, half));
                self.node(kind, [op, left, right])
            }
            0x29 => {
                let [sort, number] = self.slot(self.sigil_binders);
                let [binders, body] = self.binders_and_body(room);
                self.node(kind, [sort, number, binders, body])
            }
            0x2A => {
                let fields = self.binders_and_body(room);
                self.node(kind, fields)
            }
            _ => self.node(0x21, []),
        }
    }

    fn sigil_term(&mut self) -> usize {
        match self.rng.choose(&[0x25, 0x26, 0x2B]) {
            0x2B => self.symbol(0x2B),
            kind => {
                let fields = [self.any()];
                self.node(kind, fields)
            }
        }
    }

    fn binders_and_body(&mut self, room: Room) -> [Field; 2] {
        let [binders, body] = self.small_and_rest(room, MOST_WASTED);
        [self.binders(binders), self.child_condition(body)]
    }

    fn binders(&mut self, room: Room) -> Field {
        if !room.has_children() {
            return self.list_end();
        }
        let [sort, number] = self.slot(self.sigil_binders);
        let type_byte = self.any();
        let rest = self.binders(room.for_one_child());
        Field::Child(self.node(0x33, [sort, number, type_byte, rest]))
    }

    /// Of arguments or of items, by the kind of their cells.
    fn list(&mut self, kind: u8, room: Room) -> Field {
        if !room.has_children() || room.nodes < 3 || self.rng.one_in(5) {
            return self.list_end();
        }
        let (mut fields, shapes): (Vec<Field>, &[Shape]) = match kind {
            0x31 => (self.any_two().into(), &ARGUMENTS),
            _ => (Vec::new(), &ITEMS),
        };
        let [term, rest] = self.large_and_rest(room);
        fields.push(self.term(shapes, term));
        fields.push(self.list(kind, rest));
        Field::Child(self.node(kind, fields))
    }

    fn list_end(&mut self) -> Field {
        Field::Child(self.node(0x30, []))
    }

    fn symbol(&mut self, kind: u8) -> usize {
        let fields = self.any_two();
        self.node(kind, fields)
    }

    fn node(&mut self, kind: u8, fields: impl Into<Vec<Field>>) -> usize {
        self.nodes.push(Grown {
            kind,
            fields: fields.into(),
        });
        self.nodes.len() - 1
    }

    fn kind(&mut self, shapes: &[Shape], room: Room) -> u8 {
        let fitting: Vec<u8> = shapes
            .iter()
            .filter(|shape| room.takes(shape))
            .flat_map(|shape| std::iter::repeat_n(shape.kind, shape.weight))
            .collect();
        self.rng.choose(&fitting)
    }

    fn halves(&mut self, room: Room) -> [Room; 2] {
        let first = 1 + self.rng.below(room.nodes - 2);
        room.for_two_children(first)
    }

    /// More often than not more than a half.
    fn large_and_rest(&mut self, room: Room) -> [Room; 2] {
        let [one, other] = [self.halves(room), self.halves(room)];
        if one[0].nodes > other[0].nodes {
            one
        } else {
            other
        }
    }

    fn small_and_rest(&mut self, room: Room, most: usize) -> [Room; 2] {
        let small = 1 + self.rng.below(most.min(room.nodes - 2));
        room.for_two_children(small)
    }

    fn slot(&mut self, sigils: Sigils) -> [Field; 2] {
        if self.names.is_empty() || self.is_sigil(sigils) {
            [Field::Byte(self.rng.choose(&[1, 2])), self.any()]
        } else {
            [Field::Byte(0), self.any_name()]
        }
    }

    fn is_sigil(&mut self, sigils: Sigils) -> bool {
        match sigils {
            Sigils::Never => false,
            Sigils::OneIn(times) => self.rng.one_in(times),
        }
    }

    fn any_name(&mut self) -> Field {
        Field::Byte(self.rng.choose(&self.names))
    }

    fn any(&mut self) -> Field {
        Field::Byte(self.rng.byte())
    }

    fn any_two(&mut self) -> [Field; 2] {
        [self.any(), self.any()]
    }
}

/// Each node after its children; nothing else is fixed.
fn any_order(rng: &mut Rng, nodes: &[Grown], root: usize) -> Vec<usize> {
    let mut order = Vec::new();
    let mut reached = vec![root];
    while !reached.is_empty() {
        let next = reached.swap_remove(rng.below(reached.len()));
        order.push(next);
        reached.extend(nodes[next].children());
    }
    order.reverse();
    order
}

fn written(table: &[String], nodes: &[Grown], order: &[usize]) -> Vec<u8> {
    let mut number = vec![0; nodes.len()];
    for (place, &node) in order.iter().enumerate() {
        number[node] = place;
    }
    let mut bytes = vec![0x01, 0x01];
    for name in table {
        bytes.push(0x02);
        bytes.extend(name.bytes().chain(std::iter::repeat(0)).take(24));
    }
    for &node in order {
        bytes.push(nodes[node].kind);
        for field in &nodes[node].fields {
            match *field {
                Field::Byte(byte) => bytes.push(byte),
                Field::Child(child) => bytes.extend(two_bytes(number[child])),
            }
        }
    }
    bytes.push(0x7F);
    bytes.extend(two_bytes(nodes.len()));
    bytes
}

fn two_bytes(number: usize) -> [u8; 2] {
    [(number % 256) as u8, (number / 256) as u8]
}
