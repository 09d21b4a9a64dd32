use crate::record::{NameNumber, Node, NodeNumber, Record, Slot};

/// Why bytes are turned away: document 01's number, and the offset of the record at fault.
#[derive(Debug, Clone, Copy, PartialEq, Eq)]
pub struct Refusal {
    pub number: u32,
    pub offset: usize,
}

type Number = u32;

const CUT: Number = 1;
const KIND_OR_ORDER: Number = 2;
const EDITION: Number = 3;
const BAD_NAME: Number = 4;
const NAME_NOT_ABOVE: Number = 5;
const CAPACITY: Number = 6;
const OUT_OF_RANGE: Number = 7;
const NOT_BELOW: Number = 8;
const WRONG_SORT: Number = 9;
const TOO_DEEP: Number = 10;
const ALREADY_REFERRED_TO: Number = 11;
const END_RECORD: Number = 12;
const ROOT_OR_UNUSED: Number = 13;

const FORMAT: u8 = 0x01;
const NAME: u8 = 0x02;
const END: u8 = 0x7F;

const MOST_NAMES: usize = 128;
const MOST_NODES: usize = 512;
const MOST_DEPTH: usize = 64;
const LAST_COMPARISON_OP: u8 = 5;
const LAST_ARITH_OP: u8 = 2;

pub fn read(bytes: &[u8]) -> Result<Record, Refusal> {
    let mut reader = Reader::default();
    let mut offset = 0;
    while let Some(&kind) = bytes.get(offset) {
        let refuse = |number| Refusal { number, offset };
        let length = reader
            .body_length(kind)
            .ok_or_else(|| refuse(KIND_OR_ORDER))?;
        let start = offset + 1;
        let end = start + length;
        let body = bytes.get(start..end).ok_or_else(|| refuse(CUT))?;
        match kind {
            FORMAT => reader.format(body).map_err(refuse)?,
            NAME => reader.name(body).map_err(refuse)?,
            END => return reader.end(body, end == bytes.len()).map_err(refuse),
            _ => reader.node(kind, body).map_err(refuse)?,
        }
        offset = end;
    }
    Err(Refusal {
        number: CUT,
        offset: bytes.len(),
    })
}

#[derive(Default)]
enum Stage {
    #[default]
    BeforeFormat,
    Names,
    Nodes,
}

struct Seen {
    kind: u8,
    depth: usize,
    referred_to: bool,
}

#[derive(Default)]
struct Reader {
    stage: Stage,
    names: Vec<String>,
    nodes: Vec<Node>,
    seen: Vec<Seen>,
}

impl Reader {
    /// None for a kind that is unknown or may not stand here.
    fn body_length(&self, kind: u8) -> Option<usize> {
        match (&self.stage, kind) {
            (Stage::BeforeFormat, FORMAT) => Some(1),
            (Stage::BeforeFormat, _) => None,
            (Stage::Names, NAME) => Some(24),
            (Stage::Names | Stage::Nodes, END) => Some(2),
            (Stage::Names | Stage::Nodes, _) => node_body_length(kind),
        }
    }

    fn format(&mut self, body: &[u8]) -> Result<(), Number> {
        if body != [1] {
            return Err(EDITION);
        }
        self.stage = Stage::Names;
        Ok(())
    }

    fn name(&mut self, body: &[u8]) -> Result<(), Number> {
        if self.names.len() == MOST_NAMES {
            return Err(CAPACITY);
        }
        let name = unpadded_name(body).ok_or(BAD_NAME)?;
        if self.names.last().is_some_and(|before| name <= *before) {
            return Err(NAME_NOT_ABOVE);
        }
        self.names.push(name);
        Ok(())
    }

    fn node(&mut self, kind: u8, body: &[u8]) -> Result<(), Number> {
        if self.nodes.len() == MOST_NODES {
            return Err(CAPACITY);
        }
        let mut fields = Fields {
            bytes: body,
            names: self.names.len(),
            seen: &mut self.seen,
            deepest_child: 0,
        };
        let node = fields.node(kind)?;
        let depth = fields.deepest_child + 1;
        if depth > MOST_DEPTH {
            return Err(TOO_DEEP);
        }
        self.nodes.push(node);
        self.seen.push(Seen {
            kind,
            depth,
            referred_to: false,
        });
        self.stage = Stage::Nodes;
        Ok(())
    }

    fn end(self, body: &[u8], nothing_follows: bool) -> Result<Record, Number> {
        if body != little_endian(self.nodes.len()) || !nothing_follows {
            return Err(END_RECORD);
        }
        let (root, others) = self.seen.split_last().ok_or(ROOT_OR_UNUSED)?;
        if !Place::Condition.takes(root.kind) || others.iter().any(|node| !node.referred_to) {
            return Err(ROOT_OR_UNUSED);
        }
        Ok(Record {
            names: self.names,
            nodes: self.nodes,
        })
    }
}

pub(crate) fn node_body_length(kind: u8) -> Option<usize> {
    match kind {
        0x10 | 0x11 => Some(4),
        0x12 => Some(2),
        0x13 | 0x14 => Some(4),
        0x15 => Some(6),
        0x16 | 0x17 => Some(5),
        0x18 | 0x19 => Some(4),
        0x1A..=0x1C => Some(2),
        0x20 => Some(1),
        0x21 => Some(0),
        0x22..=0x24 => Some(2),
        0x25 | 0x26 => Some(1),
        0x27 => Some(2),
        0x28 => Some(5),
        0x29 => Some(6),
        0x2A => Some(4),
        0x2B => Some(2),
        0x30 => Some(0),
        0x31 => Some(6),
        0x32 => Some(4),
        0x33 => Some(5),
        _ => None,
    }
}

fn unpadded_name(body: &[u8]) -> Option<String> {
    let length = body.iter().position(|&b| b == 0).unwrap_or(body.len());
    let (text, padding) = body.split_at(length);
    let well_begun = text.first().is_some_and(|b| !b.is_ascii_digit());
    let well_made = text.iter().all(|&b| b.is_ascii_alphanumeric() || b == b'_');
    let well_padded = padding.iter().all(|&b| b == 0);
    (well_begun && well_made && well_padded).then(|| text.iter().map(|&b| char::from(b)).collect())
}

fn little_endian(count: usize) -> [u8; 2] {
    let [low, high, ..] = count.to_le_bytes();
    [low, high]
}

#[derive(Clone, Copy)]
enum Place {
    Condition,
    Term,
    ArgumentList,
    ItemList,
    BinderList,
}

impl Place {
    fn takes(self, kind: u8) -> bool {
        match self {
            Place::Condition => matches!(kind, 0x10..=0x1C),
            Place::Term => matches!(kind, 0x20..=0x2B),
            Place::ArgumentList => matches!(kind, 0x30 | 0x31),
            Place::ItemList => matches!(kind, 0x30 | 0x32),
            Place::BinderList => matches!(kind, 0x30 | 0x33),
        }
    }
}

/// Takes the fields of one body front to back, each with its own faults.
struct Fields<'a> {
    bytes: &'a [u8],
    names: usize,
    seen: &'a mut [Seen],
    deepest_child: usize,
}

impl Fields<'_> {
    // The fields of a struct expression are taken in the order in which they stand here: document 01's.
    fn node(&mut self, kind: u8) -> Result<Node, Number> {
        Ok(match kind {
            0x10 => Node::And {
                left: self.condition()?,
                right: self.condition()?,
            },
            0x11 => Node::Or {
                left: self.condition()?,
                right: self.condition()?,
            },
            0x12 => Node::Not {
                inner: self.condition()?,
            },
            0x13 => Node::Formerly {
                body: self.condition()?,
                window: self.two_bytes()?,
            },
            0x14 => Node::Previous {
                body: self.condition()?,
                window: self.two_bytes()?,
            },
            0x15 => Node::Since {
                left: self.condition()?,
                right: self.condition()?,
                window: self.two_bytes()?,
            },
            0x16 => Node::Exists {
                slot: self.slot()?,
                type_byte: self.byte()?,
                body: self.condition()?,
            },
            0x17 => Node::Comparison {
                op: self.op(LAST_COMPARISON_OP)?,
                left: self.term()?,
                right: self.term()?,
            },
            0x18 => Node::Predicate {
                action: self.two_bytes()?,
                arguments: self.reference(Place::ArgumentList)?,
            },
            0x19 => Node::Refine {
                base: self.condition()?,
                arguments: self.reference(Place::ArgumentList)?,
            },
            0x1A => Node::Tp { slot: self.slot()? },
            0x1B => Node::Call {
                symbol: self.two_bytes()?,
            },
            0x1C => Node::SigilRef {
                symbol: self.two_bytes()?,
            },
            0x20 => Node::Var { name: self.name()? },
            0x21 => Node::Wildcard,
            0x22 => Node::Literal {
                symbol: self.two_bytes()?,
            },
            0x23 => Node::ScopeField {
                symbol: self.two_bytes()?,
            },
            0x24 => Node::ContextField {
                symbol: self.two_bytes()?,
            },
            0x25 => Node::ParamRef {
                number: self.byte()?,
            },
            0x26 => Node::BinderRef {
                number: self.byte()?,
            },
            0x27 => Node::Array {
                items: self.reference(Place::ItemList)?,
            },
            0x28 => Node::Arith {
                op: self.op(LAST_ARITH_OP)?,
                left: self.term()?,
                right: self.term()?,
            },
            0x29 => Node::Sum {
                summed: self.slot()?,
                binders: self.reference(Place::BinderList)?,
                body: self.condition()?,
            },
            0x2A => Node::Count {
                binders: self.reference(Place::BinderList)?,
                body: self.condition()?,
            },
            0x2B => Node::AggregateCall {
                symbol: self.two_bytes()?,
            },
            0x30 => Node::ListEnd,
            0x31 => Node::ArgumentCell {
                field: self.two_bytes()?,
                term: self.term()?,
                rest: self.reference(Place::ArgumentList)?,
            },
            0x32 => Node::ItemCell {
                term: self.term()?,
                rest: self.reference(Place::ItemList)?,
            },
            0x33 => Node::BinderCell {
                slot: self.slot()?,
                type_byte: self.byte()?,
                rest: self.reference(Place::BinderList)?,
            },
            _ => return Err(KIND_OR_ORDER),
        })
    }

    fn byte(&mut self) -> Result<u8, Number> {
        let (&first, rest) = self.bytes.split_first().ok_or(CUT)?;
        self.bytes = rest;
        Ok(first)
    }

    fn two_bytes(&mut self) -> Result<u16, Number> {
        Ok(u16::from_le_bytes([self.byte()?, self.byte()?]))
    }

    fn op(&mut self, last: u8) -> Result<u8, Number> {
        let op = self.byte()?;
        if op > last {
            return Err(OUT_OF_RANGE);
        }
        Ok(op)
    }

    fn name(&mut self) -> Result<NameNumber, Number> {
        let number = self.byte()?;
        if usize::from(number) >= self.names {
            return Err(OUT_OF_RANGE);
        }
        Ok(NameNumber(number))
    }

    fn slot(&mut self) -> Result<Slot, Number> {
        match self.byte()? {
            0 => Ok(Slot::Name(self.name()?)),
            1 => Ok(Slot::Parameter(self.byte()?)),
            2 => Ok(Slot::Binder(self.byte()?)),
            _ => Err(OUT_OF_RANGE),
        }
    }

    fn condition(&mut self) -> Result<NodeNumber, Number> {
        self.reference(Place::Condition)
    }

    fn term(&mut self) -> Result<NodeNumber, Number> {
        self.reference(Place::Term)
    }

    fn reference(&mut self, place: Place) -> Result<NodeNumber, Number> {
        let number = self.two_bytes()?;
        let child = self.seen.get_mut(usize::from(number)).ok_or(NOT_BELOW)?;
        if !place.takes(child.kind) {
            return Err(WRONG_SORT);
        }
        if child.referred_to {
            return Err(ALREADY_REFERRED_TO);
        }
        child.referred_to = true;
        self.deepest_child = self.deepest_child.max(child.depth);
        Ok(NodeNumber(number))
    }
}
