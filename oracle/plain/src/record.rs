/// A record that was accepted. Every node refers only to nodes before it; the last is the root.
#[derive(Debug, Clone, PartialEq, Eq)]
pub struct Record {
    pub names: Vec<String>,
    pub nodes: Vec<Node>,
}

impl Record {
    pub fn root(&self) -> NodeNumber {
        let last = self.nodes.len() - 1;
        NodeNumber(u16::try_from(last).expect("the reader takes no more than 512 nodes"))
    }

    pub fn node(&self, number: NodeNumber) -> Node {
        self.nodes[usize::from(number.0)]
    }

    pub fn name(&self, number: NameNumber) -> &str {
        &self.names[usize::from(number.0)]
    }
}

#[derive(Debug, Clone, Copy, PartialEq, Eq)]
pub struct NameNumber(pub u8);

#[derive(Debug, Clone, Copy, PartialEq, Eq)]
pub struct NodeNumber(pub u16);

#[derive(Debug, Clone, Copy, PartialEq, Eq)]
pub enum Slot {
    Name(NameNumber),
    Parameter(u8),
    Binder(u8),
}

/// Document 01's table of kinds, its fields in its order.
#[derive(Debug, Clone, Copy, PartialEq, Eq)]
pub enum Node {
    And {
        left: NodeNumber,
        right: NodeNumber,
    },
    Or {
        left: NodeNumber,
        right: NodeNumber,
    },
    Not {
        inner: NodeNumber,
    },
    Formerly {
        body: NodeNumber,
        window: u16,
    },
    Previous {
        body: NodeNumber,
        window: u16,
    },
    Since {
        left: NodeNumber,
        right: NodeNumber,
        window: u16,
    },
    Exists {
        slot: Slot,
        type_byte: u8,
        body: NodeNumber,
    },
    Comparison {
        op: u8,
        left: NodeNumber,
        right: NodeNumber,
    },
    Predicate {
        action: u16,
        arguments: NodeNumber,
    },
    Refine {
        base: NodeNumber,
        arguments: NodeNumber,
    },
    Tp {
        slot: Slot,
    },
    Call {
        symbol: u16,
    },
    SigilRef {
        symbol: u16,
    },
    Var {
        name: NameNumber,
    },
    Wildcard,
    Literal {
        symbol: u16,
    },
    ScopeField {
        symbol: u16,
    },
    ContextField {
        symbol: u16,
    },
    ParamRef {
        number: u8,
    },
    BinderRef {
        number: u8,
    },
    Array {
        items: NodeNumber,
    },
    Arith {
        op: u8,
        left: NodeNumber,
        right: NodeNumber,
    },
    Sum {
        summed: Slot,
        binders: NodeNumber,
        body: NodeNumber,
    },
    Count {
        binders: NodeNumber,
        body: NodeNumber,
    },
    AggregateCall {
        symbol: u16,
    },
    ListEnd,
    ArgumentCell {
        field: u16,
        term: NodeNumber,
        rest: NodeNumber,
    },
    ItemCell {
        term: NodeNumber,
        rest: NodeNumber,
    },
    BinderCell {
        slot: Slot,
        type_byte: u8,
        rest: NodeNumber,
    },
}

impl Node {
    /// Document 01's byte of kind.
    pub fn kind(&self) -> u8 {
        match self {
            Node::And { .. } => 0x10,
            Node::Or { .. } => 0x11,
            Node::Not { .. } => 0x12,
            Node::Formerly { .. } => 0x13,
            Node::Previous { .. } => 0x14,
            Node::Since { .. } => 0x15,
            Node::Exists { .. } => 0x16,
            Node::Comparison { .. } => 0x17,
            Node::Predicate { .. } => 0x18,
            Node::Refine { .. } => 0x19,
            Node::Tp { .. } => 0x1A,
            Node::Call { .. } => 0x1B,
            Node::SigilRef { .. } => 0x1C,
            Node::Var { .. } => 0x20,
            Node::Wildcard => 0x21,
            Node::Literal { .. } => 0x22,
            Node::ScopeField { .. } => 0x23,
            Node::ContextField { .. } => 0x24,
            Node::ParamRef { .. } => 0x25,
            Node::BinderRef { .. } => 0x26,
            Node::Array { .. } => 0x27,
            Node::Arith { .. } => 0x28,
            Node::Sum { .. } => 0x29,
            Node::Count { .. } => 0x2A,
            Node::AggregateCall { .. } => 0x2B,
            Node::ListEnd => 0x30,
            Node::ArgumentCell { .. } => 0x31,
            Node::ItemCell { .. } => 0x32,
            Node::BinderCell { .. } => 0x33,
        }
    }

    pub fn children(&self) -> Vec<NodeNumber> {
        match *self {
            Node::And { left, right }
            | Node::Or { left, right }
            | Node::Since { left, right, .. }
            | Node::Comparison { left, right, .. }
            | Node::Arith { left, right, .. } => vec![left, right],
            Node::Not { inner } => vec![inner],
            Node::Formerly { body, .. }
            | Node::Previous { body, .. }
            | Node::Exists { body, .. } => vec![body],
            Node::Predicate { arguments, .. } => vec![arguments],
            Node::Refine { base, arguments } => vec![base, arguments],
            Node::Array { items } => vec![items],
            Node::Sum { binders, body, .. } | Node::Count { binders, body } => vec![binders, body],
            Node::ArgumentCell { term, rest, .. } | Node::ItemCell { term, rest } => {
                vec![term, rest]
            }
            Node::BinderCell { rest, .. } => vec![rest],
            Node::Tp { .. }
            | Node::Call { .. }
            | Node::SigilRef { .. }
            | Node::Var { .. }
            | Node::Wildcard
            | Node::Literal { .. }
            | Node::ScopeField { .. }
            | Node::ContextField { .. }
            | Node::ParamRef { .. }
            | Node::BinderRef { .. }
            | Node::AggregateCall { .. }
            | Node::ListEnd => Vec::new(),
        }
    }
}
