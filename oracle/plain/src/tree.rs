//! An accepted record as the tree that the Rust checks.

use dogwood::error::Span;
use dogwood::extension::temporal::ast::{
    AggExpr, AggExprKind, ArithOp, BinderSlot, Call, CmpOp, Condition, ConditionKind, Interval,
    NamedArg, Predicate, Sigil, Term, TimeUnit, Type, TypedBinder, WithinSpec,
};

use crate::record::{NameNumber, Node, NodeNumber, Record, Slot};

/// The record must be one that [`crate::read`] accepted.
pub fn condition(record: &Record) -> Condition {
    *Tree { record }.condition(record.root())
}

struct Tree<'a> {
    record: &'a Record,
}

impl Tree<'_> {
    fn condition(&self, number: NodeNumber) -> Box<Condition> {
        Box::new(Condition {
            span: Span,
            kind: self.condition_kind(number),
        })
    }

    fn condition_kind(&self, number: NodeNumber) -> ConditionKind {
        let node = self.record.node(number);
        match node {
            Node::And { left, right } => ConditionKind::And {
                left: self.condition(left),
                right: self.condition(right),
            },
            Node::Or { left, right } => ConditionKind::Or {
                left: self.condition(left),
                right: self.condition(right),
            },
            Node::Not { inner } => ConditionKind::Not {
                inner: self.condition(inner),
            },
            Node::Formerly { body, window } => ConditionKind::Formerly {
                within: seconds(window),
                body: self.condition(body),
            },
            Node::Previous { body, window } => ConditionKind::Previous {
                within: seconds(window),
                body: self.condition(body),
            },
            Node::Since {
                left,
                right,
                window,
            } => ConditionKind::Since {
                left: self.condition(left),
                within: seconds(window),
                right: self.condition(right),
            },
            Node::Exists {
                slot,
                type_byte,
                body,
            } => ConditionKind::Exists {
                var: self.typed_binder(slot, type_byte),
                body: self.condition(body),
            },
            Node::Comparison { op, left, right } => ConditionKind::Comparison {
                op: comparison_op(op),
                left: self.term(left),
                right: self.term(right),
            },
            Node::Predicate { action, arguments } => ConditionKind::Predicate(Predicate {
                span: Span,
                namespace: Vec::new(),
                action: action.to_string(),
                kind: String::new(),
                args: self.arguments(arguments),
            }),
            Node::Refine { base, arguments } => ConditionKind::Refine {
                base: self.condition(base),
                fields: self.arguments(arguments),
                span: Span,
            },
            Node::Tp { slot } => ConditionKind::Tp {
                var: self.binder_slot(slot),
            },
            Node::Call { symbol } => ConditionKind::Call(call(symbol)),
            Node::SigilRef { symbol } => ConditionKind::SigilRef {
                sigil: Sigil::Param,
                name: symbol.to_string(),
            },
            _ => unreachable!("the reader takes only conditions here, not {node:?}"),
        }
    }

    fn term(&self, number: NodeNumber) -> Term {
        let node = self.record.node(number);
        match node {
            Node::Var { name } => Term::Var(self.name(name)),
            Node::Wildcard => Term::Wildcard,
            Node::Literal { symbol } => Term::Integer(i64::from(symbol)),
            Node::ScopeField { symbol } => Term::ScopeField(vec![symbol.to_string()]),
            Node::ContextField { symbol } => Term::ContextField(vec![symbol.to_string()]),
            Node::ParamRef { number } => Term::ParamRef(parameter(number)),
            Node::BinderRef { number } => Term::BinderRef(binder(number)),
            Node::Array { items } => Term::Array(self.items(items)),
            Node::Arith { op, left, right } => Term::Arith {
                op: arith_op(op),
                left: Box::new(self.term(left)),
                right: Box::new(self.term(right)),
            },
            Node::Sum {
                summed,
                binders,
                body,
            } => aggregate(AggExprKind::Sum {
                bound_var: self.binder_slot(summed),
                for_vars: self.binders(binders),
                body: self.condition(body),
            }),
            Node::Count { binders, body } => aggregate(AggExprKind::Count {
                for_vars: self.binders(binders),
                body: self.condition(body),
            }),
            Node::AggregateCall { symbol } => aggregate(AggExprKind::Call(call(symbol))),
            _ => unreachable!("the reader takes only terms here, not {node:?}"),
        }
    }

    fn arguments(&self, mut list: NodeNumber) -> Vec<NamedArg> {
        let mut arguments = Vec::new();
        while let Node::ArgumentCell { field, term, rest } = self.record.node(list) {
            arguments.push(NamedArg {
                name: field.to_string(),
                value: self.term(term),
            });
            list = rest;
        }
        arguments
    }

    fn items(&self, mut list: NodeNumber) -> Vec<Term> {
        let mut items = Vec::new();
        while let Node::ItemCell { term, rest } = self.record.node(list) {
            items.push(self.term(term));
            list = rest;
        }
        items
    }

    fn binders(&self, mut list: NodeNumber) -> Vec<TypedBinder> {
        let mut binders = Vec::new();
        while let Node::BinderCell {
            slot,
            type_byte,
            rest,
        } = self.record.node(list)
        {
            binders.push(self.typed_binder(slot, type_byte));
            list = rest;
        }
        binders
    }

    fn typed_binder(&self, slot: Slot, type_byte: u8) -> TypedBinder {
        TypedBinder {
            slot: self.binder_slot(slot),
            ty: Type::Named(vec![type_byte.to_string()]),
        }
    }

    fn binder_slot(&self, slot: Slot) -> BinderSlot {
        match slot {
            Slot::Name(name) => BinderSlot::Name(self.name(name)),
            Slot::Parameter(number) => BinderSlot::ParamRef(parameter(number)),
            Slot::Binder(number) => BinderSlot::BinderRef(binder(number)),
        }
    }

    fn name(&self, number: NameNumber) -> String {
        self.record.name(number).to_string()
    }
}

fn parameter(number: u8) -> String {
    format!("p{number}")
}

fn binder(number: u8) -> String {
    format!("t{number}")
}

fn seconds(window: u16) -> WithinSpec {
    WithinSpec::Concrete(Interval {
        amount: i64::from(window),
        unit: TimeUnit::Seconds,
    })
}

fn call(symbol: u16) -> Call {
    Call {
        span: Span,
        name: symbol.to_string(),
        args: Vec::new(),
    }
}

fn aggregate(kind: AggExprKind) -> Term {
    Term::Agg(Box::new(AggExpr { span: Span, kind }))
}

// Document 01 names 0 alone, and document 02 (W-207) 1 and 2; 3 to 5 are our reading (docs/DECISIONS.md). The checks treat 1 to 5 alike.
fn comparison_op(op: u8) -> CmpOp {
    match op {
        0 => CmpOp::Eq,
        1 => CmpOp::Lt,
        2 => CmpOp::Le,
        3 => CmpOp::Gt,
        4 => CmpOp::Ge,
        5 => CmpOp::NotEq,
        _ => unreachable!("the reader takes no comparison op {op}"),
    }
}

fn arith_op(op: u8) -> ArithOp {
    match op {
        0 => ArithOp::Add,
        1 => ArithOp::Sub,
        2 => ArithOp::Mul,
        _ => unreachable!("the reader takes no arith op {op}"),
    }
}
