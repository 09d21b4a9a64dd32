//! What the Rust says of a condition, in document 01's numbers.

use std::collections::BTreeSet;
use std::fmt;

use dogwood::extension::temporal::ast::Condition;
use dogwood::extension::temporal::check::{
    check_condition, check_demands, check_leaf_closed, reject_arithmetic_unless_enabled,
};

/// The first rule that is not met and the name in question; rule 0 is "accepted".
#[derive(Debug, Clone, PartialEq, Eq)]
pub struct Answer {
    pub rule: u32,
    pub name: Option<String>,
}

impl Answer {
    pub const ACCEPTED: Answer = Answer {
        rule: 0,
        name: None,
    };
}

impl fmt::Display for Answer {
    fn fmt(&self, f: &mut fmt::Formatter<'_>) -> fmt::Result {
        match self {
            Answer { rule: 0, .. } => write!(f, "accepted"),
            Answer { rule, name: None } => write!(f, "{rule}"),
            Answer {
                rule,
                name: Some(name),
            } => write!(f, "{rule} {name}"),
        }
    }
}

pub fn scoping(c: &Condition, seed: &BTreeSet<String>) -> Answer {
    answer(check_condition(c, seed))
}

pub fn closedness(c: &Condition) -> Answer {
    answer(check_leaf_closed(c))
}

pub fn demands(c: &Condition) -> Answer {
    answer(check_demands(c))
}

pub fn arithmetic(c: &Condition) -> Answer {
    answer(reject_arithmetic_unless_enabled(c))
}

fn answer(said: Result<(), String>) -> Answer {
    match said {
        Ok(()) => Answer::ACCEPTED,
        Err(message) => MESSAGES
            .iter()
            .find_map(|known| known.answer(&message))
            .unwrap_or_else(|| panic!("no rule of document 01 has this message: {message}")),
    }
}

/// The fixed text with which a message begins. A name stands between each two pieces, the one in question last.
struct Message {
    rule: u32,
    pieces: &'static [&'static str],
}

const MESSAGES: [Message; 13] = [
    Message {
        rule: 20,
        pieces: &["an aggregate (`sum`/`count`) may appear only as "],
    },
    Message {
        rule: 21,
        pieces: &["arithmetic (`+`/`-`/`*`) may appear only as "],
    },
    Message {
        rule: 22,
        pieces: &[
            "`",
            "` is a reserved word and cannot be used as a binder name",
        ],
    },
    Message {
        rule: 23,
        pieces: &["existential variable `", "` is not range-restricted "],
    },
    Message {
        rule: 24,
        pieces: &[
            "aggregation sums `",
            "`, which is not one of its `for` binders ",
        ],
    },
    Message {
        rule: 25,
        pieces: &["variable `", "` is used in the aggregation body but "],
    },
    Message {
        rule: 26,
        pieces: &[
            "`for`-variable `",
            "` does not occur in the aggregation body ",
        ],
    },
    Message {
        rule: 27,
        pieces: &["aggregation `for`-variable `", "` is not range-restricted "],
    },
    Message {
        rule: 28,
        pieces: &["variable `", "` is free in this temporal condition "],
    },
    Message {
        rule: 30,
        pieces: &[
            "the equality binding `",
            "` reads `",
            "` inside its aggregate operand ",
        ],
    },
    Message {
        rule: 31,
        pieces: &["variable `", "` is used in a filter "],
    },
    Message {
        rule: 32,
        pieces: &["variable `", "` is used in the left operand of a `since` "],
    },
    Message {
        rule: 40,
        pieces: &["arithmetic in comparison operands is not yet supported"],
    },
];

impl Message {
    fn answer(&self, message: &str) -> Option<Answer> {
        let (first, others) = self.pieces.split_first()?;
        let mut rest = message.strip_prefix(first)?;
        let mut name = None;
        for piece in others {
            // A name holds no backquote, and each piece after a name begins with one.
            let (before, after) = rest.split_at(rest.find('`')?);
            name = Some(before.to_string());
            rest = after.strip_prefix(piece)?;
        }
        Some(Answer {
            rule: self.rule,
            name,
        })
    }
}
