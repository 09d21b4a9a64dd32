pub mod error;
pub mod extension;

#[cfg(test)]
mod tests {
    use crate::error::Span;
    use crate::extension::temporal::ast::{BinderSlot, Condition, ConditionKind};
    use crate::extension::temporal::check::check_leaf_closed;

    #[test]
    fn a_free_timepoint_is_found() {
        let var = BinderSlot::Name("t".to_string());
        let condition = Condition {
            span: Span,
            kind: ConditionKind::Tp { var },
        };
        let message = check_leaf_closed(&condition).unwrap_err();
        assert!(message.starts_with("variable `t` is free"));
    }
}
