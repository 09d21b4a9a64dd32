//! The definitions that a proof may unfold.

/// Of a module of `specs`, by its text, each by its whole path.
pub fn definitions(module: &str, text: &str) -> Vec<String> {
    let mut in_unfoldable_block = false;
    let mut names = Vec::new();
    for line in text.lines() {
        if line.starts_with(|first| first != ' ') {
            in_unfoldable_block = line == "unfoldable mutual";
        }
        if let Some(name) = unfoldable(line, in_unfoldable_block) {
            names.push(format!("Rattle.paper.specs.{module}.{name}"));
        }
    }
    names
}

fn unfoldable(line: &str, in_unfoldable_block: bool) -> Option<&str> {
    let mark = if in_unfoldable_block {
        "pub "
    } else {
        "unfoldable pub "
    };
    let (name, _type) = line.trim_start().strip_prefix(mark)?.split_once(' ')?;
    Some(name)
}

#[cfg(test)]
mod tests {
    use super::definitions;

    const TEXT: &str = "\
-- unfoldable pub, in a comment
abbrev pub Set : Type 0
Set = ℕ → Bool

infixl 64 ◌∪◌
unfoldable pub ◌∪◌ : Set → Set → Set
◌∪◌ a b k = a k || b k

unfoldable mutual
  pub free : Condition → Set
  free (Not n b) = free b

  pub term_free : Term → Set

pub data Tree : Type 0 where
module _ (t : ℕ → Tree) where
  abbrev pub term : NodeNo → Term
  unfoldable pub planted {ℓ} : Node → Tree
";

    #[test]
    fn the_unfoldable_ones_and_no_others() {
        let names = ["◌∪◌", "free", "term_free", "planted"];
        let paths = names.map(|name| format!("Rattle.paper.specs.Sets.{name}"));
        assert_eq!(definitions("Sets", TEXT), paths);
    }
}
