//! The text of Sample.antt: for each input, that the definitions compute to the plain answers.

use std::fmt::Display;

use plain::lists::Entry;
use plain::names::{Equality, Reason};
use plain::{NodeNumber, Refusal};

use crate::sample::{Answers, Input};

// So that no declaration comes near the checker's limit of steps.
const INPUTS_TO_A_GROUP: usize = 20;
const NO_NAME: u8 = 255;

const HEAD: &str = "\
-- What the definitions say of each input, and what a plain second implementation says: the same, by computation.
use Rattle.std.specs.Prelude.{ℕ, zero, suc, ◌≡◌, refl, Bool, false, ◌||◌, List, [], ◌∷◌, ◌++◌, map, eqb, length, Result, Ok, Err}
use Rattle.paper.specs.declared.NodeNo.{NodeNo}
use Rattle.paper.specs.declared.Node.{Node}
use Rattle.paper.specs.declared.Counts.{Counts}
use Rattle.paper.specs.declared.Refusal.{Refusal}
use Rattle.paper.specs.declared.Reason.TheVariants as reason
use Rattle.paper.specs.declared.Equality.{Equality}
use Rattle.paper.specs.declared.Equality.TheVariants.{Left, Right, Nothing}
use Rattle.paper.specs.Record.{pick, node_no, name_no}
use Rattle.paper.specs.TurnedAway as reader
use Rattle.paper.specs.TurnedAway.{Outcome, counts, refusal, read, verdict}
use Rattle.paper.specs.Tree.{Condition, as_condition, tree_at}
use Rattle.paper.specs.Tree.Condition.{And, Or, Not, Past, Since, Exists, Comparison, Predicate, Refine, Tp, Opaque}
use Rattle.paper.specs.FreeAndRestricted.{equality, is_equality}
use Rattle.paper.specs.Questions as questions
use Rattle.paper.specs.Questions.{Numbers, answer_numbers, arithmetic_numbers, listing_numbers}
";

const TOLD: &str = "
-- the bytes, the names in scope, the lent buffer, and the number of a name
pub record Input : Type 0 where
  pub bytes : List ℕ
  pub scope : List ℕ
  pub lent : List ℕ
  pub number : ℕ

-- a comparison with op 0, and what the equality test says of it
pub record Tested : Type 0 where
  pub node : NodeNo
  pub says : Equality

pub record Told : Type 0 where
  pub counted : Result Counts Refusal
  pub listed : Numbers
  pub buffer : List ℕ
  pub arithmetic : Numbers
  pub scoping : Numbers
  pub closedness : Numbers
  pub demands : Numbers
  pub name : List ℕ
  pub equalities : List Tested

unfoldable pub among : List ℕ → ℕ → Bool
among [] k = false
among (x ∷ xs) k = eqb k x || among xs k

unfoldable pub if_equality : Condition → List Tested
if_equality (Comparison n o l r) = pick (is_equality o) (record { node = n; says = equality l r } ∷ []) []
if_equality (And n l r) = []
if_equality (Or n l r) = []
if_equality (Not n b) = []
if_equality (Past n k b w) = []
if_equality (Since n l r w) = []
if_equality (Exists n s y b) = []
if_equality (Predicate n a l) = []
if_equality (Refine n b l) = []
if_equality (Tp n s) = []
if_equality (Opaque n k y) = []

-- among the first n nodes, ascending; what is no condition is taken for a predicate, and so left out
unfoldable pub equalities_below : List Node → ℕ → List Tested
equalities_below nodes zero = []
equalities_below nodes (suc n) = equalities_below nodes n ++ if_equality (as_condition (tree_at nodes n))

unfoldable pub equalities_of : Outcome → List Tested
equalities_of (reader.refused number offset) = []
equalities_of (reader.accepted c) = equalities_below c.nodes (length c.nodes)

unfoldable pub told : Input → Told
told i =
    record {
      counted = verdict (read i.bytes);
      listed = listing_numbers (questions.list i.bytes (length i.lent));
      buffer = questions.list_buffer i.bytes i.lent;
      arithmetic = arithmetic_numbers (questions.arithmetic i.bytes);
      scoping = answer_numbers (questions.scoping i.bytes (among i.scope));
      closedness = answer_numbers (questions.closedness i.bytes);
      demands = answer_numbers (questions.demands i.bytes);
      name = questions.name i.bytes i.number;
      equalities = equalities_of (read i.bytes);
    }

abbrev asked : List ℕ → List ℕ → List ℕ → ℕ → Input
asked bytes scope lent number = record { bytes = bytes; scope = scope; lent = lent; number = number }

abbrev numbers : ℕ → ℕ → ℕ → Numbers
numbers number place name = record { number = number; place = place; name = name }

abbrev tested : ℕ → Equality → Tested
tested node says = record { node = node_no node; says = says }

abbrev accepted : Counts → Numbers → List ℕ → Numbers → Numbers → Numbers → Numbers → List ℕ → List Tested → Told
accepted counted listing buffer yes_or_no first_20_to_27 first_28 first_30_to_32 text each_tested =
    record {
      counted = Ok counted;
      listed = listing;
      buffer = buffer;
      arithmetic = yes_or_no;
      scoping = first_20_to_27;
      closedness = first_28;
      demands = first_30_to_32;
      name = text;
      equalities = each_tested;
    }

abbrev refused : ℕ → ℕ → List ℕ → Told
refused number offset buffer =
    record {
      counted = Err (refusal number offset);
      listed = numbers number offset 255;
      buffer = buffer;
      arithmetic = numbers number offset 255;
      scoping = numbers number offset 255;
      closedness = numbers number offset 255;
      demands = numbers number offset 255;
      name = [];
      equalities = [];
    }
";

pub fn text(opened: &[String], inputs: &[Input]) -> String {
    let groups = inputs
        .chunks(INPUTS_TO_A_GROUP)
        .enumerate()
        .map(|(number, inputs)| group(number, inputs));
    [HEAD.to_string(), computed(opened), TOLD.to_string()]
        .into_iter()
        .chain(groups)
        .collect()
}

fn computed(opened: &[String]) -> String {
    format!(
        "
-- every definition opened, for what is computed
computed : Unit {{0}}
unfolding {}
computed = tt
",
        opened.join(" ")
    )
}

fn group(number: usize, inputs: &[Input]) -> String {
    let asked = inputs.iter().map(asked);
    let told = inputs.iter().map(told);
    format!(
        "
group_{number} :
    map told
    {}
    ≡ {}
unfolding computed among if_equality equalities_below equalities_of told
group_{number} = refl
",
        list(asked),
        list(told)
    )
}

fn asked(input: &Input) -> String {
    let scope = (0..128).filter(|name| input.seed >> name & 1 == 1);
    format!(
        "asked {} {} {} {}",
        list(&input.bytes),
        list(scope),
        list(&input.lent),
        input.name
    )
}

fn told(input: &Input) -> String {
    match Answers::to(input) {
        Answers::Refused(Refusal { number, offset }) => {
            format!("refused {number} {offset} {}", list(&input.lent))
        }
        Answers::Accepted(accepted) => format!(
            "accepted (counts {} {}) {} {} {} {} {} {} {} {}",
            accepted.names,
            accepted.nodes,
            listing(accepted.entries, input.lent.len()),
            list(accepted.buffer),
            arithmetic(accepted.arithmetic),
            first(accepted.scoping),
            first(accepted.closedness),
            first(accepted.demands),
            list(accepted.name.bytes()),
            list(accepted.equalities.into_iter().map(tested))
        ),
    }
}

fn listing(entries: usize, room: usize) -> String {
    let number = if entries <= room { 0 } else { 50 };
    numbers(number, entries, NO_NAME)
}

fn arithmetic(yes: bool) -> String {
    numbers(if yes { 40 } else { 0 }, 0, NO_NAME)
}

fn first(entry: Option<Entry>) -> String {
    match entry {
        None => numbers(0, 0, NO_NAME),
        Some(entry) => numbers(entry.rule, entry.node, entry.name.unwrap_or(NO_NAME)),
    }
}

fn tested((node, equality): (NodeNumber, Equality)) -> String {
    let says = match equality {
        Equality::Left(name) => format!("Left (name_no {})", name.0),
        Equality::Right(name) => format!("Right (name_no {})", name.0),
        Equality::Nothing(reason) => format!("Nothing {}", variant(reason)),
    };
    format!("tested {} ({says})", node.0)
}

fn variant(reason: Reason) -> &'static str {
    match reason {
        Reason::BothBare => "reason.BothBare",
        Reason::NeitherBare => "reason.NeitherBare",
        Reason::Wildcard => "reason.Wildcard",
        Reason::Arithmetic => "reason.Arithmetic",
    }
}

fn numbers(number: impl Display, place: impl Display, name: u8) -> String {
    format!("(numbers {number} {place} {name})")
}

fn list(items: impl IntoIterator<Item = impl Display>) -> String {
    let items: String = items.into_iter().map(|item| format!("{item} ∷ ")).collect();
    format!("({items}[])")
}
