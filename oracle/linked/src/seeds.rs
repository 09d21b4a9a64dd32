//! Names in scope for scoping, by their bits.

use plain::random::Rng;

pub const SEEDS: usize = 5;

pub type Seeds = [u128; SEEDS];

/// Without a name, with every bit, and with about a half, a quarter and three quarters of the bits, those past any table too.
pub fn any_seeds(rng: &mut Rng) -> Seeds {
    let [half, one, other] = [any_bits(rng), any_bits(rng), any_bits(rng)];
    [0, u128::MAX, half, one & other, one | other]
}

fn any_bits(rng: &mut Rng) -> u128 {
    u128::from(rng.number()) << 64 | u128::from(rng.number())
}

/// With every bit turned that belongs to no name of a table of so many.
pub fn turned_past_the_table(seed: u128, names: usize) -> u128 {
    let past = u128::MAX.checked_shl(names as u32).unwrap_or(0);
    seed ^ past
}

#[cfg(test)]
mod tests {
    use super::turned_past_the_table;

    #[test]
    fn only_bits_of_no_name_are_turned() {
        assert_eq!(turned_past_the_table(0, 0), u128::MAX);
        assert_eq!(turned_past_the_table(5, 1), !4);
        assert_eq!(turned_past_the_table(u128::MAX, 127), u128::MAX >> 1);
        assert_eq!(turned_past_the_table(7, 128), 7);
    }
}
