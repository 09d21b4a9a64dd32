//! Inputs at random, and what the questions about them are asked with.

use plain::random::{damaged, noise, record, Rng};

use crate::records::{balanced, chain, tower, tower_over_all, Layer, LAYERS};
use crate::seeds::{any_seeds, Seeds};

#[derive(Debug)]
pub struct Input {
    pub bytes: Vec<u8>,
    /// The number of a name, one past any table now and then.
    pub name: u8,
    pub seeds: Seeds,
}

pub fn any_input(rng: &mut Rng) -> Input {
    Input {
        bytes: any_bytes(rng),
        name: rng.below(130) as u8,
        seeds: any_seeds(rng),
    }
}

fn any_bytes(rng: &mut Rng) -> Vec<u8> {
    if rng.one_in(50) {
        return about_the_limits(rng);
    }
    let size = 1 + rng.below(60);
    match rng.below(4) {
        0 => record(rng, size),
        1 => noise(rng),
        _ => {
            let good = record(rng, size);
            damaged(rng, &good)
        }
    }
}

/// Of names, nodes or depth, and a little past them.
fn about_the_limits(rng: &mut Rng) -> Vec<u8> {
    let names = 124 + rng.below(8);
    let depth = 60 + rng.below(8);
    let good = match rng.below(6) {
        0 => chain(names, depth),
        1 => balanced(names, 507 + 2 * rng.below(5)),
        2 => tower(1 + rng.below(4), depth, any_layers(rng)),
        3 => tower_over_all(names, depth, any_layers(rng)),
        _ => record(rng, 512),
    };
    match rng.below(4) {
        0 => damaged(rng, &good),
        _ => good,
    }
}

/// Of two kinds: of more, one or the other would keep most lists short.
fn any_layers(rng: &mut Rng) -> impl FnMut() -> &'static Layer + '_ {
    let two = [rng.below(LAYERS.len()), rng.below(LAYERS.len())];
    move || &LAYERS[rng.choose(&two)]
}
