//! The runs of `u1_params` and `su2_params`.

use crate::case::{Tally, run};
use crate::couplings::{self, ENDS, Mode, OUTSIDE, Params};
use crate::floats;
use crate::random::Random;
use crate::runs::QUICK_SEED;

const QUICK_ROUNDS: usize = 30_000;

fn both(g_squared: f64, tally: &mut Tally) {
    for mode in Mode::BOTH {
        run(&Params { mode, g_squared }, tally);
    }
}

/// The ends of the range and a thousand neighbours on both sides of each, everything strange, every power of two, and random floats.
pub fn quick(tally: &mut Tally) {
    for end in ENDS.map(f64::to_bits) {
        for bits in end - 1_000..=end + 1_000 {
            both(f64::from_bits(bits), tally);
        }
    }
    let powers = (-1074..1024).map(floats::power);
    for g_squared in OUTSIDE.into_iter().chain([1.0, 3.0, 1.0 / 3.0]).chain(powers) {
        both(g_squared, tally);
        both(-g_squared, tally);
    }
    let mut random = Random::new(QUICK_SEED);
    for _ in 0..QUICK_ROUNDS {
        random_round(&mut random, tally);
    }
}

/// One in the range, and one of any bits.
pub fn random_round(random: &mut Random, tally: &mut Tally) {
    both(couplings::any_g_squared(random), tally);
    both(f64::from_bits(random.next()), tally);
}
