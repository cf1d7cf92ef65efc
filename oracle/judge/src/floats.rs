//! Floats for couplings and weights: powers of two, random ones between two powers, and simpler ones to try in the place of one.

use crate::random::Random;

const MANTISSA: u32 = 52;

/// 2 to a power from -1074 on: below -1022 the float is subnormal.
pub fn power(exponent: i32) -> f64 {
    let bits = if exponent < -1022 { 1 << (exponent + 1074) } else { ((exponent + 1023) as u64) << MANTISSA };
    f64::from_bits(bits)
}

/// From one power of two, which is not subnormal, up to another: every exponent as often as any other.
pub fn between_powers(random: &mut Random, low: i32, high: i32) -> f64 {
    let exponent = low + random.below((high - low) as u64) as i32;
    let kept = random.pick(&[1, 3, 30, MANTISSA, MANTISSA]);
    let mantissa = random.next() >> (64 - kept) << (MANTISSA - kept);
    f64::from_bits(power(exponent).to_bits() | mantissa)
}

pub fn signed(random: &mut Random, float: f64) -> f64 {
    if random.one_in(2) { -float } else { float }
}

/// Whether every bit is the same.
pub fn same(one: &[f64], other: &[f64]) -> bool {
    one.len() == other.len() && one.iter().zip(other).all(|(one, other)| one.to_bits() == other.to_bits())
}

/// With their bits, since several are no numbers.
pub fn show(floats: &[f64]) -> String {
    let shown: Vec<String> = floats.iter().map(|float| format!("{float:e} ({:016X})", float.to_bits())).collect();
    format!("[{}]", shown.join(", "))
}

/// First of all the mantissa is to be short, then the exponent near that of 1.0, then the sign off.
pub fn size(float: f64) -> u128 {
    let bits = float.to_bits();
    let (mantissa, exponent) = ((bits << 12).reverse_bits(), bits >> MANTISSA & 0x7FF);
    u128::from(mantissa) * 4096 + u128::from(2 * exponent.abs_diff(1023) + (bits >> 63))
}

pub fn simpler(float: f64) -> Vec<f64> {
    let bits = float.to_bits();
    let cut = |low: u32| f64::from_bits(bits >> low << low);
    let exponent = (bits >> MANTISSA & 0x7FF) as i32 - 1023;
    let nearer = |exponent: i32| f64::from_bits((bits & !(0x7FF << MANTISSA)) | power(exponent).to_bits());
    let mut simpler = vec![1.0, 2.0, 0.0, -float];
    simpler.extend([52, 51, 40, 26, 13, 1].map(cut));
    simpler.extend([0, exponent / 2, exponent - exponent.signum()].map(nearer));
    simpler
}
