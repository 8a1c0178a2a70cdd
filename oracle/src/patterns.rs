//! Bit patterns of doubles for the total order, NaNs of both signs and every payload among them.

use crate::random::{Random, Scale};

const SIGN: u64 = 1 << 63;
const INFINITY: u64 = 0x7ff << 52;
const QUIET: u64 = 1 << 51;
const FRACTION: u64 = (1 << 52) - 1;

/// Where something begins or ends, without the sign: zero, subnormal and normal numbers, infinity, signalling and quiet
/// NaNs.
const MAGNITUDES: [u64; 12] = [
    0,
    1,
    FRACTION,
    FRACTION + 1,
    0x3ff << 52,
    INFINITY - 1,
    INFINITY,
    INFINITY | 1,
    INFINITY | (QUIET - 1),
    INFINITY | QUIET,
    INFINITY | QUIET | 1,
    INFINITY | FRACTION,
];

/// The telling patterns: those magnitudes with either sign.
pub fn telling() -> [u64; 2 * MAGNITUDES.len()] {
    std::array::from_fn(|i| MAGNITUDES[i / 2] | (i as u64 % 2) << 63)
}

/// A fraction of any number of digits.
fn fraction(random: &mut Random) -> u64 {
    (random.bits() & FRACTION) >> random.below(52)
}

/// A pattern of any kind, doubles such as sets have among them.
fn any(random: &mut Random) -> u64 {
    match random.below(8) {
        0 | 1 => random.pick(&telling()),
        2 => random.pick(&[0, SIGN]) | INFINITY | random.pick(&[0, QUIET]) | fraction(random),
        3 => random.pick(&[0, SIGN]) | fraction(random),
        4 => random.bits(),
        5 => random.value().to_bits(),
        _ => Scale::any(random).time(random).to_bits(),
    }
}

/// Two patterns, for the most part near one another: the same, of the other sign, with another bit, next to it.
pub fn pair(random: &mut Random) -> (u64, u64) {
    let first = any(random);
    let second = match random.below(8) {
        0 => first,
        1 => first ^ SIGN,
        2 => first ^ 1 << random.below(64),
        3 => first.wrapping_add(1),
        4 => first.wrapping_sub(1),
        _ => any(random),
    };
    (first, second)
}
