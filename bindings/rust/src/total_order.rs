//! The total order of doubles, by keys.

use crate::ffi;

/// The key of a double's bit pattern: the key of `a` is below the key of `b` exactly if [`f64::total_cmp`] places `a`
/// before `b`, and only equal patterns have equal keys.
///
/// It takes bits and no double, since the order has a place for every pattern: negative NaNs (the larger payload first),
/// -infinity, .., -0.0, 0.0, .., infinity, NaNs. The key is 2^63 + bits where the sign is clear, and 2^64 - 1 - bits where
/// it is set.
///
/// ```
/// let mut list = [0.0, f64::NAN, -0.0, f64::INFINITY, -1.0, -f64::NAN];
/// list.sort_by_key(|double| tavitrozy::total_key(double.to_bits()));
/// assert!(list.is_sorted_by(|a, b| a.total_cmp(b).is_lt()));
/// assert!(list[0].is_nan() && list[1..3] == [-1.0, -0.0]);
/// ```
#[must_use]
pub fn total_key(bits: u64) -> u64 {
    // SAFETY: nothing is lent; a number goes in and a number comes back.
    unsafe { ffi::tavitrozy_total_key(bits) }
}
