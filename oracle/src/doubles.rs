//! Doubles as places on a line: both zeros are place 0, the next lower double is one place down.

/// The greatest magnitude of a stored time.
pub const FAR: f64 = 1099511627776.0;

/// The place of a finite double.
pub fn place(d: f64) -> i64 {
    let magnitude = (d.to_bits() & (u64::MAX >> 1)) as i64;
    if d.is_sign_negative() { -magnitude } else { magnitude }
}

/// The double at a place, zero as 0.0.
pub fn at(place: i64) -> f64 {
    let sign = if place < 0 { 1 << 63 } else { 0 };
    f64::from_bits(sign | place.unsigned_abs())
}

/// A listed time that number 2 passes.
pub fn listed(d: f64) -> bool {
    d.is_finite() && d.abs() <= FAR
}
