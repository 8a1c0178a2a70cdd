//! The floating-point environment that the library's exactness rests on.

use std::hint::black_box;

/// Whether doubles are computed as the library's proofs take for granted: rounded to nearest, subnormal numbers kept, as
/// results and as operands. Rust programs begin so; a host that sets flush-to-zero or denormals-are-zero for its threads
/// (usual where sound and animation are computed) makes the library's answers differ.
///
/// The environment belongs to a thread. Call this at the program's start, on each thread that asks the library.
///
/// ```
/// assert!(tavitrozy::environment_is_exact());
/// ```
#[must_use]
pub fn environment_is_exact() -> bool {
    rounds_to_nearest() && keeps_subnormal_results() && keeps_subnormal_operands()
}

fn sum(a: f64, b: f64) -> f64 {
    black_box(black_box(a) + black_box(b))
}

fn product(a: f64, b: f64) -> f64 {
    black_box(black_box(a) * black_box(b))
}

/// Upward misses the first sum, downward and toward zero the second.
fn rounds_to_nearest() -> bool {
    let (one, quarter) = (1.0f64, f64::EPSILON / 4.0);
    let above = f64::from_bits(one.to_bits() + 1);
    sum(one, quarter).to_bits() == one.to_bits() && sum(one, 3.0 * quarter).to_bits() == above.to_bits()
}

fn keeps_subnormal_results() -> bool {
    product(f64::MIN_POSITIVE, 0.5).to_bits() == 1 << 51
}

fn keeps_subnormal_operands() -> bool {
    product(f64::from_bits(1), 2f64.powi(1000)).to_bits() == 2f64.powi(1000 - 1074).to_bits()
}
