//! The keys are in the order of `f64::total_cmp`.

use tavitrozy::total_key;

const SIGN: u64 = 1 << 63;

/// With either sign and beside its neighbours: zero, subnormal and normal numbers, infinity, signalling and quiet NaNs.
fn patterns() -> Vec<u64> {
    let edges = [1, 1 << 52, 1.0f64.to_bits(), 0.1f64.to_bits(), f64::INFINITY.to_bits(), f64::NAN.to_bits(), SIGN - 2];
    edges.iter().flat_map(|edge| edge - 1..=edge + 1).flat_map(|bits| [bits, bits | SIGN]).collect()
}

#[test]
fn keys_are_placed_as_total_cmp_places() {
    for a in patterns() {
        for b in patterns() {
            let order = f64::from_bits(a).total_cmp(&f64::from_bits(b));
            assert_eq!(total_key(a).cmp(&total_key(b)), order, "{a:016x} {b:016x}");
        }
    }
}

#[test]
fn keys_reach_from_end_to_end() {
    assert_eq!(total_key(u64::MAX), 0);
    assert_eq!(total_key(SIGN), SIGN - 1);
    assert_eq!(total_key(0), SIGN);
    assert_eq!(total_key(SIGN - 1), u64::MAX);
}
