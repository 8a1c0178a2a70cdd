//! The check of the floating-point environment: it sees each setting that the library cannot stand.
#![cfg(target_arch = "x86_64")]

use std::arch::asm;

fn with_control(word: u32) -> bool {
    let (mut before, word) = (0u32, word);
    // SAFETY: the control word is put back before anything else is computed with doubles.
    unsafe { asm!("stmxcsr [{}]", in(reg) &raw mut before) };
    unsafe { asm!("ldmxcsr [{}]", in(reg) &raw const word) };
    let exact = tavitrozy::environment_is_exact();
    unsafe { asm!("ldmxcsr [{}]", in(reg) &raw const before) };
    exact
}

#[test]
fn each_setting_is_seen() {
    const USUAL: u32 = 0x1f80;
    assert!(tavitrozy::environment_is_exact());
    assert!(with_control(USUAL));
    for (name, bits) in [
        ("flush to zero", 0x8000),
        ("denormals are zero", 0x0040),
        ("downward", 0x2000),
        ("upward", 0x4000),
        ("toward zero", 0x6000),
    ] {
        assert!(!with_control(USUAL | bits), "{name} is not seen");
    }
    assert!(tavitrozy::environment_is_exact());
}
