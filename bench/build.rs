//! Fetches the Rust as the oracle does, and links libsorts.a (crates/sorts) where it stands beside the library.

use std::env;
use std::path::PathBuf;

#[path = "../oracle/build.rs"]
mod oracle;

fn main() {
    oracle::main();
    println!("cargo::rerun-if-changed=build.rs");
    println!("cargo::rerun-if-env-changed=TAVITROZY_LIB_DIR");
    println!("cargo::rustc-check-cfg=cfg(sorts)");
    let here = PathBuf::from(env::var_os("CARGO_MANIFEST_DIR").expect("cargo sets it"));
    let set = env::var_os("TAVITROZY_LIB_DIR").filter(|set| !set.is_empty());
    let folder = set.map_or_else(|| here.join("../target/staticlib"), PathBuf::from);
    let archive = folder.join("libsorts.a");
    println!("cargo::rerun-if-changed={}", archive.display());
    if archive.is_file() {
        println!("cargo::rustc-cfg=sorts");
        println!("cargo::rustc-link-search=native={}", folder.display());
        println!("cargo::rustc-link-lib=static=sorts");
    }
}
