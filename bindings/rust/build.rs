//! Links libtavitrozy.a: from `TAVITROZY_LIB_DIR` if that is set, else from where this repository builds it, else from
//! where pkg-config says that it is installed.

use std::env;
use std::path::{Path, PathBuf};
use std::process::Command;

const FILE: &str = "libtavitrozy.a";

fn has_library(folder: &Path) -> bool {
    folder.join(FILE).is_file()
}

/// The folder that pkg-config names for the installed library.
fn installed() -> Option<PathBuf> {
    let told = Command::new("pkg-config").args(["--variable=libdir", "tavitrozy"]).output().ok()?;
    let folder = String::from_utf8(told.stdout).ok()?;
    (told.status.success() && !folder.trim().is_empty()).then(|| PathBuf::from(folder.trim()))
}

fn folder() -> PathBuf {
    if let Some(set) = env::var_os("TAVITROZY_LIB_DIR").filter(|set| !set.is_empty()) {
        let folder = PathBuf::from(set);
        assert!(has_library(&folder), "TAVITROZY_LIB_DIR is {}, and there is no {FILE} in it", folder.display());
        return folder;
    }
    let here = PathBuf::from(env::var_os("CARGO_MANIFEST_DIR").expect("cargo sets it"));
    // What the prover wrote, and what `make` made of an archive that it was given.
    let built = ["staticlib", "lib"].map(|folder| here.join("../../target").join(folder));
    for folder in &built {
        println!("cargo::rerun-if-changed={}", folder.join(FILE).display());
    }
    built.into_iter().chain(installed()).find(|folder| has_library(folder)).unwrap_or_else(|| {
        panic!(
            "{FILE} is neither in the repository's target/staticlib nor where pkg-config says. Run `make` or \
             `packaging/staticlib tavitrozy` at the repository's root, or set TAVITROZY_LIB_DIR to the folder that holds {FILE}."
        )
    })
}

fn main() {
    for name in ["TAVITROZY_LIB_DIR", "PKG_CONFIG_PATH"] {
        println!("cargo::rerun-if-env-changed={name}");
    }
    println!("cargo::rerun-if-changed=build.rs");
    let folder = folder();
    println!("cargo::rerun-if-changed={}", folder.join(FILE).display());
    println!("cargo::rustc-link-search=native={}", folder.display());
    println!("cargo::rustc-link-lib=static=tavitrozy");
}
