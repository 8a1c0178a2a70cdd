//! Fetches the Rust that is compared with, from the folder that OPENUSD_SRC names, into the build folder: whole files
//! byte for byte, single items cut out byte for byte. Nothing of it is kept in this repository. The benchmark's build
//! script runs this one.

use std::path::{Path, PathBuf};
use std::{env, fs};

/// The text of a file by its path in crates/openusd/src: of a checkout of mxpv/openusd, or of a flat folder in which a
/// file's name is its path, parted by `--`.
fn source(folder: &Path, path: &str) -> String {
    let path = format!("crates/openusd/src/{path}");
    let published = folder.join(&path);
    let flat = folder.join(format!("src--{}.txt", path.replace('/', "--")));
    let file = if flat.is_file() { flat } else { published };
    println!("cargo:rerun-if-changed={}", file.display());
    fs::read_to_string(&file).unwrap_or_else(|error| panic!("{}: {error} (see oracle/openusd)", file.display()))
}

/// The item that begins with `start` at a line's beginning, up to the line that `end` closes.
fn cut(text: &str, start: &str, end: &str) -> String {
    let from = text
        .match_indices(start)
        .map(|(at, _)| at)
        .find(|&at| at == 0 || text.as_bytes()[at - 1] == b'\n')
        .unwrap_or_else(|| panic!("no item begins with `{start}`"));
    let to = from + text[from..].find(end).unwrap_or_else(|| panic!("`{start}` has no end")) + end.len();
    text[from..to].to_owned()
}

/// A braced item.
fn item(text: &str, start: &str) -> String {
    cut(text, start, "\n}\n")
}

/// A one-line item that a semicolon closes.
fn line(text: &str, start: &str) -> String {
    cut(text, start, ";\n")
}

pub fn main() {
    println!("cargo:rerun-if-env-changed=OPENUSD_SRC");
    let oracle = PathBuf::from(env::var("CARGO_MANIFEST_DIR").unwrap()).join("../oracle");
    println!("cargo:rerun-if-changed={}", oracle.join("build.rs").display());
    let out = PathBuf::from(env::var("OUT_DIR").unwrap());
    let folder =
        PathBuf::from(env::var("OPENUSD_SRC").expect("OPENUSD_SRC: the folder with the Rust (see oracle/openusd)"));
    let write = |name: &str, text: String| fs::write(out.join(name), text).unwrap();
    let module = |name: &str, file: &str| format!("#[path = {:?}]\npub(crate) mod {name};\n", out.join(file));

    // Whole files. Behind the unchanged text of clip.rs stands one declaration more, of a child module, since only a
    // child reaches what clip.rs keeps private.
    let clip = source(&folder, "pcp/clip.rs");
    let reach = format!("\n#[path = {:?}]\npub(crate) mod reach;\n", oracle.join("src/reach.rs"));
    write("clip.rs", clip + &reach);
    write("clip_manifest.rs", source(&folder, "pcp/clip_manifest.rs"));
    write("pcp_files.rs", module("clip", "clip.rs") + &module("clip_manifest", "clip_manifest.rs"));
    write("interval.rs", source(&folder, "gf/interval.rs"));
    write("gf_files.rs", module("interval", "interval.rs"));

    // Single items. A derive list names crates that are not here, so each struct gets a shorter one.
    let plain = "#[derive(Debug, Default, Clone, Copy, PartialEq)]\n";
    let gf = source(&folder, "gf/mod.rs");
    let vec = source(&folder, "gf/vec.rs");
    write(
        "gf_items.rs",
        plain.to_owned()
            + &item(&vec, "pub struct Vec2d {")
            + &item(&gf, "pub fn vec2d(")
            + &item(&gf, "pub fn lerp<T>("),
    );
    let sdf = source(&folder, "sdf/mod.rs");
    let offset = "#[derive(Debug, Clone, Copy, PartialEq)]\n".to_owned() + &item(&sdf, "pub struct LayerOffset {");
    write(
        "sdf_items.rs",
        [
            plain.to_owned() + &item(&sdf, "pub enum Variability {"),
            plain.to_owned() + &line(&sdf, "pub struct TimeCode("),
            item(&sdf, "impl TimeCode {"),
            offset,
            item(&sdf, "impl Default for LayerOffset {"),
            item(&sdf, "impl LayerOffset {"),
            line(&sdf, "pub type TimeSampleMap ="),
            item(&sdf, "pub fn compare_sample_times("),
            item(&sdf, "pub fn normalize_sample_times("),
            item(&sdf, "pub fn normalize_time_samples("),
        ]
        .concat(),
    );
}
