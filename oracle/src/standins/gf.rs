//! `crate::gf`: the items of gf/mod.rs, gf/vec.rs and gf/interval.rs that clip.rs uses, each as published.

include!(concat!(env!("OUT_DIR"), "/gf_files.rs"));
include!(concat!(env!("OUT_DIR"), "/gf_items.rs"));

pub use interval::Interval;
