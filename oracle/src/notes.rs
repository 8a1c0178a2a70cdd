//! What a run has to tell: where Rust and document differ, and what is counted over all cases.

use std::fmt::Debug;

use crate::prepared::Installed;

#[derive(Default)]
pub struct Counts {
    /// Tracks walked by the Rust's values, and by the document's.
    pub tracks: [u64; 2],
    /// Where all is checked: tracks that write a value zero, and places at which a zero's sign alone changes.
    pub zeros: [u64; 2],
    /// Replies to `read`, and those that name a sample.
    pub reads: [u64; 2],
    /// Sets that had a second accepted retiming, and a third.
    pub chains: [u64; 2],
    pub installed: Installed,
    /// Replies to a dispatcher's calls.
    pub dispatched: u64,
    /// Its values and tracks, those of a set, and those of one that is not the first in its order.
    pub placed: [u64; 3],
    pub probed: u64,
}

#[derive(Default)]
pub struct Notes {
    /// Whether every answer is also worked out from the document's text.
    pub check: bool,
    /// Whether each short track is held against the Rust's value near everything that can move it.
    pub probing: bool,
    pub differences: Vec<String>,
    pub counts: Counts,
}

impl Notes {
    pub fn differs(&mut self, what: &str, rust: impl Debug, text: impl Debug) {
        self.differences.push(format!("{what}: the Rust {rust:?}, the document {text:?}"));
    }

    pub fn compare<T: PartialEq + Debug>(&mut self, what: &str, rust: T, text: T) {
        if rust != text {
            self.differs(what, rust, text);
        }
    }
}
