#![doc = include_str!("../README.md")]

mod dispatcher;
mod environment;
mod ffi;
mod names;
mod order;
mod prepared;
mod refusal;
mod resolver;
mod samples;
mod set;
mod times;
mod total_order;
mod track;

pub use dispatcher::{Dispatcher, NamedSet, Placed};
pub use environment::environment_is_exact;
pub use names::{name, name_into, template_clip_times, template_clip_times_into};
pub use order::Order;
pub use prepared::{Prepared, examine, examine_marked, examine_template, examine_template_marked};
pub use refusal::Refusal;
pub use resolver::{Resolver, SampleRead, State, Supplied, ValueRead};
pub use samples::{SampleLists, Samples, SetSampleLists, SetSamples, normalize, normalize_into};
pub use set::{Explicit, Fallback, LayerOffset, StandingSet, Template, TemplateTimes};
pub use times::{ClipTime, StageTime};
pub use total_order::total_key;
pub use track::{Answer, Change, Track};

/// The marks that stand beside values in lent lists.
pub mod mark {
    /// The slot holds a value.
    pub const VALUE: u8 = 0;
    /// A block; the slot says nothing.
    pub const BLOCK: u8 = 1;
    /// None: an absent answer.
    pub const NONE: u8 = 2;
}

/// What a set, its samples and a template may have at most.
pub mod limit {
    /// Clips of a set.
    pub const CLIPS: usize = 256;
    /// Starts of a set.
    pub const STARTS: usize = 256;
    /// Knots of a set.
    pub const KNOTS: usize = 512;
    /// Block times of a manifest.
    pub const BLOCKS: usize = 256;
    /// Samples over all clips, and samples to normalise.
    pub const SAMPLES: usize = 4096;
    /// Bytes of a template's pattern.
    pub const TEMPLATE_BYTES: usize = 255;
    /// Bytes of a clip's file name.
    pub const NAME_BYTES: usize = 268;
    /// The magnitude of every stored time: 2^40.
    pub const TIME: f64 = 1_099_511_627_776.0;
    /// Sets of a dispatcher.
    pub const SETS: usize = 16;
    /// Bytes of a set's name.
    pub const SET_NAME_BYTES: usize = 255;
    /// Names of an order list.
    pub const LISTED_NAMES: usize = 255;
}
