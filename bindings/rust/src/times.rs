//! Stage times and clip times.

/// A time of the stage: what a question is asked at, and where a track changes.
///
/// It and [`ClipTime`] are types of their own, so that neither is passed where the other is asked for. Lists that are
/// lent hold bare doubles; each says which times it has.
#[repr(transparent)]
#[derive(Clone, Copy, Debug, PartialEq, PartialOrd)]
pub struct StageTime(
    /// The time.
    pub f64,
);

/// A time of a clip: where its samples lie. Only the knots of a set lead from a stage time to a clip time.
#[repr(transparent)]
#[derive(Clone, Copy, Debug, PartialEq, PartialOrd)]
pub struct ClipTime(
    /// The time.
    pub f64,
);
