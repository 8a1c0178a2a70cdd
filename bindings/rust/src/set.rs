//! What a set is made of, and the view of one that stands or is prepared.

use crate::ffi;
use crate::{ClipTime, StageTime, mark};

/// The manifest default: what holds where the active clip contributes no sample.
#[derive(Clone, Copy, Debug, PartialEq)]
pub enum Fallback {
    /// The manifest has none.
    None,
    /// A block; it answers as if there were none.
    Block,
    /// A value; a NaN is refused with [`Refusal::Unstorable`](crate::Refusal::Unstorable).
    Value(f64),
}

impl Fallback {
    pub(crate) fn marked(self) -> ffi::Marked {
        match self {
            Fallback::None => ffi::Marked { mark: mark::NONE, value: 0.0 },
            Fallback::Block => ffi::Marked { mark: mark::BLOCK, value: 0.0 },
            Fallback::Value(value) => ffi::Marked { mark: mark::VALUE, value },
        }
    }

    pub(crate) fn of_marked(marked: ffi::Marked) -> Fallback {
        match marked.mark {
            mark::VALUE => Fallback::Value(marked.value),
            mark::BLOCK => Fallback::Block,
            _ => Fallback::None,
        }
    }
}

/// The fields of an explicit set. Each list may be in any order; the call sorts its own copy.
///
/// ```
/// use tavitrozy::{Explicit, Resolver, StageTime};
///
/// let set = Explicit::new(2).starts(&[0.0, 10.0], &[0.0, 1.0]);
/// let mut resolver = Resolver::new();
/// resolver.accept(&set)?;
/// assert_eq!(resolver.active_clip(StageTime(9.5))?, Some(0));
/// assert_eq!(resolver.active_clip(StageTime(10.0))?, Some(1));
/// # Ok::<(), tavitrozy::Refusal>(())
/// ```
#[derive(Clone, Copy, Debug)]
pub struct Explicit<'a> {
    /// How many clips there are, at most 256.
    pub clips: u64,
    /// Where each start lies: from this stage time on its clip is active. At most 256.
    pub start_times: &'a [f64],
    /// The clip number of each start, a whole number as `active` authors it.
    pub start_clips: &'a [f64],
    /// The stage time of each knot (an entry of `times`), at most 512.
    pub knot_xs: &'a [f64],
    /// The clip time of each knot.
    pub knot_ys: &'a [f64],
    /// The manifest's block times, at most 256: with [`interpolate`](Self::interpolate) on, a start that equals one
    /// contributes nothing.
    pub blocks: &'a [f64],
    /// The manifest default.
    pub fallback: Fallback,
    /// `interpolateMissingClipValues`, which here interpolates nothing: where the active clip contributes no sample and the
    /// default is no value, a sample is looked for at other starts, the nearest before the active one first, then the
    /// nearest after. Off, nothing is drawn there.
    pub interpolate: bool,
}

impl<'a> Explicit<'a> {
    /// A set of so many clips, without starts, knots, blocks and default, flag off.
    #[must_use]
    pub const fn new(clips: u64) -> Self {
        Explicit {
            clips,
            start_times: &[],
            start_clips: &[],
            knot_xs: &[],
            knot_ys: &[],
            blocks: &[],
            fallback: Fallback::None,
            interpolate: false,
        }
    }

    /// The same with these starts: stage times and the clip number of each.
    #[must_use]
    pub const fn starts(self, times: &'a [f64], clips: &'a [f64]) -> Self {
        Explicit { start_times: times, start_clips: clips, ..self }
    }

    /// The same with these knots: stage times and the clip time of each.
    #[must_use]
    pub const fn knots(self, xs: &'a [f64], ys: &'a [f64]) -> Self {
        Explicit { knot_xs: xs, knot_ys: ys, ..self }
    }

    /// The same with these manifest block times.
    #[must_use]
    pub const fn blocks(self, blocks: &'a [f64]) -> Self {
        Explicit { blocks, ..self }
    }

    /// The same with this manifest default.
    #[must_use]
    pub const fn fallback(self, fallback: Fallback) -> Self {
        Explicit { fallback, ..self }
    }

    /// The same with `interpolateMissingClipValues` on or off.
    #[must_use]
    pub const fn interpolate(self, interpolate: bool) -> Self {
        Explicit { interpolate, ..self }
    }
}

/// The numbers of a template set.
#[derive(Clone, Copy, Debug, PartialEq)]
pub struct TemplateTimes {
    /// `templateStartTime`: the first clip's clip time.
    pub start: f64,
    /// `templateEndTime`: the last that a clip time may be.
    pub end: f64,
    /// `templateStride`: from clip time to clip time.
    pub stride: f64,
    /// `templateActiveOffset`, if there is one: it moves the starts, not the clip times.
    pub offset: Option<f64>,
}

impl TemplateTimes {
    /// From `start` to `end` by `stride`, without an offset.
    #[must_use]
    pub const fn new(start: f64, end: f64, stride: f64) -> Self {
        TemplateTimes { start, end, stride, offset: None }
    }

    /// The same with an offset.
    #[must_use]
    pub const fn offset(self, offset: f64) -> Self {
        TemplateTimes { offset: Some(offset), ..self }
    }

    /// The numbers for the library; without an offset it does not look at the slot.
    pub(crate) fn lent(self) -> (ffi::TemplateTimes, bool) {
        let TemplateTimes { start, end, stride, offset } = self;
        (ffi::TemplateTimes { start, end, stride, offset: offset.unwrap_or(0.0) }, offset.is_some())
    }
}

/// The fields of a template set.
///
/// ```
/// use tavitrozy::{Resolver, Template, TemplateTimes};
///
/// let times = TemplateTimes::new(1.0, 3.0, 1.0);
/// let mut resolver = Resolver::new();
/// resolver.accept_template(&Template::new(b"f.###.usd", times))?;
///
/// let third = tavitrozy::template_clip_times(times)?[2];
/// assert_eq!(tavitrozy::name(b"f.###.usd", third)?, b"f.003.usd");
/// # Ok::<(), tavitrozy::Refusal>(())
/// ```
#[derive(Clone, Copy, Debug)]
pub struct Template<'a> {
    /// The bytes of `templateAssetPath`, at most 255, with one run of `#`, or two with a point between them.
    pub pattern: &'a [u8],
    /// The template's numbers.
    pub times: TemplateTimes,
    /// As in [`Explicit::blocks`].
    pub blocks: &'a [f64],
    /// The manifest default.
    pub fallback: Fallback,
    /// As in [`Explicit::interpolate`].
    pub interpolate: bool,
}

impl<'a> Template<'a> {
    /// A template set without blocks and default, flag off.
    #[must_use]
    pub const fn new(pattern: &'a [u8], times: TemplateTimes) -> Self {
        Template { pattern, times, blocks: &[], fallback: Fallback::None, interpolate: false }
    }

    /// The same with these manifest block times.
    #[must_use]
    pub const fn blocks(self, blocks: &'a [f64]) -> Self {
        Template { blocks, ..self }
    }

    /// The same with this manifest default.
    #[must_use]
    pub const fn fallback(self, fallback: Fallback) -> Self {
        Template { fallback, ..self }
    }

    /// The same with `interpolateMissingClipValues` on or off.
    #[must_use]
    pub const fn interpolate(self, interpolate: bool) -> Self {
        Template { interpolate, ..self }
    }
}

/// A retiming: a stage time t becomes `offset + scale * t`.
#[derive(Clone, Copy, Debug, PartialEq)]
pub struct LayerOffset {
    /// What is added.
    pub offset: f64,
    /// What a time is multiplied by.
    pub scale: f64,
}

impl LayerOffset {
    /// Moves nothing, and leaves a -0.0 as it is.
    pub const IDENTITY: LayerOffset = LayerOffset::new(0.0, 1.0);

    /// The retiming of an offset and a scale.
    #[must_use]
    pub const fn new(offset: f64, scale: f64) -> Self {
        LayerOffset { offset, scale }
    }
}

/// A set as a resolver holds it: sorted, and moved by every retiming since it was accepted or installed. Of a
/// [`Prepared`](crate::Prepared) set it is what stands once that is installed.
#[derive(Clone, Copy, Debug)]
pub struct StandingSet<'a> {
    /// How many clips there are.
    pub clips: u64,
    /// The stage time of each start, ascending.
    pub start_times: &'a [f64],
    /// The clip number of each start.
    pub start_clips: &'a [u64],
    /// The stage time of each knot, ascending; at most two are equal.
    pub knot_xs: &'a [f64],
    /// The clip time of each knot.
    pub knot_ys: &'a [f64],
    /// The manifest's block times, in the order in which they were handed over.
    pub blocks: &'a [f64],
    /// The manifest default.
    pub fallback: Fallback,
    /// `interpolateMissingClipValues`.
    pub interpolate: bool,
}

impl<'a> StandingSet<'a> {
    pub(crate) fn of(shape: &ffi::Shape, lists: &'a ffi::Lists) -> Self {
        let ffi::Counts { starts, knots, blocks } = shape.counts;
        StandingSet {
            clips: shape.clips,
            start_times: &lists.starts[..starts],
            start_clips: &lists.numbers[..starts],
            knot_xs: &lists.xs[..knots],
            knot_ys: &lists.ys[..knots],
            blocks: &lists.blocks[..blocks],
            fallback: Fallback::of_marked(shape.manifest.fallback),
            interpolate: shape.manifest.interpolate,
        }
    }

    /// Each start: its stage time and its clip's number.
    #[must_use]
    pub fn starts(&self) -> impl ExactSizeIterator<Item = (StageTime, u64)> + 'a {
        self.start_times.iter().zip(self.start_clips).map(|(&time, &clip)| (StageTime(time), clip))
    }

    /// Each knot: its stage time and its clip time.
    #[must_use]
    pub fn knots(&self) -> impl ExactSizeIterator<Item = (StageTime, ClipTime)> + 'a {
        self.knot_xs.iter().zip(self.knot_ys).map(|(&x, &y)| (StageTime(x), ClipTime(y)))
    }
}
