//! The library's C symbols, as tavitrozy.h has them. A resolver is a small record by value, its shape, and five lists
//! that the caller holds; a dispatcher is eight lists. A prepared set, large as it is, crosses the boundary by value.

use crate::limit;

#[repr(C)]
#[derive(Clone, Copy)]
pub struct Marked {
    pub mark: u8,
    pub value: f64,
}

#[repr(C)]
#[derive(Clone, Copy)]
pub struct Counts {
    pub starts: usize,
    pub knots: usize,
    pub blocks: usize,
}

#[repr(C)]
#[derive(Clone, Copy)]
pub struct Manifest {
    pub fallback: Marked,
    pub interpolate: bool,
}

#[repr(C)]
#[derive(Clone, Copy)]
pub struct Shape {
    pub stands: bool,
    pub clips: u64,
    pub counts: Counts,
    pub manifest: Manifest,
}

/// The lists of a resolver; the shape says how many entries of each count.
#[derive(Clone)]
pub struct Lists {
    pub starts: [f64; limit::STARTS],
    pub numbers: [u64; limit::STARTS],
    pub xs: [f64; limit::KNOTS],
    pub ys: [f64; limit::KNOTS],
    pub blocks: [f64; limit::BLOCKS],
}

/// The lists of a dispatcher, with a page of each for a set. Together they have 234 KB: each is made and kept on the heap.
#[derive(Clone)]
pub struct Pages {
    pub starts: Box<[f64]>,
    pub numbers: Box<[u64]>,
    pub xs: Box<[f64]>,
    pub ys: Box<[f64]>,
    pub blocks: Box<[f64]>,
    pub defaults: Box<[f64]>,
    pub counts: Box<[u64]>,
    pub bytes: Box<[u8]>,
}

#[repr(C)]
pub struct Settled {
    pub number: u8,
    pub shape: Shape,
}

#[repr(C)]
#[derive(Clone, Copy)]
pub struct Start {
    pub time: f64,
    pub clip: u64,
}

#[repr(C)]
#[derive(Clone, Copy)]
pub struct Knot {
    pub x: f64,
    pub y: f64,
}

#[repr(C)]
#[derive(Clone)]
pub struct Starts {
    pub items: [Start; limit::STARTS],
    pub count: usize,
}

#[repr(C)]
#[derive(Clone)]
pub struct Knots {
    pub items: [Knot; limit::KNOTS],
    pub count: usize,
}

#[repr(C)]
#[derive(Clone)]
pub struct Blocks {
    pub items: [f64; limit::BLOCKS],
    pub count: usize,
}

#[repr(C)]
#[derive(Clone)]
pub struct Prepared {
    pub clips: u64,
    pub active: Starts,
    pub knots: Knots,
    pub blocks: Blocks,
    pub fallback: Marked,
    pub interpolate: bool,
}

// As the header says: by value, a wrong size would be read as something else.
const _: () = assert!(size_of::<Prepared>() == 14_392);

#[repr(C)]
pub struct Examined {
    pub number: u8,
    pub set: Prepared,
}

#[repr(C)]
#[derive(Clone, Copy)]
pub struct TemplateTimes {
    pub start: f64,
    pub end: f64,
    pub stride: f64,
    pub offset: f64,
}

#[repr(C)]
#[derive(Clone, Copy)]
pub struct LayerOffset {
    pub offset: f64,
    pub scale: f64,
}

#[repr(C)]
#[derive(Clone, Copy)]
pub struct AtStage {
    pub value: f64,
}

#[repr(C)]
#[derive(Clone, Copy)]
pub struct AtClip {
    pub value: f64,
}

#[repr(C)]
pub struct ClipReply {
    pub number: u8,
    pub found: bool,
    pub clip: u64,
}

#[repr(C)]
pub struct TimeReply {
    pub number: u8,
    pub time: AtClip,
}

#[repr(C)]
pub struct ValueReply {
    pub number: u8,
    pub mark: u8,
    pub sampled: bool,
    pub value: f64,
    pub clip: u64,
    pub place: u64,
}

#[repr(C)]
pub struct UntimedReply {
    pub number: u8,
    pub state: u8,
}

#[repr(C)]
pub struct Counted {
    pub number: u8,
    pub count: usize,
}

#[repr(C)]
pub struct Baked {
    pub number: u8,
    pub mark: u8,
    pub value: f64,
    pub count: usize,
}

#[repr(C)]
pub struct PlacedValue {
    pub reply: ValueReply,
    pub placed: bool,
    pub set: u64,
}

#[repr(C)]
pub struct PlacedBaked {
    pub reply: Baked,
    pub placed: bool,
    pub set: u64,
}

#[repr(C)]
#[derive(Clone, Copy)]
pub struct Entry {
    pub value: f64,
    pub mark: u8,
}

#[rustfmt::skip]
unsafe extern "C" {
    pub fn tavitrozy_lent_fresh() -> Shape;
    pub fn tavitrozy_lent_accept(
        shape: Shape, starts: *mut f64, starts_len: usize, numbers: *mut u64, numbers_len: usize,
        xs: *mut f64, xs_len: usize, ys: *mut f64, ys_len: usize, blocks: *mut f64, blocks_len: usize,
        clips: u64, start_times: *const f64, start_times_len: usize, start_clips: *const f64, start_clips_len: usize,
        knot_xs: *const f64, knot_xs_len: usize, knot_ys: *const f64, knot_ys_len: usize, block_times: *const f64, block_times_len: usize,
        fallback: Marked, interpolate: bool,
    ) -> Settled;
    pub fn tavitrozy_lent_accept_template(
        shape: Shape, starts: *mut f64, starts_len: usize, numbers: *mut u64, numbers_len: usize,
        xs: *mut f64, xs_len: usize, ys: *mut f64, ys_len: usize, blocks: *mut f64, blocks_len: usize,
        pattern: *const u8, pattern_len: usize, template: TemplateTimes, has_offset: bool,
        block_times: *const f64, block_times_len: usize, fallback: Marked, interpolate: bool,
    ) -> Settled;
    pub fn tavitrozy_examine(
        clips: u64, starts: *const f64, starts_len: usize, numbers: *const f64, numbers_len: usize,
        xs: *const f64, xs_len: usize, ys: *const f64, ys_len: usize, blocks: *const f64, blocks_len: usize,
        fallback: Marked, interpolate: bool,
    ) -> Examined;
    pub fn tavitrozy_examine_template(
        pattern: *const u8, pattern_len: usize, template: TemplateTimes, has_offset: bool,
        blocks: *const f64, blocks_len: usize, fallback: Marked, interpolate: bool,
    ) -> Examined;
    pub fn tavitrozy_lent_install(
        shape: Shape, starts: *mut f64, starts_len: usize, numbers: *mut u64, numbers_len: usize,
        xs: *mut f64, xs_len: usize, ys: *mut f64, ys_len: usize, blocks: *mut f64, blocks_len: usize,
        set: Prepared,
    ) -> Shape;
    pub fn tavitrozy_lent_retime(
        shape: Shape, starts: *mut f64, starts_len: usize, numbers: *mut u64, numbers_len: usize,
        xs: *mut f64, xs_len: usize, ys: *mut f64, ys_len: usize, blocks: *mut f64, blocks_len: usize,
        offset: LayerOffset,
    ) -> Settled;
    pub fn tavitrozy_lent_active_clip(
        shape: Shape, starts: *const f64, starts_len: usize, numbers: *const u64, numbers_len: usize,
        xs: *const f64, xs_len: usize, ys: *const f64, ys_len: usize, blocks: *const f64, blocks_len: usize,
        time: AtStage,
    ) -> ClipReply;
    pub fn tavitrozy_lent_clip_time(
        shape: Shape, starts: *const f64, starts_len: usize, numbers: *const u64, numbers_len: usize,
        xs: *const f64, xs_len: usize, ys: *const f64, ys_len: usize, blocks: *const f64, blocks_len: usize,
        time: AtStage,
    ) -> TimeReply;
    pub fn tavitrozy_lent_value(
        shape: Shape, starts: *const f64, starts_len: usize, numbers: *const u64, numbers_len: usize,
        xs: *const f64, xs_len: usize, ys: *const f64, ys_len: usize, blocks: *const f64, blocks_len: usize,
        times: *const f64, times_len: usize, values: *const f64, values_len: usize,
        marks: *const u8, marks_len: usize, ends: *const u64, ends_len: usize,
        time: AtStage,
    ) -> ValueReply;
    pub fn tavitrozy_lent_untimed(
        shape: Shape, starts: *const f64, starts_len: usize, numbers: *const u64, numbers_len: usize,
        xs: *const f64, xs_len: usize, ys: *const f64, ys_len: usize, blocks: *const f64, blocks_len: usize,
        times: *const f64, times_len: usize, values: *const f64, values_len: usize,
        marks: *const u8, marks_len: usize, ends: *const u64, ends_len: usize,
    ) -> UntimedReply;
    pub fn tavitrozy_lent_stage_sample_count(
        shape: Shape, starts: *const f64, starts_len: usize, numbers: *const u64, numbers_len: usize,
        xs: *const f64, xs_len: usize, ys: *const f64, ys_len: usize, blocks: *const f64, blocks_len: usize,
        times: *const f64, times_len: usize, values: *const f64, values_len: usize,
        marks: *const u8, marks_len: usize, ends: *const u64, ends_len: usize,
    ) -> Counted;
    pub fn tavitrozy_lent_stage_sample_times(
        shape: Shape, starts: *const f64, starts_len: usize, numbers: *const u64, numbers_len: usize,
        xs: *const f64, xs_len: usize, ys: *const f64, ys_len: usize, blocks: *const f64, blocks_len: usize,
        times: *const f64, times_len: usize, values: *const f64, values_len: usize,
        marks: *const u8, marks_len: usize, ends: *const u64, ends_len: usize,
        out_times: *mut f64, out_times_len: usize,
    ) -> Counted;
    pub fn tavitrozy_lent_stage_samples(
        shape: Shape, starts: *const f64, starts_len: usize, numbers: *const u64, numbers_len: usize,
        xs: *const f64, xs_len: usize, ys: *const f64, ys_len: usize, blocks: *const f64, blocks_len: usize,
        times: *const f64, times_len: usize, values: *const f64, values_len: usize,
        marks: *const u8, marks_len: usize, ends: *const u64, ends_len: usize,
        out_times: *mut f64, out_times_len: usize, out_marks: *mut u8, out_marks_len: usize,
    ) -> Counted;
    pub fn tavitrozy_lent_change_count(
        shape: Shape, starts: *const f64, starts_len: usize, numbers: *const u64, numbers_len: usize,
        xs: *const f64, xs_len: usize, ys: *const f64, ys_len: usize, blocks: *const f64, blocks_len: usize,
        times: *const f64, times_len: usize, values: *const f64, values_len: usize,
        marks: *const u8, marks_len: usize, ends: *const u64, ends_len: usize,
    ) -> Counted;
    pub fn tavitrozy_lent_bake(
        shape: Shape, starts: *const f64, starts_len: usize, numbers: *const u64, numbers_len: usize,
        xs: *const f64, xs_len: usize, ys: *const f64, ys_len: usize, blocks: *const f64, blocks_len: usize,
        times: *const f64, times_len: usize, values: *const f64, values_len: usize,
        marks: *const u8, marks_len: usize, ends: *const u64, ends_len: usize,
        out_times: *mut f64, out_times_len: usize, out_values: *mut f64, out_values_len: usize, out_marks: *mut u8, out_marks_len: usize,
    ) -> Baked;
    pub fn tavitrozy_sets_fresh(
        starts: *mut f64, starts_len: usize, numbers: *mut u64, numbers_len: usize, xs: *mut f64, xs_len: usize, ys: *mut f64, ys_len: usize,
        blocks: *mut f64, blocks_len: usize, defaults: *mut f64, defaults_len: usize, counts: *mut u64, counts_len: usize, bytes: *mut u8, bytes_len: usize,
    ) -> bool;
    pub fn tavitrozy_sets_accept(
        starts: *mut f64, starts_len: usize, numbers: *mut u64, numbers_len: usize, xs: *mut f64, xs_len: usize, ys: *mut f64, ys_len: usize,
        blocks: *mut f64, blocks_len: usize, defaults: *mut f64, defaults_len: usize, counts: *mut u64, counts_len: usize, bytes: *mut u8, bytes_len: usize,
        name: *const u8, name_len: usize, declares: bool,
        clips: u64, start_times: *const f64, start_times_len: usize, start_clips: *const f64, start_clips_len: usize,
        knot_xs: *const f64, knot_xs_len: usize, knot_ys: *const f64, knot_ys_len: usize, block_times: *const f64, block_times_len: usize,
        fallback: Marked, interpolate: bool,
    ) -> u8;
    pub fn tavitrozy_sets_accept_template(
        starts: *mut f64, starts_len: usize, numbers: *mut u64, numbers_len: usize, xs: *mut f64, xs_len: usize, ys: *mut f64, ys_len: usize,
        blocks: *mut f64, blocks_len: usize, defaults: *mut f64, defaults_len: usize, counts: *mut u64, counts_len: usize, bytes: *mut u8, bytes_len: usize,
        name: *const u8, name_len: usize, declares: bool,
        pattern: *const u8, pattern_len: usize, template: TemplateTimes, has_offset: bool,
        block_times: *const f64, block_times_len: usize, fallback: Marked, interpolate: bool,
    ) -> u8;
    pub fn tavitrozy_sets_install(
        starts: *mut f64, starts_len: usize, numbers: *mut u64, numbers_len: usize, xs: *mut f64, xs_len: usize, ys: *mut f64, ys_len: usize,
        blocks: *mut f64, blocks_len: usize, defaults: *mut f64, defaults_len: usize, counts: *mut u64, counts_len: usize, bytes: *mut u8, bytes_len: usize,
        name: *const u8, name_len: usize, declares: bool, set: Prepared,
    ) -> u8;
    pub fn tavitrozy_sets_retime(
        starts: *mut f64, starts_len: usize, numbers: *mut u64, numbers_len: usize, xs: *mut f64, xs_len: usize, ys: *mut f64, ys_len: usize,
        blocks: *mut f64, blocks_len: usize, defaults: *mut f64, defaults_len: usize, counts: *mut u64, counts_len: usize, bytes: *mut u8, bytes_len: usize,
        name: *const u8, name_len: usize, offset: LayerOffset,
    ) -> u8;
    pub fn tavitrozy_sets_value(
        starts: *const f64, starts_len: usize, numbers: *const u64, numbers_len: usize, xs: *const f64, xs_len: usize, ys: *const f64, ys_len: usize,
        blocks: *const f64, blocks_len: usize, defaults: *const f64, defaults_len: usize, counts: *const u64, counts_len: usize, bytes: *const u8, bytes_len: usize,
        given: bool, listed: *const u8, listed_len: usize, name_ends: *const u64, name_ends_len: usize,
        lens: *const u64, lens_len: usize, ends: *const u64, ends_len: usize,
        times: *const f64, times_len: usize, values: *const f64, values_len: usize, marks: *const u8, marks_len: usize,
        time: AtStage,
    ) -> PlacedValue;
    pub fn tavitrozy_sets_bake(
        starts: *const f64, starts_len: usize, numbers: *const u64, numbers_len: usize, xs: *const f64, xs_len: usize, ys: *const f64, ys_len: usize,
        blocks: *const f64, blocks_len: usize, defaults: *const f64, defaults_len: usize, counts: *const u64, counts_len: usize, bytes: *const u8, bytes_len: usize,
        given: bool, listed: *const u8, listed_len: usize, name_ends: *const u64, name_ends_len: usize,
        lens: *const u64, lens_len: usize, ends: *const u64, ends_len: usize,
        times: *const f64, times_len: usize, values: *const f64, values_len: usize, marks: *const u8, marks_len: usize,
        out_times: *mut f64, out_times_len: usize, out_values: *mut f64, out_values_len: usize, out_marks: *mut u8, out_marks_len: usize,
    ) -> PlacedBaked;
    pub fn tavitrozy_read(
        head: Entry, times: *const f64, times_len: usize, values: *const f64, values_len: usize,
        marks: *const u8, marks_len: usize, time: AtStage,
    ) -> Entry;
    pub fn tavitrozy_name(
        pattern: *const u8, pattern_len: usize, time: AtClip, out: *mut u8, out_len: usize,
    ) -> Counted;
    pub fn tavitrozy_normalize(
        times: *const f64, times_len: usize, values: *const f64, values_len: usize, marks: *const u8, marks_len: usize,
        out_times: *mut f64, out_times_len: usize, out_values: *mut f64, out_values_len: usize, out_marks: *mut u8, out_marks_len: usize,
    ) -> Counted;
    pub fn tavitrozy_template_clip_times(
        template: TemplateTimes, has_offset: bool, out_times: *mut f64, out_times_len: usize,
    ) -> Counted;
    pub fn tavitrozy_total_key(bits: u64) -> u64;
}
