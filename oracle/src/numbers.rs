//! The refusals of docs/VALUE-CLIPS.md, each call's in its order. Written from the document alone, apart from the
//! definitions and the code.

use crate::calls::{Explicit, Filling, Samples, Template};
use crate::doubles::listed;

pub type Refusal = u32;

pub fn refuse(applies: bool, number: Refusal) -> Result<(), Refusal> {
    if applies { Err(number) } else { Ok(()) }
}

fn any_unlisted(list: &[f64]) -> bool {
    list.iter().any(|&t| !listed(t))
}

fn ascending(mut times: Vec<f64>) -> Vec<f64> {
    times.sort_by(|a, b| a.partial_cmp(b).expect("no NaN is left"));
    times
}

/// Two equal times, in any order.
pub fn two_equal(times: impl Iterator<Item = f64>) -> bool {
    ascending(times.collect()).windows(2).any(|w| w[0] == w[1])
}

/// Three equal times, in any order.
pub fn three_equal(times: impl Iterator<Item = f64>) -> bool {
    ascending(times.collect()).windows(3).any(|w| w[0] == w[2])
}

fn nan_default(f: &Filling) -> bool {
    f.mark == 0 && f.value.is_nan()
}

fn clip_number(number: f64, clips: u64) -> bool {
    number.is_finite() && number >= 0.0 && number == number.trunc() && number < clips as f64
}

pub fn explicit(e: &Explicit) -> Result<(), Refusal> {
    let f = &e.filling;
    refuse(e.clips > 256, 1)?;
    refuse(e.start_times.len() > 256 || e.start_clips.len() > 256, 1)?;
    refuse(e.knot_x.len() > 512 || e.knot_y.len() > 512, 1)?;
    refuse(f.blocks.len() > 256, 1)?;
    refuse(e.start_times.len() != e.start_clips.len() || e.knot_x.len() != e.knot_y.len(), 1)?;
    let listed_times = [&e.start_times, &e.knot_x, &e.knot_y, &f.blocks];
    refuse(listed_times.iter().any(|list| any_unlisted(list)) || nan_default(f), 2)?;
    refuse(e.start_clips.iter().any(|&n| !clip_number(n, e.clips)), 3)?;
    refuse(two_equal(e.start_times.iter().copied()), 4)?;
    refuse(three_equal(e.knot_x.iter().copied()), 5)?;
    refuse(f.mark > 2, 9)
}

/// A template's first `#` and the widths of its one or two runs, however wide; none where the runs are not such.
pub fn template_runs(bytes: &[u8]) -> Option<(usize, usize, Option<usize>)> {
    let run = |from: usize| bytes[from..].iter().take_while(|&&b| b == b'#').count();
    let first = bytes.iter().position(|&b| b == b'#')?;
    let width = run(first);
    let mut end = first + width;
    let mut fraction = None;
    if bytes.get(end) == Some(&b'.') && bytes.get(end + 1) == Some(&b'#') {
        let digits = run(end + 1);
        end += 1 + digits;
        fraction = Some(digits);
    }
    (!bytes[end..].contains(&b'#')).then_some((first, width, fraction))
}

/// The same of a readable template, whose runs are at most 32 and 6 wide.
pub fn template_widths(bytes: &[u8]) -> Option<(usize, usize, Option<usize>)> {
    template_runs(bytes).filter(|&(_, width, fraction)| width <= 32 && fraction.is_none_or(|digits| digits <= 6))
}

/// Whether a 257th clip would be made: also where t does not move.
fn makes_257(t: &Template) -> bool {
    let mut at = t.start * 10000.0;
    let last = t.end * 10000.0 + 0.5;
    let step = t.stride * 10000.0;
    let mut clips = 0;
    while at <= last {
        clips += 1;
        if clips > 256 {
            return true;
        }
        at += step;
    }
    false
}

/// The numbers that come before the expansion: 1, 2, 7, 6, 8.
pub fn template(t: &Template) -> Result<(), Refusal> {
    let f = &t.filling;
    refuse(t.bytes.len() > 255 || f.blocks.len() > 256, 1)?;
    let given = [t.start, t.end, t.stride, t.offset.unwrap_or(0.0)];
    refuse(given.iter().any(|n| !n.is_finite()), 2)?;
    refuse(any_unlisted(&[t.start, t.end]) || any_unlisted(&f.blocks) || nan_default(f), 2)?;
    refuse(t.stride <= 0.0 || t.end < t.start || t.offset.is_some_and(|o| o.abs() > t.stride), 7)?;
    refuse(template_widths(&t.bytes).is_none(), 6)?;
    refuse(makes_257(t), 8)
}

/// The numbers of starts and knots that an expansion or a retiming made: 2, 4, 5.
pub fn made(starts: &[f64], knots: &[f64], others: &[f64]) -> Result<(), Refusal> {
    refuse([starts, knots, others].iter().any(|list| any_unlisted(list)), 2)?;
    refuse(two_equal(starts.iter().copied()), 4)?;
    refuse(three_equal(knots.iter().copied()), 5)
}

pub fn default_mark(f: &Filling) -> Result<(), Refusal> {
    refuse(f.mark > 2, 9)
}

pub fn retiming(offset: f64, scale: f64) -> Result<(), Refusal> {
    refuse(!offset.is_finite() || !scale.is_finite(), 2)
}

fn lists(s: &Samples) -> Result<(), Refusal> {
    let count = s.times.len();
    refuse(s.values.len() != count || s.marks.len() != count || count > 4096, 1)
}

/// Times and values: 2.
pub fn entries(s: &Samples) -> Result<(), Refusal> {
    let nan = s.marks.iter().zip(&s.values).any(|(&mark, value)| mark == 0 && value.is_nan());
    refuse(any_unlisted(&s.times) || nan, 2)
}

fn marks(s: &Samples) -> Result<(), Refusal> {
    refuse(s.marks.iter().any(|&mark| mark > 1), 9)
}

/// The lent samples of a set with that many clips: 1, 2, 9.
pub fn samples(s: &Samples, clips: usize) -> Result<(), Refusal> {
    // A list above its limit is 1 whatever the others are.
    refuse(s.times.len() > 4096 || s.values.len() > 4096 || s.marks.len() > 4096, 1)?;
    lists(s)?;
    refuse(s.ends.len() != clips, 1)?;
    entries(s)?;
    clip_by_clip(s)
}

/// Marks, clip ends and the times between them: 9.
pub fn clip_by_clip(s: &Samples) -> Result<(), Refusal> {
    marks(s)?;
    let mut from = 0;
    for &end in &s.ends {
        refuse(end < from || end > s.times.len() as u64, 9)?;
        let clip = &s.times[from as usize..end as usize];
        refuse(clip.windows(2).any(|w| w[0] >= w[1]), 9)?;
        from = end;
    }
    refuse(from != s.times.len() as u64, 9)
}

pub fn normalize(s: &Samples) -> Result<(), Refusal> {
    lists(s)?;
    entries(s)?;
    marks(s)
}

pub fn stage_time(t: f64) -> Result<(), Refusal> {
    refuse(!t.is_finite(), 10)
}

/// A name's numbers: 1, 2, 6.
pub fn name(bytes: &[u8], time: f64) -> Result<(), Refusal> {
    refuse(bytes.len() > 255, 1)?;
    refuse(!listed(time), 2)?;
    refuse(template_widths(bytes).is_none(), 6)
}

pub fn room(slots: u64, count: usize) -> Result<(), Refusal> {
    refuse(slots < count as u64, 22)
}
