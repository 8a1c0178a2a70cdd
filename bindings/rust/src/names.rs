//! A template's clips without a set: their clip times and their names.

use crate::ffi;
use crate::{ClipTime, Refusal, TemplateTimes, limit};

/// The clip time of each of a template's clips, in order. The name of clip i's file is [`name`] at the i-th. An offset
/// moves the starts of the set and not these.
///
/// # Errors
///
/// 2, 7, 8.
pub fn template_clip_times(times: TemplateTimes) -> Result<Vec<ClipTime>, Refusal> {
    let mut slots = [0.0; limit::CLIPS];
    let count = template_clip_times_into(times, &mut slots)?;
    Ok(slots[..count].iter().copied().map(ClipTime).collect())
}

/// [`template_clip_times`] written to the front of a lent list; how many there are.
///
/// # Errors
///
/// 2, 7, 8, 22.
pub fn template_clip_times_into(times: TemplateTimes, out: &mut [f64]) -> Result<usize, Refusal> {
    let (times, has_offset) = times.lent();
    // SAFETY: the pointer comes with its own slice's length.
    let reply = unsafe { ffi::tavitrozy_template_clip_times(times, has_offset, out.as_mut_ptr(), out.len()) };
    Refusal::checked(reply.number, reply.count)
}

/// The name of the template's clip at a clip time.
///
/// # Errors
///
/// 1, 2, 6.
///
/// ```
/// use tavitrozy::ClipTime;
///
/// assert_eq!(tavitrozy::name(b"f.###.usd", ClipTime(-5.0))?, b"f.-05.usd");
/// # Ok::<(), tavitrozy::Refusal>(())
/// ```
pub fn name(pattern: &[u8], time: ClipTime) -> Result<Vec<u8>, Refusal> {
    let mut slots = [0; limit::NAME_BYTES];
    let length = name_into(pattern, time, &mut slots)?;
    Ok(slots[..length].to_vec())
}

/// [`name`] written to the front of a lent list; its length.
///
/// # Errors
///
/// 1, 2, 6, 22.
pub fn name_into(pattern: &[u8], time: ClipTime, out: &mut [u8]) -> Result<usize, Refusal> {
    let time = ffi::AtClip { value: time.0 };
    // SAFETY: each pointer comes with its own slice's length; the output is borrowed for writing, so the two are apart.
    let reply = unsafe { ffi::tavitrozy_name(pattern.as_ptr(), pattern.len(), time, out.as_mut_ptr(), out.len()) };
    Refusal::checked(reply.number, reply.count)
}
