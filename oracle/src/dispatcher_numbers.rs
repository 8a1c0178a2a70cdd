//! The refusals that a dispatcher adds, from the document alone: 23, and the numbers of samples that are lent for all sets.

use crate::calls::Samples;
use crate::calls::dispatcher::{Order, SetSamples};
use crate::numbers::{Refusal, clip_by_clip, entries, refuse};
use crate::plain_dispatcher::own_samples;

/// The most sets of a dispatcher, names of an order list and bytes of a name; the most samples of a set.
pub const SETS: usize = 16;
pub const NAMES: usize = 255;
pub const NAME: usize = 255;
pub const SAMPLES: usize = 4096;

/// A set that is to stand under a name beside those of the names that are taken.
pub fn set(name: &[u8], taken: &[&[u8]]) -> Result<(), Refusal> {
    refuse(taken.len() >= SETS || taken.contains(&name) || name.len() > NAME, 23)
}

pub fn order(order: Option<&Order>) -> Result<(), Refusal> {
    let Some(Order { ends, bytes }) = order else { return Ok(()) };
    refuse(ends.len() > NAMES, 23)?;
    let mut from = 0;
    for &end in ends {
        refuse(end < from || end - from > NAME as u64, 23)?;
        from = end;
    }
    refuse(from != bytes.len() as u64, 23)
}

/// The samples of sets that have so many clips: 1 of all, then 2 of any, then 9 of any.
pub fn samples(s: &SetSamples, clips: &[usize]) -> Result<(), Refusal> {
    let SetSamples { counts, lists: Samples { ends, times, values, marks } } = s;
    refuse(values.len() != times.len() || marks.len() != times.len(), 1)?;
    refuse(counts.len() != clips.len() || counts.iter().any(|&count| count > SAMPLES as u64), 1)?;
    refuse(counts.iter().sum::<u64>() != times.len() as u64, 1)?;
    refuse(ends.len() != clips.iter().sum::<usize>(), 1)?;
    entries(&s.lists)?;
    own_samples(s, clips).iter().try_for_each(clip_by_clip)
}
