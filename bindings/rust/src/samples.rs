//! Samples as they are lent, and lists that hold them.

use crate::ffi;
use crate::{Refusal, mark};

/// The samples of all clips as they are lent: a clip time, a value and a [mark](crate::mark) for each, and an end for
/// each clip of the standing set.
///
/// Clip 0 has the samples before `ends[0]`, clip 1 those from there to before `ends[1]`, and so on; the last end is the
/// lists' length. Within a clip the times ascend strictly. [`SampleLists`] makes such lists.
#[derive(Clone, Copy, Debug)]
pub struct Samples<'a> {
    /// The clip time of each sample.
    pub times: &'a [f64],
    /// The value of each sample; a block's slot is not looked at.
    pub values: &'a [f64],
    /// [`mark::VALUE`] or [`mark::BLOCK`] for each sample.
    pub marks: &'a [u8],
    /// Where each clip's samples end.
    pub ends: &'a [u64],
}

impl<'a> Samples<'a> {
    /// The samples of these lists.
    #[must_use]
    pub const fn new(times: &'a [f64], values: &'a [f64], marks: &'a [u8], ends: &'a [u64]) -> Self {
        Samples { times, values, marks, ends }
    }
}

/// Lists of samples, clip by clip.
///
/// ```
/// use tavitrozy::SampleLists;
///
/// let mut lists = SampleLists::new();
/// lists.push_clip([(0.0, Some(1.0)), (10.0, Some(2.0))]);
/// lists.push_clip([(0.0, Some(3.0)), (2.0, None)]); // a block from 2 on
/// assert_eq!(lists.lent().ends, [2, 4]);
/// assert_eq!(lists.lent().marks, [0, 0, 0, 1]);
/// ```
#[derive(Clone, Debug, Default)]
pub struct SampleLists {
    times: Vec<f64>,
    values: Vec<f64>,
    marks: Vec<u8>,
    ends: Vec<u64>,
}

impl SampleLists {
    /// Of no clip.
    #[must_use]
    pub fn new() -> Self {
        SampleLists::default()
    }

    /// Adds the next clip's samples: the clip time and the value of each, `None` for a block.
    pub fn push_clip(&mut self, samples: impl IntoIterator<Item = (f64, Option<f64>)>) {
        for (time, value) in samples {
            self.times.push(time);
            self.values.push(value.unwrap_or(0.0));
            self.marks.push(if value.is_some() { mark::VALUE } else { mark::BLOCK });
        }
        self.ends.push(self.times.len() as u64);
    }

    /// The lists, lent.
    #[must_use]
    pub fn lent(&self) -> Samples<'_> {
        Samples::new(&self.times, &self.values, &self.marks, &self.ends)
    }
}

/// The samples of all sets of a [`Dispatcher`](crate::Dispatcher) as they are lent, also of those that do not answer: in the
/// order of acceptance, one set after the other. [`SetSampleLists`] makes such lists.
#[derive(Clone, Copy, Debug)]
pub struct SetSamples<'a> {
    /// How many samples each set has: one count for each set.
    pub counts: &'a [u64],
    /// The clip ends of all sets, each set's counted from its own first sample, as in [`Samples::ends`].
    pub ends: &'a [u64],
    /// The clip time of each sample.
    pub times: &'a [f64],
    /// The value of each sample; a block's slot is not looked at.
    pub values: &'a [f64],
    /// [`mark::VALUE`] or [`mark::BLOCK`] for each sample.
    pub marks: &'a [u8],
}

impl<'a> SetSamples<'a> {
    /// The samples of these lists.
    #[must_use]
    pub const fn new(counts: &'a [u64], ends: &'a [u64], times: &'a [f64], values: &'a [f64], marks: &'a [u8]) -> Self {
        SetSamples { counts, ends, times, values, marks }
    }
}

/// Lists of samples, set by set.
///
/// ```
/// use tavitrozy::{SampleLists, SetSampleLists};
///
/// let (mut coarse, mut fine) = (SampleLists::new(), SampleLists::new());
/// coarse.push_clip([(0.0, Some(10.0))]);
/// fine.push_clip([(0.0, Some(9.5)), (1.0, Some(10.5))]);
/// fine.push_clip([(2.0, None)]);
///
/// let mut lists = SetSampleLists::new();
/// lists.push_set(&coarse);
/// lists.push_set(&fine);
/// assert_eq!(lists.lent().counts, [1, 3]);
/// assert_eq!(lists.lent().ends, [1, 2, 3]); // of the coarse set 1, of the fine one 2 and 3
/// ```
#[derive(Clone, Debug, Default)]
pub struct SetSampleLists {
    counts: Vec<u64>,
    lists: SampleLists,
}

impl SetSampleLists {
    /// Of no set.
    #[must_use]
    pub fn new() -> Self {
        SetSampleLists::default()
    }

    /// Adds the next set's samples.
    pub fn push_set(&mut self, set: &SampleLists) {
        self.counts.push(set.times.len() as u64);
        self.lists.ends.extend(&set.ends);
        self.lists.times.extend(&set.times);
        self.lists.values.extend(&set.values);
        self.lists.marks.extend(&set.marks);
    }

    /// The lists, lent.
    #[must_use]
    pub fn lent(&self) -> SetSamples<'_> {
        let Samples { times, values, marks, ends } = self.lists.lent();
        SetSamples::new(&self.counts, ends, times, values, marks)
    }
}

/// Samples in any order brought into their normal form, as one clip's lists: sorted, and of equal times the first time
/// with the last value and mark.
///
/// # Errors
///
/// 1, 2, 9.
///
/// ```
/// let lists = tavitrozy::normalize(&[2.0, 1.0, 2.0], &[5.0, 6.0, 7.0], &[0, 0, 0])?;
/// assert_eq!(lists.lent().times, [1.0, 2.0]);
/// assert_eq!(lists.lent().values, [6.0, 7.0]);
/// # Ok::<(), tavitrozy::Refusal>(())
/// ```
pub fn normalize(times: &[f64], values: &[f64], marks: &[u8]) -> Result<SampleLists, Refusal> {
    let room = times.len();
    let mut lists =
        SampleLists { times: vec![0.0; room], values: vec![0.0; room], marks: vec![0; room], ends: Vec::new() };
    let out = (&mut lists.times[..], &mut lists.values[..], &mut lists.marks[..]);
    let count = normalize_into(times, values, marks, out.0, out.1, out.2)?;
    lists.times.truncate(count);
    lists.values.truncate(count);
    lists.marks.truncate(count);
    lists.ends.push(count as u64);
    Ok(lists)
}

/// [`normalize`] written to the front of lent lists; how many samples there are.
///
/// # Errors
///
/// 1, 2, 9, 22.
pub fn normalize_into(
    times: &[f64],
    values: &[f64],
    marks: &[u8],
    out_times: &mut [f64],
    out_values: &mut [f64],
    out_marks: &mut [u8],
) -> Result<usize, Refusal> {
    // SAFETY: each pointer comes with its own slice's length; the outputs are borrowed for writing, so none overlaps.
    let reply = unsafe {
        ffi::tavitrozy_normalize(
            times.as_ptr(),
            times.len(),
            values.as_ptr(),
            values.len(),
            marks.as_ptr(),
            marks.len(),
            out_times.as_mut_ptr(),
            out_times.len(),
            out_values.as_mut_ptr(),
            out_values.len(),
            out_marks.as_mut_ptr(),
            out_marks.len(),
        )
    };
    Refusal::checked(reply.number, reply.count)
}
