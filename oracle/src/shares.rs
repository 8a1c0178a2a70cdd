//! Samples of several sets from a seed, each set's share behind the one before; and shares with faults.

use crate::calls::Samples;
use crate::calls::dispatcher::SetSamples;
use crate::dispatcher_numbers::SAMPLES;
use crate::plain::Set;
use crate::random::Random;
use crate::random_cases::samples;

/// The most that any program which reads case text can hold.
const MOST_COUNTS: usize = 20;
pub const MOST_ENDS: usize = 2000;
pub const MOST_SAMPLES: usize = 9000;

/// Samples that no number refuses, a share for each set.
pub fn shares(random: &mut Random, sets: &[&Set]) -> Vec<Samples> {
    let most = random.pick(&[2, 4, 4, 8]);
    sets.iter().map(|set| samples(random, set, if set.clips > 40 { 1 } else { most })).collect()
}

/// The shares one after the other.
pub fn together(shares: &[Samples]) -> SetSamples {
    let mut all = SetSamples::default();
    for share in shares {
        all.counts.push(share.times.len() as u64);
        all.lists.ends.extend(&share.ends);
        all.lists.times.extend(&share.times);
        all.lists.values.extend(&share.values);
        all.lists.marks.extend(&share.marks);
    }
    all
}

/// A time that is none, or a value, in a share that has samples: 2.
fn spoil_a_number(random: &mut Random, share: &mut Samples) {
    let i = random.below(share.times.len());
    if random.chance(50) {
        share.times[i] = random.unlisted();
    } else {
        (share.values[i], share.marks[i]) = (f64::NAN, 0);
    }
}

/// A mark, an end or the order of the times, in a share that has samples: 9 for the most part.
fn spoil_the_form(random: &mut Random, share: &mut Samples) {
    let (count, i) = (share.times.len(), random.below(share.times.len()));
    match random.below(4) {
        0 => share.marks[i] = random.pick(&[2, 3, 255]),
        1 if i > 0 => share.times.swap(i - 1, i),
        2 if i > 0 => share.times[i] = share.times[i - 1],
        _ => {
            let end = random.below(share.ends.len());
            share.ends[end] = random.pick(&[0, 1, count as u64 - 1, count as u64 + 1, 1 << 32, u64::MAX]);
        }
    }
}

/// A fault that 2 or 9 tells, in any share that has samples.
pub fn spoil_a_share(random: &mut Random, shares: &mut [Samples]) {
    let mut filled: Vec<&mut Samples> = shares.iter_mut().filter(|share| !share.times.is_empty()).collect();
    if filled.is_empty() {
        return;
    }
    let i = random.below(filled.len());
    if random.chance(35) {
        spoil_a_number(random, filled[i]);
    } else {
        spoil_the_form(random, filled[i]);
    }
}

/// Counts that say another parting, ends too many or too few, lists of unlike length.
pub fn spoil_the_parting(random: &mut Random, all: &mut SetSamples) {
    let SetSamples { counts, lists } = all;
    match random.below(10) {
        0 => counts.push(random.pick(&[0, 1])),
        1 if random.chance(20) => counts.resize(MOST_COUNTS, 0),
        1 => _ = counts.pop(),
        2 if !counts.is_empty() => {
            let i = random.below(counts.len());
            counts[i] = random.pick(&[0, counts[i] + 1, SAMPLES as u64, SAMPLES as u64 + 1, 1 << 32, u64::MAX]);
        }
        // What one set has more the other has less, by as much as there is, and beyond it.
        3 | 4 if counts.len() > 1 => {
            let i = random.between(1, counts.len() - 1);
            let by = random.pick(&[1, counts[i], counts[i - 1] + 1]);
            counts[i - 1] = counts[i - 1].wrapping_sub(by);
            counts[i] = counts[i].wrapping_add(by);
        }
        5 => lists.ends.push(random.pick(&[0, lists.times.len() as u64])),
        6 => _ = lists.ends.pop(),
        7 => lists.times.push(0.0),
        8 => _ = lists.values.pop(),
        _ => lists.marks.push(0),
    }
}

/// Ends that are counted from the first sample of all, as they are not: 9, where an earlier set has samples.
pub fn count_through(shares: &mut [Samples]) {
    let mut before = 0;
    for share in shares {
        share.ends.iter_mut().for_each(|end| *end += before);
        before += share.times.len() as u64;
    }
}

/// Keeps them within what any program can hold.
pub fn hold(all: &mut SetSamples) {
    all.counts.truncate(MOST_COUNTS);
    all.lists.ends.truncate(MOST_ENDS);
    all.lists.times.truncate(MOST_SAMPLES);
    all.lists.values.truncate(MOST_SAMPLES);
    all.lists.marks.truncate(MOST_SAMPLES);
}
