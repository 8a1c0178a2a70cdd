//! The track by definition: the doubles where the value is not alike to the value at the next lower double.
//!
//! Between two candidates nothing can change: candidates are every start, every knot's x, every gathered time and, for each
//! segment and sample, the first double of the segment that reads another sample. The walk tests this as it goes: below
//! each candidate the value must be the one at the candidate before.

use crate::doubles::{at, place};
use crate::plain::{ABSENT, Answer, Read, along};
use crate::text::Line;

pub struct Track {
    pub head: Answer,
    pub changes: Vec<(f64, Answer)>,
}

impl Track {
    /// Head, count and changes.
    pub fn write(&self, out: &mut Line) {
        out.answer(self.head.mark, self.head.bits).number(self.changes.len() as u64);
        for (time, answer) in &self.changes {
            out.double(*time).answer(answer.mark, answer.bits);
        }
    }
}

/// The places where the value may change, ascending.
pub fn candidates(read: &Read<'_>) -> Vec<i64> {
    let set = read.set;
    let mut places: Vec<i64> = set.starts.iter().map(|start| place(start.0)).collect();
    places.extend(set.knots.iter().map(|knot| place(knot.0)));
    if set.starts.len() > 1 {
        for p in 0..set.starts.len() {
            places.extend(read.gathered(p).iter().map(|&t| place(t)));
        }
    }
    let mut named: Vec<usize> = set.starts.iter().map(|start| start.1).collect();
    named.sort_unstable();
    named.dedup();
    for clip in named {
        if set.knots.is_empty() {
            places.extend(read.sample_times(clip).iter().map(|&c| place(c)));
        }
        for pair in set.knots.windows(2) {
            let (lo, hi) = (place(pair[0].0), place(pair[1].0) - 1);
            if lo < hi && pair[0].1 != pair[1].1 {
                let crossing = |&c: &f64| crossing(lo, hi, |t| along(pair[0], pair[1], t) >= c);
                places.extend(read.sample_times(clip).iter().filter_map(crossing));
            }
        }
    }
    places.sort_unstable();
    places.dedup();
    places
}

/// The first place above `lo`, at most `hi`, where a monotone test says otherwise than at `lo`.
fn crossing(mut lo: i64, mut hi: i64, test: impl Fn(f64) -> bool) -> Option<i64> {
    let below = test(at(lo));
    if test(at(hi)) == below {
        return None;
    }
    while (hi as i128 - lo as i128) > 1 {
        let middle = ((lo as i128 + hi as i128) >> 1) as i64;
        if test(at(middle)) == below { lo = middle } else { hi = middle }
    }
    Some(hi)
}

/// The track of `value`, whose bits change at candidates only.
pub fn walk(candidates: &[i64], mut value: impl FnMut(f64) -> Answer) -> Track {
    let first = value(f64::MIN);
    let mut track = Track { head: first.written(), changes: Vec::new() };
    if first == ABSENT {
        return track;
    }
    let mut last = first;
    for &candidate in candidates {
        let below = value(at(candidate - 1));
        assert!(below == last, "the value changes between candidates, below {:e}", at(candidate));
        last = value(at(candidate));
        if !last.alike(below) {
            track.changes.push((at(candidate), last.written()));
        }
    }
    track
}

/// At how many candidates a zero's sign alone changes, which is no change.
pub fn turned_zeros(candidates: &[i64], mut value: impl FnMut(f64) -> Answer) -> usize {
    let mut last = value(f64::MIN);
    let turned = |&&candidate: &&i64| {
        let below = std::mem::replace(&mut last, value(at(candidate)));
        below != last && below.alike(last)
    };
    candidates.iter().filter(turned).count()
}

/// FNV-1a 64 over each change's time, value and mark.
pub fn hash(changes: &[(f64, Answer)]) -> u64 {
    let mut hash = 0xcbf29ce484222325u64;
    let mut eat = |byte: u8| hash = (hash ^ u64::from(byte)).wrapping_mul(0x100000001b3);
    for (time, answer) in changes {
        time.to_bits().to_le_bytes().into_iter().for_each(&mut eat);
        answer.bits.to_le_bytes().into_iter().for_each(&mut eat);
        eat(answer.mark);
    }
    hash
}
