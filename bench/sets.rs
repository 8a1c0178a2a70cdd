//! The sets that are measured, each known by its name: those at the limits (limits.rs), everyday ones, growing ones.

use crate::calls::{Explicit, Filling, Samples};
use crate::limits;

pub struct Case {
    pub name: String,
    pub set: Explicit,
    pub samples: Samples,
    /// The stage times asked about.
    pub times: Vec<f64>,
}

/// Numbers from a seed, for times asked about and shuffling.
pub struct Random(pub u64);

impl Random {
    pub fn bits(&mut self) -> u64 {
        self.0 = self.0.wrapping_mul(6_364_136_223_846_793_005).wrapping_add(1_442_695_040_888_963_407);
        let mixed = (self.0 ^ (self.0 >> 32)).wrapping_mul(0x9e37_79b9_7f4a_7c15);
        mixed ^ (mixed >> 29)
    }

    /// From 0 to below 1.
    pub fn part(&mut self) -> f64 {
        (self.bits() >> 11) as f64 / (1u64 << 53) as f64
    }
}

/// How an everyday set's knots lead from stage to clip time.
#[derive(Clone, Copy, PartialEq)]
enum Knots {
    None,
    /// One for each clip, stage time being clip time.
    Straight,
    /// Each clip runs from its own zero, with a jump between clips.
    Restarting,
    /// The stage's span back and forth, three times.
    Zigzag,
}

/// An everyday set: `clips` of `length` frames one after another.
struct Everyday {
    name: &'static str,
    clips: usize,
    samples: usize,
    knots: Knots,
    flag: bool,
    /// Of every so many clips one is blocked by the manifest; 0 for none.
    blocked: usize,
    /// The same for clips without samples.
    empty: usize,
}

const LENGTH: f64 = 25.0;

impl Everyday {
    fn knots(&self, end: f64) -> Vec<(f64, f64)> {
        let starts = (0..self.clips).map(|i| i as f64 * LENGTH);
        match self.knots {
            Knots::None => Vec::new(),
            Knots::Straight => starts.map(|s| (s, s)).collect(),
            Knots::Restarting => starts.flat_map(|s| [(s, 0.0), (s + LENGTH, LENGTH)]).collect(),
            Knots::Zigzag => (0..4).map(|i| (i as f64 * end / 3.0, if i % 2 == 0 { 0.0 } else { end })).collect(),
        }
    }

    fn case(&self) -> Case {
        let end = self.clips as f64 * LENGTH;
        let nth = |every: usize, i: usize| every != 0 && i % every == 1;
        let starts: Vec<f64> = (0..self.clips).map(|i| i as f64 * LENGTH).collect();
        let (knot_x, knot_y) = self.knots(end).into_iter().unzip();
        let blocks = (0..self.clips).filter(|&i| nth(self.blocked, i)).map(|i| starts[i]).collect();
        let mut samples = Samples::default();
        for (i, start) in starts.iter().enumerate() {
            let zero = if self.knots == Knots::Restarting { 0.0 } else { *start };
            for j in 0..if nth(self.empty, i) { 0 } else { self.samples } {
                samples.times.push(zero + j as f64 * LENGTH / self.samples as f64);
                samples.values.push((i * 1000 + j) as f64);
                samples.marks.push(0);
            }
            samples.ends.push(samples.times.len() as u64);
        }
        let filling = Filling { blocks, mark: 2, value: 0.0, flag: self.flag };
        let start_clips = (0..self.clips).map(|i| i as f64).collect();
        let set = Explicit { clips: self.clips as u64, start_times: starts, start_clips, knot_x, knot_y, filling };
        let mut random = Random(1);
        let times = (0..300).map(|_| (random.part() * 1.2 - 0.1) * end).collect();
        Case { name: self.name.into(), set, samples, times }
    }
}

pub fn everyday() -> Vec<Case> {
    use Knots::*;
    let set = |name, clips, samples, knots| Everyday { name, clips, samples, knots, flag: false, blocked: 0, empty: 0 };
    let gaps = |blocked, empty, set| Everyday { flag: true, blocked, empty, ..set };
    let sets = [
        set("2 clips of 10, no knots", 2, 10, None),
        set("20 clips of 100, no knots", 20, 100, None),
        set("1 clip of 100, zigzag knots", 1, 100, Zigzag),
        set("10 clips of 25, a knot each", 10, 25, Straight),
        set("20 clips of 100, jumps", 20, 100, Restarting),
        gaps(0, 3, set("10 clips of 25, jumps, flag, 3 empty", 10, 25, Restarting)),
        gaps(4, 0, set("20 clips of 50, a knot each, flag, 5 blocked", 20, 50, Straight)),
    ];
    sets.iter().map(Everyday::case).collect()
}

/// A growing set: one clip under zigzag knots, with one start or with two, the second far away.
#[derive(Clone, Copy)]
pub struct Growing {
    pub starts: usize,
    pub knots: usize,
    pub samples: usize,
    /// How many of the samples the knots span.
    pub spanned: usize,
    /// How many different values the samples have.
    pub values: usize,
}

impl Growing {
    pub fn case(&self) -> Case {
        let span = self.spanned as f64;
        let knot_x = (0..self.knots).map(|i| 0.3 + i as f64 * 7.7).collect();
        let knot_y = (0..self.knots).map(|i| if i % 2 == 0 { 0.1 } else { span }).collect();
        let start_times = [0.0, 1e9][..self.starts].to_vec();
        let filling = Filling { blocks: Vec::new(), mark: 2, value: 0.0, flag: false };
        let samples = Samples {
            ends: vec![self.samples as u64],
            times: (0..self.samples).map(|i| i as f64 + 0.37).collect(),
            values: (0..self.samples).map(|i| (i * self.values / self.samples) as f64).collect(),
            marks: vec![0; self.samples],
        };
        let set = Explicit { clips: 1, start_clips: vec![0.0; self.starts], start_times, knot_x, knot_y, filling };
        let mut random = Random(2);
        let times = (0..20).map(|_| random.part() * 7.7 * self.knots as f64).collect();
        Case { name: self.name(), set, samples, times }
    }

    pub fn name(&self) -> String {
        format!("grow {} {} {} {} {}", self.starts, self.knots, self.samples, self.spanned, self.values)
    }

    pub fn read(name: &str) -> Option<Growing> {
        let numbers: Vec<usize> = name.strip_prefix("grow ")?.split(' ').filter_map(|word| word.parse().ok()).collect();
        let &[starts, knots, samples, spanned, values] = &numbers[..] else { return None };
        Some(Growing { starts, knots, samples, spanned, values })
    }
}

/// The set of a name.
pub fn named(name: &str) -> Option<Case> {
    let known = || limits::cases().into_iter().chain(everyday());
    Growing::read(name).map(|growing| growing.case()).or_else(|| known().find(|case| case.name == name))
}
