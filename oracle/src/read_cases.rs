//! Cases from a seed in which values tell no samples apart: most of them are one number, which is the default too. Starts
//! share their clips, clips have no samples, starts are blocked; on some knots the stage times of samples miss them by
//! rounding.

use crate::calls::{Call, Explicit, Fields, Filling, Samples};
use crate::plain::Set;
use crate::random::Random;
use crate::random_cases::{accepted, explicit_set, question_time, retimed, samples, special_times};
use crate::writer::Writer;

/// Accepts a set, retimes it perhaps, lends samples, and asks for values with their samples.
pub fn case(random: &mut Random, out: &mut Writer<'_>) {
    let uneven = random.chance(50);
    let fields = Fields::Explicit(if uneven { uneven_set(random) } else { shared_set(random) });
    out.call(&fields.acceptance());
    let Some(mut set) = accepted(&fields) else { return };
    if random.chance(20) {
        retimed(random, out, &mut set, None);
    }
    for _ in 0..random.between(1, 2) {
        let mut lent = if uneven { tenths(random, set.clips) } else { samples(random, &set, 8) };
        make_alike(random, &set, &mut lent);
        out.call(&Call::Samples(lent.clone()));
        let special = special_times(&set, Some(&lent));
        for _ in 0..random.between(8, 20) {
            let t = question_time(random, &special);
            out.value_and_sample(t);
        }
    }
}

/// A number of few, so that it is often that of samples too.
fn few_values(random: &mut Random) -> f64 {
    random.pick(&[1.0, 1.0, 7.0, 0.0, -0.0])
}

/// Blocks at starts for the most part; the flag more often on.
fn filling(random: &mut Random, starts: &[f64]) -> Filling {
    let blocked = random.pick(&[0, 0, 20, 50]);
    let blocks = starts.iter().copied().filter(|_| random.chance(blocked)).collect();
    Filling { blocks, mark: random.pick(&[0, 1, 2, 2]), value: few_values(random), flag: random.chance(70) }
}

/// A clip for each start, of at most three clips that starts share.
fn shared_clips(random: &mut Random, starts: usize, clips: usize) -> Vec<f64> {
    let named: Vec<usize> = (0..random.between(1, 3)).map(|_| random.below(clips)).collect();
    (0..starts).map(|_| random.pick(&named) as f64).collect()
}

/// A set of any shape with more starts than clips that they name.
fn shared_set(random: &mut Random) -> Explicit {
    let mut set = explicit_set(random, 6, 6);
    set.clips = random.between(1, 5) as u64;
    set.start_clips = shared_clips(random, set.start_times.len(), set.clips as usize);
    set.filling = filling(random, &set.start_times);
    set
}

/// Two or more starts, and knots between whole numbers: the stage time of a tenth is rounded, and may read the sample before.
fn uneven_set(random: &mut Random) -> Explicit {
    let (from, step) = (random.below(4) as f64 - 1.0, random.pick(&[1.0, 2.0, 5.0]));
    let mut start_times: Vec<f64> = (0..random.between(1, 4)).map(|i| from + i as f64 * step).collect();
    start_times.push(random.pick(&[20.5, 1000.0]));
    let clips = random.between(1, 3);
    let knots = random.between(2, 4);
    let mut knot_x: Vec<f64> = (0..knots).map(|i| (3 * i + random.below(3)) as f64).collect();
    if random.chance(20) {
        let jump = random.between(1, knots - 1);
        knot_x[jump] = knot_x[jump - 1];
    }
    let filling = filling(random, &start_times);
    Explicit {
        clips: clips as u64,
        start_clips: shared_clips(random, start_times.len(), clips),
        start_times,
        knot_x,
        knot_y: (0..knots).map(|_| random.below(13) as f64).collect(),
        filling,
    }
}

/// Samples at tenths, from the lowest to the highest clip time of such knots.
fn tenths(random: &mut Random, clips: usize) -> Samples {
    let mut lent = Samples::default();
    for _ in 0..clips {
        let mut places: Vec<usize> = (0..random.between(0, 6)).map(|_| random.below(121)).collect();
        places.sort_unstable();
        places.dedup();
        lent.times.extend(places.into_iter().map(|tenth| tenth as f64 / 10.0));
        lent.ends.push(lent.times.len() as u64);
    }
    let blocked = random.pick(&[0, 0, 20]);
    lent.marks = lent.times.iter().map(|_| u8::from(random.chance(blocked))).collect();
    lent.values = lent.times.iter().map(|_| random.value()).collect();
    lent
}

/// Makes most numbers one, that of the default.
fn make_alike(random: &mut Random, set: &Set, lent: &mut Samples) {
    let alike = random.pick(&[50, 90, 100]);
    for (value, _) in lent.values.iter_mut().zip(&lent.marks).filter(|(_, mark)| **mark == 0) {
        if random.chance(alike) {
            *value = set.filling.value;
        }
    }
}
