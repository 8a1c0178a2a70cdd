//! Which sample the Rust reads. It knows no places, so each number is given a label of its own, and the value that the Rust
//! then gives says which one was read. Blocks stay blocks.

use crate::calls::{Filling, Samples};
use crate::plain::{Answer, Sample, number};

/// The default's label, which no sample has.
const DEFAULT: f64 = -1.0;

/// The same default and samples, with labels for numbers: a sample's is its place in the lent lists.
pub fn labelled(filling: &Filling, samples: &Samples) -> (Filling, Samples) {
    let values = (0..samples.values.len()).map(|place| place as f64).collect();
    (Filling { value: DEFAULT, ..filling.clone() }, Samples { values, ..samples.clone() })
}

/// The place in the lent lists that a label tells; none for the default's, for a block and where nothing is.
pub fn lent_place(label: Answer) -> Option<usize> {
    (label.mark == 0 && label != number(DEFAULT)).then(|| f64::from_bits(label.bits) as usize)
}

/// What a label stands for.
pub fn meant(label: Answer, filling: &Filling, samples: &Samples) -> Answer {
    match lent_place(label) {
        Some(place) => number(samples.values[place]),
        None if label.mark == 0 => number(filling.value),
        None => label,
    }
}

/// The sample at a place in the lent lists: its clip is the first that ends behind it.
pub fn sample(place: usize, ends: &[u64]) -> Sample {
    let clip = ends.iter().position(|&end| place < end as usize).expect("the last end is the lists' length");
    let from = if clip == 0 { 0 } else { ends[clip - 1] as usize };
    Sample { clip, place: place - from }
}
