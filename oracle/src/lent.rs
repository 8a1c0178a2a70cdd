//! The samples lent for a set, as the Rust has them, and what it reads of them.

use std::cell::OnceCell;

use crate::calls::{Filling, Samples};
use crate::labels;
use crate::pcp::clip::reach::Asked;
use crate::plain::{self, ABSENT, Answer, BLOCKED, Read, Sampled};
use crate::prepared::Prepared;
use crate::sdf::{Data, Layer};
use crate::vt::Value;

/// Samples that no number refuses for their set.
pub struct Lent {
    pub samples: Samples,
    /// The manifest, then a layer for each clip.
    pub layers: Vec<Layer>,
    /// The same with labels for numbers, made where a sample is asked for.
    labelled: OnceCell<Vec<Layer>>,
}

impl Lent {
    pub fn new(set: &Prepared, samples: Samples) -> Self {
        Lent { layers: layers(&set.filling, &samples), labelled: OnceCell::new(), samples }
    }

    /// The same for a set whose manifest says nothing of the attribute, and so does not declare it.
    pub fn undeclared(set: &Prepared, samples: Samples) -> Self {
        let mut lent = Lent::new(set, samples);
        lent.layers[0].data = Data::default();
        lent
    }
}

/// The Rust, asked about a set with the samples that are lent for it.
pub struct Rust<'a> {
    pub set: &'a Prepared,
    pub lent: &'a Lent,
    pub asked: &'a mut Asked,
}

impl<'a> Rust<'a> {
    pub fn value(&mut self, t: f64) -> Answer {
        answer(self.asked.value(&self.set.resolved, &self.lent.layers, t))
    }

    /// The value, and the sample that it was read from by what the Rust says of labels.
    pub fn read(&mut self, t: f64) -> Sampled {
        let value = self.value(t);
        let (filling, samples) = (&self.set.filling, &self.lent.samples);
        let labelled = self.lent.labelled.get_or_init(|| {
            let (filling, samples) = labels::labelled(filling, samples);
            layers(&filling, &samples)
        });
        let label = answer(self.asked.value(&self.set.resolved, labelled, t));
        // Numbers have no part in which sample is read; else labels would tell nothing.
        assert_eq!(labels::meant(label, filling, samples), value, "the label stands for the value");
        let sample = labels::lent_place(label).map(|place| labels::sample(place, &samples.ends));
        Sampled { answer: value, sample }
    }

    /// The same set and samples by the document.
    pub fn document(&self) -> Read<'a> {
        Read::new(&self.set.plain, &self.lent.samples)
    }
}

fn answer(value: Option<Value>) -> Answer {
    match value {
        None => ABSENT,
        Some(Value::Double(value)) => plain::number(value),
        Some(_) => BLOCKED,
    }
}

/// The manifest and a layer for each clip.
fn layers(filling: &Filling, s: &Samples) -> Vec<Layer> {
    let blocks = filling.blocks.iter().map(|&time| (time, Value::ValueBlock)).collect();
    let default = match filling.mark {
        0 => Some(Value::Double(filling.value)),
        1 => Some(Value::ValueBlock),
        _ => None,
    };
    let manifest = Data { samples: Some(Value::TimeSamples(blocks)), default };
    let mut layers = vec![Layer { identifier: "m".into(), data: manifest }];
    let mut from = 0;
    for (clip, &end) in s.ends.iter().enumerate() {
        let places = from..end as usize;
        from = end as usize;
        let value = |i| if s.marks[i] == 0 { Value::Double(s.values[i]) } else { Value::ValueBlock };
        let samples: Vec<_> = places.map(|i| (s.times[i], value(i))).collect();
        let samples = (!samples.is_empty()).then_some(Value::TimeSamples(samples));
        layers.push(Layer { identifier: format!("c{clip}"), data: Data { samples, default: None } });
    }
    layers
}
