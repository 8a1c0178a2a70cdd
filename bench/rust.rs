//! Both sides, ready to be asked: the set parsed once, the samples prepared once.

use crate::calls::{Explicit, Filling, Samples};
use crate::gf::vec2d;
use crate::pcp::clip::reach::{self, Asked, Map};
use crate::pcp::clip::{ClipAnchor, ResolvedClipSet, keys};
use crate::pcp::{LayerId, LayerStackId};
use crate::plain::{self, ABSENT, Answer, BLOCKED};
use crate::sdf::{AssetPath, Data, Layer, LayerOffset, Path};
use crate::track::Track;
use crate::vt::Value;

/// The Rust: `value_in_set` over the stand-ins.
pub struct Rust {
    resolved: ResolvedClipSet,
    layers: Vec<Layer>,
    asked: Asked,
}

impl Rust {
    pub fn new(e: &Explicit, samples: &Samples) -> Self {
        let set = reach::parse_set(&dictionary(e)).expect("a set that the Rust takes");
        let source = ClipAnchor { layer: LayerId(0), prim_path: Path::new("/a").unwrap(), stack: LayerStackId };
        Rust {
            resolved: ResolvedClipSet { set, source, manifest_layer: None, active_offset: LayerOffset::IDENTITY },
            layers: layers(&e.filling, samples),
            asked: Asked::new(),
        }
    }

    pub fn value(&mut self, t: f64) -> Answer {
        match self.asked.value(&self.resolved, &self.layers, t) {
            None => ABSENT,
            Some(Value::Double(value)) => plain::number(value),
            Some(_) => BLOCKED,
        }
    }
}

/// The set as a layer would author it.
pub fn dictionary(e: &Explicit) -> Map {
    let pairs = |x: &[f64], y: &[f64]| Value::Vec2dVec(x.iter().zip(y).map(|(&x, &y)| vec2d(x, y)).collect());
    let paths = (0..e.clips).map(|clip| AssetPath::new(format!("c{clip}"))).collect();
    Map::from([
        (keys::MANIFEST_ASSET_PATH.into(), Value::AssetPath(AssetPath::new("m"))),
        (keys::INTERPOLATE_MISSING.into(), Value::Bool(e.filling.flag)),
        (keys::ASSET_PATHS.into(), Value::AssetPathVec(paths)),
        (keys::ACTIVE.into(), pairs(&e.start_times, &e.start_clips)),
        (keys::TIMES.into(), pairs(&e.knot_x, &e.knot_y)),
    ])
}

/// The manifest and a layer for each clip, as the oracle's desk makes them.
fn layers(filling: &Filling, s: &Samples) -> Vec<Layer> {
    let blocks = filling.blocks.iter().map(|&time| (time, Value::ValueBlock)).collect();
    let default = match filling.mark {
        0 => Some(Value::Double(filling.value)),
        1 => Some(Value::ValueBlock),
        _ => None,
    };
    let manifest = Data { samples: Some(Value::TimeSamples(blocks)), default };
    let mut layers = vec![Layer { identifier: "m".into(), data: manifest }];
    let mut from = 0;
    for (clip, &end) in s.ends.iter().enumerate() {
        let value = |i| if s.marks[i] == 0 { Value::Double(s.values[i]) } else { Value::ValueBlock };
        let samples: Vec<_> = (from..end as usize).map(|i| (s.times[i], value(i))).collect();
        from = end as usize;
        let samples = (!samples.is_empty()).then_some(Value::TimeSamples(samples));
        layers.push(Layer { identifier: format!("c{clip}"), data: Data { samples, default: None } });
    }
    layers
}

/// The set as the library is lent it.
pub fn explicit(e: &Explicit) -> tavitrozy::Explicit<'_> {
    assert_eq!(e.filling.mark, 2, "no set here has a default");
    tavitrozy::Explicit::new(e.clips)
        .starts(&e.start_times, &e.start_clips)
        .knots(&e.knot_x, &e.knot_y)
        .blocks(&e.filling.blocks)
        .interpolate(e.filling.flag)
}

/// The library, through its Rust crate.
pub struct Library<'a> {
    resolver: tavitrozy::Resolver,
    samples: tavitrozy::Samples<'a>,
}

impl<'a> Library<'a> {
    pub fn new(e: &Explicit, s: &'a Samples) -> Self {
        let mut resolver = tavitrozy::Resolver::new();
        resolver.accept(&explicit(e)).expect("a set that the library takes");
        Library { resolver, samples: tavitrozy::Samples::new(&s.times, &s.values, &s.marks, &s.ends) }
    }

    pub fn value(&self, t: f64) -> Answer {
        answer(self.resolver.value(&self.samples, tavitrozy::StageTime(t)).expect("no refusal"))
    }

    /// A bake into lists of so many slots.
    pub fn bake(&self, room: usize) -> Lists {
        Lists::baked(room, |times, values, marks| {
            let (head, count) = self.resolver.bake_into(&self.samples, times, values, marks).expect("room enough");
            (answer(head), count)
        })
    }

    /// A bake that is given no room.
    pub fn track(&self) -> tavitrozy::Track {
        self.resolver.bake(&self.samples).expect("no refusal")
    }
}

fn answer(answer: tavitrozy::Answer) -> Answer {
    let (mark, value) = answer.marked();
    Answer { mark, bits: value.to_bits() }
}

/// The lists that a bake was lent, cut to its changes.
pub struct Lists {
    head: Answer,
    times: Vec<f64>,
    values: Vec<f64>,
    marks: Vec<u8>,
}

impl Lists {
    pub fn baked(room: usize, bake: impl FnOnce(&mut [f64], &mut [f64], &mut [u8]) -> (Answer, usize)) -> Self {
        let (mut times, mut values, mut marks) = (vec![0.0; room], vec![0.0; room], vec![0; room]);
        let (head, count) = bake(&mut times, &mut values, &mut marks);
        times.truncate(count);
        values.truncate(count);
        marks.truncate(count);
        Lists { head, times, values, marks }
    }

    pub fn track(&self) -> Track {
        let entry = |i: usize| Answer { mark: self.marks[i], bits: self.values[i].to_bits() };
        let changes = (0..self.times.len()).map(|i| (self.times[i], entry(i))).collect();
        Track { head: self.head, changes }
    }
}
