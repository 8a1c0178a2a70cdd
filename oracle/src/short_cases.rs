//! Short sets and short lists, all of them: each family is counted through, so that a part (every n-th) can be asked for.

use crate::calls::{Call, Explicit, Fields, Filling, NAME_ROOM, ROOM, Samples, Template};
use crate::doubles::{FAR, at, place};
use crate::patterns::telling;
use crate::short_dispatcher;
use crate::writer::Writer;

/// Its name, how many cases it has, and what writes one of them.
pub type Family = (&'static str, fn() -> usize, fn(usize, &mut Writer<'_>));

const FAMILIES: [Family; 14] = [
    ("mapping", mapping_size, mapping),
    ("missing", missing_size, missing),
    ("alike", alike_size, alike),
    ("uneven", uneven_size, uneven),
    ("lists", lists_size, lists),
    ("templates", templates_size, templates),
    ("names", names_size, names),
    ("normalise", normalise_size, normalise),
    ("lent", lent_size, lent),
    ("retime", retime_size, retime),
    ("twice", twice_size, twice),
    ("zeros", zeros_size, zeros),
    ("keys", keys_size, keys),
    ("slots", slots_size, slots),
];

/// Writes every `of`-th case, beginning with `part`.
pub fn write(part: usize, of: usize, out: &mut Writer<'_>) {
    let mut number = 0;
    for (family, size, case) in FAMILIES.into_iter().chain(short_dispatcher::FAMILIES) {
        for index in 0..size() {
            if number % of == part % of {
                out.call(&Call::Case(format!("{family}-{index}")));
                case(index, out);
            }
            number += 1;
        }
    }
}

/// Reads an index as choices, one after the other.
pub struct Choices(pub usize);

impl Choices {
    pub fn below(&mut self, n: usize) -> usize {
        let choice = self.0 % n;
        self.0 /= n;
        choice
    }

    pub fn of<T: Copy>(&mut self, list: &[T]) -> T {
        list[self.below(list.len())]
    }

    /// A list of at most `most` entries, each of `n` kinds; `sequences(n, most)` of them.
    pub fn sequence(&mut self, n: usize, most: usize) -> Vec<usize> {
        let mut index = self.below(sequences(n, most));
        let mut length = 0;
        while index >= n.pow(length) {
            index -= n.pow(length);
            length += 1;
        }
        (0..length).map(|digit| index / n.pow(digit) % n).collect()
    }
}

pub fn sequences(n: usize, most: usize) -> usize {
    (0..=most as u32).map(|length| n.pow(length)).sum()
}

pub const NO_FILLING: Filling = Filling { blocks: Vec::new(), mark: 2, value: 0.0, flag: false };

fn next(d: f64) -> f64 {
    at(place(d) + 1)
}

fn below(d: f64) -> f64 {
    at(place(d) - 1)
}

// Up to two starts, up to three knots and up to three samples on a small grid.

const SHORT_STARTS: [&[f64]; 7] = [&[], &[0.0], &[1.0], &[2.0], &[0.0, 1.0], &[1.0, 2.0], &[0.0, 2.0]];

fn mapping_size() -> usize {
    SHORT_STARTS.len() * 4 * sequences(9, 3) * 8
}

fn mapping(index: usize, out: &mut Writer<'_>) {
    let mut choices = Choices(index);
    let starts = choices.of(&SHORT_STARTS);
    let clips = choices.below(4);
    let knots = choices.sequence(9, 3);
    let sampled = choices.below(8);
    out.call(&Call::Explicit(Explicit {
        clips: 2,
        start_times: starts.to_vec(),
        start_clips: (0..starts.len()).map(|i| (clips >> i & 1) as f64).collect(),
        knot_x: knots.iter().map(|k| (k % 3) as f64).collect(),
        knot_y: knots.iter().map(|k| (k / 3) as f64).collect(),
        filling: NO_FILLING,
    }));
    let times: Vec<f64> = (0..3).filter(|i| sampled >> i & 1 == 1).map(f64::from).collect();
    let first = times.len();
    let times = [times, vec![0.5, 1.0]].concat();
    let values = (1..=times.len()).map(|v| v as f64).collect();
    let marks = vec![0; times.len()];
    out.call(&Call::Samples(Samples { ends: vec![first as u64, times.len() as u64], times, values, marks }));
    for t in [-1.0, 0.0, next(0.0), 0.5, below(1.0), 1.0, next(1.0), 1.5, 2.0, 3.0] {
        out.value_and_sample(t);
    }
    for t in [0.25, 1.75] {
        out.call(&Call::ClipTime(t));
    }
    out.call(&Call::Dump);
    out.call(&Call::Times(ROOM));
    out.call(&Call::Track(ROOM));
}

// Three starts whose clips have a value, a block or nothing; flag, blocks and default of each kind.

fn missing_size() -> usize {
    27 * 27 * 8 * 3 * 2 * 3
}

fn missing(index: usize, out: &mut Writer<'_>) {
    let mut choices = Choices(index);
    let clips = (0..3).map(|_| choices.below(3) as f64).collect();
    let held: Vec<usize> = (0..3).map(|_| choices.below(3)).collect();
    let blocked = choices.below(8);
    let mark = choices.below(3) as u8;
    let flag = choices.below(2) == 1;
    let knots: [(&[f64], &[f64]); 3] = [(&[], &[]), (&[0.0, 3.0], &[0.0, 3.0]), (&[0.0, 1.0, 1.0], &[2.0, 0.0, 1.0])];
    let (x, y) = choices.of(&knots);
    out.call(&Call::Explicit(Explicit {
        clips: 3,
        start_times: vec![0.0, 1.0, 2.0],
        start_clips: clips,
        knot_x: x.to_vec(),
        knot_y: y.to_vec(),
        filling: Filling {
            blocks: (0..3).filter(|i| blocked >> i & 1 == 1).map(f64::from).collect(),
            mark,
            value: 7.0,
            flag,
        },
    }));
    let mut s = Samples::default();
    for (clip, held) in held.into_iter().enumerate() {
        if held > 0 {
            s.times.extend([clip as f64, clip as f64 + 0.5]);
            s.values.extend([clip as f64 * 2.0 + 1.0, clip as f64 * 2.0 + 2.0]);
            s.marks.extend([u8::from(held == 2), 0]);
        }
        s.ends.push(s.times.len() as u64);
    }
    out.call(&Call::Samples(s));
    for t in [-1.0, 0.5, 1.0, 1.75, 2.5] {
        out.value_and_sample(t);
    }
    out.call(&Call::Untimed);
    out.call(&Call::StageSamples(ROOM));
    out.call(&Call::Track(ROOM));
}

// The same starts; every number is 1.0, the default's too, and a clip has none, one or two samples, of which clip 0's first
// may be a block: the sample that was read is all that differs.

fn alike_size() -> usize {
    27 * 27 * 2 * 8 * 2 * 2 * 2
}

fn alike(index: usize, out: &mut Writer<'_>) {
    let mut choices = Choices(index);
    let start_clips = (0..3).map(|_| choices.below(3) as f64).collect();
    let counts: [usize; 3] = std::array::from_fn(|_| choices.below(3));
    let first_mark = choices.below(2) as u8;
    let blocked = choices.below(8);
    let mark = choices.of(&[0, 2]);
    let flag = choices.below(2) == 1;
    let knots: [(&[f64], &[f64]); 2] = [(&[], &[]), (&[0.0, 1.0, 1.0, 3.0], &[1.0, 0.0, 2.0, 0.0])];
    let (x, y) = choices.of(&knots);
    out.call(&Call::Explicit(Explicit {
        clips: 3,
        start_times: vec![0.0, 1.0, 2.0],
        start_clips,
        knot_x: x.to_vec(),
        knot_y: y.to_vec(),
        filling: Filling {
            blocks: (0..3).filter(|i| blocked >> i & 1 == 1).map(f64::from).collect(),
            mark,
            value: 1.0,
            flag,
        },
    }));
    let mut s = Samples::default();
    for count in counts {
        s.times.extend([0.5, 1.5].iter().take(count));
        s.ends.push(s.times.len() as u64);
    }
    s.values = vec![1.0; s.times.len()];
    s.marks = vec![0; s.times.len()];
    if counts[0] > 0 {
        s.marks[0] = first_mark;
    }
    out.call(&Call::Samples(s));
    for t in [-1.0, 0.5, 1.0, 1.75, 2.5] {
        out.call(&Call::Read(t));
    }
}

// Two starts of one clip, and one segment between whole numbers, rising or falling. The second sample lies at a tenth, whose
// stage time may be rounded to one that reads the first.

fn uneven_size() -> usize {
    4 * 5 * 6 * 2 * 29
}

fn uneven(index: usize, out: &mut Writer<'_>) {
    let mut choices = Choices(index);
    let low = choices.below(4);
    let last_x = choices.below(5) as f64 + 1.0;
    let high = low + choices.of(&[3, 4, 6, 7, 8, 9]);
    let (first_y, last_y) = choices.of(&[(low, high), (high, low)]);
    let (first_y, last_y) = (first_y as f64, last_y as f64);
    let time = (10 * low + choices.below(29) + 1) as f64 / 10.0;
    out.call(&Call::Explicit(Explicit {
        clips: 1,
        start_times: vec![0.0, 1000.0],
        start_clips: vec![0.0; 2],
        knot_x: vec![0.0, last_x],
        knot_y: vec![first_y, last_y],
        filling: NO_FILLING,
    }));
    out.call(&Call::Samples(Samples {
        ends: vec![2],
        times: vec![0.0, time],
        values: vec![1.0; 2],
        marks: vec![0; 2],
    }));
    let reached = (time - first_y) / (last_y - first_y) * last_x;
    for t in [below(reached), reached, next(reached), (reached + last_x) / 2.0, below(last_x)] {
        out.call(&Call::Read(t));
    }
}

// Up to three starts or knots in any order, among them what refuses a set.

const LISTED: [f64; 6] = [0.0, -0.0, 1.0, -1.0, f64::NAN, 2.0 * FAR];
const CLIPS: [f64; 6] = [0.0, -0.0, 1.0, 0.5, -1.0, f64::NAN];

fn lists_size() -> usize {
    2 * 3 * sequences(6, 3) * 6 * 5
}

fn lists(index: usize, out: &mut Writer<'_>) {
    let mut choices = Choices(index);
    let knots = choices.below(2) == 1;
    let clips = choices.below(3) as u64;
    let list: Vec<f64> = choices.sequence(6, 3).into_iter().map(|i| LISTED[i]).collect();
    let clip = choices.of(&CLIPS);
    let mark = choices.of(&[0, 1, 2, 3, 255]);
    let mut partner = vec![0.0; list.len()];
    if let Some(first) = partner.first_mut() {
        *first = clip;
    }
    let mut e = Explicit { clips, filling: Filling { mark, ..NO_FILLING }, ..Explicit::default() };
    if knots {
        (e.knot_x, e.knot_y) = (list, partner);
    } else {
        (e.start_times, e.start_clips) = (list, partner);
    }
    out.call(&Call::Explicit(e));
    out.call(&Call::Dump);
    out.call(&Call::Active(0.0));
    out.call(&Call::ClipTime(0.0));
}

const PATTERNS: [&[u8]; 3] = [b"f.##.usd", b"f.usd", b"#.#"];
const FROM: [f64; 6] = [0.0, -0.0, 1.0, 0.3, -1.5, FAR];
const SPANS: [f64; 7] = [0.0, 0.00004, 0.00006, 1.0, 2.0, 1.99996, -1.0];
const STRIDES: [f64; 9] = [1.0, 0.5, 0.3, 2.0, 1e-5, 0.0, -0.0, 1e305, f64::INFINITY];
const OFFSETS: [Option<f64>; 9] =
    [None, Some(0.0), Some(-0.0), Some(0.3), Some(-0.5), Some(1.0), Some(-1.0), Some(2.0), Some(f64::NAN)];

fn templates_size() -> usize {
    PATTERNS.len() * FROM.len() * SPANS.len() * STRIDES.len() * OFFSETS.len() * 2
}

fn templates(index: usize, out: &mut Writer<'_>) {
    let mut choices = Choices(index);
    let bytes = choices.of(&PATTERNS).to_vec();
    let start = choices.of(&FROM);
    let end = start + choices.of(&SPANS);
    let stride = choices.of(&STRIDES);
    let offset = choices.of(&OFFSETS);
    let mark = choices.of(&[2, 3]);
    let filling = Filling { mark, ..NO_FILLING };
    if bytes == PATTERNS[0] && mark == 2 {
        let template = Template { bytes: b"#".to_vec(), start, end, stride, offset, filling: Filling::default() };
        for slots in [ROOM, 1, 0] {
            out.call(&Call::ClipTimes(template.clone(), slots));
        }
    }
    out.call(&Call::Template(Template { bytes, start, end, stride, offset, filling }));
    out.call(&Call::Dump);
    for t in [start, start + 0.25] {
        out.call(&Call::Active(t));
        out.call(&Call::ClipTime(t));
    }
}

const NAMED: [f64; 14] =
    [0.0, -0.0, 0.5, -0.5, 1.0, 2.5, 0.05, -0.05, 0.125, 9.96, -12.345678, 1e9 + 0.5, -FAR, f64::NAN];

fn names_size() -> usize {
    sequences(3, 7)
}

fn names(index: usize, out: &mut Writer<'_>) {
    let bytes: Vec<u8> = Choices(index).sequence(3, 7).into_iter().map(|i| b"#.a"[i]).collect();
    for time in NAMED {
        out.call(&Call::Name(bytes.clone(), time, NAME_ROOM));
    }
    for slots in [0, 3, 4, 5] {
        out.call(&Call::Name(bytes.clone(), -1.0, slots));
    }
}

fn normalise_size() -> usize {
    sequences(8, 4) * 3
}

fn normalise(index: usize, out: &mut Writer<'_>) {
    let mut choices = Choices(index);
    let list = choices.sequence(8, 4);
    let slots = choices.of(&[ROOM, 1, 2]);
    let s = Samples {
        ends: Vec::new(),
        times: list.iter().map(|i| [0.0, -0.0, 1.0, -1.0][i % 4]).collect(),
        values: (1..=list.len()).map(|v| v as f64).collect(),
        marks: list.iter().map(|i| (i / 4) as u8).collect(),
    };
    out.call(&Call::Normalize(s, slots));
}

// Lent samples of up to three entries and two ends against sets of up to two clips.

fn lent_size() -> usize {
    3 * sequences(5, 2) * sequences(9, 3)
}

fn lent(index: usize, out: &mut Writer<'_>) {
    let mut choices = Choices(index);
    let clips = choices.below(3) as u64;
    let ends = choices.sequence(5, 2).into_iter().map(|end| end as u64).collect();
    let list = choices.sequence(9, 3);
    let start_times: Vec<f64> = (0..clips).map(|i| i as f64).collect();
    let start_clips = start_times.clone();
    out.call(&Call::Explicit(Explicit { clips, start_times, start_clips, filling: NO_FILLING, ..Explicit::default() }));
    out.call(&Call::Samples(Samples {
        ends,
        times: list.iter().map(|i| [0.0, -0.0, 1.0][i % 3]).collect(),
        values: (0..list.len()).map(|v| v as f64).collect(),
        marks: list.iter().map(|i| (i / 3) as u8).collect(),
    }));
    out.value_and_sample(0.5);
    out.call(&Call::Untimed);
    out.call(&Call::Track(1));
}

/// A set to be retimed: the i-th start is of clip i, and blocks are heeded.
fn accept(clips: u64, start_times: &[f64], (x, y): (&[f64], &[f64]), blocks: &[f64], out: &mut Writer<'_>) {
    out.call(&Call::Explicit(Explicit {
        clips,
        start_clips: (0..start_times.len()).map(|i| i as f64).collect(),
        start_times: start_times.to_vec(),
        knot_x: x.to_vec(),
        knot_y: y.to_vec(),
        filling: Filling { blocks: blocks.to_vec(), flag: true, ..NO_FILLING },
    }));
}

/// The values at some times with their samples, the stage sample times, the track.
fn ask_all(times: [f64; 4], out: &mut Writer<'_>) {
    for t in times {
        out.value_and_sample(t);
    }
    out.call(&Call::Times(ROOM));
    out.call(&Call::TrackHash);
}

const MOVES: [f64; 14] =
    [0.0, -0.0, 1.0, -1.0, 0.1, -3.0, 1e12, 1e300, -1e-300, 5e-324, f64::NAN, f64::INFINITY, FAR, 1.0000000000000002];

fn retime_size() -> usize {
    MOVES.len() * MOVES.len() * 12
}

fn retime(index: usize, out: &mut Writer<'_>) {
    let mut choices = Choices(index);
    let offset = choices.of(&MOVES);
    let scale = choices.of(&MOVES);
    let starts: [&[f64]; 3] = [&[-0.0], &[0.0, 1e-5], &[-2.0, 1.0, 3.0]];
    let start_times = choices.of(&starts);
    let knots: [(&[f64], &[f64]); 4] = [
        (&[], &[]),
        (&[-0.0, 0.0, 1.0], &[1.0, 2.0, 3.0]),
        (&[0.0, 10.0, 10.0, 20.0], &[0.0, 10.0, 0.0, 10.0]),
        (&[-1.0, 1.0], &[5.0, -5.0]),
    ];
    accept(3, start_times, choices.of(&knots), &[-0.0, 1.0], out);
    out.call(&Call::Samples(Samples {
        ends: vec![2, 3, 4],
        times: vec![0.0, 2.0, 1.0, 3.0],
        values: vec![1.0, 2.0, 3.0, 4.0],
        marks: vec![0; 4],
    }));
    out.call(&Call::Retime(offset, scale));
    out.call(&Call::Dump);
    ask_all([-1.0, 0.0, 0.5, 2.0], out);
    out.call(&Call::Retime(0.0, 1.0));
    out.call(&Call::Dump);
}

// Two retimings in a row, of sets with zeros of either sign, a jump, and blocks at starts.

const TWICE_OFFSETS: [f64; 7] = [0.0, -0.0, 1.0, -0.7, 1e12, -1e-300, f64::NAN];
const TWICE_SCALES: [f64; 8] = [0.0, -0.0, 1.0, -1.0, 3.0, 0.3333333333333333, -1e-320, 1e300];

fn twice_size() -> usize {
    (TWICE_OFFSETS.len() * TWICE_SCALES.len()).pow(2) * 12
}

fn twice(index: usize, out: &mut Writer<'_>) {
    let mut choices = Choices(index);
    let moves: [(f64, f64); 2] = std::array::from_fn(|_| (choices.of(&TWICE_OFFSETS), choices.of(&TWICE_SCALES)));
    let starts: [&[f64]; 3] = [&[-0.0], &[0.7], &[-0.0, 0.7]];
    let start_times = choices.of(&starts);
    let knots: [(&[f64], &[f64]); 4] =
        [(&[], &[]), (&[-1.0, 1.0], &[1.0, 2.0]), (&[-0.0, 0.0], &[1.0, 2.0]), (&[-1.0, 0.7, 0.7], &[0.0, 2.0, 1.0])];
    accept(2, start_times, choices.of(&knots), &[0.0, 0.7000000000000001], out);
    out.call(&Call::Samples(Samples {
        ends: vec![2, 4],
        times: vec![0.0, 2.0, 1.0, 1.5],
        values: vec![1.0, 2.0, 3.0, 4.0],
        marks: vec![0; 4],
    }));
    for (offset, scale) in moves {
        out.call(&Call::Retime(offset, scale));
        out.call(&Call::Dump);
    }
    ask_all([-1.0, 0.0, 0.7, 2.0], out);
}

// Zeros of either sign, 1.0 and blocks: the first clip has three such samples, the second one or none, the third none; the
// default is one of them too. One to three starts; knots that fall, jump and rise.

/// Value and mark.
const KINDS: [(f64, u8); 4] = [(-0.0, 0), (0.0, 0), (1.0, 0), (-0.0, 1)];
const KNOTS: [(&[f64], &[f64]); 4] = [
    (&[], &[]),
    (&[0.0, 3.0], &[3.0, 0.0]),
    (&[0.0, 1.0, 1.0, 3.0], &[2.5, 0.5, 0.0, 2.0]),
    (&[-1.0, 3.0], &[-1.0, 3.0]),
];

fn zeros_size() -> usize {
    3 * KINDS.len().pow(3) * (KINDS.len() + 1) * KINDS.len() * 2 * KNOTS.len()
}

fn zeros(index: usize, out: &mut Writer<'_>) {
    let mut choices = Choices(index);
    let starts = choices.below(3) + 1;
    let first: [(f64, u8); 3] = std::array::from_fn(|_| choices.of(&KINDS));
    let second = KINDS.get(choices.below(KINDS.len() + 1));
    let (value, mark) = choices.of(&KINDS);
    let flag = choices.below(2) == 1;
    let (x, y) = choices.of(&KNOTS);
    out.call(&Call::Explicit(Explicit {
        clips: 3,
        start_times: (0..starts).map(|i| i as f64).collect(),
        start_clips: (0..starts).map(|i| i as f64).collect(),
        knot_x: x.to_vec(),
        knot_y: y.to_vec(),
        filling: Filling { mark, value, flag, ..NO_FILLING },
    }));
    let samples: Vec<(f64, u8)> = first.into_iter().chain(second.copied()).collect();
    out.call(&Call::Samples(Samples {
        ends: vec![3, samples.len() as u64, samples.len() as u64],
        times: [0.0, 1.0, 2.0, 1.5].into_iter().take(samples.len()).collect(),
        values: samples.iter().map(|sample| sample.0).collect(),
        marks: samples.iter().map(|sample| sample.1).collect(),
    }));
    for t in [-1.0, 0.5, 1.0, 1.5, 2.5] {
        out.value_and_sample(t);
    }
    for slots in [0, 1, 2, ROOM] {
        out.call(&Call::Track(slots));
    }
    out.call(&Call::TrackHash);
}

// A telling bit pattern against each of them.

fn keys_size() -> usize {
    telling().len()
}

fn keys(index: usize, out: &mut Writer<'_>) {
    for other in telling() {
        out.call(&Call::KeyCompare(telling()[index], other));
    }
}

// Prepared sets, one without starts and a template's: up to three calls of nine on a fresh case; and of the seven that may
// change something four, after both sets were examined, from then on each into the other's slot. All sets have two clips, so
// that the samples lent at first are theirs, and defaults of their own.

const SLOT_CALLS: usize = 9;
const CHANGING: usize = 7;

fn slots_size() -> usize {
    sequences(SLOT_CALLS, 3) + CHANGING.pow(4)
}

/// A call on desk and slots, the first set examined going into that slot, the second into the other of 0 and 1.
fn slot_call(kind: usize, first: usize) -> Call {
    let set = |start_times: &[f64], mark, value| Explicit {
        clips: 2,
        start_times: start_times.to_vec(),
        start_clips: vec![1.0; start_times.len()],
        knot_x: vec![0.0],
        knot_y: vec![1.0],
        filling: Filling { blocks: vec![1.0], mark, value, flag: true },
    };
    let filling = Filling { mark: 0, value: 7.0, ..NO_FILLING };
    let template = Template { bytes: b"#".to_vec(), start: 0.0, end: 1.0, stride: 1.0, offset: None, filling };
    match kind {
        0 => Call::Examine(first, Fields::Explicit(set(&[], 0, 5.0))),
        1 => Call::Examine(1 - first, Fields::Template(template)),
        2 => Call::Examine(0, Fields::Explicit(set(&[0.0, -0.0], 0, 9.0))),
        3 => Call::Install(0),
        4 => Call::Install(1),
        5 => Call::Retime(1.0, -2.0),
        6 => Call::Explicit(set(&[0.0, 2.0], 2, 0.0)),
        7 => Call::Dump,
        _ => Call::Prepared(0),
    }
}

fn slots(index: usize, out: &mut Writer<'_>) {
    out.call(&Call::Samples(Samples { ends: vec![1, 1], times: vec![0.0], values: vec![1.0], marks: vec![0] }));
    match index.checked_sub(sequences(SLOT_CALLS, 3)) {
        None => Choices(index).sequence(SLOT_CALLS, 3).into_iter().for_each(|kind| out.call(&slot_call(kind, 0))),
        Some(index) => {
            let mut choices = Choices(index);
            out.call(&slot_call(0, 0));
            out.call(&slot_call(1, 0));
            (0..4).for_each(|_| out.call(&slot_call(choices.below(CHANGING), 1)));
        }
    }
    out.call(&Call::Dump);
    out.call(&Call::Prepared(0));
    out.value_and_sample(1.5);
}
