//! Cases from a seed: sets of every shape with questions at special times, damaged copies of good calls, lists around
//! each limit, names and lists to normalise, bit patterns in the total order.

use crate::calls::{Call, Explicit, Fields, Filling, NAME_ROOM, ROOM, Samples, Template};
use crate::dispatcher_cases;
use crate::doubles::{FAR, at, listed, place};
use crate::numbers;
use crate::patterns;
use crate::plain::{self, Read, Set};
use crate::random::{Random, Scale};
use crate::read_cases;
use crate::slot_cases;
use crate::track;
use crate::writer::{self, Writer};

/// Writes cases until at least that many replies are due.
pub fn write(seed: u64, replies: u64, out: &mut Writer<'_>) {
    let mut random = Random::new(seed);
    // Drawn apart, so that a seed's other calls are the same where these are left out.
    let (mut apart, mut spelled) = (Random::new(!seed), Random::new(!seed >> 1));
    let (mut placed, mut prepared) = (Random::new(seed.reverse_bits()), Random::new(!seed.reverse_bits()));
    let (mut sampled, mut dispatched) = (Random::new(seed.rotate_left(32)), Random::new(seed.rotate_left(16)));
    let with_decimals = writer::wanted("DECIMALS");
    let mut number = 0;
    while out.replies < replies {
        number += 1;
        out.call(&Call::Case(format!("r{seed}-{number}")));
        if prepared.chance(12) {
            slot_cases::case(&mut prepared, out);
        } else if sampled.chance(20) {
            read_cases::case(&mut sampled, out);
        } else if dispatched.chance(24) {
            dispatcher_cases::case(&mut dispatched, out);
        } else {
            case(&mut random, out);
        }
        if apart.chance(10) {
            clip_times(&mut apart, out);
        }
        if placed.chance(10) {
            key_pairs(&mut placed, out);
        }
        if with_decimals && spelled.chance(10) {
            decimals(&mut spelled, out);
        }
    }
}

pub fn case(random: &mut Random, out: &mut Writer<'_>) {
    match random.below(100) {
        0..52 => {
            let set = explicit_set(random, 6, 9);
            asked_set(random, out, Fields::Explicit(set));
        }
        52..62 => {
            let set = missing_set(random);
            asked_set(random, out, Fields::Explicit(set));
        }
        62..74 => {
            let set = template_set(random);
            asked_set(random, out, Fields::Template(set));
        }
        74..84 => damaged(random, out),
        84..90 => names(random, out),
        90..96 => normalising(random, out),
        96 => long_lists(random, out),
        97 => out_of_order(random, out),
        98 => spelled_badly(random, out),
        _ => {
            let set = explicit_set(random, 40, 60);
            asked_set(random, out, Fields::Explicit(set));
        }
    }
}

// Sets.

fn distinct(random: &mut Random, scale: Scale, wanted: usize) -> Vec<f64> {
    let mut times: Vec<f64> = Vec::new();
    for _ in 0..wanted {
        let t = scale.time(random);
        if !times.contains(&t) {
            times.push(t);
        }
    }
    times
}

fn ascending(mut times: Vec<f64>) -> Vec<f64> {
    times.sort_by(|a, b| a.total_cmp(b));
    times
}

fn filling(random: &mut Random, starts: &[f64], scale: Scale) -> Filling {
    let mut blocks = Vec::new();
    if random.chance(40) {
        for &start in starts {
            if random.chance(35) {
                blocks.push(if start == 0.0 && random.chance(50) { -start } else { start });
            }
        }
        for _ in 0..random.below(3) {
            blocks.push(scale.time(random));
        }
        random.shuffle(&mut blocks);
    }
    let mark = random.pick(&[0, 1, 2, 2, 2]);
    let value = if mark == 0 { random.value() } else { random.slot() };
    Filling { blocks, mark, value, flag: random.chance(45) }
}

/// Knots: x in ascending order with some pairs, y rising, falling, flat or any.
fn knots(random: &mut Random, scale: Scale, most: usize) -> Vec<(f64, f64)> {
    let count = if random.chance(20) { 0 } else { random.between(1, most) };
    let clip_scale = if random.chance(70) { scale } else { Scale::any(random) };
    let mut list: Vec<(f64, f64)> = Vec::new();
    let rising = random.below(5);
    let mut ys: Vec<f64> = (0..2 * count).map(|_| clip_scale.time(random)).collect();
    match rising {
        0 => ys = ascending(ys),
        1 => {
            ys = ascending(ys);
            ys.reverse();
        }
        _ => {}
    }
    let mut next = 0;
    for x in ascending(distinct(random, scale, count)) {
        let pair = if random.chance(25) { 2 } else { 1 };
        for _ in 0..pair {
            let y = match (random.below(10), list.last()) {
                (0, Some(last)) => last.1,
                (1, _) => x,
                _ => ys[next],
            };
            next += 1;
            let other_zero = x == 0.0 && random.chance(40);
            list.push((if other_zero { -x } else { x }, y));
        }
    }
    list
}

pub fn explicit_set(random: &mut Random, most_starts: usize, most_knots: usize) -> Explicit {
    let scale = Scale::any(random);
    let count = match random.below(10) {
        0 => 0,
        1..=3 => 1,
        _ => random.between(1, most_starts),
    };
    let mut starts = distinct(random, scale, count);
    if random.chance(20) {
        starts = ascending(starts);
    }
    let clips = random.between(1, 4.max(most_starts / 3));
    let clip = |random: &mut Random| {
        let n = random.below(clips) as f64;
        if n == 0.0 && random.chance(20) { -0.0 } else { n }
    };
    let start_clips = starts.iter().map(|_| clip(random)).collect();
    let mut knots = knots(random, scale, most_knots);
    // Knots at starts, and starts at knots, are where windows and segments meet.
    for start in &mut starts {
        if !knots.is_empty() && random.chance(20) {
            let i = random.below(knots.len());
            let shared = knots.iter().filter(|knot| knot.0 == *start).count();
            if shared == 0 && knots.iter().filter(|knot| knot.0 == knots[i].0).count() == 1 {
                knots[i].0 = *start;
            }
        }
    }
    if random.chance(60) {
        random.shuffle(&mut knots);
    }
    let filling = filling(random, &starts, scale);
    Explicit {
        clips: clips as u64,
        start_times: starts,
        start_clips,
        knot_x: knots.iter().map(|knot| knot.0).collect(),
        knot_y: knots.iter().map(|knot| knot.1).collect(),
        filling,
    }
}

/// Several starts, flag on, clips mostly empty, some blocks.
pub fn missing_set(random: &mut Random) -> Explicit {
    let mut set = explicit_set(random, 6, 4);
    let scale = if random.chance(50) { Scale::Whole } else { Scale::Tenths };
    let wanted = random.between(2, 6);
    set.start_times = distinct(random, scale, wanted);
    set.clips = 5;
    set.start_clips = set.start_times.iter().map(|_| random.below(5) as f64).collect();
    set.filling = filling(random, &set.start_times, scale);
    set.filling.flag = random.chance(90);
    set.filling.mark = random.pick(&[0, 1, 2, 2, 2, 2]);
    if set.filling.mark == 0 {
        set.filling.value = random.value();
    }
    set
}

fn pattern(random: &mut Random) -> Vec<u8> {
    let hashes = |random: &mut Random, most| vec![b'#'; random.between(1, most)];
    let mut bytes = random.pick(&[&b"f."[..], b"a/b_", b"", b"x\xff.", b"a.b.c."]).to_vec();
    bytes.extend(hashes(random, 6));
    if random.chance(40) {
        bytes.push(b'.');
        bytes.extend(hashes(random, 6));
    }
    bytes.extend(random.pick(&[&b".usd"[..], b"", b".", b"..x", b"\x00\xc3"]));
    bytes
}

pub fn template_set(random: &mut Random) -> Template {
    let start = match random.below(6) {
        0 => random.edge(),
        1 => (random.unit() - 0.5) * 1e9,
        2 => random.pick(&[0.1, 0.3, -0.7, 12.34567]),
        _ => random.between(0, 20) as f64 - 5.0,
    };
    let stride = match random.below(10) {
        0 => random.pick(&[1e-5, 1e-4, 3e-4, 1e-7]),
        1 => random.unit() * 3.0 + 0.001,
        2 => random.pick(&[1e305, 1e12, FAR, 1e-300, 0.00015]),
        3..=5 => random.pick(&[0.1, 0.3, 0.7, 1.1, 0.25]),
        _ => random.pick(&[1.0, 2.0, 0.5, 5.0]),
    };
    let clips = match random.below(12) {
        0 => 0,
        1 => random.pick(&[255, 256, 257]) - 1,
        2 => random.between(5, 60),
        _ => random.between(0, 6),
    };
    let mut end = start + stride.min(1e10) * clips as f64;
    if random.chance(40) {
        end += stride.min(1e10) * random.unit();
    }
    if random.chance(15) {
        end += random.pick(&[0.00005, -0.00005, 0.00004, 0.00006, 0.0001]);
    }
    let offset = match random.below(10) {
        0..=3 => None,
        4 => Some(random.pick(&[0.0, -0.0])),
        5 => Some(random.pick(&[stride, -stride])),
        6 => Some(at(place(stride) + 1)),
        _ => Some((random.unit() * 2.0 - 1.0) * stride),
    };
    let filling = filling(random, &[start, start + stride], Scale::Tenths);
    Template { bytes: pattern(random), start, end, stride, offset, filling }
}

// Samples.

fn clip_samples(random: &mut Random, set: &Set, scale: Scale, most: usize) -> Vec<f64> {
    let mut times = match random.below(10) {
        0..=2 => Vec::new(),
        3..=6 => {
            let wanted = random.between(1, most.min(6));
            distinct(random, scale, wanted)
        }
        _ => {
            let wanted = random.between(1, most);
            distinct(random, scale, wanted)
        }
    };
    // At knots' y and at clip times of starts and of random places, where readings turn.
    for _ in 0..random.below(4) {
        let mut t = match random.below(3) {
            0 if !set.knots.is_empty() => set.knots[random.below(set.knots.len())].1,
            1 if !set.starts.is_empty() => set.clip_time(set.starts[random.below(set.starts.len())].0),
            _ => {
                let at = scale.time(random);
                set.clip_time(at)
            }
        };
        if random.chance(40) {
            t = random.near(t, 2);
        }
        if listed(t) && !times.contains(&t) {
            times.push(t);
        }
    }
    ascending(times)
}

pub fn samples(random: &mut Random, set: &Set, most: usize) -> Samples {
    let scale = match set.knots.first() {
        Some(knot) if random.chance(30) => Scale::Close(knot.1),
        _ => Scale::any(random),
    };
    let blocked = random.pick(&[0, 15, 50]);
    let empty = random.pick(&[0, 10, 60]);
    // Many zeros: next to one another, in one clip and over several, beside blocks and other numbers.
    let zeros = random.pick(&[0, 0, 40, 90]);
    let mut s = Samples::default();
    for _ in 0..set.clips {
        let times = if random.chance(empty) { Vec::new() } else { clip_samples(random, set, scale, most) };
        for time in times {
            let mark = u8::from(random.chance(blocked));
            s.times.push(time);
            s.marks.push(mark);
            s.values.push(match mark {
                0 if random.chance(zeros) => random.zero(),
                0 => random.value(),
                _ => random.slot(),
            });
        }
        s.ends.push(s.times.len() as u64);
    }
    s
}

// Questions.

/// Times around which something happens.
pub fn special_times(set: &Set, samples: Option<&Samples>) -> Vec<f64> {
    let mut times: Vec<f64> = set.starts.iter().map(|start| start.0).collect();
    times.extend(set.knots.iter().map(|knot| knot.0));
    times.extend(&set.filling.blocks);
    if let Some(samples) = samples {
        times.extend(samples.times.iter().take(50));
        let read = Read::new(set, samples);
        times.extend(read.stage_sample_times().iter().take(300));
        times.extend(track::candidates(&read).iter().take(300).map(|&p| at(p)));
    }
    times
}

pub fn question_time(random: &mut Random, special: &[f64]) -> f64 {
    match random.below(40) {
        0 => random.pick(&[f64::NAN, f64::INFINITY, f64::NEG_INFINITY]),
        1 => random.finite(),
        2 => random.edge(),
        _ if special.is_empty() => Scale::Wide.time(random),
        3..=8 => {
            let (a, b) = (random.pick(special), random.pick(special));
            a + (b - a) * random.unit()
        }
        9..=18 => random.pick(special),
        19..=34 => {
            let d = random.pick(special);
            random.near(d, 2)
        }
        _ => {
            let d = random.pick(special);
            random.near(d, 40)
        }
    }
}

pub fn slots(random: &mut Random, count: usize) -> u64 {
    match random.below(12) {
        0 => 0,
        1..=3 => count as u64,
        4..=5 => count.saturating_sub(1) as u64,
        6 => count as u64 + 1,
        _ => ROOM,
    }
}

pub fn ask(random: &mut Random, out: &mut Writer<'_>, set: &Set, samples: Option<&Samples>, count: usize) {
    let special = special_times(set, samples);
    for _ in 0..count {
        let t = question_time(random, &special);
        let call = match random.below(100) {
            0..64 => Call::Value(t),
            64..78 => Call::ClipTime(t),
            78..86 => Call::Active(t),
            86..88 => Call::Dump,
            88 => Call::Untimed,
            89..91 => {
                let count = samples.map_or(0, |s| Read::new(set, s).stage_sample_times().len());
                Call::Times(slots(random, count))
            }
            91..93 => {
                let count = samples.map_or(0, |s| Read::new(set, s).stage_sample_times().len());
                Call::StageSamples(slots(random, count))
            }
            93..97 => {
                let count = samples.map_or(0, |s| {
                    let read = Read::new(set, s);
                    track::walk(&track::candidates(&read), |t| read.value(t)).changes.len()
                });
                Call::Track(slots(random, count))
            }
            _ => Call::TrackHash,
        };
        match call {
            Call::Value(t) => out.value_and_sample(t),
            call => out.call(&call),
        }
    }
}

/// The set that these fields make, if no number refuses it.
pub fn accepted(fields: &Fields) -> Option<Set> {
    match fields {
        Fields::Explicit(e) => numbers::explicit(e).ok().map(|()| plain::explicit(e)),
        Fields::Template(t) => {
            numbers::template(t).ok()?;
            let set = plain::template(t);
            moved_numbers(&set).ok()?;
            numbers::default_mark(&t.filling).ok().map(|()| set)
        }
    }
}

/// The numbers of a set that was expanded or moved.
pub fn moved_numbers(set: &Set) -> Result<(), numbers::Refusal> {
    let starts: Vec<f64> = set.starts.iter().map(|start| start.0).collect();
    let knots: Vec<f64> = set.knots.iter().map(|knot| knot.0).collect();
    numbers::made(&starts, &knots, &set.filling.blocks)
}

/// An offset and a scale, some of which no set takes.
pub fn retiming(random: &mut Random, set: &Set) -> (f64, f64) {
    // Zeros of both signs: the moved list is ascending as numbers and perhaps not in the total order.
    if random.chance(4) {
        return (random.pick(&[0.0, -0.0]), random.pick(&[0.0, -0.0]));
    }
    if random.chance(5) {
        return (random.pick(&[0.0, -0.0]), 1.0);
    }
    let offset = match random.below(20) {
        0..=8 => random.pick(&[0.0, -0.0, 1.0, -10.0, 0.1]),
        9..=10 => random.edge(),
        11 => random.finite(),
        12..=13 if !set.starts.is_empty() => -set.starts[random.below(set.starts.len())].0,
        14 => random.pick(&[1e12, f64::NAN, f64::INFINITY, -1e9]),
        _ => (random.unit() - 0.5) * 100.0,
    };
    let scale = match random.below(20) {
        0..=2 => 1.0,
        3..=5 => random.pick(&[-1.0, -0.5, -3.0]),
        6 => random.pick(&[0.0, -0.0]),
        7 => random.pick(&[f64::NAN, f64::NEG_INFINITY, 1e300]),
        8..=9 => random.pick(&[1e-300, 5e-324, -1e-320, 1e9, -1e9]),
        10 => random.finite(),
        11..=12 => random.near(1.0, 2),
        13..=14 => random.pick(&[3.0, 0.3333333333333333, 0.1, 24.0, 1.0 / 24.0]),
        _ => random.unit() * 4.0 - 1.0,
    };
    (offset, scale)
}

/// Retimings to follow each other: most take back the one before but for roundings.
fn together(random: &mut Random, set: &Set) -> Vec<(f64, f64)> {
    let zero = random.zero();
    match random.below(10) {
        // What became a zero does not come back.
        0 => {
            let tiny = random.pick(&[1e-300, 5e-324, -1e-320, -1e-300, 1e-310]);
            vec![(zero, tiny), (random.zero(), random.pick(&[1e300, -1e300, 1e9, 1e308]))]
        }
        1 => vec![(zero, 3.0), (random.zero(), 0.3333333333333333)],
        2 => vec![(zero, -1.0), (random.zero(), -1.0)],
        3 => {
            let far = random.pick(&[1e12, -1e12, 1e9, 16777216.0, 1.0, 0.1]);
            vec![(far, 1.0), (-far, 1.0)]
        }
        4 => {
            let scale = random.pick(&[0.1, 7.0, -24.0, 1.1, 1e9, -1e-9]);
            vec![(zero, scale), (random.zero(), 1.0 / scale)]
        }
        5 => {
            let (offset, scale) = ((random.unit() - 0.5) * 100.0, random.unit() * 4.0 - 1.0);
            vec![(offset, scale), (-offset / scale, 1.0 / scale)]
        }
        // Zeros with a sign, which the identity leaves.
        6 => vec![(-0.0, random.pick(&[-1.0, 0.0, -0.0, 0.5, -1e-320, 5e-324])), (zero, 1.0)],
        _ => {
            let brought = match random.below(3) {
                0 => set.knots.first().map(|knot| knot.0),
                1 => set.filling.blocks.first().copied(),
                _ => set.starts.first().map(|start| start.0),
            };
            vec![(-brought.unwrap_or(0.0), 1.0), (-0.0, random.pick(&[-1.0, -0.5, -3.0])), (zero, 1.0)]
        }
    }
}

/// Asks for one retiming, and moves the set where no number refuses it.
pub fn retime(random: &mut Random, out: &mut Writer<'_>, set: &mut Set, (offset, scale): (f64, f64)) {
    out.call(&Call::Retime(offset, scale));
    if random.chance(15) {
        out.call(&Call::Dump);
    }
    if numbers::retiming(offset, scale).is_ok() {
        let moved = plain::retime(set, offset, scale);
        if moved_numbers(&moved).is_ok() {
            *set = moved;
        }
    }
}

/// Retimes one to five times, each time what the one before left, and asks between them where samples are lent.
pub fn retimed(random: &mut Random, out: &mut Writer<'_>, set: &mut Set, lent: Option<&Samples>) {
    let count = random.pick(&[1, 2, 2, 2, 3, 3, 4, 5]);
    let mut next: Vec<(f64, f64)> = Vec::new();
    for left in (0..count).rev() {
        if next.is_empty() && left > 0 && random.chance(30) {
            next = together(random, set);
            next.reverse();
        }
        // Now and then another one comes between.
        let following = if random.chance(10) { None } else { next.pop() };
        let moving = following.unwrap_or_else(|| retiming(random, set));
        retime(random, out, set, moving);
        if lent.is_some() && left > 0 && random.chance(40) {
            let questions = random.between(1, 3);
            ask(random, out, set, lent, questions);
        }
    }
    out.call(&Call::Dump);
}

/// The most samples of a clip: questions work on every sample and every segment of a window.
pub fn most_samples(random: &mut Random, set: &Set) -> usize {
    if set.knots.len() * set.starts.len() > 500 { 4 } else { random.pick(&[4, 8, 8, 30]) }
}

/// Accepts the set, retimes it perhaps, lends samples and asks.
fn asked_set(random: &mut Random, out: &mut Writer<'_>, fields: Fields) {
    out.call(&fields.acceptance());
    let set = accepted(&fields);
    if set.is_none() || random.chance(30) {
        out.call(&Call::Dump);
    }
    let Some(mut set) = set else { return };
    let most = most_samples(random, &set);
    if random.chance(40) {
        retimed(random, out, &mut set, None);
    }
    for _ in 0..random.between(1, 2) {
        let lent = samples(random, &set, most);
        out.call(&Call::Samples(lent.clone()));
        let questions = random.between(12, 30);
        ask(random, out, &set, Some(&lent), questions);
        // The samples stay lent while the set moves under them.
        if random.chance(15) {
            retimed(random, out, &mut set, Some(&lent));
            let questions = random.between(4, 10);
            ask(random, out, &set, Some(&lent), questions);
        }
    }
}

// Damage.

fn spoil(random: &mut Random, list: &mut Vec<f64>) {
    if list.is_empty() {
        list.push(random.unlisted());
        return;
    }
    let i = random.below(list.len());
    match random.below(4) {
        0 => list.truncate(i),
        1 => list.push(list[i]),
        _ => list[i] = random.unlisted(),
    }
}

fn lengthen(random: &mut Random, list: &mut Vec<f64>, length: usize) {
    while list.len() < length {
        let t = Scale::Wide.time(random);
        list.push(t);
    }
}

fn damage_filling(random: &mut Random, f: &mut Filling) {
    match random.below(4) {
        0 => spoil(random, &mut f.blocks),
        1 => f.mark = random.pick(&[3, 7, 255]),
        2 => (f.mark, f.value) = (0, f64::NAN),
        _ => {
            let length = random.pick(&[256, 257, 300]);
            lengthen(random, &mut f.blocks, length)
        }
    }
}

fn damage_explicit(random: &mut Random, e: &mut Explicit) {
    match random.below(14) {
        0 => spoil(random, &mut e.start_times),
        1 => spoil(random, &mut e.start_clips),
        2 => spoil(random, &mut e.knot_x),
        3 => spoil(random, &mut e.knot_y),
        4 => damage_filling(random, &mut e.filling),
        5 => e.clips = random.pick(&[0, 1, 256, 257, 1 << 32, 1 << 63, u64::MAX]),
        6 | 7 if !e.start_clips.is_empty() => {
            let i = random.below(e.start_clips.len());
            let count = e.clips as f64;
            let wrong = [f64::NAN, f64::INFINITY, -1.0, 0.5, count, count - 0.5, 1e300, -0.5, -5e-324, 4294967296.0];
            e.start_clips[i] = random.pick(&wrong);
        }
        8 | 9 if !e.start_times.is_empty() => {
            let i = random.below(e.start_times.len());
            let again = e.start_times[i];
            e.start_times.push(if again == 0.0 { -again } else { again });
            e.start_clips.push(0.0);
        }
        10 | 11 if !e.knot_x.is_empty() => {
            let i = random.below(e.knot_x.len());
            for _ in 0..random.between(1, 2) {
                let x = e.knot_x[i];
                e.knot_x.push(if x == 0.0 { -x } else { x });
                e.knot_y.push(1.0);
            }
        }
        12 => {
            let length = random.pick(&[256, 257, 300]);
            lengthen(random, &mut e.start_times, length);
            if random.chance(80) {
                e.start_clips.resize(length, 0.0);
            }
        }
        _ => {
            let length = random.pick(&[512, 513, 600]);
            lengthen(random, &mut e.knot_x, length);
            if random.chance(80) {
                lengthen(random, &mut e.knot_y, length);
            }
        }
    }
}

fn damage_template(random: &mut Random, t: &mut Template) {
    match random.below(12) {
        0 => t.start = random.unlisted(),
        1 => t.end = random.unlisted(),
        2 => t.stride = random.pick(&[f64::NAN, f64::INFINITY, 0.0, -0.0, -1.0, 5e-324]),
        3 => t.offset = Some(random.unlisted()),
        4 => t.end = at(place(t.start).saturating_sub(1)),
        5 => t.bytes = b"no-run.usd".to_vec(),
        6 => t.bytes.extend_from_slice(b"#"),
        7 => {
            let width = random.pick(&[32, 33]);
            t.bytes = vec![b'#'; width];
        }
        8 => {
            let width = random.pick(&[6, 7]);
            t.bytes = [&b"#."[..], &vec![b'#'; width]].concat();
        }
        9 => {
            let length = random.pick(&[255, 256, 400]);
            t.bytes.resize(length, b'x');
        }
        10 => t.stride = random.pick(&[1e-9, 1e-300, 2f64.powi(-60)]),
        _ => damage_filling(random, &mut t.filling),
    }
}

/// Keeps a set's fields within what any program that reads case text can hold.
fn hold(fields: &mut Fields) {
    let (filling, bytes) = match fields {
        Fields::Explicit(e) => {
            e.start_times.truncate(300);
            e.start_clips.truncate(300);
            e.knot_x.truncate(600);
            e.knot_y.truncate(600);
            (&mut e.filling, None)
        }
        Fields::Template(t) => (&mut t.filling, Some(&mut t.bytes)),
    };
    filling.blocks.truncate(300);
    if let Some(bytes) = bytes {
        bytes.truncate(400);
    }
}

fn damage_samples(random: &mut Random, s: &mut Samples) {
    match random.below(9) {
        0 => spoil(random, &mut s.times),
        1 => spoil(random, &mut s.values),
        2 if !s.marks.is_empty() => {
            let i = random.below(s.marks.len());
            s.marks[i] = random.pick(&[2, 3, 255]);
            // Earlier damage may have shortened the values.
            if let Some(value) = s.values.get_mut(i).filter(|_| random.chance(50)) {
                *value = f64::NAN;
            }
        }
        3 if !s.ends.is_empty() => {
            let i = random.below(s.ends.len());
            s.ends[i] = random.pick(&[0, 1, s.times.len() as u64 + 1, 1 << 32, u64::MAX, 2]);
        }
        4 => {
            s.ends.pop();
        }
        5 => s.ends.push(s.times.len() as u64),
        6 if s.times.len() > 1 => {
            let i = random.between(1, s.times.len() - 1);
            if random.chance(50) {
                s.times.swap(i - 1, i);
            } else {
                s.times[i] = if s.times[i - 1] == 0.0 { -s.times[i - 1] } else { s.times[i - 1] };
            }
        }
        7 => {
            s.marks.push(0);
        }
        _ if !s.values.is_empty() => {
            let i = random.below(s.values.len());
            s.values[i] = f64::NAN;
        }
        _ => s.times.push(0.0),
    }
}

/// Fields with some damage, which most often no longer make a set.
pub fn damaged_fields(random: &mut Random) -> Fields {
    let mut fields = match random.chance(65) {
        true => Fields::Explicit(explicit_set(random, 4, 5)),
        false => Fields::Template(template_set(random)),
    };
    for _ in 0..random.pick(&[1, 1, 2, 3]) {
        match &mut fields {
            Fields::Explicit(e) => damage_explicit(random, e),
            Fields::Template(t) => damage_template(random, t),
        }
    }
    hold(&mut fields);
    fields
}

fn damaged(random: &mut Random, out: &mut Writer<'_>) {
    // A set stands, so that a refused call can be seen to leave it.
    let base = Fields::Explicit(explicit_set(random, 4, 5));
    out.call(&base.acceptance());
    let Some(mut set) = accepted(&base) else { return };
    if random.chance(20) {
        retimed(random, out, &mut set, None);
    }
    for _ in 0..random.between(1, 3) {
        let fields = damaged_fields(random);
        out.call(&fields.acceptance());
        out.call(&Call::Dump);
        set = accepted(&fields).unwrap_or(set);
    }
    for _ in 0..random.between(1, 3) {
        let mut lent = samples(random, &set, 4);
        for _ in 0..random.pick(&[1, 1, 2, 3]) {
            damage_samples(random, &mut lent);
        }
        let good = numbers::samples(&lent, set.clips).is_ok();
        out.call(&Call::Samples(lent.clone()));
        let questions = random.between(1, 4);
        ask(random, out, &set, good.then_some(&lent), questions);
    }
}

// Names and lists.

fn names(random: &mut Random, out: &mut Writer<'_>) {
    for _ in 0..random.between(5, 20) {
        let mut bytes = pattern(random);
        match random.below(20) {
            0 => bytes = vec![b'#'; random.between(30, 35)],
            1 => bytes.extend_from_slice(&vec![b'#'; random.between(1, 3)]),
            2 => bytes = [&b"#."[..], &vec![b'#'; random.between(4, 8)]].concat(),
            3 => bytes = (0..random.below(12)).map(|_| random.pick(b"##..a")).collect(),
            4 => {
                let length = random.pick(&[253, 254, 255, 256]);
                bytes.resize(length, b'x');
            }
            5 => {
                let head = vec![b'y'; random.between(235, 254)];
                bytes = [head, b"#.######".to_vec()].concat();
            }
            _ => {}
        }
        let time = match random.below(12) {
            0 => random.unlisted(),
            1 => random.edge(),
            2 => random.pick(&[-FAR, FAR, at(place(-FAR) + 1)]),
            // Ties: an odd number of halves of the last digit.
            3..=5 => {
                let unit = random.pick(&[2.0, 4.0, 8.0, 16.0, 64.0, 128.0, 20.0, 200.0, 2000.0, 2e6]);
                (2.0 * random.below(4000) as f64 + 1.0) / unit * random.pick(&[1.0, -1.0])
            }
            6 => random.pick(&[9.995, 99.5, 0.9999995, 999999.5, -0.5, -0.04, 0.05, 1.005]),
            7 => {
                let scale = Scale::Sizes;
                scale.time(random)
            }
            _ => {
                let d = random.below(100000) as f64 / random.pick(&[1.0, 10.0, 100.0, 1000.0, 1e6]);
                random.near(d, 2)
            }
        };
        let slots = match random.below(10) {
            0 => 0,
            1..=3 if numbers::name(&bytes, time).is_ok() => {
                let length = plain::name(&bytes, time).len() as u64;
                random.pick(&[length, length - 1, length + 1])
            }
            _ => NAME_ROOM,
        };
        out.call(&Call::Name(bytes, time, slots));
    }
}

fn normalising(random: &mut Random, out: &mut Writer<'_>) {
    for _ in 0..random.between(3, 10) {
        let scale = Scale::any(random);
        let mut s = Samples::default();
        for _ in 0..random.pick(&[0, 1, 2, 3, 5, 8, 20, 60]) {
            let time = match s.times.len() {
                1.. if random.chance(40) => {
                    let i = random.below(s.times.len());
                    if s.times[i] == 0.0 { -s.times[i] } else { s.times[i] }
                }
                _ => scale.time(random),
            };
            let mark = u8::from(random.chance(30));
            s.times.push(time);
            s.marks.push(mark);
            s.values.push(if mark == 0 { random.value() } else { random.slot() });
        }
        if random.chance(20) {
            s.times = ascending(s.times);
        }
        if random.chance(20) {
            damage_samples(random, &mut s);
            s.ends.clear();
        }
        let count = if numbers::normalize(&s).is_ok() { plain::normalize(&s).len() } else { 0 };
        let slots = slots(random, count);
        out.call(&Call::Normalize(s, slots));
    }
}

/// A decimal, now and then a word that is none.
fn decimal(random: &mut Random) -> String {
    let count = random.pick(&[1, 1, 2, 2, 3, 5, 9, 14, 15, 15, 16]);
    let mut word: String = (0..count).map(|_| random.pick(&['0', '1', '2', '3', '5', '9'])).collect();
    if count > 1 && random.chance(60) {
        word.insert(random.between(1, count - 1), '.');
    }
    if random.chance(4) {
        word.push_str(random.pick(&[".", ".5.5", "e3", "f", "-"]));
    }
    random.pick(&["", "-"]).to_owned() + &word
}

/// Lines with decimals for the question marks.
fn decimals(random: &mut Random, out: &mut Writer<'_>) {
    let lines = [
        "explicit 1 st 1 ? sc 1 0 kx 2 ? ? ky 2 ? ? bl 1 ? def 0 ? flag 0",
        "samples ends 1 2 t 2 ? ? v 2 ? ? m 2 0 0",
        "template 23 ? ? ? ? bl 0 def 2 0 flag 0",
        "retime ? ?",
        "active ?",
        "value ?",
        "read ?",
        "cliptime ?",
        "name 232e232323232323 ?",
        "keycmp ? ?",
        "dexplicit 61 1 1 st 1 ? sc 1 0 kx 0 ky 0 bl 1 ? def 0 ? flag 0",
        "dsamples counts 1 2 ends 1 2 t 2 ? ? v 2 ? ? m 2 0 0",
        "dretime 61 ? ?",
        "ddump 61",
        "dvalue ?",
        "dread ?",
    ];
    for _ in 0..random.between(2, 8) {
        let mut line = random.pick(&lines).to_owned();
        while line.contains('?') {
            line = line.replacen('?', &decimal(random), 1);
        }
        out.line(&line);
        out.call(&Call::Dump);
    }
}

/// A template's numbers, some of them damaged, asked for their clip times.
fn clip_times(random: &mut Random, out: &mut Writer<'_>) {
    for _ in 0..random.between(1, 5) {
        let mut numbers = template_set(random);
        if random.chance(25) {
            damage_template(random, &mut numbers);
        }
        let template = Template { bytes: b"#".to_vec(), filling: Filling::default(), ..numbers };
        let count = if numbers::template(&template).is_ok() { plain::clip_times(&template).len() } else { 0 };
        let slots = slots(random, count);
        out.call(&Call::ClipTimes(template, slots));
    }
}

/// Bit patterns, compared two by two.
fn key_pairs(random: &mut Random, out: &mut Writer<'_>) {
    for _ in 0..random.between(5, 20) {
        let (first, second) = patterns::pair(random);
        out.call(&Call::KeyCompare(first, second));
    }
}

// Lists around each limit.

fn long_lists(random: &mut Random, out: &mut Writer<'_>) {
    let over = random.below(10);
    let starts = random.pick(&[1, 2, 255, 256]) + usize::from(over == 0);
    let knots = random.pick(&[0, 3, 511, 512]) + usize::from(over == 1);
    let blocks = random.pick(&[0, 255, 256]) + usize::from(over == 2);
    let clips = random.pick(&[1, 3, 255, 256]) + usize::from(over == 3);
    let step = random.pick(&[1.0, 0.1, 0.75]);
    let mut e = Explicit {
        clips: clips as u64,
        start_times: (0..starts).map(|i| i as f64 * step).collect(),
        start_clips: (0..starts).map(|_| random.below(clips) as f64).collect(),
        knot_x: (0..knots).map(|i| (i - i % random.between(1, 2)) as f64 * step * 0.5).collect(),
        knot_y: (0..knots).map(|_| random.below(300) as f64 * 0.1).collect(),
        filling: Filling { blocks: Vec::new(), mark: 2, value: 0.0, flag: random.chance(50) },
    };
    e.knot_x.dedup();
    e.knot_y.truncate(e.knot_x.len());
    e.filling.blocks = (0..blocks).map(|_| random.below(600) as f64 * step).collect();
    if random.chance(50) {
        random.shuffle(&mut e.start_times);
        random.shuffle(&mut e.knot_x);
    }
    let fields = Fields::Explicit(e);
    out.call(&fields.acceptance());
    out.call(&Call::Dump);
    let Some(mut set) = accepted(&fields) else { return };
    if random.chance(30) {
        retimed(random, out, &mut set, None);
    }
    let total = if over == 4 { 4097 } else { random.pick(&[0, 100, 4096]) };
    // Few of them in a clip that a long window would have to look through.
    let most = if set.knots.len() > 10 && set.starts.len() > 1 { 20 } else { 4096 };
    let mut s = Samples::default();
    for clip in 0..clips {
        let mut count = (total - s.times.len()).min(most);
        if clip + 1 < clips {
            count = count.min(random.between(0, 2 * total / clips + 1));
        }
        for i in 0..count {
            s.times.push(i as f64 * 0.1 + clip as f64);
            s.marks.push(u8::from(random.chance(5)));
            s.values.push(random.value());
        }
        s.ends.push(s.times.len() as u64);
    }
    if over == 5 {
        s.ends.push(s.times.len() as u64);
    }
    if over == 6 {
        s.times.resize(5000, 0.0);
        s.values.resize(5000, 0.0);
        s.marks.resize(5000, 0);
    }
    let good = numbers::samples(&s, set.clips).is_ok();
    out.call(&Call::Samples(s.clone()));
    let special = special_times(&set, good.then_some(&s));
    for _ in 0..random.between(5, 15) {
        let t = question_time(random, &special);
        out.value_and_sample(t);
        out.call(&Call::ClipTime(t));
        out.call(&Call::Active(t));
    }
    out.call(&Call::Untimed);
    out.call(&Call::Times(ROOM));
    out.call(&Call::StageSamples(ROOM));
    if random.chance(30) {
        out.call(&Call::TrackHash);
    }
    if random.chance(30) {
        out.call(&Call::Normalize(Samples { ends: Vec::new(), ..s }, ROOM));
    }
}

/// Questions before any set, and calls that follow one another in any order.
fn out_of_order(random: &mut Random, out: &mut Writer<'_>) {
    let mut set = Set::default();
    for _ in 0..random.between(5, 15) {
        match random.below(6) {
            0 => {
                let fields = Fields::Explicit(explicit_set(random, 3, 3));
                out.call(&fields.acceptance());
                set = accepted(&fields).unwrap_or(set);
            }
            1 => {
                let moving = retiming(random, &set);
                retime(random, out, &mut set, moving);
            }
            2 => {
                let lent = samples(random, &set, 4);
                out.call(&Call::Samples(lent));
            }
            3 => out.call(&Call::Dump),
            _ => {
                let questions = random.between(1, 4);
                ask(random, out, &set, None, questions);
            }
        }
    }
}

/// Lines that can't be read, and good ones with blanks and comments.
fn spelled_badly(random: &mut Random, out: &mut Writer<'_>) {
    let lines = [
        "value",
        "value 3ff",
        "value 3ff00000000000000",
        "value 3ff000000000000g",
        "value 3ff0000000000000 1",
        "valve 3ff0000000000000",
        "read",
        "read 3ff0000000000000 1",
        "explicit 1",
        "explicit 1 st 1 0000000000000000 sc 0 kx 0 ky 0 bl 0 def 2 0000000000000000 flag",
        "explicit 1 st 2 0000000000000000 sc 0 kx 0 ky 0 bl 0 def 2 0000000000000000 flag 0",
        "template 6 3ff0000000000000 3ff0000000000000 3ff0000000000000 none bl 0 def 2 0000000000000000 flag 0",
        "name 2 0000000000000000",
        "retime 3ff0000000000000",
        "  value   3ff0000000000000  ; a comment",
        "dump;none stands",
        "untimed ; nothing is lent",
        "; only a comment",
        "",
    ];
    for _ in 0..random.between(1, 6) {
        out.line(random.pick(&lines));
    }
}
