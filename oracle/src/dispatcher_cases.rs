//! Cases from a seed with a dispatcher: sets under names, order lists, samples for all sets, and questions; full
//! dispatchers, prepared sets under several names, the desk's calls between.

use crate::calls::dispatcher::{DispatcherCall, Label, SetSamples};
use crate::calls::{Call, Explicit, Fields, Filling, PREPARED, ROOM, Samples};
use crate::dispatcher_numbers::{SAMPLES, SETS};
use crate::known_sets::{Known, fields};
use crate::random::Random;
use crate::random_cases::{case as ordinary, damaged_fields, explicit_set};
use crate::shares::{MOST_ENDS, MOST_SAMPLES, spoil_the_parting, together};
use crate::writer::Writer;

/// The most clips of a set.
const CLIPS: usize = 256;

pub fn case(random: &mut Random, out: &mut Writer<'_>) {
    match random.below(100) {
        0..44 => several(random, out),
        44..58 => refused_samples(random, out),
        58..68 => prepared(random, out),
        68..76 => full(random, out),
        76..80 => none_at_all(random, out),
        80..92 => between(random, out),
        92..98 => spelled_badly(random, out),
        _ => long_shares(random, out),
    }
}

/// Lines that can't be read.
const UNREADABLE: [&str; 24] = [
    "dexplicit",
    "dexplicit 61 1",
    "dexplicit 61 2 0 st 0 sc 0 kx 0 ky 0 bl 0 def 2 0000000000000000 flag 0",
    "dexplicit 61 0 st 0 sc 0 kx 0 ky 0 bl 0 def 2 0000000000000000 flag 0",
    "dexplicit 6 1 0 st 0 sc 0 kx 0 ky 0 bl 0 def 2 0000000000000000 flag 0",
    "dexplicit 61 1 0 st 0 sc 0 kx 0 ky 0 bl 0 def 2 0000000000000000 flag 0 0",
    "dtemplate 61 1 23 0000000000000000 0000000000000000 3ff0000000000000 bl 0 def 2 0000000000000000 flag 0",
    "dinstall 61 1",
    "dinstall 61 1 4",
    "dinstall 61 0",
    "dretime 61 0000000000000000",
    "dretime 0000000000000000",
    "order",
    "order none none",
    "order ends 1 1",
    "order ends 2 1 bytes 61",
    "order bytes 61 ends 1 1",
    "dsamples",
    "dsamples counts 1 1 ends 1 1 t 1 0000000000000000 v 1 0000000000000000 m 1",
    "dsamples ends 0 t 0 v 0 m 0",
    "dvalue",
    "dread 0000000000000000 0",
    "dsets 61",
    "ddump",
];

/// Some sets, and questions with one order after the other.
fn several(random: &mut Random, out: &mut Writer<'_>) {
    let few = random.between(2, 5);
    let mut known = Known::new(random, few);
    for _ in 0..few {
        known.accept_any(random, out);
    }
    known.lend(random, out);
    known.ask_some(random, out);
    for _ in 0..random.between(3, 9) {
        known.any_call(random, out);
    }
}

/// Samples with faults, in sets that answer and in others; good ones now and then.
fn refused_samples(random: &mut Random, out: &mut Writer<'_>) {
    let few = random.between(1, 4);
    let mut known = Known::new(random, few);
    for _ in 0..few {
        let (label, set) = (known.label(random), explicit_set(random, 3, 3));
        known.accept(random, out, label, Fields::Explicit(set));
    }
    for _ in 0..random.between(4, 12) {
        if random.chance(60) {
            known.order(random, out);
        }
        if random.chance(80) {
            known.lend_spoiled(random, out);
        } else {
            known.lend(random, out);
        }
        let count = random.between(1, 3);
        known.ask(random, out, count);
    }
}

/// A prepared set under several names, with a yes and with a no; what is retimed under one of them is seen under no other,
/// in no slot and not on the desk.
fn prepared(random: &mut Random, out: &mut Writer<'_>) {
    let few = random.between(2, 4);
    let mut known = Known::new(random, few);
    let slots = [random.below(PREPARED), random.below(PREPARED)];
    for slot in slots {
        let fields = fields(random);
        known.examine(out, slot, fields);
    }
    for _ in 0..random.between(2, 6) {
        let slot = if random.chance(90) { random.pick(&slots) } else { random.below(PREPARED) };
        let label = known.label(random);
        known.install(out, label, slot);
        match random.below(6) {
            0 => out.call(&Call::Install(slot)),
            1 => known.retime(random, out),
            2 => out.call(&Call::Prepared(slot)),
            3 => out.call(&Call::Dump),
            _ => out.call(&DispatcherCall::Sets.into()),
        }
    }
    known.lend(random, out);
    for _ in 0..random.between(3, 6) {
        known.any_call(random, out);
        if random.chance(20) {
            out.call(&Call::Prepared(slots[0]));
            out.call(&Call::Dump);
        }
    }
}

/// Sixteen sets, and more that find no room, whatever their fields are.
fn full(random: &mut Random, out: &mut Writer<'_>) {
    let mut known = Known::new(random, SETS + 2);
    let declaring = random.pick(&[10, 50, 90]);
    // Some are refused, and take no place.
    for _ in 0..SETS + 4 {
        let label = Label { declares: random.chance(declaring), ..known.label(random) };
        let set = if random.chance(90) { Fields::Explicit(explicit_set(random, 2, 2)) } else { fields(random) };
        known.accept(random, out, label, set);
    }
    for _ in 0..random.between(1, 3) {
        known.accept_any(random, out);
    }
    if random.chance(50) {
        known.examine(out, 0, Fields::Explicit(explicit_set(random, 2, 2)));
        let label = known.label(random);
        known.install(out, label, 0);
    }
    out.call(&DispatcherCall::Sets.into());
    known.lend(random, out);
    known.ask_some(random, out);
    // Each is retimed on its own, and unknown ones with them.
    if random.chance(40) {
        for n in 0..SETS + 2 {
            let name = known.names.nth(n);
            known.retime_named(random, out, &name);
        }
        known.ask_some(random, out);
    }
    for _ in 0..random.between(3, 8) {
        known.any_call(random, out);
    }
}

/// No set at all, or none that was accepted: what is lent and asked is judged all the same.
fn none_at_all(random: &mut Random, out: &mut Writer<'_>) {
    let mut known = Known::new(random, 3);
    if random.chance(30) {
        let (label, fields) = (known.label(random), damaged_fields(random));
        known.accept(random, out, label, fields);
    }
    for _ in 0..random.between(3, 8) {
        match random.below(5) {
            0 => known.order(random, out),
            1 => known.retime(random, out),
            2 => known.lend(random, out),
            3 => {
                let mut all = SetSamples::default();
                spoil_the_parting(random, &mut all);
                known.lend_all(out, all);
            }
            _ => {
                // One sample and nothing else, or one that is no sample.
                let lists = Samples {
                    ends: Vec::new(),
                    times: vec![random.pick(&[0.0, f64::NAN])],
                    values: vec![1.0],
                    marks: vec![random.pick(&[0, 2])],
                };
                known.lend_all(out, SetSamples { counts: Vec::new(), lists });
            }
        }
        known.ask_some(random, out);
        out.call(&DispatcherCall::Dump(known.names.nth(0)).into());
    }
}

/// An ordinary case of the desk with a dispatcher's calls among its own: neither changes the other's replies.
fn between(random: &mut Random, out: &mut Writer<'_>) {
    let mut text = Vec::new();
    ordinary(random, &mut Writer::new(&mut text));
    let mut known = Known::new(random, 3);
    for line in String::from_utf8(text).expect("case text is ASCII").lines() {
        match random.below(10) {
            0 if known.sets.len() < 4 => {
                known.accept_any(random, out);
                known.lend(random, out);
            }
            1..=3 => {
                known.any_call(random, out);
            }
            _ => {}
        }
        out.line(line);
    }
}

/// Lines that can't be read change nothing.
fn spelled_badly(random: &mut Random, out: &mut Writer<'_>) {
    let mut known = Known::new(random, 2);
    for _ in 0..random.between(0, 2) {
        known.accept_any(random, out);
    }
    known.lend(random, out);
    known.order(random, out);
    for _ in 0..random.between(3, 10) {
        out.line(random.pick(&UNREADABLE));
        known.ask(random, out, 1);
    }
    out.call(&DispatcherCall::Sets.into());
}

/// A set with no knots and no default, whose first clip is active up to 100 and the last from there on.
fn of_two_starts(clips: usize) -> Fields {
    Fields::Explicit(Explicit {
        clips: clips as u64,
        start_times: vec![0.0, 100.0],
        start_clips: vec![0.0, clips as f64 - 1.0],
        filling: Filling { blocks: Vec::new(), mark: 2, value: 0.0, flag: false },
        ..Explicit::default()
    })
}

/// Shares at their limit and one over, together more than a set may have; as many clips as a line can hold.
fn long_shares(random: &mut Random, out: &mut Writer<'_>) {
    let mut known = Known::new(random, 4);
    // The clips and the samples of each set.
    let mut sizes: Vec<(usize, usize)> = match random.chance(20) {
        true => (0..MOST_ENDS / CLIPS).map(|_| (CLIPS, random.below(9))).collect(),
        false => {
            let clips = random.pick(&[1, 3, CLIPS]);
            let long = |random: &mut Random| random.pick(&[SAMPLES - 1, SAMPLES, SAMPLES, SAMPLES + 1]);
            vec![(clips, long(random)), (clips, long(random))]
        }
    };
    if sizes.len() > 2 {
        sizes.push((MOST_ENDS % CLIPS, 1));
    } else if random.chance(60) {
        sizes.push((1, random.pick(&[0, 1, MOST_SAMPLES - 2 * SAMPLES])));
    }
    random.shuffle(&mut sizes);
    let mut shares = Vec::new();
    for (clips, length) in sizes {
        let label = known.label(random);
        let before = known.sets.len();
        known.accept(random, out, label, of_two_starts(clips));
        if known.sets.len() > before {
            shares.push(long_share(random, clips, length));
        }
    }
    known.lend_all(out, together(&shares));
    for _ in 0..random.between(2, 5) {
        known.order(random, out);
        for t in [-1.0, 99.95, 100.0, 200.0 + random.below(2000) as f64, f64::MAX] {
            out.call(&DispatcherCall::Value(t).into());
            out.call(&DispatcherCall::Read(t).into());
        }
        // Seldom: the Rust takes seconds for one.
        if random.chance(2) {
            out.call(&DispatcherCall::Track(ROOM).into());
        }
    }
}

/// So many samples, the most of them in the last clip.
fn long_share(random: &mut Random, clips: usize, length: usize) -> Samples {
    let mut ends: Vec<u64> = (0..clips as u64).map(|clip| clip.min(length as u64)).collect();
    ends[clips - 1] = length as u64;
    let (step, values) = (random.pick(&[0.05, 0.5]), random.between(2, 9));
    Samples {
        ends,
        times: (0..length).map(|i| i as f64 * step).collect(),
        values: (0..length).map(|i| (i % values) as f64).collect(),
        marks: vec![0; length],
    }
}
