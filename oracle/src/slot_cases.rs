//! Cases from a seed with prepared sets: examined between other calls, kept in the four slots, installed in any order and
//! again and again.

use crate::calls::{Call, Explicit, Fields, PREPARED, ROOM, Samples};
use crate::numbers;
use crate::plain::Set;
use crate::random::Random;
use crate::random_cases::{
    accepted, ask, case as ordinary, damaged_fields, explicit_set, missing_set, most_samples, retime, retimed,
    retiming, samples, template_set,
};
use crate::writer::Writer;

pub fn case(random: &mut Random, out: &mut Writer<'_>) {
    match random.below(10) {
        0..=3 => any_order(random, out),
        4 | 5 => preview(random, out),
        6 | 7 => again(random, out),
        _ => between(random, out),
    }
}

/// Lines about a slot that can't be read.
const UNREADABLE: [&str; 12] = [
    "install",
    "install 4",
    "install 0 0",
    "install -1",
    "prepared",
    "prepared 4",
    "prepared 18446744073709551616",
    "examine 0",
    "examine 4 explicit 0 st 0 sc 0 kx 0 ky 0 bl 0 def 2 0000000000000000 flag 0",
    "examine explicit 0 st 0 sc 0 kx 0 ky 0 bl 0 def 2 0000000000000000 flag 0",
    "examine 0 explicit 0 st 0 sc 0 kx 0 ky 0 bl 0 def 2 0000000000000000 flag 0 0",
    "examine 0 retime 0000000000000000 3ff0000000000000",
];

/// Slots, standing set and lent samples as the calls so far left them, by the document.
#[derive(Default)]
struct Known {
    slots: [Option<Set>; PREPARED],
    standing: Option<Set>,
    lent: Option<Samples>,
}

/// The lent samples, if they are such as the set takes.
fn fitting<'a>(lent: &'a Option<Samples>, set: &Set) -> Option<&'a Samples> {
    lent.as_ref().filter(|lent| numbers::samples(lent, set.clips).is_ok())
}

impl Known {
    /// A slot, most often one that has a set.
    fn slot(&self, random: &mut Random) -> usize {
        let used: Vec<usize> = (0..PREPARED).filter(|&slot| self.slots[slot].is_some()).collect();
        if used.is_empty() || random.chance(15) { random.below(PREPARED) } else { random.pick(&used) }
    }

    fn examine(&mut self, random: &mut Random, out: &mut Writer<'_>, slot: usize, fields: Fields) {
        let set = accepted(&fields);
        out.call(&Call::Examine(slot, fields));
        // A refused one leaves the slot, and every one leaves the desk.
        if random.chance(if set.is_some() { 25 } else { 60 }) {
            out.call(&Call::Prepared(slot));
        }
        if random.chance(15) {
            out.call(&Call::Dump);
        }
        self.slots[slot] = set.or(self.slots[slot].take());
    }

    fn install(&mut self, random: &mut Random, out: &mut Writer<'_>, slot: usize) {
        out.call(&Call::Install(slot));
        self.standing = self.slots[slot].clone().or(self.standing.take());
        if random.chance(30) {
            out.call(&Call::Dump);
        }
    }

    fn accept(&mut self, out: &mut Writer<'_>, fields: &Fields) {
        out.call(&fields.acceptance());
        self.standing = accepted(fields).or(self.standing.take());
    }

    fn retime(&mut self, random: &mut Random, out: &mut Writer<'_>) {
        match &mut self.standing {
            None => out.call(&Call::Retime(1.0, 2.0)),
            Some(set) if random.chance(50) => {
                let moving = retiming(random, set);
                retime(random, out, set, moving);
            }
            Some(set) => {
                let lent = fitting(&self.lent, set);
                retimed(random, out, set, lent);
            }
        }
    }

    /// Lends samples that are made for the standing set.
    fn lend(&mut self, random: &mut Random, out: &mut Writer<'_>) {
        let Some(set) = &self.standing else { return };
        let most = most_samples(random, set);
        let lent = samples(random, set, most);
        out.call(&Call::Samples(lent.clone()));
        self.lent = Some(lent);
    }

    /// Asks and perhaps bakes, for the most part with samples that the standing set takes.
    fn ask(&mut self, random: &mut Random, out: &mut Writer<'_>) {
        let fits = self.standing.as_ref().is_some_and(|set| fitting(&self.lent, set).is_some());
        if random.chance(if fits { 10 } else { 90 }) {
            self.lend(random, out);
        }
        let none = Set::default();
        let set = self.standing.as_ref().unwrap_or(&none);
        let questions = random.between(1, 5);
        ask(random, out, set, fitting(&self.lent, set), questions);
        if random.chance(35) {
            out.call(&if random.chance(50) { Call::TrackHash } else { Call::Track(ROOM) });
        }
    }
}

/// Fields of a small set for the most part; one in four is damaged.
fn fields(random: &mut Random) -> Fields {
    match random.below(16) {
        0..=7 => Fields::Explicit(explicit_set(random, 3, 4)),
        8 | 9 => Fields::Explicit(missing_set(random)),
        10 | 11 => Fields::Template(template_set(random)),
        _ => damaged_fields(random),
    }
}

/// A slot to put a set in, some of them more often, so that they have one and then another.
fn few(random: &mut Random) -> usize {
    random.pick(&[0, 0, 1, 1, 2, 3])
}

/// All calls on slots and desk in any order.
fn any_order(random: &mut Random, out: &mut Writer<'_>) {
    let mut known = Known::default();
    for _ in 0..random.between(6, 20) {
        let slot = known.slot(random);
        match random.below(20) {
            0..=5 => {
                let (slot, fields) = (few(random), fields(random));
                known.examine(random, out, slot, fields);
            }
            6..=10 => {
                known.install(random, out, slot);
                known.ask(random, out);
            }
            11 | 12 => known.retime(random, out),
            13 | 14 => known.accept(out, &fields(random)),
            15 | 16 => out.call(&Call::Prepared(slot)),
            17 => {
                out.line(random.pick(&UNREADABLE));
                out.call(&Call::Prepared(slot));
            }
            _ => known.ask(random, out),
        }
    }
}

/// The same set but for one thing, so that it shows where an installing leaves something of the set before.
fn varied(random: &mut Random, set: &Explicit) -> Explicit {
    let mut other = set.clone();
    match random.below(7) {
        0 | 1 => (other.filling.mark, other.filling.value) = (random.pick(&[0, 1, 2]), random.value()),
        2 => other.filling.flag = !other.filling.flag,
        3 => other.filling.blocks = other.start_times.clone(),
        4 => (other.start_times, other.start_clips) = (Vec::new(), Vec::new()),
        5 => (other.knot_x, other.knot_y) = (Vec::new(), Vec::new()),
        _ => other.start_clips.iter_mut().for_each(|clip| *clip = (*clip + 1.0) % other.clips as f64),
    }
    other
}

/// Two sets of one number of clips, so that both take the samples that are lent.
fn pair(random: &mut Random) -> [Explicit; 2] {
    let mut first = explicit_set(random, 4, 5);
    let mut second = if random.chance(60) { varied(random, &first) } else { explicit_set(random, 4, 5) };
    first.clips = first.clips.max(second.clips);
    second.clips = first.clips;
    [first, second]
}

/// Two sets shown in turn, with the same samples for the most part.
fn preview(random: &mut Random, out: &mut Writer<'_>) {
    let mut known = Known::default();
    let first = few(random);
    let slots = [first, (first + random.between(1, PREPARED - 1)) % PREPARED];
    for (slot, set) in slots.into_iter().zip(pair(random)) {
        known.examine(random, out, slot, Fields::Explicit(set));
    }
    if random.chance(30) {
        known.accept(out, &fields(random));
    }
    for turn in 0..random.between(3, 7) {
        let slot = if random.chance(85) { slots[turn % 2] } else { random.below(PREPARED) };
        known.install(random, out, slot);
        known.ask(random, out);
        if random.chance(35) {
            known.retime(random, out);
            known.ask(random, out);
        }
        if random.chance(15) {
            let fields = damaged_fields(random);
            known.examine(random, out, slots[0], fields);
        }
    }
}

/// One set, retimed and installed again.
fn again(random: &mut Random, out: &mut Writer<'_>) {
    let mut known = Known::default();
    let (slot, fields) = (few(random), fields(random));
    known.examine(random, out, slot, fields);
    for _ in 0..random.between(2, 4) {
        known.install(random, out, slot);
        known.ask(random, out);
        known.retime(random, out);
        if random.chance(60) {
            known.ask(random, out);
        }
        if random.chance(25) {
            out.call(&Call::Prepared(slot));
        }
    }
    known.install(random, out, slot);
    out.call(&Call::Dump);
    known.ask(random, out);
}

/// An ordinary case with examinings among its calls, which change none of its replies; in the end some are installed.
fn between(random: &mut Random, out: &mut Writer<'_>) {
    let mut text = Vec::new();
    ordinary(random, &mut Writer::new(&mut text));
    let mut known = Known::default();
    for line in String::from_utf8(text).expect("case text is ASCII").lines() {
        if random.chance(15) {
            let (slot, fields) = (few(random), fields(random));
            known.examine(random, out, slot, fields);
        }
        out.line(line);
    }
    for _ in 0..random.between(0, 3) {
        let slot = known.slot(random);
        known.install(random, out, slot);
        out.call(&Call::Dump);
        known.ask(random, out);
    }
}
