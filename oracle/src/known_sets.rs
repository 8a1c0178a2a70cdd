//! A dispatcher as the calls of a generated case so far left it, by the document, and the calls that are made of it: sets under
//! names, order lists and samples that are lent, questions.

use crate::calls::dispatcher::{DispatcherCall, Label, Order, SetSamples};
use crate::calls::{Call, Explicit, Fields, PREPARED, Samples};
use crate::dispatcher_numbers::{self, NAME};
use crate::name_lists::Names;
use crate::numbers;
use crate::plain::{self, Read, Set};
use crate::plain_dispatcher::{Named, answering, named, own_samples};
use crate::random::Random;
use crate::random_cases::{
    accepted, damaged_fields, explicit_set, missing_set, moved_numbers, question_time, retiming, slots as slots_for,
    special_times, template_set,
};
use crate::shares::{count_through, hold, shares, spoil_a_share, spoil_the_parting, together};
use crate::track;
use crate::writer::Writer;

pub struct Known {
    pub names: Names,
    /// So many of the names are in use.
    few: usize,
    pub sets: Vec<(Label, Set)>,
    order: Option<Order>,
    lent: SetSamples,
    slots: [Option<Set>; PREPARED],
}

impl Known {
    pub fn new(random: &mut Random, few: usize) -> Self {
        let names = Names::new(random);
        Known { names, few, sets: Vec::new(), order: None, lent: SetSamples::default(), slots: Default::default() }
    }

    fn named(&self) -> Vec<Named<'_>> {
        self.sets.iter().map(|(label, set)| Named { label, set }).collect()
    }

    fn clips(&self) -> Vec<usize> {
        self.sets.iter().map(|(_, set)| set.clips).collect()
    }

    // Sets.

    /// A name for the next set, most often one that it can have.
    fn fresh(&self, random: &mut Random) -> Vec<u8> {
        if random.chance(15) {
            return self.names.any(random, self.few);
        }
        let takes = |name: &Vec<u8>| name.len() <= NAME && named(&self.named(), name).is_none();
        (0..).map(|n| self.names.nth(n)).find(takes).expect("there are names enough")
    }

    pub fn label(&self, random: &mut Random) -> Label {
        Label { name: self.fresh(random), declares: random.chance(70) }
    }

    fn taken(&self) -> Vec<&[u8]> {
        self.sets.iter().map(|(label, _)| &label.name[..]).collect()
    }

    fn put(&mut self, label: Label, set: Option<Set>) {
        let room = dispatcher_numbers::set(&label.name, &self.taken()).is_ok();
        self.sets.extend(set.filter(|_| room).map(|set| (label, set)));
    }

    pub fn accept(&mut self, random: &mut Random, out: &mut Writer<'_>, label: Label, fields: Fields) {
        let set = accepted(&fields);
        out.call(&DispatcherCall::Accept(label.clone(), fields).into());
        if random.chance(if set.is_some() { 10 } else { 40 }) {
            out.call(&DispatcherCall::Sets.into());
        }
        self.put(label, set);
    }

    pub fn accept_any(&mut self, random: &mut Random, out: &mut Writer<'_>) {
        let (label, fields) = (self.label(random), fields(random));
        self.accept(random, out, label, fields);
    }

    pub fn install(&mut self, out: &mut Writer<'_>, label: Label, slot: usize) {
        out.call(&DispatcherCall::Install(label.clone(), slot).into());
        self.put(label, self.slots[slot].clone());
    }

    pub fn examine(&mut self, out: &mut Writer<'_>, slot: usize, fields: Fields) {
        let set = accepted(&fields);
        out.call(&Call::Examine(slot, fields));
        self.slots[slot] = set.or(self.slots[slot].take());
    }

    /// A name, most often that of a set.
    fn some_name(&self, random: &mut Random) -> Vec<u8> {
        if self.sets.is_empty() || random.chance(15) {
            return self.names.any(random, self.few + 2);
        }
        self.sets[random.below(self.sets.len())].0.name.clone()
    }

    pub fn retime(&mut self, random: &mut Random, out: &mut Writer<'_>) {
        let name = self.some_name(random);
        self.retime_named(random, out, &name);
    }

    pub fn retime_named(&mut self, random: &mut Random, out: &mut Writer<'_>, name: &[u8]) {
        let found = named(&self.named(), name);
        let (offset, scale) = match found {
            Some(set) => retiming(random, &self.sets[set].1),
            None => (random.pick(&[0.0, 1.0, f64::NAN]), 1.0),
        };
        out.call(&DispatcherCall::Retime(name.to_vec(), offset, scale).into());
        if let Some(set) = found.filter(|_| numbers::retiming(offset, scale).is_ok()) {
            let moved = plain::retime(&self.sets[set].1, offset, scale);
            if moved_numbers(&moved).is_ok() {
                self.sets[set].1 = moved;
            }
        }
        if random.chance(30) {
            out.call(&DispatcherCall::Dump(self.some_name(random)).into());
        }
    }

    // What is lent.

    pub fn order(&mut self, random: &mut Random, out: &mut Writer<'_>) {
        self.order = self.names.order(random, &self.taken(), self.few + 2);
        out.call(&DispatcherCall::Order(self.order.clone()).into());
    }

    fn shares(&self, random: &mut Random) -> Vec<Samples> {
        let sets: Vec<&Set> = self.sets.iter().map(|(_, set)| set).collect();
        shares(random, &sets)
    }

    pub fn lend_all(&mut self, out: &mut Writer<'_>, mut all: SetSamples) {
        hold(&mut all);
        out.call(&DispatcherCall::Samples(all.clone()).into());
        self.lent = all;
    }

    /// Samples that are made for the sets.
    pub fn lend(&mut self, random: &mut Random, out: &mut Writer<'_>) {
        let shares = self.shares(random);
        self.lend_all(out, together(&shares));
    }

    /// The same with one fault or several.
    pub fn lend_spoiled(&mut self, random: &mut Random, out: &mut Writer<'_>) {
        let mut shares = self.shares(random);
        for _ in 0..random.pick(&[0, 1, 1, 2, 2]) {
            spoil_a_share(random, &mut shares);
        }
        if random.chance(5) {
            count_through(&mut shares);
        }
        let mut all = together(&shares);
        if random.chance(40) {
            spoil_the_parting(random, &mut all);
        }
        self.lend_all(out, all);
    }

    // Questions.

    /// The set that answers with its own samples, where no number comes before.
    fn answering(&self) -> Option<(&Set, Samples)> {
        let clips = self.clips();
        dispatcher_numbers::order(self.order.as_ref()).ok()?;
        dispatcher_numbers::samples(&self.lent, &clips).ok()?;
        let found = answering(&self.named(), self.order.as_ref())?;
        Some((&self.sets[found.set].1, own_samples(&self.lent, &clips).swap_remove(found.set)))
    }

    pub fn ask(&self, random: &mut Random, out: &mut Writer<'_>, count: usize) {
        let answering = self.answering();
        let special = answering.as_ref().map_or(vec![0.0, 1.0], |(set, own)| special_times(set, Some(own)));
        for _ in 0..count {
            let t = question_time(random, &special);
            match random.below(20) {
                0..16 => {
                    out.call(&DispatcherCall::Value(t).into());
                    out.call(&DispatcherCall::Read(t).into());
                }
                16..19 => {
                    let changes = answering.as_ref().map_or(0, |(set, own)| {
                        let read = Read::new(set, own);
                        track::walk(&track::candidates(&read), |t| read.value(t)).changes.len()
                    });
                    out.call(&DispatcherCall::Track(slots_for(random, changes)).into());
                }
                _ => out.call(&DispatcherCall::Dump(self.some_name(random)).into()),
            }
        }
    }

    pub fn ask_some(&self, random: &mut Random, out: &mut Writer<'_>) {
        let count = random.between(2, 5);
        self.ask(random, out, count);
    }

    /// One call of any kind, and questions after it.
    pub fn any_call(&mut self, random: &mut Random, out: &mut Writer<'_>) {
        match random.below(20) {
            0..=9 => self.order(random, out),
            10 | 11 => self.lend(random, out),
            12 => self.lend_spoiled(random, out),
            13..=15 => self.retime(random, out),
            16 => out.call(&DispatcherCall::Sets.into()),
            _ => {
                self.accept_any(random, out);
                if random.chance(80) {
                    self.lend(random, out);
                }
            }
        }
        self.ask_some(random, out);
    }
}

/// Fields of a small set for the most part; some without starts or clips, some damaged.
pub fn fields(random: &mut Random) -> Fields {
    match random.below(20) {
        0..=8 => Fields::Explicit(explicit_set(random, 3, 4)),
        9 | 10 => Fields::Explicit(missing_set(random)),
        11..=13 => Fields::Template(template_set(random)),
        14..=16 => Fields::Explicit(Explicit {
            clips: random.below(3) as u64,
            start_times: Vec::new(),
            start_clips: Vec::new(),
            ..explicit_set(random, 2, 2)
        }),
        _ => damaged_fields(random),
    }
}
