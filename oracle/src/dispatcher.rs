//! The dispatcher of docs/VALUE-CLIPS.md over the Rust: the order is that of `effective_set_names`, a set qualifies where
//! `sources_in_set` says so, and the value is that of `value_in_set`. Numbers are the document's.

use std::collections::HashMap;

use crate::bake::bake;
use crate::calls::Fields;
use crate::calls::dispatcher::{DispatcherCall, Label, Order, SetSamples};
use crate::desk::Answered;
use crate::dispatcher_numbers;
use crate::examine::{examine, latin};
use crate::lent::{Lent, Rust};
use crate::notes::Notes;
use crate::numbers::{self, Refusal};
use crate::pcp::clip::effective_set_names;
use crate::pcp::clip::reach::Asked;
use crate::plain::{ABSENT, Sampled};
use crate::plain_dispatcher::{self, Answering, listed, own_samples};
use crate::prepared::{Prepared, Slots};
use crate::text::Line;
use crate::track::Track;

struct Named {
    label: Label,
    set: Prepared,
}

impl Named {
    /// The same by the document.
    fn plain(&self) -> plain_dispatcher::Named<'_> {
        plain_dispatcher::Named { label: &self.label, set: &self.set.plain }
    }
}

#[derive(Default)]
pub struct Dispatcher {
    /// In the order of acceptance.
    sets: Vec<Named>,
    order: Option<Order>,
    samples: SetSamples,
    /// The samples of each set, or the number of all.
    lent: Option<Result<Vec<Lent>, Refusal>>,
    asked: Asked,
}

impl Dispatcher {
    /// Replies to a call; what is lent has no reply.
    pub fn answer(&mut self, call: DispatcherCall, slots: &Slots, out: &mut Line, notes: &mut Notes) -> Answered {
        match call {
            DispatcherCall::Accept(label, fields) => self.accept(label, &fields, out, notes),
            DispatcherCall::Install(label, slot) => self.install_from(label, slots.get(slot), out),
            DispatcherCall::Retime(name, offset, scale) => self.retime(&name, offset, scale, out, notes),
            DispatcherCall::Order(order) => {
                self.order = order;
                Ok(())
            }
            DispatcherCall::Samples(samples) => {
                self.samples = samples;
                self.lent = None;
                Ok(())
            }
            DispatcherCall::Value(t) => self.value(t, out, notes),
            DispatcherCall::Read(t) => self.read(t, out, notes),
            DispatcherCall::Track(slots) => self.track(slots, out, notes),
            DispatcherCall::Sets => {
                self.sets(out);
                Ok(())
            }
            DispatcherCall::Dump(name) => {
                self.named(&name)?.set.write(out);
                Ok(())
            }
        }
    }

    // The sets, one by one.

    /// 23, if it applies to a set of that name.
    fn room_for(&self, name: &[u8]) -> Answered {
        let taken: Vec<&[u8]> = self.sets.iter().map(|set| &set.label.name[..]).collect();
        dispatcher_numbers::set(name, &taken)
    }

    fn put(&mut self, label: Label, set: Prepared, out: &mut Line) {
        self.sets.push(Named { label, set });
        self.lent = None;
        out.word("ok");
    }

    /// An acceptance looks for 23 before it examines the fields.
    fn accept(&mut self, label: Label, fields: &Fields, out: &mut Line, notes: &mut Notes) -> Answered {
        self.room_for(&label.name)?;
        self.put(label, examine(fields, notes)?, out);
        Ok(())
    }

    fn install_from(&mut self, label: Label, prepared: Option<&Prepared>, out: &mut Line) -> Answered {
        let Some(set) = prepared else {
            out.word("empty");
            return Ok(());
        };
        self.room_for(&label.name)?;
        self.put(label, set.clone(), out);
        Ok(())
    }

    fn named(&mut self, name: &[u8]) -> Result<&mut Named, Refusal> {
        self.sets.iter_mut().find(|set| set.label.name == name).ok_or(20)
    }

    fn retime(&mut self, name: &[u8], offset: f64, scale: f64, out: &mut Line, notes: &mut Notes) -> Answered {
        self.named(name)?.set.retime(offset, scale, notes)?;
        self.lent = None;
        out.word("ok");
        Ok(())
    }

    fn sets(&self, out: &mut Line) {
        out.word("dsets").number(self.sets.len() as u64);
        for Named { label, .. } in &self.sets {
            out.bytes(&label.name).number(label.declares.into());
        }
    }

    // Questions.

    /// The samples of every set as layers; a manifest that does not declare the attribute says nothing of it.
    fn lend(&self) -> Result<Vec<Lent>, Refusal> {
        let clips: Vec<usize> = self.sets.iter().map(|set| set.set.plain.clips).collect();
        dispatcher_numbers::samples(&self.samples, &clips)?;
        let lent = |(named, own): (&Named, _)| match named.label.declares {
            true => Lent::new(&named.set, own),
            false => Lent::undeclared(&named.set, own),
        };
        Ok(self.sets.iter().zip(own_samples(&self.samples, &clips)).map(lent).collect())
    }

    /// The set that answers, by the Rust. It lists a repeated name again and again, where here it counts once.
    fn answering(&mut self, notes: &mut Notes) -> Result<Option<Answering>, Refusal> {
        dispatcher_numbers::order(self.order.as_ref())?;
        if self.lent.is_none() {
            self.lent = Some(self.lend());
        }
        let lent = self.lent.as_ref().expect("lent above").as_ref().map_err(|number| *number)?;
        let numbered: HashMap<String, usize> =
            self.sets.iter().enumerate().map(|(set, named)| (latin(&named.label.name), set)).collect();
        let order: Option<Vec<String>> =
            self.order.as_ref().map(|order| listed(order).into_iter().map(latin).collect());
        let mut in_force: Vec<usize> = Vec::new();
        for name in effective_set_names(&numbered, order.as_deref()) {
            if !in_force.contains(&numbered[name]) {
                in_force.push(numbered[name]);
            }
        }
        let mut sources = |&set: &usize| self.asked.sources(&self.sets[set].set.resolved, &lent[set].layers);
        let place = in_force.iter().position(&mut sources);
        let found = place.map(|place| Answering { set: in_force[place], place });
        if notes.check {
            let sets: Vec<_> = self.sets.iter().map(Named::plain).collect();
            notes.compare("answering set", found, plain_dispatcher::answering(&sets, self.order.as_ref()));
        }
        Ok(found)
    }

    /// The Rust with the set that answers and its own samples.
    fn rust(&mut self, set: usize) -> Rust<'_> {
        let lent = self.lent.as_ref().and_then(|lent| lent.as_ref().ok()).expect("no number refuses them");
        Rust { set: &self.sets[set].set, lent: &lent[set], asked: &mut self.asked }
    }

    fn value(&mut self, t: f64, out: &mut Line, notes: &mut Notes) -> Answered {
        let found = self.answering(notes)?;
        numbers::stage_time(t)?;
        let mut value = ABSENT;
        if let Some(Answering { set, .. }) = found {
            let mut rust = self.rust(set);
            value = rust.value(t);
            if notes.check {
                notes.compare("dvalue", value, rust.document().value(t));
            }
        }
        placed(out.word("dvalue"), found, notes).answer(value.mark, value.bits);
        Ok(())
    }

    fn read(&mut self, t: f64, out: &mut Line, notes: &mut Notes) -> Answered {
        let found = self.answering(notes)?;
        numbers::stage_time(t)?;
        let mut read = Sampled { answer: ABSENT, sample: None };
        if let Some(Answering { set, .. }) = found {
            let mut rust = self.rust(set);
            read = rust.read(t);
            if notes.check {
                notes.compare("dread", read, rust.document().read(t));
            }
        }
        placed(out.word("dread"), found, notes).answer(read.answer.mark, read.answer.bits);
        out.sample(read.sample.map(|sample| (sample.clip as u64, sample.place as u64)));
        Ok(())
    }

    fn track(&mut self, slots: u64, out: &mut Line, notes: &mut Notes) -> Answered {
        let found = self.answering(notes)?;
        let track = match found {
            Some(Answering { set, .. }) => bake(&mut self.rust(set), notes),
            None => Track { head: ABSENT, changes: Vec::new() },
        };
        numbers::room(slots, track.changes.len())?;
        track.write(placed(out.word("dtrack"), found, notes));
        Ok(())
    }
}

/// The place of the set that answers, counted.
fn placed<'a>(out: &'a mut Line, found: Option<Answering>, notes: &mut Notes) -> &'a mut Line {
    notes.counts.placed[0] += 1;
    notes.counts.placed[1] += u64::from(found.is_some());
    notes.counts.placed[2] += u64::from(found.is_some_and(|found| found.place > 0));
    out.set_place(found.map(|found| found.place as u64))
}
