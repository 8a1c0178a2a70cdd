//! Who answers a case text: a desk, a dispatcher beside it, neither of which reaches the other, and the slots, which belong
//! to the text.

use crate::calls::{Call, Fields};
use crate::desk::{Answered, Desk};
use crate::dispatcher::Dispatcher;
use crate::examine::examine;
use crate::notes::Notes;
use crate::prepared::Slots;
use crate::setless;
use crate::text::Line;

#[derive(Default)]
pub struct Answers {
    desk: Desk,
    dispatcher: Dispatcher,
    slots: Slots,
    pub notes: Notes,
}

impl Answers {
    pub fn new(check: bool, probing: bool) -> Self {
        Answers { notes: Notes { check, probing, ..Notes::default() }, ..Answers::default() }
    }

    /// Replies to a call, if it has a reply.
    pub fn answer(&mut self, call: Call, out: &mut Line) {
        let has_reply = call.has_reply();
        if let Err(number) = self.reply(call, out) {
            out.word("refused").number(number.into());
        }
        if has_reply {
            out.end();
        }
    }

    fn reply(&mut self, call: Call, out: &mut Line) -> Answered {
        let (desk, notes) = (&mut self.desk, &mut self.notes);
        match call {
            Call::Case(name) => {
                let notes = std::mem::take(&mut self.notes);
                *self = Answers { notes, ..Answers::default() };
                out.word("case").word(&name);
                Ok(())
            }
            Call::Samples(samples) => {
                desk.lend(samples);
                Ok(())
            }
            Call::Explicit(e) => self.accept(&Fields::Explicit(e), out),
            Call::Template(t) => self.accept(&Fields::Template(t), out),
            Call::Examine(slot, fields) => {
                self.slots.put(slot, examine(&fields, notes)?);
                out.word("ok");
                Ok(())
            }
            Call::Prepared(slot) => {
                match self.slots.get(slot) {
                    Some(set) => set.write(out),
                    None => _ = out.word("empty"),
                }
                Ok(())
            }
            Call::Install(slot) => {
                let set = self.slots.hand_out(slot, &mut notes.counts.installed);
                out.word(if set.is_some() { "ok" } else { "empty" });
                set.into_iter().for_each(|set| desk.install(set));
                Ok(())
            }
            Call::Retime(offset, scale) => {
                desk.retime(offset, scale, notes)?;
                self.slots.retimed();
                out.word("ok");
                Ok(())
            }
            Call::Dump => desk.dump(out),
            Call::Active(t) => desk.active(t, out, notes),
            Call::ClipTime(t) => desk.clip_time(t, out, notes),
            Call::Value(t) => desk.value(t, out, notes),
            Call::Read(t) => desk.read(t, out, notes),
            Call::Times(slots) => desk.times(slots, out, notes),
            Call::StageSamples(slots) => desk.stage_samples(slots, out, notes),
            Call::Untimed => desk.untimed(out, notes),
            Call::Track(slots) => desk.track(slots, out, notes),
            Call::TrackHash => desk.track_hash(out, notes),
            Call::Name(bytes, time, slots) => setless::name(&bytes, time, slots, out, notes),
            Call::Normalize(samples, slots) => setless::normalize(&samples, slots, out, notes),
            Call::ClipTimes(template, slots) => setless::clip_times(&template, slots, out, notes),
            Call::KeyCompare(first, second) => setless::key_compare(first, second, out, notes),
            Call::Dispatcher(call) => {
                notes.counts.dispatched += u64::from(call.has_reply());
                self.dispatcher.answer(call, &self.slots, out, notes)
            }
        }
    }

    fn accept(&mut self, fields: &Fields, out: &mut Line) -> Answered {
        self.desk.accept(fields, &mut self.notes)?;
        self.slots.installed(None);
        out.word("ok");
        Ok(())
    }
}
