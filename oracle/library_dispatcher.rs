//! The dispatcher's calls answered through the library. What is accepted is examined too, as the desk's is. Where a sample is
//! asked for, the C reply is looked at as well, to a dispatcher that is laid out anew, as tavitrozy.h says where things lie.

use tavitrozy::{Dispatcher, LayerOffset, NamedSet, Order, Placed, SetSamples, limit};

use crate::calls::dispatcher::{DispatcherCall, Label, Order as LentOrder, SetSamples as LentSamples};
use crate::calls::{Fields, PREPARED};
use crate::text::Line;
use crate::{
    Answered, Prepared, Refusal, StageTime, ValueRead, bits_of, examine_explicit, examine_template, explicit, ffi,
    marked_fallback, reply_bits, same, same_set, template, track_bits, write_answer, write_set,
};

#[derive(Default)]
pub struct Sets {
    dispatcher: Dispatcher,
    order: Option<LentOrder>,
    samples: LentSamples,
}

impl Sets {
    /// The reply, or what refuses the call; what is lent has no reply.
    pub fn answer(&mut self, call: &DispatcherCall, slots: &[Option<Prepared>; PREPARED], out: &mut Line) -> Answered {
        match call {
            DispatcherCall::Order(order) => self.order = order.clone(),
            DispatcherCall::Samples(samples) => self.samples = samples.clone(),
            DispatcherCall::Accept(label, fields) => self.accept(label, fields, out)?,
            DispatcherCall::Install(label, slot) => match &slots[*slot] {
                Some(set) => {
                    self.dispatcher.install(&label.name, label.declares, set)?;
                    self.stands_last(label, set);
                    out.word("ok");
                }
                None => _ = out.word("empty"),
            },
            DispatcherCall::Retime(name, offset, scale) => {
                self.dispatcher.retime(name, LayerOffset::new(*offset, *scale))?;
                out.word("ok");
            }
            DispatcherCall::Value(t) => {
                let (order, samples) = (self.order(), self.samples());
                let Placed { set, reply } = self.dispatcher.value(order.as_ref(), &samples, StageTime(*t))?;
                write_answer(placed(out.word("dvalue"), set), reply);
            }
            DispatcherCall::Read(t) => self.read(StageTime(*t), out)?,
            DispatcherCall::Track(slots) => self.track(*slots as usize, out)?,
            DispatcherCall::Sets => {
                out.word("dsets").number(self.dispatcher.sets().len() as u64);
                for NamedSet { name, declares, .. } in self.dispatcher.sets() {
                    out.bytes(name).number(declares.into());
                }
            }
            DispatcherCall::Dump(name) => {
                let found = self.dispatcher.sets().find(|set| set.name == &name[..]);
                write_set(out, &found.ok_or(Refusal::NoSet)?.set);
            }
        }
        Ok(())
    }

    fn order(&self) -> Option<Order<'_>> {
        self.order.as_ref().map(|order| Order::of_lists(&order.bytes, &order.ends))
    }

    fn samples(&self) -> SetSamples<'_> {
        let LentSamples { counts, lists } = &self.samples;
        SetSamples::new(counts, &lists.ends, &lists.times, &lists.values, &lists.marks)
    }

    /// Where 23 does not come first, the same fields, examined, have the same number or are the very set that now stands.
    fn accept(&mut self, label: &Label, fields: &Fields, out: &mut Line) -> Answered {
        let before = self.dispatcher.sets().len();
        let (sets, Label { name, declares }) = (&mut self.dispatcher, label);
        let (accepted, examined) = match fields {
            Fields::Explicit(e) => {
                (sets.accept_marked(name, *declares, &explicit(e), e.filling.mark), examine_explicit(e))
            }
            Fields::Template(t) => {
                (sets.accept_template_marked(name, *declares, &template(t), t.filling.mark), examine_template(t))
            }
        };
        if accepted != Err(Refusal::BadNames) {
            assert_eq!(accepted.err(), examined.as_ref().err().copied(), "accepted and examined");
        }
        match (accepted, &examined) {
            (Ok(()), Ok(set)) => self.stands_last(label, set),
            _ => assert_eq!(self.dispatcher.sets().len(), before, "a refused set takes no place"),
        }
        out.word("ok");
        accepted
    }

    fn stands_last(&self, label: &Label, set: &Prepared) {
        let last = self.dispatcher.sets().last().expect("it was accepted or installed");
        assert_eq!((last.name, last.declares), (&label.name[..], label.declares), "name and declares");
        assert!(same_set(&last.set, &set.set()), "what stands is the prepared set, to the bit");
    }

    fn read(&self, time: StageTime, out: &mut Line) -> Answered {
        let (order, samples) = (self.order(), self.samples());
        let read = self.dispatcher.value_read(order.as_ref(), &samples, time);
        let c = c_reply(&self.dispatcher, order.as_ref(), &samples, time);
        let reply = &c.reply;
        let told = (reply.number, reply.mark, reply.value.to_bits(), reply.sampled, reply.clip, reply.place);
        let set = read.as_ref().map_or(None, |placed| placed.set);
        assert_eq!(told, reply_bits(&read.map(|placed| placed.reply)), "the C reply, to the bit");
        assert_eq!((c.placed, c.set), (set.is_some(), set.unwrap_or(0) as u64), "0 where no set answers");
        let Placed { set, reply: ValueRead { value, sample } } = read?;
        write_answer(placed(out.word("dread"), set), value);
        out.sample(sample.map(|sample| (sample.clip, sample.place)));
        Ok(())
    }

    fn track(&self, slots: usize, out: &mut Line) -> Answered {
        let (order, samples) = (self.order(), self.samples());
        let (mut times, mut values, mut marks) = (vec![0.0; slots], vec![0.0; slots], vec![0; slots]);
        let baked = self.dispatcher.bake_into(order.as_ref(), &samples, &mut times, &mut values, &mut marks);
        let made = self.dispatcher.bake(order.as_ref(), &samples);
        same(&baked, &made, |&Placed { set, reply: (head, n) }, made| {
            set == made.set && bits_of(&made.reply) == track_bits(head, &times[..n], &values[..n], &marks[..n])
        });
        let Placed { set, reply: (head, count) } = baked?;
        write_answer(placed(out.word("dtrack"), set), head);
        out.number(count as u64);
        for i in 0..count {
            out.double(times[i]).number(marks[i].into()).double(values[i]);
        }
        Ok(())
    }
}

fn placed(out: &mut Line, set: Option<usize>) -> &mut Line {
    out.set_place(set.map(|place| place as u64))
}

/// The room of a name: its length, then its bytes.
const NAME_PAGE: usize = limit::SET_NAME_BYTES + 1;

fn zeros<T: Clone + Default>(count: usize) -> Box<[T]> {
    vec![T::default(); count].into()
}

/// A page of a set, of so many in the list.
fn fill<T: Copy>(pages: &mut [T], room: usize, set: usize, list: &[T]) {
    pages[set * room..][..list.len()].copy_from_slice(list);
}

/// A dispatcher with these sets, laid out as the header says, and 0 where it says that nothing is meant.
fn laid_out(dispatcher: &Dispatcher) -> ffi::Pages {
    let mut pages = ffi::Pages {
        starts: zeros(limit::SETS * limit::STARTS),
        numbers: zeros(limit::SETS * limit::STARTS),
        xs: zeros(limit::SETS * limit::KNOTS),
        ys: zeros(limit::SETS * limit::KNOTS),
        blocks: zeros(limit::SETS * limit::BLOCKS),
        defaults: zeros(limit::SETS),
        counts: zeros(1 + 5 * limit::SETS),
        bytes: zeros(limit::SETS * (NAME_PAGE + 3)),
    };
    let sets: Vec<NamedSet<'_>> = dispatcher.sets().collect();
    pages.counts[0] = sets.len() as u64;
    for (i, NamedSet { name, declares, set }) in sets.iter().enumerate() {
        fill(&mut pages.starts, limit::STARTS, i, set.start_times);
        fill(&mut pages.numbers, limit::STARTS, i, set.start_clips);
        fill(&mut pages.xs, limit::KNOTS, i, set.knot_xs);
        fill(&mut pages.ys, limit::KNOTS, i, set.knot_ys);
        fill(&mut pages.blocks, limit::BLOCKS, i, set.blocks);
        let counts = [set.start_times.len(), set.knot_xs.len(), set.blocks.len()].map(|count| count as u64);
        for (kind, count) in [set.clips].into_iter().chain(counts).enumerate() {
            pages.counts[1 + kind * limit::SETS + i] = count;
        }
        fill(&mut pages.bytes, NAME_PAGE, i, &[&[name.len() as u8], *name].concat());
        let ffi::Marked { mark, value } = marked_fallback(set.fallback);
        pages.defaults[i] = value;
        for (kind, byte) in [mark, set.interpolate.into(), (*declares).into()].into_iter().enumerate() {
            pages.bytes[limit::SETS * NAME_PAGE + kind * limit::SETS + i] = byte;
        }
    }
    let mut by_name: Vec<usize> = (0..sets.len()).collect();
    by_name.sort_by_key(|&i| sets[i].name);
    for (place, set) in by_name.into_iter().enumerate() {
        pages.counts[1 + 4 * limit::SETS + place] = set as u64;
    }
    pages
}

/// The C library's own reply, of which the crate hands on what counts.
#[rustfmt::skip]
fn c_reply(
    dispatcher: &Dispatcher, order: Option<&Order<'_>>, samples: &SetSamples<'_>, StageTime(value): StageTime,
) -> ffi::PlacedValue {
    let ffi::Pages { starts, numbers, xs, ys, blocks, defaults, counts: kept, bytes } = laid_out(dispatcher);
    let (listed, name_ends) = order.map_or((&[][..], &[][..]), |order| (order.names(), order.ends()));
    let SetSamples { counts, ends, times, values, marks } = *samples;
    // SAFETY: each pointer comes with its own list's length, and the lists are only read; the sets are such as calls of the
    // library made.
    unsafe {
        ffi::tavitrozy_sets_value(
            starts.as_ptr(), starts.len(), numbers.as_ptr(), numbers.len(), xs.as_ptr(), xs.len(), ys.as_ptr(), ys.len(),
            blocks.as_ptr(), blocks.len(), defaults.as_ptr(), defaults.len(), kept.as_ptr(), kept.len(),
            bytes.as_ptr(), bytes.len(),
            order.is_some(), listed.as_ptr(), listed.len(), name_ends.as_ptr(), name_ends.len(),
            counts.as_ptr(), counts.len(), ends.as_ptr(), ends.len(), times.as_ptr(), times.len(),
            values.as_ptr(), values.len(), marks.as_ptr(), marks.len(), ffi::AtStage { value },
        )
    }
}
