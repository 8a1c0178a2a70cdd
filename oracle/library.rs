//! The case text answered through the library and its Rust crate, for the comparison with the Rust: the C boundary is
//! tested too. Where the crate has a call that makes its lists itself, that one must say the same. What is
//! accepted is examined too: the two must have one number, and the prepared set must be the one that stands. Where a sample is
//! asked for, the C reply is looked at as well.
#![allow(dead_code)]

#[path = "src/calls.rs"]
mod calls;
#[path = "../bindings/rust/src/ffi.rs"]
mod ffi;
mod library_dispatcher;
#[path = "src/text.rs"]
mod text;

use std::io::{self, BufRead, Write};

use calls::{Call, Fields, PREPARED};
use library_dispatcher::Sets;
use tavitrozy::{
    Answer, ClipTime, Explicit, Fallback, LayerOffset, Prepared, Refusal, Resolver, Samples, StageTime, StandingSet,
    State, Supplied, Template, TemplateTimes, Track, ValueRead, limit, mark,
};
use text::{Line, Words};

type Answered = Result<(), Refusal>;

#[derive(Default)]
struct Desk {
    resolver: Resolver,
    sets: Sets,
    slots: [Option<Prepared>; PREPARED],
    samples: calls::Samples,
}

fn explicit(e: &calls::Explicit) -> Explicit<'_> {
    let set = Explicit::new(e.clips).starts(&e.start_times, &e.start_clips).knots(&e.knot_x, &e.knot_y);
    let filling = &e.filling;
    set.blocks(&filling.blocks).fallback(Fallback::Value(filling.value)).interpolate(filling.flag)
}

fn template_times(t: &calls::Template) -> TemplateTimes {
    TemplateTimes { start: t.start, end: t.end, stride: t.stride, offset: t.offset }
}

fn template(t: &calls::Template) -> Template<'_> {
    let (set, filling) = (Template::new(&t.bytes, template_times(t)), &t.filling);
    set.blocks(&filling.blocks).fallback(Fallback::Value(filling.value)).interpolate(filling.flag)
}

fn examine_explicit(e: &calls::Explicit) -> Result<Prepared, Refusal> {
    tavitrozy::examine_marked(&explicit(e), e.filling.mark)
}

fn examine_template(t: &calls::Template) -> Result<Prepared, Refusal> {
    tavitrozy::examine_template_marked(&template(t), t.filling.mark)
}

/// A call with lent lists, against the one that makes its own: they differ only where the lent ones are too short.
fn same<T, U>(lent: &Result<T, Refusal>, made: &Result<U, Refusal>, alike: impl FnOnce(&T, &U) -> bool) {
    let agree = match (lent, made) {
        (Ok(lent), Ok(made)) => alike(lent, made),
        (Err(lent), Err(made)) => lent == made,
        (Err(lent), Ok(_)) => *lent == Refusal::NoRoom,
        (Ok(_), Err(_)) => false,
    };
    assert!(agree, "lent lists and the crate's own give one reply");
}

fn write_answer(out: &mut Line, answer: Answer) {
    let (mark, value) = answer.marked();
    out.number(mark.into()).double(value);
}

/// For comparison to the bit: of doubles the two zeros are equal, and a NaN, which a block's slot may be, to nothing.
fn bits(list: &[f64]) -> Vec<u64> {
    list.iter().map(|d| d.to_bits()).collect()
}

fn write_set(out: &mut Line, set: &StandingSet<'_>) {
    out.word("set").number(set.clips).word("starts").number(set.starts().len() as u64);
    for (StageTime(time), clip) in set.starts() {
        out.double(time).number(clip);
    }
    out.word("knots").number(set.knots().len() as u64);
    for (StageTime(x), ClipTime(y)) in set.knots() {
        out.double(x).double(y);
    }
    out.word("bl").doubles(set.blocks);
}

/// All of a set, to the bit.
fn same_set(one: &StandingSet<'_>, other: &StandingSet<'_>) -> bool {
    let manifest = |set: &StandingSet<'_>| format!("{:?} {}", set.fallback, set.interpolate);
    let lists = |set: &StandingSet<'_>| [set.start_times, set.knot_xs, set.knot_ys, set.blocks].map(bits);
    (one.clips, one.start_clips) == (other.clips, other.start_clips)
        && manifest(one) == manifest(other)
        && lists(one) == lists(other)
}

/// What is lent where no set stands.
const NO_SET: StandingSet<'static> = StandingSet {
    clips: 0,
    start_times: &[],
    start_clips: &[],
    knot_xs: &[],
    knot_ys: &[],
    blocks: &[],
    fallback: Fallback::None,
    interpolate: false,
};

/// A list at the front of one of full length.
fn lent<T: Copy + Default, const LENGTH: usize>(list: &[T]) -> [T; LENGTH] {
    let mut full = [T::default(); LENGTH];
    full[..list.len()].copy_from_slice(list);
    full
}

/// A default as the C library is lent it.
fn marked_fallback(fallback: Fallback) -> ffi::Marked {
    let (mark, value) = match fallback {
        Fallback::Value(value) => (mark::VALUE, value),
        Fallback::Block => (mark::BLOCK, 0.0),
        Fallback::None => (mark::NONE, 0.0),
    };
    ffi::Marked { mark, value }
}

/// What stands, as the C library is lent it.
fn lent_set(standing: Option<StandingSet<'_>>) -> (ffi::Shape, ffi::Lists) {
    let set = standing.unwrap_or(NO_SET);
    let counts = ffi::Counts { starts: set.start_times.len(), knots: set.knot_xs.len(), blocks: set.blocks.len() };
    let manifest = ffi::Manifest { fallback: marked_fallback(set.fallback), interpolate: set.interpolate };
    let lists = ffi::Lists {
        starts: lent(set.start_times),
        numbers: lent(set.start_clips),
        xs: lent(set.knot_xs),
        ys: lent(set.knot_ys),
        blocks: lent(set.blocks),
    };
    (ffi::Shape { stands: standing.is_some(), clips: set.clips, counts, manifest }, lists)
}

/// The C library's own reply, of which the crate hands on what counts.
#[rustfmt::skip]
fn c_reply(standing: Option<StandingSet<'_>>, samples: &Samples<'_>, StageTime(value): StageTime) -> ffi::ValueReply {
    let (shape, lists) = lent_set(standing);
    let Samples { times, values, marks, ends } = *samples;
    // SAFETY: each pointer comes with its own list's length, and the lists are only read; the set is one that a call of the
    // library made.
    unsafe {
        ffi::tavitrozy_lent_value(
            shape, lists.starts.as_ptr(), lists.starts.len(), lists.numbers.as_ptr(), lists.numbers.len(),
            lists.xs.as_ptr(), lists.xs.len(), lists.ys.as_ptr(), lists.ys.len(), lists.blocks.as_ptr(), lists.blocks.len(),
            times.as_ptr(), times.len(), values.as_ptr(), values.len(), marks.as_ptr(), marks.len(), ends.as_ptr(), ends.len(),
            ffi::AtStage { value },
        )
    }
}

/// All fields of a C reply: number, mark, value, whether there is a sample, its clip and place.
type ReplyBits = (u8, u8, u64, bool, u64, u64);

/// The C reply as the crate's says that it must be: all is 0 beside a number, clip and place where there is no sample.
fn reply_bits(read: &Result<ValueRead, Refusal>) -> ReplyBits {
    match read {
        Err(refusal) => (refusal.number(), 0, 0, false, 0, 0),
        Ok(ValueRead { value, sample }) => {
            let (mark, value) = value.marked();
            let (clip, place) = sample.map_or((0, 0), |sample| (sample.clip, sample.place));
            (0, mark, value.to_bits(), sample.is_some(), clip, place)
        }
    }
}

/// A track to the bit: the head's mark and value, the times, values and marks of the changes.
type TrackBits = (u8, u64, Vec<u64>, Vec<u64>, Vec<u8>);

fn track_bits(head: Answer, times: &[f64], values: &[f64], marks: &[u8]) -> TrackBits {
    let (mark, value) = head.marked();
    (mark, value.to_bits(), bits(times), bits(values), marks.to_vec())
}

fn bits_of(track: &Track) -> TrackBits {
    track_bits(track.head(), track.times(), track.values(), track.marks())
}

/// FNV-1a 64 over each change's time, value and mark.
fn write_hash(out: &mut Line, track: &Track) {
    let mut hash = 0xcbf2_9ce4_8422_2325u64;
    for i in 0..track.len() {
        let (time, value) = (track.times()[i].to_bits().to_le_bytes(), track.values()[i].to_bits().to_le_bytes());
        for byte in time.into_iter().chain(value).chain([track.marks()[i]]) {
            hash = (hash ^ u64::from(byte)).wrapping_mul(0x100_0000_01b3);
        }
    }
    write_answer(out.word("trackhash"), track.head());
    out.number(track.len() as u64).bits(hash);
}

impl Desk {
    fn samples(&self) -> Samples<'_> {
        let s = &self.samples;
        Samples::new(&s.times, &s.values, &s.marks, &s.ends)
    }

    /// The reply, or what refuses the call; what is lent has no reply.
    fn answer(&mut self, call: &Call, out: &mut Line) -> Answered {
        match call {
            Call::Case(name) => {
                *self = Desk::default();
                out.word("case").word(name);
            }
            Call::Samples(samples) => self.samples = samples.clone(),
            Call::Explicit(e) => {
                let accepted = self.resolver.accept_marked(&explicit(e), e.filling.mark);
                self.accepted(accepted, &examine_explicit(e), out)?;
            }
            Call::Template(t) => {
                let accepted = self.resolver.accept_template_marked(&template(t), t.filling.mark);
                self.accepted(accepted, &examine_template(t), out)?;
            }
            Call::Examine(slot, fields) => {
                self.slots[*slot] = Some(match fields {
                    Fields::Explicit(e) => examine_explicit(e)?,
                    Fields::Template(t) => examine_template(t)?,
                });
                out.word("ok");
            }
            Call::Prepared(slot) => match &self.slots[*slot] {
                Some(set) => write_set(out, &set.set()),
                None => _ = out.word("empty"),
            },
            Call::Install(slot) => self.install(*slot, out),
            Call::Retime(offset, scale) => {
                self.resolver.retime(LayerOffset::new(*offset, *scale))?;
                out.word("ok");
            }
            Call::Dump => write_set(out, &self.resolver.standing().ok_or(Refusal::NoSet)?),
            Call::Active(t) => {
                match self.resolver.active_clip(StageTime(*t))? {
                    Some(clip) => out.word("active").number(clip),
                    None => out.word("active none"),
                };
            }
            Call::ClipTime(t) => {
                let ClipTime(time) = self.resolver.clip_time(StageTime(*t))?;
                out.word("cliptime").double(time);
            }
            Call::Value(t) => {
                let answer = self.resolver.value(&self.samples(), StageTime(*t))?;
                write_answer(out.word("value"), answer);
            }
            Call::Read(t) => self.read(StageTime(*t), out)?,
            Call::Times(slots) => self.times(*slots as usize, out)?,
            Call::StageSamples(slots) => self.stage_samples(*slots as usize, out)?,
            Call::Untimed => {
                out.word(match self.resolver.untimed(&self.samples())? {
                    State::Present => "untimed present",
                    State::Blocked => "untimed blocked",
                    State::Absent => "untimed absent",
                });
            }
            Call::Track(slots) => self.track(*slots as usize, out)?,
            Call::TrackHash => {
                let track = self.resolver.bake(&self.samples())?;
                assert_eq!(self.resolver.change_count(&self.samples()), Ok(track.len()));
                write_hash(out, &track);
            }
            Call::Name(pattern, t, slots) => name(pattern, ClipTime(*t), *slots as usize, out)?,
            Call::Normalize(n, slots) => normalize(n, *slots as usize, out)?,
            Call::ClipTimes(t, slots) => clip_times(template_times(t), *slots as usize, out)?,
            Call::KeyCompare(first, second) => {
                out.word("keycmp").order(tavitrozy::total_key(*first).cmp(&tavitrozy::total_key(*second)));
            }
            Call::Dispatcher(call) => self.sets.answer(call, &self.slots, out)?,
        }
        Ok(())
    }

    /// An acceptance's reply. The same fields, examined, have the same number or are the very set that now stands.
    fn accepted(&self, accepted: Answered, examined: &Result<Prepared, Refusal>, out: &mut Line) -> Answered {
        assert_eq!(accepted.err(), examined.as_ref().err().copied(), "accepted and examined");
        if let Ok(set) = examined {
            self.stands_as(set);
        }
        out.word("ok");
        accepted
    }

    fn stands_as(&self, set: &Prepared) {
        let standing = self.resolver.standing().expect("it was accepted or installed");
        assert!(same_set(&standing, &set.set()), "what stands is the prepared set, to the bit");
    }

    fn install(&mut self, slot: usize, out: &mut Line) {
        match &self.slots[slot] {
            Some(set) => {
                self.resolver.install(set);
                self.stands_as(set);
                out.word("ok");
            }
            None => _ = out.word("empty"),
        }
    }

    fn read(&self, time: StageTime, out: &mut Line) -> Answered {
        let samples = self.samples();
        let read = self.resolver.value_read(&samples, time);
        let reply = c_reply(self.resolver.standing(), &samples, time);
        let told = (reply.number, reply.mark, reply.value.to_bits(), reply.sampled, reply.clip, reply.place);
        assert_eq!(told, reply_bits(&read), "the C reply, to the bit");
        let ValueRead { value, sample } = read?;
        write_answer(out.word("read"), value);
        out.sample(sample.map(|sample| (sample.clip, sample.place)));
        Ok(())
    }

    fn times(&self, slots: usize, out: &mut Line) -> Answered {
        let samples = self.samples();
        let mut times = vec![0.0; slots];
        let count = self.resolver.stage_sample_times_into(&samples, &mut times);
        let made = self.resolver.stage_sample_times(&samples);
        same(&count, &made, |&count, made| made.iter().map(|time| time.0).eq(times[..count].iter().copied()));
        out.word("times").doubles(&times[..count?]);
        Ok(())
    }

    fn stage_samples(&self, slots: usize, out: &mut Line) -> Answered {
        let samples = self.samples();
        let (mut times, mut marks) = (vec![0.0; slots], vec![0; slots]);
        let count = self.resolver.stage_samples_into(&samples, &mut times, &mut marks);
        let lent = || times.iter().zip(&marks).map(|(&time, &mark)| (time, mark));
        let made = self.resolver.stage_samples(&samples);
        let spelled = |(time, supplied): &(StageTime, Supplied)| (time.0, u8::from(*supplied == Supplied::Blocked));
        same(&count, &made, |&count, made| made.iter().map(spelled).eq(lent().take(count)));
        let count = count?;
        out.word("ssamples").number(count as u64);
        lent().take(count).for_each(|(time, mark)| _ = out.double(time).number(mark.into()));
        Ok(())
    }

    fn track(&self, slots: usize, out: &mut Line) -> Answered {
        let samples = self.samples();
        let (mut times, mut values, mut marks) = (vec![0.0; slots], vec![0.0; slots], vec![0; slots]);
        let baked = self.resolver.bake_into(&samples, &mut times, &mut values, &mut marks);
        let made = self.resolver.bake(&samples);
        same(&baked, &made, |&(head, n), made| {
            bits_of(made) == track_bits(head, &times[..n], &values[..n], &marks[..n])
        });
        if let Ok(track) = &made {
            let kept = Track::new(track.head(), track.changes()).expect("such as a bake writes");
            assert_eq!(bits_of(&kept), bits_of(track), "a kept track is made again");
        }
        assert_eq!(self.resolver.change_count(&samples), made.map(|track| track.len()));
        let (head, count) = baked?;
        write_answer(out.word("track"), head);
        out.number(count as u64);
        for i in 0..count {
            out.double(times[i]).number(marks[i].into()).double(values[i]);
        }
        Ok(())
    }
}

fn name(pattern: &[u8], time: ClipTime, slots: usize, out: &mut Line) -> Answered {
    let mut name = vec![0; slots];
    let length = tavitrozy::name_into(pattern, time, &mut name);
    same(&length, &tavitrozy::name(pattern, time), |&length, made| made[..] == name[..length]);
    out.word("name").bytes(&name[..length?]);
    Ok(())
}

fn normalize(n: &calls::Samples, slots: usize, out: &mut Line) -> Answered {
    let (mut times, mut values, mut marks) = (vec![0.0; slots], vec![0.0; slots], vec![0; slots]);
    let count = tavitrozy::normalize_into(&n.times, &n.values, &n.marks, &mut times, &mut values, &mut marks);
    let made = tavitrozy::normalize(&n.times, &n.values, &n.marks);
    same(&count, &made, |&n, made| {
        let made = made.lent();
        (bits(made.times), bits(made.values), made.marks) == (bits(&times[..n]), bits(&values[..n]), &marks[..n])
    });
    let count = count?;
    out.word("normalize").number(count as u64);
    for i in 0..count {
        out.double(times[i]).double(values[i]).number(marks[i].into());
    }
    Ok(())
}

fn clip_times(numbers: TemplateTimes, slots: usize, out: &mut Line) -> Answered {
    let mut times = vec![0.0; slots];
    let count = tavitrozy::template_clip_times_into(numbers, &mut times);
    let made = tavitrozy::template_clip_times(numbers);
    same(&count, &made, |&count, made| made.iter().map(|time| time.0).eq(times[..count].iter().copied()));
    out.word("cliptimes").doubles(&times[..count?]);
    Ok(())
}

fn main() -> io::Result<()> {
    let (mut input, mut output) = (io::stdin().lock(), io::BufWriter::new(io::stdout().lock()));
    let mut desk = Desk::default();
    let mut line = Vec::new();
    while input.read_until(b'\n', &mut line)? > 0 {
        let mut words = Words::new(&line);
        if let Some(first) = words.word() {
            let mut out = Line::default();
            match calls::read(first, words) {
                None => out.word("unreadable").end(),
                Some(call) => {
                    if let Err(refusal) = desk.answer(&call, &mut out) {
                        out.0.clear();
                        out.word("refused").number(refusal.number().into());
                    }
                    if call.has_reply() {
                        out.end();
                    }
                }
            }
            output.write_all(&out.0)?;
        }
        line.clear();
    }
    output.flush()
}
