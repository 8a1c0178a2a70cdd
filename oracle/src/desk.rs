//! The desk of docs/VALUE-CLIPS.md over the Rust: numbers by the document, everything else by the Rust's own functions.
//! Where asked to, every answer is also worked out from the document's text, and a difference is told.

use crate::bake::bake;
use crate::calls::{Fields, Samples};
use crate::examine::examine;
use crate::lent::{Lent, Rust};
use crate::notes::Notes;
use crate::numbers::{self, Refusal};
use crate::pcp::clip::reach::{self, Asked};
use crate::pcp::prim_resolve::Supplied;
use crate::pcp::value_resolve::ValueState;
use crate::prepared::Prepared;
use crate::text::Line;
use crate::track::{self, Track};

#[derive(Default)]
pub struct Desk {
    set: Option<Prepared>,
    samples: Samples,
    /// The samples for the set that stands, or their number.
    lent: Option<Result<Lent, Refusal>>,
    asked: Asked,
}

pub type Answered = Result<(), Refusal>;

impl Desk {
    pub fn lend(&mut self, samples: Samples) {
        self.samples = samples;
        self.lent = None;
    }

    /// The set stands in the place of the one before, whose retimings go with it.
    pub fn install(&mut self, set: Prepared) {
        self.set = Some(set);
        self.lent = None;
    }

    /// An acceptance: examining and installing in a row.
    pub fn accept(&mut self, fields: &Fields, notes: &mut Notes) -> Answered {
        self.install(examine(fields, notes)?);
        Ok(())
    }

    pub fn retime(&mut self, offset: f64, scale: f64, notes: &mut Notes) -> Answered {
        self.set.as_mut().ok_or(20u32)?.retime(offset, scale, notes)?;
        self.lent = None;
        Ok(())
    }

    pub fn dump(&self, out: &mut Line) -> Answered {
        self.set.as_ref().ok_or(20u32)?.write(out);
        Ok(())
    }

    // Questions without samples.

    pub fn active(&self, t: f64, out: &mut Line, notes: &mut Notes) -> Answered {
        let set = self.set.as_ref().ok_or(20u32)?;
        numbers::stage_time(t)?;
        let rust = set.resolved.set.active_entry(t).map(|entry| entry.1);
        match rust {
            Some(clip) => out.word("active").number(clip as u64),
            None => out.word("active").word("none"),
        };
        if notes.check {
            let text = set.plain.active(t).map(|p| set.plain.starts[p].1);
            notes.compare("active", rust, text);
        }
        Ok(())
    }

    pub fn clip_time(&self, t: f64, out: &mut Line, notes: &mut Notes) -> Answered {
        let set = self.set.as_ref().ok_or(20u32)?;
        numbers::stage_time(t)?;
        let rust = set.resolved.set.map_stage_to_clip(t);
        out.word("cliptime").double(rust);
        if notes.check {
            notes.compare("cliptime", rust.to_bits(), set.plain.clip_time(t).to_bits());
        }
        Ok(())
    }

    // Questions with samples.

    /// The Rust with the standing set and the lent samples, or the number that refuses the question.
    fn rust(&mut self) -> Result<Rust<'_>, Refusal> {
        let set = self.set.as_ref().ok_or(20u32)?;
        let samples = &self.samples;
        let lent = self.lent.get_or_insert_with(|| {
            numbers::samples(samples, set.plain.clips).map(|()| Lent::new(set, samples.clone()))
        });
        let lent = lent.as_ref().map_err(|number| *number)?;
        Ok(Rust { set, lent, asked: &mut self.asked })
    }

    pub fn value(&mut self, t: f64, out: &mut Line, notes: &mut Notes) -> Answered {
        let mut rust = self.rust()?;
        numbers::stage_time(t)?;
        let value = rust.value(t);
        out.word("value").answer(value.mark, value.bits);
        if notes.check {
            notes.compare("value", value, rust.document().value(t));
        }
        Ok(())
    }

    pub fn read(&mut self, t: f64, out: &mut Line, notes: &mut Notes) -> Answered {
        let mut rust = self.rust()?;
        numbers::stage_time(t)?;
        let read = rust.read(t);
        out.word("read").answer(read.answer.mark, read.answer.bits);
        out.sample(read.sample.map(|sample| (sample.clip as u64, sample.place as u64)));
        notes.counts.reads[0] += 1;
        notes.counts.reads[1] += u64::from(read.sample.is_some());
        if notes.check {
            notes.compare("read", read, rust.document().read(t));
        }
        Ok(())
    }

    pub fn times(&mut self, slots: u64, out: &mut Line, notes: &mut Notes) -> Answered {
        let rust = self.rust()?;
        let samples = &rust.lent.samples;
        let mut per_clip = Vec::new();
        let mut from = 0;
        for &end in &samples.ends {
            per_clip.push(samples.times[from..end as usize].to_vec());
            from = end as usize;
        }
        let times = reach::stage_sample_times(&rust.set.resolved.set, &per_clip);
        if notes.check {
            let text = rust.document().stage_sample_times();
            let bits = |list: &[f64]| list.iter().map(|t| t.to_bits()).collect::<Vec<_>>();
            notes.compare("times", bits(&times), bits(&text));
        }
        numbers::room(slots, times.len())?;
        out.word("times").doubles(&times);
        Ok(())
    }

    pub fn stage_samples(&mut self, slots: u64, out: &mut Line, notes: &mut Notes) -> Answered {
        let rust = self.rust()?;
        let samples: Vec<(u64, u8)> = rust
            .asked
            .stage_samples(&rust.set.resolved, &rust.lent.layers)
            .unwrap_or_default()
            .into_iter()
            .map(|(time, supplied)| (time.to_bits(), u8::from(supplied == Supplied::Blocked)))
            .collect();
        if notes.check {
            let read = rust.document();
            let times = read.stage_sample_times();
            let text: Vec<_> = times.into_iter().map(|t| (t.to_bits(), read.stage_sample_mark(t))).collect();
            notes.compare("ssamples", samples.clone(), text);
        }
        numbers::room(slots, samples.len())?;
        out.word("ssamples").number(samples.len() as u64);
        for &(time, mark) in &samples {
            out.bits(time).number(mark.into());
        }
        Ok(())
    }

    pub fn untimed(&mut self, out: &mut Line, notes: &mut Notes) -> Answered {
        let rust = self.rust()?;
        let state = match rust.asked.untimed(&rust.set.resolved, &rust.lent.layers) {
            ValueState::Absent => "absent",
            ValueState::Present => "present",
            ValueState::Blocked => "blocked",
        };
        out.word("untimed").word(state);
        if notes.check {
            notes.compare("untimed", state, rust.document().untimed());
        }
        Ok(())
    }

    pub fn track(&mut self, slots: u64, out: &mut Line, notes: &mut Notes) -> Answered {
        let track = bake(&mut self.rust()?, notes);
        numbers::room(slots, track.changes.len())?;
        track.write(out.word("track"));
        Ok(())
    }

    pub fn track_hash(&mut self, out: &mut Line, notes: &mut Notes) -> Answered {
        let Track { head, changes } = bake(&mut self.rust()?, notes);
        out.word("trackhash").answer(head.mark, head.bits).number(changes.len() as u64);
        out.bits(track::hash(&changes));
        Ok(())
    }
}
