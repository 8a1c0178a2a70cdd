//! The calls of the case text, read from a line and written as one.

#[path = "dispatcher_calls.rs"]
pub mod dispatcher;

use crate::text::{Line, Words};
use dispatcher::DispatcherCall;

#[derive(Clone, Debug, Default)]
pub struct Filling {
    pub blocks: Vec<f64>,
    pub mark: u8,
    pub value: f64,
    pub flag: bool,
}

#[derive(Clone, Debug, Default)]
pub struct Explicit {
    pub clips: u64,
    pub start_times: Vec<f64>,
    pub start_clips: Vec<f64>,
    pub knot_x: Vec<f64>,
    pub knot_y: Vec<f64>,
    pub filling: Filling,
}

#[derive(Clone, Debug, Default)]
pub struct Template {
    pub bytes: Vec<u8>,
    pub start: f64,
    pub end: f64,
    pub stride: f64,
    pub offset: Option<f64>,
    pub filling: Filling,
}

/// What an acceptance is handed, and what an examining looks at first.
#[derive(Clone, Debug)]
pub enum Fields {
    Explicit(Explicit),
    Template(Template),
}

impl Fields {
    /// The call that accepts them at once.
    pub fn acceptance(&self) -> Call {
        match self {
            Fields::Explicit(e) => Call::Explicit(e.clone()),
            Fields::Template(t) => Call::Template(t.clone()),
        }
    }
}

#[derive(Clone, Debug, Default)]
pub struct Samples {
    pub ends: Vec<u64>,
    pub times: Vec<f64>,
    pub values: Vec<f64>,
    pub marks: Vec<u8>,
}

#[derive(Clone, Debug)]
pub enum Call {
    Case(String),
    Explicit(Explicit),
    Template(Template),
    /// Into a slot, if no number refuses it.
    Examine(usize, Fields),
    Prepared(usize),
    Install(usize),
    Retime(f64, f64),
    Samples(Samples),
    Dump,
    Active(f64),
    ClipTime(f64),
    Value(f64),
    /// The value, and the sample that it was read from.
    Read(f64),
    Times(u64),
    StageSamples(u64),
    Untimed,
    Track(u64),
    TrackHash,
    Name(Vec<u8>, f64, u64),
    Normalize(Samples, u64),
    /// A template's numbers; its pattern is `#`, which no number refuses.
    ClipTimes(Template, u64),
    /// Two bit patterns, NaNs of every payload among them, so no doubles.
    KeyCompare(u64, u64),
    Dispatcher(DispatcherCall),
}

impl Call {
    /// What is lent has none.
    pub fn has_reply(&self) -> bool {
        match self {
            Call::Samples(_) => false,
            Call::Dispatcher(call) => call.has_reply(),
            _ => true,
        }
    }
}

/// The room of each lent output list where a call names none.
pub const ROOM: u64 = 65_536;
pub const NAME_ROOM: u64 = 400;

/// How many prepared sets a text can keep, each in its slot.
pub const PREPARED: usize = 4;

fn filling(words: &mut Words<'_>) -> Option<Filling> {
    words.keyword("bl")?;
    let blocks = words.doubles()?;
    words.keyword("def")?;
    let mark = words.byte()?;
    let value = words.double()?;
    words.keyword("flag")?;
    let flag = words.yes_or_no()?;
    Some(Filling { blocks, mark, value, flag })
}

fn lists(words: &mut Words<'_>) -> Option<Samples> {
    words.keyword("t")?;
    let times = words.doubles()?;
    words.keyword("v")?;
    let values = words.doubles()?;
    words.keyword("m")?;
    let marks = words.marks()?;
    Some(Samples { ends: Vec::new(), times, values, marks })
}

/// The four numbers of a template, the rest being empty.
fn template_numbers(words: &mut Words<'_>) -> Option<Template> {
    let (start, end, stride) = (words.double()?, words.double()?, words.double()?);
    let offset = match words.word()? {
        b"none" => None,
        word => Some(crate::text::read_double(word)?),
    };
    Some(Template { start, end, stride, offset, ..Template::default() })
}

fn explicit(words: &mut Words<'_>) -> Option<Explicit> {
    let clips = words.number()?;
    let mut list = |key| words.keyword(key).and_then(|()| words.doubles());
    let (start_times, start_clips) = (list("st")?, list("sc")?);
    let (knot_x, knot_y) = (list("kx")?, list("ky")?);
    let filling = filling(words)?;
    Some(Explicit { clips, start_times, start_clips, knot_x, knot_y, filling })
}

fn template(words: &mut Words<'_>) -> Option<Template> {
    let bytes = words.bytes()?;
    let numbers = template_numbers(words)?;
    let filling = filling(words)?;
    Some(Template { bytes, filling, ..numbers })
}

/// An acceptance as a line has it, from its word on.
fn fields(words: &mut Words<'_>) -> Option<Fields> {
    match words.word()? {
        b"explicit" => explicit(words).map(Fields::Explicit),
        b"template" => template(words).map(Fields::Template),
        _ => None,
    }
}

/// The slot of a prepared set.
fn slot(words: &mut Words<'_>) -> Option<usize> {
    let slot = usize::try_from(words.number()?).ok()?;
    (slot < PREPARED).then_some(slot)
}

/// The call of a line's words; none where it can't be read.
pub fn read(first: &[u8], mut words: Words<'_>) -> Option<Call> {
    Some(match first {
        b"case" => {
            let name = String::from_utf8(words.word()?.to_vec()).ok()?;
            words.end()?;
            Call::Case(name)
        }
        b"explicit" => {
            let set = explicit(&mut words)?;
            words.end()?;
            Call::Explicit(set)
        }
        b"template" => {
            let set = template(&mut words)?;
            words.end()?;
            Call::Template(set)
        }
        b"examine" => {
            let (slot, fields) = (slot(&mut words)?, fields(&mut words)?);
            words.end()?;
            Call::Examine(slot, fields)
        }
        b"prepared" | b"install" => {
            let slot = slot(&mut words)?;
            words.end()?;
            if first == b"prepared" { Call::Prepared(slot) } else { Call::Install(slot) }
        }
        b"samples" => {
            words.keyword("ends")?;
            let ends = words.numbers()?;
            let lists = lists(&mut words)?;
            words.end()?;
            Call::Samples(Samples { ends, ..lists })
        }
        b"retime" => {
            let (offset, scale) = (words.double()?, words.double()?);
            words.end()?;
            Call::Retime(offset, scale)
        }
        b"active" | b"cliptime" | b"value" | b"read" => {
            let time = words.double()?;
            words.end()?;
            match first {
                b"active" => Call::Active(time),
                b"cliptime" => Call::ClipTime(time),
                b"value" => Call::Value(time),
                _ => Call::Read(time),
            }
        }
        b"dump" | b"untimed" | b"trackhash" => {
            words.end()?;
            match first {
                b"dump" => Call::Dump,
                b"untimed" => Call::Untimed,
                _ => Call::TrackHash,
            }
        }
        b"times" => Call::Times(words.slots(ROOM)?),
        b"ssamples" => Call::StageSamples(words.slots(ROOM)?),
        b"track" => Call::Track(words.slots(ROOM)?),
        b"name" => {
            let (bytes, time) = (words.bytes()?, words.double()?);
            Call::Name(bytes, time, words.slots(NAME_ROOM)?)
        }
        b"normalize" => {
            let lists = lists(&mut words)?;
            Call::Normalize(lists, words.slots(ROOM)?)
        }
        b"cliptimes" => {
            let numbers = template_numbers(&mut words)?;
            Call::ClipTimes(Template { bytes: b"#".to_vec(), ..numbers }, words.slots(ROOM)?)
        }
        b"keycmp" => {
            let (first, second) = (words.pattern()?, words.pattern()?);
            words.end()?;
            Call::KeyCompare(first, second)
        }
        _ => Call::Dispatcher(dispatcher::read(first, words)?),
    })
}

fn write_filling(line: &mut Line, f: &Filling) {
    line.word("bl").doubles(&f.blocks).word("def").number(f.mark.into()).double(f.value);
    line.word("flag").number(f.flag.into());
}

fn write_lists(line: &mut Line, s: &Samples) {
    let marks: Vec<u64> = s.marks.iter().map(|&m| m.into()).collect();
    line.word("t").doubles(&s.times).word("v").doubles(&s.values).word("m").numbers(&marks);
}

fn write_template_numbers(line: &mut Line, t: &Template) {
    line.double(t.start).double(t.end).double(t.stride);
    match t.offset {
        Some(offset) => line.double(offset),
        None => line.word("none"),
    };
}

/// What stands behind `explicit`.
fn write_explicit(line: &mut Line, e: &Explicit) {
    line.number(e.clips);
    line.word("st").doubles(&e.start_times).word("sc").doubles(&e.start_clips);
    line.word("kx").doubles(&e.knot_x).word("ky").doubles(&e.knot_y);
    write_filling(line, &e.filling);
}

/// What stands behind `template`.
fn write_template(line: &mut Line, t: &Template) {
    write_template_numbers(line.bytes(&t.bytes), t);
    write_filling(line, &t.filling);
}

fn write_slots(line: &mut Line, slots: u64, room: u64) {
    if slots != room {
        line.number(slots);
    }
}

/// Writes the call as a line.
pub fn write(line: &mut Line, call: &Call) {
    match call {
        Call::Case(name) => {
            line.word("case").word(name);
        }
        Call::Explicit(e) => write_explicit(line.word("explicit"), e),
        Call::Template(t) => write_template(line.word("template"), t),
        Call::Examine(slot, fields) => {
            line.word("examine").number(*slot as u64);
            match fields {
                Fields::Explicit(e) => write_explicit(line.word("explicit"), e),
                Fields::Template(t) => write_template(line.word("template"), t),
            }
        }
        Call::Prepared(slot) => {
            line.word("prepared").number(*slot as u64);
        }
        Call::Install(slot) => {
            line.word("install").number(*slot as u64);
        }
        Call::Retime(offset, scale) => {
            line.word("retime").double(*offset).double(*scale);
        }
        Call::Samples(s) => {
            line.word("samples").word("ends").numbers(&s.ends);
            write_lists(line, s);
        }
        Call::Dump => {
            line.word("dump");
        }
        Call::Active(t) => {
            line.word("active").double(*t);
        }
        Call::ClipTime(t) => {
            line.word("cliptime").double(*t);
        }
        Call::Value(t) => {
            line.word("value").double(*t);
        }
        Call::Read(t) => {
            line.word("read").double(*t);
        }
        Call::Times(slots) => write_slots(line.word("times"), *slots, ROOM),
        Call::StageSamples(slots) => write_slots(line.word("ssamples"), *slots, ROOM),
        Call::Untimed => {
            line.word("untimed");
        }
        Call::Track(slots) => write_slots(line.word("track"), *slots, ROOM),
        Call::TrackHash => {
            line.word("trackhash");
        }
        Call::Name(bytes, time, slots) => write_slots(line.word("name").bytes(bytes).double(*time), *slots, NAME_ROOM),
        Call::Normalize(s, slots) => {
            line.word("normalize");
            write_lists(line, s);
            write_slots(line, *slots, ROOM);
        }
        Call::ClipTimes(t, slots) => {
            write_template_numbers(line.word("cliptimes"), t);
            write_slots(line, *slots, ROOM);
        }
        Call::KeyCompare(first, second) => {
            line.word("keycmp").bits(*first).bits(*second);
        }
        Call::Dispatcher(call) => dispatcher::write(line, call),
    }
    line.end();
}
