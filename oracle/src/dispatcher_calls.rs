//! The dispatcher's calls of the case text, read from a line and written as one.

use super::{Call, Fields, ROOM, Samples, explicit, lists, slot, template};
use super::{write_explicit, write_lists, write_slots, write_template};
use crate::text::{Line, Words};

/// What is handed over with a set: its name, and whether its manifest declares the attribute.
#[derive(Clone, Debug, Default, PartialEq)]
pub struct Label {
    pub name: Vec<u8>,
    pub declares: bool,
}

/// The names of an order list one after the other, and where each of them ends.
#[derive(Clone, Debug, Default)]
pub struct Order {
    pub ends: Vec<u64>,
    pub bytes: Vec<u8>,
}

impl Order {
    /// The list of these names.
    pub fn of(names: &[Vec<u8>]) -> Self {
        let mut order = Order::default();
        for name in names {
            order.bytes.extend(name);
            order.ends.push(order.bytes.len() as u64);
        }
        order
    }
}

/// The samples of all sets: how many each has, then its clip ends, counted from its own first sample, and its samples.
#[derive(Clone, Debug, Default)]
pub struct SetSamples {
    pub counts: Vec<u64>,
    pub lists: Samples,
}

#[derive(Clone, Debug)]
pub enum DispatcherCall {
    Accept(Label, Fields),
    Install(Label, usize),
    Retime(Vec<u8>, f64, f64),
    /// No reply; lent with every later question, as the samples are. None is no list, which is not a list without names.
    Order(Option<Order>),
    Samples(SetSamples),
    Value(f64),
    Read(f64),
    Track(u64),
    Sets,
    Dump(Vec<u8>),
}

impl DispatcherCall {
    pub fn has_reply(&self) -> bool {
        !matches!(self, DispatcherCall::Order(_) | DispatcherCall::Samples(_))
    }
}

impl From<DispatcherCall> for Call {
    fn from(call: DispatcherCall) -> Call {
        Call::Dispatcher(call)
    }
}

fn label(words: &mut Words<'_>) -> Option<Label> {
    Some(Label { name: words.bytes()?, declares: words.yes_or_no()? })
}

fn order(words: &mut Words<'_>) -> Option<Option<Order>> {
    match words.word()? {
        b"none" => Some(None),
        b"ends" => {
            let ends = words.numbers()?;
            words.keyword("bytes")?;
            Some(Some(Order { ends, bytes: words.bytes()? }))
        }
        _ => None,
    }
}

fn set_samples(words: &mut Words<'_>) -> Option<SetSamples> {
    words.keyword("counts")?;
    let counts = words.numbers()?;
    words.keyword("ends")?;
    let ends = words.numbers()?;
    let lists = lists(words)?;
    Some(SetSamples { counts, lists: Samples { ends, ..lists } })
}

/// The call of a line's words; none where it can't be read as one of the dispatcher's.
pub fn read(first: &[u8], mut words: Words<'_>) -> Option<DispatcherCall> {
    let call = match first {
        b"dexplicit" => DispatcherCall::Accept(label(&mut words)?, Fields::Explicit(explicit(&mut words)?)),
        b"dtemplate" => DispatcherCall::Accept(label(&mut words)?, Fields::Template(template(&mut words)?)),
        b"dinstall" => DispatcherCall::Install(label(&mut words)?, slot(&mut words)?),
        b"dretime" => DispatcherCall::Retime(words.bytes()?, words.double()?, words.double()?),
        b"order" => DispatcherCall::Order(order(&mut words)?),
        b"dsamples" => DispatcherCall::Samples(set_samples(&mut words)?),
        b"dvalue" => DispatcherCall::Value(words.double()?),
        b"dread" => DispatcherCall::Read(words.double()?),
        b"dtrack" => return words.slots(ROOM).map(DispatcherCall::Track),
        b"dsets" => DispatcherCall::Sets,
        b"ddump" => DispatcherCall::Dump(words.bytes()?),
        _ => return None,
    };
    words.end().map(|()| call)
}

fn write_label(line: &mut Line, label: &Label) {
    line.bytes(&label.name).number(label.declares.into());
}

/// Writes the call as a line without its end.
pub fn write(line: &mut Line, call: &DispatcherCall) {
    match call {
        DispatcherCall::Accept(label, Fields::Explicit(e)) => {
            write_label(line.word("dexplicit"), label);
            write_explicit(line, e);
        }
        DispatcherCall::Accept(label, Fields::Template(t)) => {
            write_label(line.word("dtemplate"), label);
            write_template(line, t);
        }
        DispatcherCall::Install(label, slot) => {
            write_label(line.word("dinstall"), label);
            line.number(*slot as u64);
        }
        DispatcherCall::Retime(name, offset, scale) => {
            line.word("dretime").bytes(name).double(*offset).double(*scale);
        }
        DispatcherCall::Order(None) => {
            line.word("order").word("none");
        }
        DispatcherCall::Order(Some(order)) => {
            line.word("order").word("ends").numbers(&order.ends).word("bytes").bytes(&order.bytes);
        }
        DispatcherCall::Samples(s) => {
            line.word("dsamples").word("counts").numbers(&s.counts).word("ends").numbers(&s.lists.ends);
            write_lists(line, &s.lists);
        }
        DispatcherCall::Value(t) => {
            line.word("dvalue").double(*t);
        }
        DispatcherCall::Read(t) => {
            line.word("dread").double(*t);
        }
        DispatcherCall::Track(slots) => write_slots(line.word("dtrack"), *slots, ROOM),
        DispatcherCall::Sets => {
            line.word("dsets");
        }
        DispatcherCall::Dump(name) => {
            line.word("ddump").bytes(name);
        }
    }
}
