//! Short cases of a dispatcher, all of them: which set answers, lists of names, shares of samples, sets one by one.

use crate::calls::dispatcher::{DispatcherCall, Label, Order, SetSamples};
use crate::calls::{Call, Explicit, Fields, Filling, ROOM, Samples};
use crate::short_cases::{Choices, Family, NO_FILLING, sequences};
use crate::writer::Writer;

pub const FAMILIES: [Family; 4] = [
    ("orders", orders_size, orders),
    ("order-ends", order_ends_size, order_ends),
    ("shares", shares_size, shares),
    ("named", named_size, named),
];

/// A set of so many clips, each of them with a start; its default tells it apart.
fn set(clips: u64, starts: bool, default: f64) -> Fields {
    let start_times: Vec<f64> = (0..if starts { clips } else { 0 }).map(|clip| clip as f64).collect();
    let filling = Filling { mark: 0, value: default, ..NO_FILLING };
    Fields::Explicit(Explicit { clips, start_clips: start_times.clone(), start_times, filling, ..Explicit::default() })
}

fn accept(out: &mut Writer<'_>, name: &[u8], declares: bool, fields: Fields) {
    out.call(&DispatcherCall::Accept(Label { name: name.to_vec(), declares }, fields).into());
}

fn lend_order(out: &mut Writer<'_>, order: Option<Order>) {
    out.call(&DispatcherCall::Order(order).into());
}

// Three sets, each of which may qualify, not declare or have no start, and every order of up to three of their names and one
// that no set has; and no order.

const NAMED: [[&[u8]; 4]; 2] = [[b"c", b"ba", b"b", b"a"], [b"\x80", b"\x7f", b"", b"\xff"]];

fn orders_size() -> usize {
    NAMED.len() * 3usize.pow(3) * (1 + sequences(4, 3))
}

fn orders(index: usize, out: &mut Writer<'_>) {
    let mut choices = Choices(index);
    let named = choices.of(&NAMED);
    let mut samples = SetSamples::default();
    for (i, name) in named.into_iter().take(3).enumerate() {
        let kind = choices.below(3);
        accept(out, name, kind != 1, set(1, kind != 2, i as f64));
        samples.counts.push(1);
        samples.lists.ends.push(1);
        samples.lists.times.push(0.0);
        samples.lists.values.push(10.0 + i as f64);
        samples.lists.marks.push(0);
    }
    out.call(&DispatcherCall::Samples(samples).into());
    let listed = choices.below(1 + sequences(4, 3)).checked_sub(1).map(|index| Choices(index).sequence(4, 3));
    let names = |list: Vec<usize>| list.into_iter().map(|i| named[i].to_vec()).collect::<Vec<_>>();
    if let Some(list) = listed {
        lend_order(out, Some(Order::of(&names(list))));
    }
    out.call(&DispatcherCall::Value(0.0).into());
    out.call(&DispatcherCall::Read(0.0).into());
    out.call(&DispatcherCall::Track(0).into());
}

// Up to three name ends over up to three bytes.

const ENDS: [u64; 5] = [0, 1, 2, 3, u64::MAX];

fn order_ends_size() -> usize {
    4 * sequences(ENDS.len(), 3)
}

fn order_ends(index: usize, out: &mut Writer<'_>) {
    let mut choices = Choices(index);
    let bytes = b"aba"[..choices.below(4)].to_vec();
    let ends = choices.sequence(ENDS.len(), 3).into_iter().map(|i| ENDS[i]).collect();
    for (i, name) in [&b"a"[..], b"b", b"ba"].into_iter().enumerate() {
        accept(out, name, true, set(1, true, i as f64));
    }
    let samples = Samples { ends: vec![0; 3], ..Samples::default() };
    out.call(&DispatcherCall::Samples(SetSamples { counts: vec![0; 3], lists: samples }).into());
    lend_order(out, Some(Order { ends, bytes }));
    out.call(&DispatcherCall::Value(0.0).into());
    out.call(&DispatcherCall::Value(f64::NAN).into());
}

// Two sets of two clips together, of which either answers: up to three samples, faulty ones among them, parted in each way
// and in some that are none.

const CLIPS: [[u64; 2]; 3] = [[1, 1], [0, 2], [2, 0]];

/// Time, value and mark.
const SAMPLES: [(f64, f64, u8); 4] = [(0.0, 5.0, 0), (0.5, 6.0, 0), (0.25, 7.0, 2), (0.75, f64::NAN, 0)];

fn shares_size() -> usize {
    CLIPS.len() * (4 * 4 + 2) * 8 * sequences(SAMPLES.len(), 3)
}

fn shares(index: usize, out: &mut Writer<'_>) {
    let mut choices = Choices(index);
    let [first, second] = choices.of(&CLIPS);
    let ends = match choices.below(4 * 4 + 2) {
        16 => vec![0],
        17 => vec![0; 3],
        two => vec![two as u64 / 4, two as u64 % 4],
    };
    let parting = choices.below(8);
    let list: Vec<_> = choices.sequence(SAMPLES.len(), 3).into_iter().map(|i| SAMPLES[i]).collect();
    let count = list.len() as u64;
    let counts = match parting as u64 {
        4 => vec![],
        5 => vec![count],
        6 => vec![count, 0, 0],
        // The sum, were it cut to 64 bits.
        7 => vec![u64::MAX, count + 1],
        // For some the first count alone is too much.
        part => vec![part, count.saturating_sub(part)],
    };
    accept(out, b"a", true, set(first, true, 1.0));
    accept(out, b"b", true, set(second, true, 2.0));
    let lists = Samples {
        ends,
        times: list.iter().map(|sample| sample.0).collect(),
        values: list.iter().map(|sample| sample.1).collect(),
        marks: list.iter().map(|sample| sample.2).collect(),
    };
    out.call(&DispatcherCall::Samples(SetSamples { counts, lists }).into());
    out.call(&DispatcherCall::Read(0.25).into());
    out.call(&DispatcherCall::Track(1).into());
    lend_order(out, Some(Order::of(&[b"b".to_vec()])));
    out.call(&DispatcherCall::Read(0.75).into());
}

// Up to three of nine calls on a fresh dispatcher and the desk beside it, a set having been examined; and four of the seven
// that may change something.

const SET_CALLS: usize = 9;
const CHANGING: usize = 7;

fn named_size() -> usize {
    sequences(SET_CALLS, 3) + CHANGING.pow(4)
}

fn set_call(kind: usize) -> Call {
    let label = |name: &[u8], declares| Label { name: name.to_vec(), declares };
    match kind {
        0 => DispatcherCall::Accept(label(b"a", true), set(1, true, 1.0)).into(),
        1 => DispatcherCall::Accept(label(b"a", false), set(2, true, 2.0)).into(),
        2 => DispatcherCall::Install(label(b"b", true), 0).into(),
        3 => DispatcherCall::Install(label(b"a", true), 0).into(),
        4 => DispatcherCall::Retime(b"a".to_vec(), 1.0, -2.0).into(),
        5 => DispatcherCall::Retime(b"b".to_vec(), 0.5, 1.0).into(),
        6 => set(1, true, 4.0).acceptance(),
        7 => Call::Retime(2.0, 1.0),
        _ => DispatcherCall::Retime(b"c".to_vec(), f64::NAN, 1.0).into(),
    }
}

fn named(index: usize, out: &mut Writer<'_>) {
    out.call(&Call::Examine(0, set(1, true, 3.0)));
    let kinds = match index.checked_sub(sequences(SET_CALLS, 3)) {
        None => Choices(index).sequence(SET_CALLS, 3),
        Some(index) => {
            let mut choices = Choices(index);
            (0..4).map(|_| choices.below(CHANGING)).collect()
        }
    };
    kinds.into_iter().for_each(|kind| out.call(&set_call(kind)));
    out.call(&DispatcherCall::Sets.into());
    out.call(&DispatcherCall::Dump(b"a".to_vec()).into());
    out.call(&DispatcherCall::Dump(b"b".to_vec()).into());
    out.call(&Call::Dump);
    out.call(&Call::Prepared(0));
    // For one set of one clip, and for one of one clip and one of one or two.
    for (counts, ends) in [(vec![0], vec![0]), (vec![0; 2], vec![0; 2]), (vec![0; 2], vec![0; 3])] {
        let lists = Samples { ends, ..Samples::default() };
        out.call(&DispatcherCall::Samples(SetSamples { counts, lists }).into());
        out.call(&DispatcherCall::Value(0.75).into());
    }
    out.call(&DispatcherCall::Track(ROOM).into());
}
