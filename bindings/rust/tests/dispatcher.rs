//! Several sets on one part: which of them answers, by what order and at which place, and every number in its order.
#![allow(clippy::float_cmp, reason = "what is said to the last bit is compared to the last bit")]

use tavitrozy::{
    Answer, Dispatcher, Explicit, Fallback, LayerOffset, Order, Placed, Refusal, Resolver, SampleLists, SampleRead,
    SetSampleLists, SetSamples, StageTime, Template, TemplateTimes, Track, limit,
};

const ONE_START: Explicit = Explicit::new(1).starts(&[0.0], &[0.0]);
const TEMPLATE: Template = Template::new(b"f.###.usd", TemplateTimes::new(1.0, 3.0, 1.0));

/// A set's kind: it qualifies, does not declare, or has no start.
#[derive(Clone, Copy, PartialEq)]
enum Kind {
    Fit,
    Undeclared,
    Empty,
}
use Kind::{Empty, Fit, Undeclared};

/// Sets of one clip; the clip of the i-th has the value i.
fn part(sets: &[(&[u8], Kind)]) -> (Dispatcher, SetSampleLists) {
    let (mut part, mut lists) = (Dispatcher::new(), SetSampleLists::new());
    for (i, &(name, kind)) in (0..).zip(sets) {
        let set = if kind == Empty { Explicit::new(1) } else { ONE_START };
        part.accept(name, kind != Undeclared, &set).unwrap();
        lists.push_set(&one_clip([(0.0, Some(f64::from(i)))]));
    }
    (part, lists)
}

fn one_clip(samples: impl IntoIterator<Item = (f64, Option<f64>)>) -> SampleLists {
    let mut lists = SampleLists::new();
    lists.push_clip(samples);
    lists
}

/// Which set answers, by its number, and at which place.
fn answering(sets: &[(&[u8], Kind)], order: Option<&[&[u8]]>) -> Option<(i32, usize)> {
    let (part, lists) = part(sets);
    let order = order.map(Order::of_names);
    let value = part.value(order.as_ref(), &lists.lent(), StageTime(3.0)).unwrap();
    let track = part.bake(order.as_ref(), &lists.lent()).unwrap();
    assert_eq!((track.set, track.reply.head(), track.reply.len()), (value.set, value.reply, 0));
    assert_eq!(value.set.is_none(), value.reply == Answer::Absent);
    let number = |value: f64| (0..16).find(|&i| f64::from(i) == value).unwrap();
    value.set.map(|place| (number(value.reply.value().unwrap()), place))
}

fn number(result: Result<impl Sized, Refusal>) -> u8 {
    result.err().map_or(0, Refusal::number)
}

#[test]
fn without_a_list_names_go_in_byte_order() {
    assert_eq!(answering(&[(b"fine", Fit), (b"coarse", Fit)], None), Some((1, 0)));
    assert_eq!(answering(&[(b"b", Fit), (b"ab", Fit), (b"a", Undeclared)], None), Some((1, 1)));
    assert_eq!(answering(&[(b"\x7f", Fit), (b"\x80", Fit), (b"", Empty), (b"Z", Undeclared)], None), Some((0, 2)));
    assert_eq!(answering(&[(b"a\0", Fit), (b"a", Fit)], None), Some((1, 0)));
    assert_eq!(answering(&[(b"a", Empty), (b"b", Undeclared)], None), None);
    assert_eq!(answering(&[], None), None);
}

#[test]
fn a_list_says_the_order() {
    let sets: [(&[u8], Kind); 2] = [(b"fine", Fit), (b"coarse", Fit)];
    assert_eq!(answering(&sets, Some(&[b"fine", b"coarse"])), Some((0, 0)));
    assert_eq!(answering(&sets, Some(&[b"coarse", b"fine"])), Some((1, 0)));
    assert_eq!(answering(&sets, Some(&[b"fin", b"fine "])), None);
    assert_eq!(answering(&sets, Some(&[])), None, "a list without names is a list");
    assert_eq!(answering(&[], Some(&[b"fine"])), None);
}

#[test]
fn a_place_counts_unfit_sets_and_repeated_names_once() {
    let sets: [(&[u8], Kind); 4] = [(b"A", Undeclared), (b"B", Fit), (b"C", Empty), (b"", Fit)];
    assert_eq!(answering(&sets, Some(&[b"x", b"A", b"A", b"B"])), Some((1, 1)));
    assert_eq!(answering(&sets, Some(&[b"C", b"A", b"C", b"y", b"A", b"", b"B"])), Some((3, 2)));
    assert_eq!(answering(&sets, Some(&[b"C", b"A"])), None);
    assert_eq!(answering(&sets, None), Some((3, 0)), "the empty name comes first");
}

/// A set with knots, blocks, a default and the flag, and its samples.
fn rich() -> (Explicit<'static>, SampleLists) {
    let set = Explicit::new(3)
        .starts(&[20.0, 0.0, 10.0, 35.0], &[2.0, 0.0, 1.0, 0.0])
        .knots(&[0.0, 30.0, 12.0, 30.0, 60.0], &[4.0, 0.0, 40.0, 9.0, 2.0])
        .blocks(&[20.0, 5.0])
        .interpolate(true);
    let mut lists = SampleLists::new();
    lists.push_clip((0..20u8).map(|i| (f64::from(i) * 2.5, (i % 7 != 3).then_some(f64::from(i % 5) - 2.0))));
    lists.push_clip([]);
    lists.push_clip([(1.0, Some(-0.0)), (8.0, Some(0.5)), (30.0, None)]);
    (set, lists)
}

#[test]
fn a_set_answers_as_on_a_desk() {
    let (set, own) = rich();
    let others = one_clip((0..9u8).map(|i| (f64::from(i), Some(100.0 + f64::from(i)))));
    for place in 0..3 {
        let (mut desk, mut part, mut lists) = (Resolver::new(), Dispatcher::new(), SetSampleLists::new());
        desk.accept(&set).unwrap();
        for (i, name) in ["a", "b", "c"].iter().enumerate() {
            if i == place {
                part.accept(b"own", true, &set).unwrap();
                lists.push_set(&own);
            } else {
                part.accept(name.as_bytes(), true, &ONE_START).unwrap();
                lists.push_set(&others);
            }
        }
        let order = Order::of_names(["nobody", "own", "a"]);
        for (offset, scale) in [(0.0, 1.0), (0.7, -1.1), (-3.0, 1.0 / 3.0)] {
            desk.retime(LayerOffset::new(offset, scale)).unwrap();
            part.retime(b"own", LayerOffset::new(offset, scale)).unwrap();
            for time in (-400..400).map(|i| StageTime(f64::from(i) * 0.375)) {
                let read = desk.value_read(&own.lent(), time).unwrap();
                let told = part.value_read(Some(&order), &lists.lent(), time).unwrap();
                assert_eq!((told.set, told.reply), (Some(0), read));
                assert_eq!(told.reply.value.value().map(f64::to_bits), read.value.value().map(f64::to_bits));
                let value = part.value(Some(&order), &lists.lent(), time).unwrap();
                assert_eq!(value, Placed { set: Some(0), reply: read.value });
            }
            let (track, own) = (part.bake(Some(&order), &lists.lent()).unwrap(), desk.bake(&own.lent()).unwrap());
            assert!(own.len() > 5, "{}", own.len());
            assert_eq!(track, Placed { set: Some(0), reply: own });
        }
    }
}

#[test]
fn clip_and_place_are_those_of_the_sets_own_samples() {
    let (mut part, mut lists) = (Dispatcher::new(), SetSampleLists::new());
    part.accept(b"z", true, &ONE_START).unwrap();
    lists.push_set(&one_clip([(0.0, Some(1.0)), (1.0, Some(2.0)), (2.0, Some(3.0))]));
    part.accept(b"a", true, &Explicit::new(2).starts(&[0.0, 10.0], &[0.0, 1.0])).unwrap();
    let mut own = one_clip([(0.0, Some(4.0))]);
    own.push_clip([(0.0, Some(5.0)), (11.0, Some(6.0))]);
    lists.push_set(&own);
    assert_eq!((lists.lent().counts, lists.lent().ends), (&[3, 3][..], &[3, 1, 3][..]));
    let read = part.value_read(None, &lists.lent(), StageTime(12.0)).unwrap();
    assert_eq!((read.set, read.reply.value), (Some(0), Answer::Value(6.0)));
    assert_eq!(read.reply.sample, Some(SampleRead { clip: 1, place: 1 }));
    let default = Explicit::new(0).starts(&[], &[]).fallback(Fallback::Value(7.0));
    part.accept(b"", true, &default).unwrap();
    lists.push_set(&SampleLists::new());
    assert_eq!(part.value(None, &lists.lent(), StageTime(12.0)).unwrap().set, Some(1), "without a start it is unfit");
}

#[test]
fn a_template_and_a_prepared_set_stand_under_names() {
    let mut part = Dispatcher::new();
    part.accept_template(b"template", false, &TEMPLATE).unwrap();
    let prepared = tavitrozy::examine(&rich().0.fallback(Fallback::Value(-0.0))).unwrap();
    part.install(b"one", true, &prepared).unwrap();
    part.install(b"other", false, &prepared).unwrap();
    part.retime(b"one", LayerOffset::new(100.0, -2.0)).unwrap();
    let names: Vec<_> = part.sets().map(|set| (set.name.to_vec(), set.declares)).collect();
    assert_eq!(names, [(b"template".to_vec(), false), (b"one".to_vec(), true), (b"other".to_vec(), false)]);
    let shown: Vec<_> = part.sets().map(|named| format!("{:?}", named.set)).collect();
    let mut desk = Resolver::new();
    desk.accept_template(&TEMPLATE).unwrap();
    assert_eq!(shown[0], format!("{:?}", desk.standing().unwrap()));
    desk.install(&prepared);
    assert_eq!(shown[2], format!("{:?}", desk.standing().unwrap()));
    desk.retime(LayerOffset::new(100.0, -2.0)).unwrap();
    assert_eq!(shown[1], format!("{:?}", desk.standing().unwrap()));
    assert_eq!(shown[2], format!("{:?}", prepared.set()), "it stays as it was prepared");
    assert_eq!(part.sets().len(), 3);
    assert!(format!("{part:?}").contains("declares: true"));
    assert_eq!(Dispatcher::default().sets().len(), 0);
}

/// Refused with this number, and everything as it was.
fn refused(part: &mut Dispatcher, refusal: u8, call: impl FnOnce(&mut Dispatcher) -> Result<(), Refusal>) {
    let before = format!("{part:?}");
    assert_eq!(number(call(part)), refusal);
    assert_eq!(format!("{part:?}"), before);
}

/// Spoils one field.
type Fault = fn(Explicit) -> Explicit;

#[test]
fn twenty_three_comes_before_the_fields_numbers() {
    let faults: [(u8, Fault); 6] = [
        (1, |set| Explicit { clips: 257, ..set }),
        (2, |set| set.blocks(&[f64::NAN])),
        (3, |set| Explicit { start_clips: &[1.0, 0.5], ..set }),
        (4, |set| Explicit { start_times: &[10.0, 10.0], ..set }),
        (5, |set| Explicit { knot_xs: &[10.0, 10.0, 10.0], ..set }),
        (9, |set| set),
    ];
    let good = Explicit::new(3).starts(&[10.0, 0.0], &[1.0, 0.0]).knots(&[20.0, 10.0, 0.0], &[7.0, 9.0, 8.0]);
    let (mut part, _) = part(&[(b"taken", Fit)]);
    for (i, (refusal, first)) in faults.iter().enumerate() {
        for (other, second) in &faults[i..] {
            let mark = if *other == 9 { 3 } else { 2 };
            let set = second(first(good));
            refused(&mut part, *refusal, |part| part.accept_marked(b"new", true, &set, mark));
            refused(&mut part, 23, |part| part.accept_marked(b"taken", true, &set, mark));
            refused(&mut part, 23, |part| part.accept_marked(&[b'n'; 256], true, &set, mark));
        }
    }
    let times = |start, end, stride| TemplateTimes::new(start, end, stride).offset(0.0);
    let far = TemplateTimes::new(0.0, 0.0, 2_199_023_255_553.0).offset(2_199_023_255_552.0);
    let close = times(900_000_000_000.0, 900_000_000_000.001, 0.000_1);
    for (refusal, times) in
        [(7, times(3.0, 1.0, 1.0)), (8, times(1.0, 257.0, 1.0)), (2, far), (4, close), (5, times(1.0, 1.0, 1.0))]
    {
        let set = Template { times, ..TEMPLATE };
        refused(&mut part, refusal, |part| part.accept_template_marked(b"new", true, &set, 3));
        refused(&mut part, 23, |part| part.accept_template_marked(b"taken", true, &set, 3));
    }
    refused(&mut part, 9, |part| part.accept_template_marked(b"new", true, &TEMPLATE, 3));
    refused(&mut part, 23, |part| part.accept_template(b"taken", true, &TEMPLATE));
    let prepared = tavitrozy::examine(&good).unwrap();
    refused(&mut part, 23, |part| part.install(b"taken", true, &prepared));
    refused(&mut part, 23, |part| part.install(&[b'n'; 256], true, &prepared));
    part.install(&[b'n'; limit::SET_NAME_BYTES], true, &prepared).unwrap();
}

#[test]
fn a_retiming_names_its_set() {
    let (mut part, _) = part(&[(b"fine", Fit)]);
    let two = Explicit::new(1).starts(&[0.0, 10.0], &[0.0, 0.0]).knots(&[0.0, 1.0, 2.0], &[0.0; 3]);
    part.accept(b"two", true, &two).unwrap();
    part.accept(b"knots", true, &two.starts(&[], &[])).unwrap();
    let moved = LayerOffset::new;
    refused(&mut part, 20, |part| part.retime(b"coarse", moved(f64::NAN, 1.0)));
    refused(&mut part, 20, |part| part.retime(&[b'n'; 300], LayerOffset::IDENTITY));
    refused(&mut part, 2, |part| part.retime(b"fine", moved(f64::NAN, 1.0)));
    refused(&mut part, 2, |part| part.retime(b"two", moved(2e12, 0.0)));
    refused(&mut part, 4, |part| part.retime(b"two", moved(0.0, 0.0)));
    refused(&mut part, 5, |part| part.retime(b"knots", moved(0.0, 0.0)));
    part.retime(b"two", moved(5.0, -1.0)).unwrap();
    refused(&mut part, 4, |part| part.retime(b"two", moved(0.0, 0.0)));
    let starts: Vec<_> = part.sets().map(|named| named.set.start_times.to_vec()).collect();
    assert_eq!(starts, [vec![0.0], vec![-5.0, 5.0], vec![]]);
    assert_eq!(number(Dispatcher::new().retime(b"", LayerOffset::IDENTITY)), 20);
}

/// What is lent with a question, and its faults.
#[derive(Clone)]
struct Asked {
    names: Vec<u8>,
    name_ends: Vec<u64>,
    counts: Vec<u64>,
    ends: Vec<u64>,
    times: Vec<f64>,
    values: Vec<f64>,
    marks: Vec<u8>,
    time: f64,
    slots: usize,
}

impl Asked {
    /// Of the sets of `three`, the second of which answers at place 1; its track has one change.
    fn good() -> Asked {
        Asked {
            names: b"thirdsecond".to_vec(),
            name_ends: vec![5, 5, 11],
            counts: vec![1, 2, 3],
            ends: vec![1, 2, 2, 2, 3],
            times: vec![0.0, 0.0, 3.0, 0.0, 1.0, 5.0],
            values: vec![9.0, 7.0, 8.0, 1.0, 2.0, 3.0],
            marks: vec![0; 6],
            time: 5.0,
            slots: 1,
        }
    }

    /// The number that refuses the value and the one that refuses the bake, with every slot as it was.
    fn numbers(&self, part: &Dispatcher) -> (u8, u8) {
        let order = Order::of_lists(&self.names, &self.name_ends);
        let samples = SetSamples::new(&self.counts, &self.ends, &self.times, &self.values, &self.marks);
        let value = part.value(Some(&order), &samples, StageTime(self.time));
        assert_eq!(
            value,
            part.value_read(Some(&order), &samples, StageTime(self.time))
                .map(|read| { Placed { set: read.set, reply: read.reply.value } })
        );
        let (mut times, mut values, mut marks) = (vec![7.5; self.slots], vec![7.5; self.slots], vec![75; self.slots]);
        let baked = part.bake_into(Some(&order), &samples, &mut times, &mut values, &mut marks);
        match baked {
            Ok(baked) => {
                assert_eq!(baked, Placed { set: Some(1), reply: (Answer::Value(7.0), 1) });
                assert_eq!((times, values, marks), (vec![3.0], vec![8.0], vec![0]));
            }
            Err(refusal) => {
                let untouched =
                    times.iter().chain(&values).all(|&slot| slot == 7.5) && marks.iter().all(|&slot| slot == 75);
                assert!(untouched, "{refusal}");
                let track = part.bake(Some(&order), &samples).map(|_| ());
                assert_eq!(track, if refusal == Refusal::NoRoom { Ok(()) } else { Err(refusal) });
            }
        }
        (number(value), number(baked))
    }
}

fn three() -> Dispatcher {
    let mut part = Dispatcher::new();
    part.accept(b"first", false, &ONE_START).unwrap();
    part.accept(b"second", true, &ONE_START).unwrap();
    part.accept(b"third", false, &Explicit::new(3).starts(&[0.0], &[0.0])).unwrap();
    part
}

#[test]
fn each_number_of_the_questions_and_two_at_once() {
    type Fault = fn(&mut Asked);
    let faults: [((u8, u8), &[Fault]); 5] = [
        (
            (23, 23),
            &[
                |asked| asked.name_ends[1] = 4,
                |asked| asked.name_ends[2] = 12,
                |asked| asked.name_ends.clear(),
                |asked| asked.name_ends = vec![11; limit::LISTED_NAMES + 1],
                |asked| (asked.names, asked.name_ends) = (vec![b'n'; 256], vec![256]),
            ],
        ),
        (
            (1, 1),
            &[
                |asked| asked.counts[0] += 1,
                |asked| asked.counts.push(0),
                |asked| _ = asked.counts.pop(),
                |asked| _ = asked.ends.pop(),
                |asked| asked.ends.push(3),
                |asked| asked.values.push(0.0),
                |asked| _ = asked.marks.pop(),
                |asked| asked.counts = vec![u64::MAX, 4, 3],
            ],
        ),
        (
            (2, 2),
            &[|asked| asked.times[5] = f64::NAN, |asked| asked.values[0] = f64::NAN, |asked| asked.times[4] = 2e12],
        ),
        (
            (9, 9),
            &[
                |asked| asked.marks[4] = 2,
                |asked| asked.ends[0] = 0,
                |asked| asked.ends[1] = 3,
                |asked| asked.ends[2] = 3,
            ],
        ),
        ((10, 22), &[|asked| (asked.time, asked.slots) = (f64::INFINITY, 0)]),
    ];
    let part = three();
    assert_eq!(Asked::good().numbers(&part), (0, 0));
    for (i, (numbers, firsts)) in faults.iter().enumerate() {
        for first in *firsts {
            let mut alone = Asked::good();
            first(&mut alone);
            assert_eq!(alone.numbers(&part), *numbers);
            for (others, seconds) in &faults[i + 1..] {
                for second in *seconds {
                    let mut both = alone.clone();
                    second(&mut both);
                    assert_eq!(both.numbers(&part), *numbers, "{numbers:?} and {others:?}");
                }
            }
        }
    }
}

#[test]
fn without_a_set_what_is_lent_is_judged_all_the_same() {
    let part = Dispatcher::new();
    let none = SetSamples::new(&[], &[], &[], &[], &[]);
    let absent = Placed { set: None, reply: Answer::Absent };
    assert_eq!(part.value(None, &none, StageTime(0.0)), Ok(absent));
    assert_eq!(part.value(Some(&Order::of_names(["a"])), &none, StageTime(0.0)), Ok(absent));
    let track = part.bake(None, &none).unwrap();
    assert_eq!((track.set, track.reply), (None, Track::new(Answer::Absent, []).unwrap()));
    assert_eq!(number(part.value(None, &none, StageTime(f64::NAN))), 10);
    let one = SetSamples { times: &[0.0], values: &[0.0], marks: &[0], ..none };
    assert_eq!(number(part.value(None, &one, StageTime(f64::NAN))), 1);
    assert_eq!(number(part.bake(Some(&Order::of_lists(b"a", &[])), &one)), 23);
}

#[test]
fn sixteen_sets_and_no_seventeenth() {
    let names: Vec<Vec<u8>> = (0..limit::SETS).map(|i| vec![b'a'; i]).collect();
    let sets: Vec<(&[u8], Kind)> = names.iter().map(|name| (&name[..], Undeclared)).collect();
    let (mut part, lists) = part(&sets[..15]);
    part.accept(b"last", true, &ONE_START).unwrap();
    let mut lists = lists;
    lists.push_set(&one_clip([(0.0, Some(15.0))]));
    assert_eq!(part.value(None, &lists.lent(), StageTime(0.0)).unwrap().set, Some(15));
    refused(&mut part, 23, |part| part.accept(b"17th", true, &ONE_START));
    refused(&mut part, 23, |part| part.accept_template(b"17th", true, &TEMPLATE));
    let prepared = tavitrozy::examine(&ONE_START).unwrap();
    refused(&mut part, 23, |part| part.install(b"17th", true, &prepared));
    assert_eq!(part.sets().len(), limit::SETS);
}

#[test]
fn names_and_lists_at_their_limits() {
    let long = [b'n'; limit::SET_NAME_BYTES];
    let (part, lists) = part(&[(&long, Fit), (&long[1..], Undeclared)]);
    let ask = |order: &Order| part.value(Some(order), &lists.lent(), StageTime(0.0)).map(|value| value.set);
    assert_eq!(part.value(None, &lists.lent(), StageTime(0.0)).unwrap().set, Some(1));
    assert_eq!(ask(&Order::of_names([&long[1..], &long])), Ok(Some(1)));
    assert_eq!(ask(&Order::of_names([[b'n'; limit::SET_NAME_BYTES + 1]])), Err(Refusal::BadNames));
    let listed =
        |count: usize| Order::of_names(vec!["unknown"; count - 1].iter().map(|n| n.as_bytes()).chain([&long[..]]));
    assert_eq!(ask(&listed(limit::LISTED_NAMES)), Ok(Some(0)));
    assert_eq!(ask(&listed(limit::LISTED_NAMES + 1)), Err(Refusal::BadNames));
}

/// A set at the limits: 256 clips of 16 samples.
fn full() -> (Vec<f64>, Vec<f64>, Vec<f64>, SampleLists) {
    let starts: Vec<f64> = (0..256u16).map(f64::from).collect();
    let xs: Vec<f64> = (0..512u16).map(f64::from).collect();
    let ys: Vec<f64> = (0..512u16).map(|i| f64::from(i % 2) * 90.0).collect();
    let mut samples = SampleLists::new();
    for clip in 0..256u16 {
        samples.push_clip((0..16u16).map(|i| (f64::from(i) * 6.0, Some(f64::from(clip * 16 + i)))));
    }
    (starts, xs, ys, samples)
}

#[test]
fn sixteen_sets_at_the_limits() {
    let (starts, xs, ys, samples) = full();
    let set = Explicit::new(256).starts(&starts, &starts).knots(&xs, &ys).blocks(&starts);
    let (mut desk, mut part, mut lists) = (Resolver::new(), Dispatcher::new(), SetSampleLists::new());
    desk.accept(&set).unwrap();
    for i in 0..16u8 {
        part.accept(&[b'a' + i], i == 15, &set).unwrap();
        lists.push_set(&samples);
    }
    assert_eq!(lists.lent().times.len(), 65536);
    let track = part.bake(None, &lists.lent()).unwrap();
    assert_eq!(track, Placed { set: Some(15), reply: desk.bake(&samples.lent()).unwrap() });
}

#[test]
fn a_bake_needs_no_guess_of_slots() {
    let (_, xs, ys, _) = full();
    let set = ONE_START.knots(&xs, &ys);
    let (mut part, mut lists, mut desk) = (Dispatcher::new(), SetSampleLists::new(), Resolver::new());
    part.accept(b"", true, &set).unwrap();
    desk.accept(&set).unwrap();
    let samples = one_clip((0..180u8).map(|i| (f64::from(i) * 0.5, Some(f64::from(i)))));
    lists.push_set(&samples);
    let track = part.bake(None, &lists.lent()).unwrap().reply;
    assert!(track.len() > 80_000, "{}", track.len());
    assert_eq!(track, desk.bake(&samples.lent()).unwrap());
}

#[test]
fn a_clone_stands_on_its_own() {
    let (mut first, lists) = part(&[(b"a", Fit)]);
    let second = first.clone();
    first.retime(b"a", LayerOffset::new(5.0, 1.0)).unwrap();
    first.accept(b"b", true, &ONE_START).unwrap();
    assert_eq!(second.sets().map(|named| named.set.start_times[0]).collect::<Vec<_>>(), [0.0]);
    assert_eq!(second.value(None, &lists.lent(), StageTime(0.0)).unwrap().set, Some(0));
    assert_eq!(number(first.value(None, &lists.lent(), StageTime(0.0))), 1, "there is a set more");
}

#[test]
fn threads_may_ask_one_dispatcher() {
    let (part, lists) = part(&[(b"a", Undeclared), (b"b", Fit)]);
    std::thread::scope(|scope| {
        for _ in 0..4 {
            scope.spawn(|| {
                for time in (0..100u8).map(|i| StageTime(f64::from(i))) {
                    let told = part.value(None, &lists.lent(), time).unwrap();
                    assert_eq!(told, Placed { set: Some(1), reply: Answer::Value(1.0) });
                }
            });
        }
    });
}

#[test]
fn it_is_never_on_the_stack() {
    // Less than a dispatcher has, and enough for the calls of the library (tavitrozy.h says what they need).
    let small = std::thread::Builder::new().stack_size(200 * 1024);
    let work = || {
        let (mut part, lists) = part(&[(b"a", Fit)]);
        part.install(b"b", true, &tavitrozy::examine(&ONE_START).unwrap()).unwrap();
        let other = Box::new(part.clone());
        assert_eq!(other.sets().len(), 2);
        drop((part, lists, Dispatcher::default()));
    };
    small.spawn(work).unwrap().join().unwrap();
}

#[test]
fn order_lists_as_they_are_lent() {
    let order = Order::of_names([&b"fine"[..], b"", b"coarse"]);
    assert_eq!((order.names(), order.ends()), (&b"finecoarse"[..], &[4, 4, 10][..]));
    let lent = Order::of_lists(order.names(), order.ends());
    assert_eq!((lent.names(), lent.ends()), (order.names(), order.ends()));
    assert_eq!(Order::of_names::<&str>([]).ends(), [0u64; 0]);
}
