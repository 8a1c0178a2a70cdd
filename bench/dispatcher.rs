//! The dispatcher next to a desk: a value with 1, 4 and 16 sets at the limits, the check of the samples apart, and the calls
//! that put sets there.

use std::hint::black_box;

use tavitrozy::{Dispatcher, LayerOffset, Prepared, Refusal, Resolver, SetSamples, StageTime};

use crate::calls::Samples;
use crate::measure::{batch, take_batches, take_turns};
use crate::rust::explicit;
use crate::sets::Case;
use crate::{limits, time};

const SETS: usize = tavitrozy::limit::SETS;

/// A dispatcher of equal sets, of which the last alone declares, and the samples of all of them.
struct Part {
    dispatcher: Dispatcher,
    counts: Vec<u64>,
    lists: Samples,
}

impl Part {
    /// So many sets; those that do not answer have their samples too, or none.
    fn new(case: &Case, sets: usize, all_have_samples: bool) -> Self {
        let mut part = Part { dispatcher: Dispatcher::new(), counts: Vec::new(), lists: Samples::default() };
        for i in 0..sets {
            let answers = i + 1 == sets;
            part.dispatcher.accept(&[name(i)], answers, &explicit(&case.set)).expect("a set that the library takes");
            part.lend(&case.samples, answers || all_have_samples);
        }
        part
    }

    fn lend(&mut self, samples: &Samples, whole: bool) {
        let count = if whole { samples.times.len() } else { 0 };
        self.counts.push(count as u64);
        self.lists.ends.extend(samples.ends.iter().map(|&end| end.min(count as u64)));
        self.lists.times.extend(&samples.times[..count]);
        self.lists.values.extend(&samples.values[..count]);
        self.lists.marks.extend(&samples.marks[..count]);
    }

    fn lent(&self) -> SetSamples<'_> {
        let lists = &self.lists;
        SetSamples::new(&self.counts, &lists.ends, &lists.times, &lists.values, &lists.marks)
    }
}

fn name(i: usize) -> u8 {
    b'a' + u8::try_from(i).expect("few sets")
}

/// The size of `tavitrozy_dispatcher`, by the header.
fn bytes() -> usize {
    let header = include_str!("../include/tavitrozy.h");
    let count = |array: &str| -> usize {
        let defined = format!("#define TAVITROZY_DISPATCHER_{array} ");
        let count = header.lines().find_map(|line| line.strip_prefix(&*defined)).expect("the header defines it");
        count.trim().parse().expect("a number")
    };
    8 * count("NUMBERS") + 8 * count("COUNTS") + count("BYTES")
}

/// A value of each set at the limits, and the same question at a time that is no number: it is refused with 10 once all
/// samples are checked, so that it takes what the check takes.
pub fn value_table() {
    println!("\n## A value of several sets\n\nA dispatcher has {} bytes.\n", bytes());
    println!("| set | sets | desk | of it the check | dispatcher | of it the check | the rest: desk | dispatcher |");
    println!("|---|---|---|---|---|---|---|---|");
    for case in limits::cases().iter().filter(|case| ["A", "D", "E", "G"].contains(&&*case.name)) {
        for (sets, all_have_samples) in [(1, true), (4, true), (SETS, true), (SETS, false)] {
            row(case, sets, all_have_samples);
        }
    }
}

fn row(case: &Case, sets: usize, all_have_samples: bool) {
    let (samples, part) = (&case.samples, Part::new(case, sets, all_have_samples));
    let own = tavitrozy::Samples::new(&samples.times, &samples.values, &samples.marks, &samples.ends);
    let mut desk = Resolver::new();
    desk.accept(&explicit(&case.set)).expect("a set that the library takes");
    let (all, asked, nan) = (part.lent(), &case.times, StageTime(f64::NAN));
    for &t in asked {
        let told = part.dispatcher.value(None, &all, StageTime(t)).expect("no refusal");
        assert!((told.set, Ok(told.reply)) == (Some(sets - 1), desk.value(&own, StageTime(t))), "equal values");
    }
    assert!(desk.value(&own, nan) == Err(Refusal::TimeNotFinite), "the check is done");
    assert!(part.dispatcher.value(None, &all, nan) == Err(Refusal::TimeNotFinite), "the check is done");
    let ask_desk = &mut |i: usize| _ = black_box(desk.value(&own, StageTime(asked[i])));
    let check_desk = &mut |_: usize| _ = black_box(desk.value(&own, nan));
    let ask_part = &mut |i: usize| _ = black_box(part.dispatcher.value(None, &all, StageTime(asked[i])));
    let check_part = &mut |_: usize| _ = black_box(part.dispatcher.value(None, &all, nan));
    let taken = take_turns(asked.len(), &mut [ask_desk, check_desk, ask_part, check_part]);
    // Where the check is nearly all of it the machine's noise may be more than the rest.
    let rest = |whole: f64, check: f64| if whole > check { time(whole - check) } else { "–".into() };
    let told = taken.iter().map(|&taken| time(taken)).collect::<Vec<_>>().join(" | ");
    let sets = if all_have_samples { sets.to_string() } else { format!("{sets}, one with samples") };
    println!("| {} | {sets} | {told} | {} | {} |", case.name, rest(taken[0], taken[1]), rest(taken[2], taken[3]));
}

/// Set D, put into a desk again and again and into a dispatcher until it is full; the time is that of one.
pub fn call_table() {
    println!("\n## Sets under names: set D accepted, installed and retimed\n");
    println!(
        "Of a dispatcher's acceptances and installings {SETS} in a row, under names of one byte; the time is that of one.\n"
    );
    println!("| call | desk | dispatcher |\n|---|---|---|");
    let case = limits::cases().into_iter().find(|case| case.name == "D").expect("set D");
    let set = explicit(&case.set);
    let prepared = tavitrozy::examine(&set).expect("no refusal");
    let resolvers = vec![Resolver::new(); 64];
    let dispatchers = vec![Dispatcher::new(); 4];
    let jobs = 64;
    let show = |name: &str, taken: Vec<f64>| println!("| {name} | {} | {} |", time(taken[0]), time(taken[1]));

    let desk = &mut || batch(&resolvers, |resolver| resolver.accept(&set).expect("no refusal"));
    let part = &mut || {
        batch(&dispatchers, |part| {
            (0..SETS).for_each(|i| part.accept(&[name(i)], true, &set).expect("no refusal"));
        })
    };
    show("accept", take_batches(jobs, &mut [desk, part]));

    let desk = &mut || batch(&resolvers, |resolver| resolver.install(&prepared));
    let part = &mut || batch(&dispatchers, |part| fill(part, &prepared));
    show("install", take_batches(jobs, &mut [desk, part]));

    let (mut standing, mut full) = (resolvers.clone(), dispatchers.clone());
    standing.iter_mut().for_each(|resolver| resolver.install(&prepared));
    full.iter_mut().for_each(|part| fill(part, &prepared));
    let moving = LayerOffset::new(0.0, 1.5);
    let desk = &mut || batch(&standing, |resolver| resolver.retime(moving).expect("no refusal"));
    let part =
        &mut || batch(&full, |part| (0..SETS).for_each(|i| part.retime(&[name(i)], moving).expect("no refusal")));
    show("retime by 1.5", take_batches(jobs, &mut [desk, part]));

    let desk = &mut |_: usize| drop(black_box(standing[0].clone()));
    let part = &mut |_: usize| drop(black_box(full[0].clone()));
    show("a copy of all, made and dropped", take_turns(1, &mut [desk, part]));
}

fn fill(part: &mut Dispatcher, set: &Prepared) {
    (0..SETS).for_each(|i| part.install(&[name(i)], true, set).expect("no refusal"));
}
