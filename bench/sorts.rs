//! The sorts of starts and knots against the Rust's `sort_by(total_cmp)`, and the calls of the library that sort.

use crate::calls::{Explicit, Filling};
use crate::measure::{batch, take_batches};
use crate::pcp::clip::ClipSet;
use crate::pcp::clip::reach::{self, Map};
use crate::rust::{dictionary, explicit};
use crate::sdf::LayerOffset;
use crate::sets::Random;
use crate::time;

const STARTS: usize = 256;
const KNOTS: usize = 512;

#[derive(Clone, Copy)]
enum Order {
    Random,
    Sorted,
    Reversed,
}

impl Order {
    const ALL: [(Order, &str); 3] =
        [(Order::Random, "random"), (Order::Sorted, "sorted"), (Order::Reversed, "reversed")];

    /// How many lists are sorted in turn: in random order more than a branch predictor learns by heart (it does learn 64 lists
    /// of 256), otherwise as many as the cache holds.
    fn batch(self) -> u64 {
        match self {
            Order::Random => 1024,
            Order::Sorted | Order::Reversed => 64,
        }
    }

    /// So many times of both signs, no two equal.
    fn times(self, count: usize, random: &mut Random) -> Vec<f64> {
        let times: Vec<f64> = (0..count).map(|_| (random.part() - 0.5) * 1e4).collect();
        let mut sorted = times.clone();
        sorted.sort_by(f64::total_cmp);
        assert!(sorted.windows(2).all(|pair| pair[0] < pair[1]), "distinct times");
        match self {
            Order::Random => times,
            Order::Sorted => sorted,
            Order::Reversed => sorted.into_iter().rev().collect(),
        }
    }
}

/// A batch of what different seeds give.
fn lists<T>(order: Order, mut make: impl FnMut(Order, &mut Random) -> T) -> Vec<T> {
    (1..=order.batch()).map(|seed| make(order, &mut Random(seed))).collect()
}

/// 0, 1, ..: as the second of each pair, so that a wrong pairing is found out.
fn places(count: usize) -> Vec<f64> {
    (0..count).map(|place| place as f64).collect()
}

#[cfg(not(sorts))]
pub fn sort_table() {
    println!("\n## Sorting\n\nLeft out: there is no libsorts.a beside the library.");
}

#[cfg(sorts)]
pub fn sort_table() {
    println!(
        "\n## Sorting\n\n| lists | the Rust | library | library / Rust | target | met |\n|---|---|---|---|---|---|"
    );
    for (order, name) in Order::ALL {
        alone::row(&format!("{KNOTS} knots, {name}"), &alone::knots(order));
    }
    for (order, name) in Order::ALL {
        alone::row(&format!("{STARTS} starts, {name}"), &alone::starts(order));
    }
}

/// The sorts alone, which only the archive of crates/sorts exports.
#[cfg(sorts)]
mod alone {
    use super::{KNOTS, Order, STARTS, batch, lists, places, take_batches, time};
    use crate::gf::{Vec2d, vec2d};
    use crate::verdict;

    unsafe extern "C" {
        fn tavitrozy_sorts_starts(times: *mut f64, times_len: usize, clips: *mut u64, clips_len: usize) -> bool;
        fn tavitrozy_sorts_knots(xs: *mut f64, xs_len: usize, ys: *mut f64, ys_len: usize) -> bool;
    }

    /// A batch as each side has it: the Rust a list of pairs `P`, the library two lists.
    pub struct Sides<P, S> {
        rust: Vec<Vec<P>>,
        library: Vec<(Vec<f64>, Vec<S>)>,
        pair: fn(f64, S) -> P,
        sort_rust: fn(&mut Vec<P>),
        sort_library: fn(&mut [f64], &mut [S]) -> bool,
    }

    fn paired<P, S: Copy>((times, seconds): &(Vec<f64>, Vec<S>), pair: fn(f64, S) -> P) -> Vec<P> {
        times.iter().zip(seconds).map(|(&time, &second)| pair(time, second)).collect()
    }

    pub fn knots(order: Order) -> Sides<Vec2d, f64> {
        let library = lists(order, |order, random| (order.times(KNOTS, random), places(KNOTS)));
        Sides {
            rust: library.iter().map(|lists| paired(lists, vec2d)).collect(),
            library,
            pair: vec2d,
            sort_rust: |knots| knots.sort_by(|a, b| a.x.total_cmp(&b.x)),
            // SAFETY: two lists that are lent for the call, each with its length.
            sort_library: |xs, ys| unsafe {
                tavitrozy_sorts_knots(xs.as_mut_ptr(), xs.len(), ys.as_mut_ptr(), ys.len())
            },
        }
    }

    pub fn starts(order: Order) -> Sides<(f64, usize), u64> {
        let pair = |time, clip| (time, clip as usize);
        let library = lists(order, |order, random| (order.times(STARTS, random), (0..STARTS as u64).collect()));
        Sides {
            rust: library.iter().map(|lists| paired(lists, pair)).collect(),
            library,
            pair,
            sort_rust: |starts| starts.sort_by(|a, b| a.0.total_cmp(&b.0)),
            // SAFETY: as for the knots.
            sort_library: |times, clips| unsafe {
                tavitrozy_sorts_starts(times.as_mut_ptr(), times.len(), clips.as_mut_ptr(), clips.len())
            },
        }
    }

    pub fn row<P: Clone + PartialEq, S: Copy>(name: &str, sides: &Sides<P, S>) {
        for (pairs, lists) in sides.rust.iter().zip(&sides.library) {
            let (mut pairs, mut lists) = (pairs.clone(), lists.clone());
            (sides.sort_rust)(&mut pairs);
            assert!((sides.sort_library)(&mut lists.0, &mut lists.1), "lists that are sorted");
            assert!(paired(&lists, sides.pair) == pairs, "{name}: the library sorts otherwise");
        }
        let rust = &mut || batch(&sides.rust, |pairs| (sides.sort_rust)(pairs));
        let library = &mut || batch(&sides.library, |(times, seconds)| _ = (sides.sort_library)(times, seconds));
        let taken = take_batches(sides.rust.len(), &mut [rust, library]);
        let ratio = taken[1] / taken[0];
        let met = verdict(ratio <= 1.0);
        println!("| {name} | {} | {} | {ratio:.2} | 1 | {met} |", time(taken[0]), time(taken[1]));
    }
}

/// A set at the limits, all its lists in this order.
fn full_set(order: Order, random: &mut Random) -> Explicit {
    let start_times = order.times(STARTS, random);
    let filling = Filling { blocks: start_times.clone(), mark: 2, value: 0.0, flag: false };
    let (start_clips, knot_x, knot_y) = (places(STARTS), order.times(KNOTS, random), places(KNOTS));
    Explicit { clips: STARTS as u64, start_times, start_clips, knot_x, knot_y, filling }
}

fn parsed(set: &Map) -> ClipSet {
    reach::parse_set(set).expect("a set that the Rust takes")
}

fn accepted(set: &Explicit) -> tavitrozy::Resolver {
    let mut resolver = tavitrozy::Resolver::new();
    resolver.accept(&explicit(set)).expect("a set that the library takes");
    resolver
}

fn retime(resolver: &mut tavitrozy::Resolver, scale: f64) {
    resolver.retime(tavitrozy::LayerOffset::new(0.0, scale)).expect("no refusal");
}

/// Both sides hold the same starts and knots.
fn same(set: &ClipSet, resolver: &tavitrozy::Resolver) -> bool {
    let standing = resolver.standing().expect("a set");
    let starts = standing.starts().map(|(time, clip)| (time.0, clip as usize));
    let knots = standing.knots().map(|(x, y)| (x.0, y.0));
    set.active.iter().copied().eq(starts) && set.times.iter().map(|knot| (knot.x, knot.y)).eq(knots)
}

/// The calls that sort, and what is done with the sets. The Rust takes no blocks here, tests for no number, and copies the names of its clips instead.
pub fn call_table() {
    println!("\n## Accepting, examining, installing and retiming a set at the limits\n");
    println!("{STARTS} starts and blocks, {KNOTS} knots; the Rust's `parse_set` and `retime_stage_times`.\n");
    println!("| call | the Rust | library | library / Rust |\n|---|---|---|---|");
    let row = |name: &str, taken: Vec<f64>| {
        println!("| {name} | {} | {} | {:.2} |", time(taken[0]), time(taken[1]), taken[1] / taken[0]);
    };
    for (order, name) in Order::ALL {
        let sets = lists(order, full_set);
        let dictionaries: Vec<Map> = sets.iter().map(dictionary).collect();
        assert!(dictionaries.iter().zip(&sets).all(|(map, set)| same(&parsed(map), &accepted(set))), "equal sets");
        let asked: Vec<_> = dictionaries.iter().map(|set| (set, None)).collect();
        let lent: Vec<_> = sets.iter().map(|set| (explicit(set), tavitrozy::Resolver::new())).collect();
        let rust = &mut || batch(&asked, |(set, answer)| *answer = Some(parsed(set)));
        let library = &mut || batch(&lent, |(set, resolver)| resolver.accept(set).expect("no refusal"));
        row(&format!("accept, lists {name}"), take_batches(sets.len(), &mut [rust, library]));
    }
    let sets = lists(Order::Sorted, full_set);
    let dictionaries: Vec<Map> = sets.iter().map(dictionary).collect();
    let stored: Vec<ClipSet> = dictionaries.iter().map(parsed).collect();
    let asked: Vec<_> = dictionaries.iter().map(|set| (set, None)).collect();
    let looked: Vec<_> = sets.iter().map(|set| (explicit(set), None)).collect();
    let rust = &mut || batch(&asked, |(set, answer)| *answer = Some(parsed(set)));
    let library = &mut || batch(&looked, |(set, answer)| *answer = Some(tavitrozy::examine(set).expect("no refusal")));
    row("examine, lists sorted", take_batches(sets.len(), &mut [rust, library]));
    let copied: Vec<_> = stored.iter().map(|set| (set, None)).collect();
    let prepared: Vec<_> = sets.iter().map(|set| tavitrozy::examine(&explicit(set)).expect("no refusal")).collect();
    let fresh: Vec<_> = prepared.iter().map(|set| (set, tavitrozy::Resolver::new())).collect();
    let rust = &mut || batch(&copied, |(set, answer)| *answer = Some(ClipSet::clone(set)));
    let library = &mut || batch(&fresh, |(set, resolver)| resolver.install(set));
    row("install (the Rust: a copy of the set)", take_batches(sets.len(), &mut [rust, library]));
    let standing: Vec<_> = sets.iter().map(accepted).collect();
    for scale in [1.5, -1.0] {
        let moving = LayerOffset::new(0.0, scale);
        for (set, resolver) in stored.iter().zip(&standing) {
            let (mut set, mut resolver) = (set.clone(), resolver.clone());
            set.retime_stage_times(moving);
            retime(&mut resolver, scale);
            assert!(same(&set, &resolver), "equal sets");
        }
        let rust = &mut || batch(&stored, |set| set.retime_stage_times(moving));
        let library = &mut || batch(&standing, |resolver| retime(resolver, scale));
        row(&format!("retime by {scale}"), take_batches(sets.len(), &mut [rust, library]));
    }
}
