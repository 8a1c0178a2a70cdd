//! The benchmark: the library against the Rust that it ports, and against a plain Rust bake. Prints tables.
#![allow(dead_code)]

#[path = "../oracle/src/standins/gf.rs"]
mod gf;
#[path = "../oracle/src/standins/pcp.rs"]
mod pcp;
#[path = "../oracle/src/standins/sdf.rs"]
mod sdf;
#[path = "../oracle/src/standins/tf.rs"]
mod tf;
#[path = "../oracle/src/standins/vt.rs"]
mod vt;

#[path = "../oracle/src/calls.rs"]
mod calls;
#[path = "../oracle/src/doubles.rs"]
mod doubles;
#[path = "../oracle/src/numbers.rs"]
mod numbers;
#[path = "../oracle/src/plain.rs"]
mod plain;
#[path = "../oracle/src/text.rs"]
mod text;
#[path = "../oracle/src/track.rs"]
mod track;

mod bake;
mod check;
mod dispatcher;
mod limits;
mod measure;
mod rust;
mod sets;
mod sorts;

use std::hint::black_box;
use std::io::Write;
use std::time::Duration;

use measure::{Baked, bake_apart, take_turns};
use rust::{Library, Lists, Rust};
use sets::{Case, Growing, Random};
use track::Track;

/// More changes than the longest track here has.
const LONGEST: usize = 2_200_000;

/// What a bake may take of one Rust value, for A to G.
const BAKE_TARGETS: [(&str, f64); 7] =
    [("A", 3500.0), ("B", 5.0), ("C", 30.0), ("D", 70.0), ("E", 20.0), ("F", 5.0), ("G", 60.0)];

/// The plain Rust bake into lists of so many slots, made as for the library.
fn plain_bake(set: &plain::Set, samples: &calls::Samples, room: usize) -> Lists {
    Lists::baked(room, |times, values, marks| bake::bake(set, samples, times, values, marks).expect("room enough"))
}

fn plain_track(set: &plain::Set, samples: &calls::Samples) -> Track {
    plain_bake(set, samples, LONGEST).track()
}

/// In a child: a side's bake of a set, told as time, count and hash.
fn tell_bake(side: &str, name: &str, room: usize) {
    let case = sets::named(name).expect("a set of that name");
    let library = Library::new(&case.set, &case.samples);
    let set = plain::explicit(&case.set);
    let bake = || match side {
        "plain" => plain_bake(&set, &case.samples, room),
        _ => library.bake(room),
    };
    let look = |lists: &Lists| {
        let changes = lists.track().changes;
        (changes.len(), track::hash(&changes))
    };
    let Baked { seconds, count, hash } = measure::bake(bake, look);
    println!("{seconds} {count} {hash}");
}

/// The plain Rust bake's time, with just room enough, and its track.
fn time_plain(case: &Case, limit: Duration) -> (Baked, Track) {
    let track = plain_track(&plain::explicit(&case.set), &case.samples);
    let baked = bake_apart("plain", &case.name, track.changes.len(), limit).expect("the plain bake in time");
    (baked, track)
}

/// Seconds with a unit and three digits.
fn time(seconds: f64) -> String {
    let (number, unit) = match seconds {
        1.0.. => (seconds, "s"),
        1e-3.. => (seconds * 1e3, "ms"),
        1e-6.. => (seconds * 1e6, "µs"),
        _ => (seconds * 1e9, "ns"),
    };
    format!("{} {unit}", times(number))
}

fn times(number: f64) -> String {
    let digits = if number < 10.0 {
        2
    } else if number < 100.0 {
        1
    } else {
        0
    };
    format!("{number:.digits$}")
}

fn verdict(met: bool) -> &'static str {
    if met { "yes" } else { "no" }
}

/// Table 1; the Rust's time of one value, for each case.
fn value_table(cases: &[Case]) -> Vec<f64> {
    println!("\n## Value\n\n| set | the Rust | library | library / Rust | target | met |\n|---|---|---|---|---|---|");
    let row = |case: &Case| {
        let (mut rust, library) = (Rust::new(&case.set, &case.samples), Library::new(&case.set, &case.samples));
        let asked = &case.times;
        let ask_rust = &mut |i: usize| _ = black_box(rust.value(asked[i]));
        let ask_library = &mut |i: usize| _ = black_box(library.value(asked[i]));
        let taken = take_turns(asked.len(), &mut [ask_rust, ask_library]);
        let target = if case.name.len() == 1 { 0.5 } else { 1.0 };
        let ratio = taken[1] / taken[0];
        let met = verdict(ratio <= target);
        println!("| {} | {} | {} | {ratio:.3} | {target} | {met} |", case.name, time(taken[0]), time(taken[1]));
        taken[0]
    };
    cases.iter().map(row).collect()
}

/// Table 2.
fn bake_table(cases: &[Case], values: &[f64], limit: Duration) {
    println!(
        "\n## Bake\n\nAs multiples of one Rust value; the last column but one is held against the plain Rust bake, target 2.\n"
    );
    println!(
        "| set | changes | plain Rust bake | × value | library | × value | target | met | library / plain | tracks |"
    );
    println!("|---|---|---|---|---|---|---|---|---|---|");
    for (case, &value) in cases.iter().zip(values) {
        let (plain, track) = time_plain(case, limit);
        let checked = check::by_values(case, &track, value);
        let target = BAKE_TARGETS.iter().find(|target| target.0 == case.name).map(|target| target.1);
        let front =
            format!("| {} | {} | {} | {} ", case.name, plain.count, time(plain.seconds), times(plain.seconds / value));
        let target_text = target.map_or("–".into(), |target| target.to_string());
        match bake_apart("library", &case.name, plain.count, limit) {
            Err(why) => println!("{front}| {why} | – | {target_text} | no | – | {checked} |"),
            Ok(baked) => {
                let (multiple, ratio) = (baked.seconds / value, baked.seconds / plain.seconds);
                let met = verdict(ratio <= 2.0 && target.is_none_or(|target| multiple <= target));
                let equal = if (baked.count, baked.hash) == (plain.count, plain.hash) { "equal" } else { "DIFFERING" };
                let (taken, multiple) = (time(baked.seconds), times(multiple));
                println!("{front}| {taken} | {multiple} | {target_text} | {met} | {ratio:.2} | {equal}, {checked} |");
            }
        }
    }
}

/// One table of growth: a quantity doubled step by step, times by `per` change or whole.
fn growth_table(title: &str, steps: &[(usize, Growing)], per_change: bool, limit: Duration) {
    let what = if per_change { "time for each change" } else { "time" };
    println!("\n### {title}\n\n| n | changes | plain: {what} | exponent | library: {what} | exponent | tracks |");
    println!("|---|---|---|---|---|---|---|");
    let (mut before, mut over) = ([None, None], None);
    for (n, growing) in steps {
        let case = growing.case();
        let (plain, _) = time_plain(&case, limit);
        // Once over its limit, it is not asked for more.
        let library = over.map_or_else(|| bake_apart("library", &case.name, plain.count, limit), Err);
        over = library.as_ref().err().cloned();
        let equal = match &library {
            Ok(baked) if (baked.count, baked.hash) != (plain.count, plain.hash) => "DIFFERING",
            Ok(_) => "equal",
            Err(_) => "–",
        };
        let mut cells = String::new();
        for (side, taken) in [Ok(plain), library].into_iter().enumerate() {
            let taken = taken.map(|t| t.seconds / if per_change { t.count as f64 } else { 1.0 });
            let exponent = taken.as_ref().ok().zip(before[side]).map(|(now, then): (&f64, f64)| (now / then).log2());
            let exponent = exponent.map_or("–".into(), |exponent| format!("{exponent:.2}"));
            cells += &format!(" {} | {exponent} |", taken.clone().map_or_else(|why| why, time));
            before[side] = taken.ok();
        }
        println!("| {n} | {} |{cells} {equal} |", plain.count);
    }
}

/// Table 3.
fn growth_tables(limit: Duration) {
    println!("\n## Growth\n\nThe exponent is log2 of a row's time over that of the row before.");
    let base = Growing { starts: 1, knots: 5, samples: 64, spanned: 64, values: 64 };
    let doubled = |from: usize, to: usize| (0..).map(move |i| from << i).take_while(move |&n| n <= to);
    let all = |n| Growing { samples: n, spanned: n, values: n, ..base };
    let steps: Vec<_> = doubled(64, 4096).map(|n| (n, all(n))).collect();
    growth_table("Over changes: n samples, one start, 5 knots", &steps, false, limit);
    for (starts, word) in [(1, "one start"), (2, "two starts")] {
        let steps: Vec<_> = doubled(8, 512).map(|n| (n, Growing { starts, knots: n, ..base })).collect();
        growth_table(&format!("Over knots: n knots, {word}, 64 samples"), &steps, true, limit);
    }
    let steps: Vec<_> = doubled(64, 4096).map(|n| (n, Growing { samples: n, values: n, ..base })).collect();
    growth_table("Over samples: n samples, 64 of them read, one start, 5 knots", &steps, true, limit);
    let steps: Vec<_> = doubled(64, 4096).map(|n| (n, Growing { samples: n, spanned: n, ..base })).collect();
    growth_table("Over samples: n samples of 64 values, all read, one start, 5 knots", &steps, true, limit);
}

/// Table 4: 4,096 shuffled samples.
fn normalize_table() {
    let n = 4096;
    let mut random = Random(3);
    let mut order: Vec<usize> = (0..n).collect();
    for i in (1..n).rev() {
        order.swap(i, random.bits() as usize % (i + 1));
    }
    let times: Vec<f64> = order.iter().map(|&i| i as f64 * 0.37).collect();
    let (values, marks) = (times.clone(), vec![0u8; n]);
    let lent: Vec<_> = times.iter().map(|&t| (t, vt::Value::Double(t))).collect();
    // The Rust's function eats its list: the clock runs neither while a list is made nor while one is dropped.
    let calls = (0..1000).map(|_| {
        let list = black_box(lent.clone());
        let began = std::time::Instant::now();
        let sorted = black_box(sdf::normalize_time_samples(list));
        let taken = began.elapsed().as_secs_f64();
        drop(sorted);
        taken
    });
    let rust = measure::median(calls.collect());
    let ask = &mut |_| drop(black_box(tavitrozy::normalize(&times, &values, &marks).expect("no refusal")));
    let library = take_turns(1, &mut [ask])[0];
    println!(
        "\n## Normalising 4,096 shuffled samples\n\n| the Rust | library | library / Rust | target | met |\n|---|---|---|---|---|"
    );
    println!("| {} | {} | {:.2} | 2 | {} |", time(rust), time(library), library / rust, verdict(library / rust <= 2.0));
}

/// Table 5: reads of set A's track, the longest, at the times of so many of its changes, taken at random and asked again
/// and again. The fewer suit the caches and the branch predictor, the many neither. The target is for both.
fn read_table(cases: &[Case]) {
    let case = cases.iter().find(|case| case.name == "A").expect("set A");
    let track = Library::new(&case.set, &case.samples).track();
    let (head, times, values, marks) = (track.head().marked(), track.times(), track.values(), track.marks());
    println!(
        "\n## Reading a track of {} changes\n\n| times asked | plain Rust | library | target | met |",
        track.len()
    );
    println!("|---|---|---|---|---|");
    for count in [1 << 10, 1 << 16] {
        let mut random = Random(5);
        let any_change = |_| times[random.bits() as usize % times.len()];
        let asked: Vec<f64> = (0..count).map(any_change).collect();
        let ask_plain = &mut |i: usize| {
            let found = times.partition_point(|&time| time <= asked[i]);
            _ = black_box(found.checked_sub(1).map_or(head, |at| (marks[at], values[at])));
        };
        let ask_library = &mut |i: usize| _ = black_box(track.read(tavitrozy::StageTime(asked[i])));
        let taken = take_turns(count, &mut [ask_plain, ask_library]);
        let met = verdict(taken[1] <= 2e-7);
        println!("| {count} | {} | {} | 200 ns | {met} |", time(taken[0]), time(taken[1]));
    }
}

fn machine() {
    let told = std::fs::read_to_string("/proc/cpuinfo").unwrap_or_default();
    let name = told.lines().find_map(|line| line.strip_prefix("model name")).unwrap_or("unknown");
    let cores = told.lines().filter(|line| line.starts_with("processor")).count();
    println!("Machine: {}, {cores} cores, one used.", name.trim_start_matches([' ', '\t', ':']));
}

fn main() {
    let setting = |name: &str, default: &str| std::env::var(name).unwrap_or_else(|_| default.to_owned());
    let limit = Duration::from_secs(setting("LIMIT", "20").parse().expect("LIMIT in seconds"));
    let arguments: Vec<String> = std::env::args().skip(1).collect();
    match arguments.iter().map(String::as_str).collect::<Vec<_>>()[..] {
        ["bake", side, name, room] => tell_bake(side, name, room.parse().expect("a count")),
        ["check", cases, replies] => check::by_replies(cases, replies),
        ["limits"] => std::io::stdout().write_all(&limits::text()).expect("written"),
        ["read"] => read_table(&limits::cases()),
        ["sorts"] => {
            sorts::sort_table();
            sorts::call_table();
        }
        ["dispatcher"] => {
            machine();
            dispatcher::value_table();
            dispatcher::call_table();
        }
        _ => {
            machine();
            let cases: Vec<Case> = limits::cases().into_iter().chain(sets::everyday()).collect();
            let values = value_table(&cases);
            bake_table(&cases, &values, limit);
            growth_tables(limit);
            normalize_table();
            read_table(&cases);
            sorts::sort_table();
            sorts::call_table();
            dispatcher::value_table();
            dispatcher::call_table();
        }
    }
}
