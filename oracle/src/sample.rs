//! The stored sample: the figures, the limits, and of many generated cases those that show something new, with the Rust's
//! replies. `sets` keeps to the calls that need no samples.

use std::collections::BTreeSet;
use std::{fs, io, path::Path};

use crate::calls::{Call, Explicit, Filling, ROOM};
use crate::writer::{Writer, has_reply};
use crate::{figures, random_cases, short_cases};

/// Cases longer than this are left out of the generated ones.
const LONGEST: usize = 3000;

/// The same of a dispatcher's, which have several sets.
const LONGEST_OF_SETS: usize = 6000;

const SETS: [&str; 20] = [
    "case",
    "explicit",
    "template",
    "examine",
    "prepared",
    "install",
    "retime",
    "dump",
    "active",
    "cliptime",
    "cliptimes",
    "name",
    "normalize",
    "keycmp",
    "dexplicit",
    "dtemplate",
    "dinstall",
    "dretime",
    "dsets",
    "ddump",
];

fn word(line: &str) -> &str {
    line.split_whitespace().next().unwrap_or("")
}

fn replies_to(text: &str) -> String {
    let mut out = Vec::new();
    crate::answer(&mut text.as_bytes(), &mut out, false, false, false).expect("in memory");
    String::from_utf8(out).expect("replies are ASCII")
}

/// A number up to 2, which stands for all above, or the word itself.
fn few(word: &str) -> String {
    word.parse::<u64>().map_or(word.to_owned(), |number| number.min(2).to_string())
}

/// What a call and its reply show, coarsely.
fn shows(call: &str, reply: &str) -> String {
    let words: Vec<&str> = reply.split_whitespace().collect();
    let kind = match words[0] {
        "refused" | "untimed" | "keycmp" => words[1].to_owned(),
        "value" => format!("{} {}", words[1], words[2] == "8000000000000000"),
        // Which clip and which place, of few.
        "read" => format!("{} {} {}", words[1], few(words[3]), few(words[4])),
        // A zero of mark 0 stands in the head or in a change.
        "track" => format!("{} {} {}", words[1], words[3].len().min(2), reply.contains(" 0 0000000000000000")),
        "trackhash" => format!("{} {}", words[1], words[3].len().min(2)),
        // Of which set in the order, of few; then as above.
        "dvalue" => format!("{} {}", few(words[1]), words[2]),
        "dread" => format!("{} {} {} {}", few(words[1]), words[2], few(words[4]), few(words[5])),
        "dtrack" => format!("{} {} {}", few(words[1]), words[2], words[4].len().min(2)),
        "dsets" => words[1].to_owned(),
        "active" => (words[1] == "none").to_string(),
        "set" | "times" | "ssamples" | "normalize" | "cliptimes" => words[1].len().to_string(),
        _ => String::new(),
    };
    format!("{} {} {} {kind}", word(call), call.split_whitespace().count().min(40) / 4, words[0])
}

/// What a call shows after that many accepted retimings of the set that stands.
fn shows_after(call: &str, reply: &str, retimings: usize) -> String {
    match word(call) {
        "retime" => format!("{} {reply}", retimings.min(4)),
        // Of each slot.
        "prepared" | "install" => format!("{} {call} {}", retimings.min(2), word(reply)),
        word => format!("{} {word}", retimings.min(2)),
    }
}

/// What a dispatcher's call shows with the order list that is lent: none, or so many names.
fn shows_with(call: &str, reply: &str, order: &str) -> String {
    match word(call) {
        "dvalue" | "dread" | "dtrack" => format!("{order} {}", reply.split_whitespace().take(2).collect::<String>()),
        _ => String::new(),
    }
}

/// The text's cases, each from its `case` line on.
fn cases(text: &str) -> Vec<String> {
    let mut list: Vec<String> = Vec::new();
    for line in text.lines().filter(|line| !line.trim().is_empty()) {
        if word(line) == "case" || list.is_empty() {
            list.push(String::new());
        }
        let last = list.last_mut().expect("pushed above");
        *last += line;
        *last += "\n";
    }
    list
}

fn kept(text: &str, sets: bool) -> String {
    let keep = |line: &&str| !sets || SETS.contains(&word(line));
    text.lines().filter(keep).map(|line| format!("{line}\n")).collect()
}

fn count(text: &str) -> usize {
    text.lines().filter(|line| has_reply(line.as_bytes())).count()
}

fn generated(write: impl Fn(&mut Writer<'_>)) -> String {
    let mut text = Vec::new();
    write(&mut Writer::new(&mut text));
    String::from_utf8(text).expect("case text is ASCII")
}

/// A list of doubles as decimals, where they are short ones: long lists would make most of the sample.
fn decimals(list: &[f64]) -> String {
    let words: String = list.iter().map(|d| format!(" {d}")).collect();
    format!("{}{words}", list.len())
}

/// Lists at their limits and one over.
fn limits(sets: bool) -> String {
    let line = |n: usize| (0..n).map(|i| i as f64 * 0.5).collect::<Vec<f64>>();
    let none = Filling { blocks: Vec::new(), mark: 2, value: 0.0, flag: false };
    let set = |starts, knots, blocks| {
        Call::Explicit(Explicit {
            clips: 256,
            start_times: line(starts),
            start_clips: vec![255.0; starts],
            knot_x: line(knots),
            knot_y: line(knots),
            filling: Filling { blocks: line(blocks), ..none.clone() },
        })
    };
    generated(|out| {
        out.call(&Call::Case("limits".into()));
        if sets {
            for (starts, knots, blocks) in [(257, 0, 0), (0, 513, 0), (0, 0, 257), (256, 512, 256)] {
                out.call(&set(starts, knots, blocks));
                out.call(&Call::Active(1000.0));
            }
            out.call(&Call::Dump);
            for t in [-1.0, 0.2, 127.5, 127.75, 255.5, 1e300] {
                out.call(&Call::Active(t));
                out.call(&Call::ClipTime(t));
            }
            return;
        }
        out.call(&set(2, 1, 0));
        for samples in [4097, 4096] {
            let values: Vec<f64> = (0..samples).map(|i| (i % 3) as f64).collect();
            let (times, values) = (decimals(&line(samples)), decimals(&values));
            let (ends, marks) = ("0 ".repeat(255), " 0".repeat(samples));
            out.line(&format!("samples ends 256 {ends}{samples} t {times} v {values} m {samples}{marks}"));
            for t in [0.0, 2000.25, 2047.5, 2047.75] {
                out.value_and_sample(t);
            }
            out.call(&Call::Track(ROOM));
            out.call(&Call::TrackHash);
        }
        // Without the knot every sample is read, the last one too.
        out.call(&set(2, 0, 0));
        for t in [0.25, 2000.25, 2047.5, f64::MAX] {
            out.value_and_sample(t);
        }
    })
}

/// All that a case shows.
fn all_shown(case: &str) -> BTreeSet<String> {
    let mut shown = BTreeSet::new();
    let (mut retimings, mut order) = (0, String::new());
    let replies = replies_to(case);
    let mut replies = replies.lines();
    for call in case.lines() {
        if !has_reply(call.as_bytes()) {
            if word(call) == "order" {
                order = call.split_whitespace().nth(2).map_or(String::new(), few);
            }
            continue;
        }
        let reply = replies.next().expect("a reply to each call");
        shown.extend([shows(call, reply), shows_after(call, reply, retimings), shows_with(call, reply, &order)]);
        retimings = match (word(call), reply) {
            ("retime", "ok") => retimings + 1,
            ("explicit" | "template" | "install", "ok") => 0,
            _ => retimings,
        };
    }
    shown
}

/// About that many calls: first the cases that show most that is new for their length, then others in order.
fn choose(text: &str, wanted: usize, longest: usize) -> String {
    let all: Vec<String> = cases(text).into_iter().filter(|case| case.len() <= longest).collect();
    let mut new: Vec<BTreeSet<String>> = all.iter().map(|case| all_shown(case)).collect();
    let mut chosen = vec![false; all.len()];
    let mut total = 0;
    let worth = |new: &BTreeSet<String>, i: usize| new.len() as f64 / count(&all[i]) as f64;
    while total < wanted {
        let best = (0..all.len()).max_by(|&i, &j| worth(&new[i], i).total_cmp(&worth(&new[j], j)).then(j.cmp(&i)));
        let Some(best) = best.filter(|&best| !new[best].is_empty()) else { break };
        chosen[best] = true;
        total += count(&all[best]);
        let shown = std::mem::take(&mut new[best]);
        new.iter_mut().for_each(|new| new.retain(|kind| !shown.contains(kind)));
    }
    for (i, case) in all.iter().enumerate() {
        if !chosen[i] && total < wanted {
            chosen[i] = true;
            total += count(case);
        }
    }
    all.into_iter().zip(chosen).filter(|(_, chosen)| *chosen).map(|(case, _)| case).collect()
}

/// The cases of the desk, and those of a dispatcher, which has at least a quarter of their lines.
fn apart(text: &str) -> (String, String) {
    let of_sets = |line: &&str| line.starts_with("order") || line.starts_with('d') && word(line) != "dump";
    let mainly = |case: &String| 4 * case.lines().filter(of_sets).count() >= case.lines().count();
    let (sets, desk): (Vec<_>, Vec<_>) = cases(text).into_iter().partition(mainly);
    (desk.concat(), sets.concat())
}

fn made(sets: bool) -> String {
    let (figures, _) = figures::calls_and_replies();
    let (short, short_sets) = apart(&generated(|out| short_cases::write(5, 1201, out)));
    let (random, random_sets) = apart(&generated(|out| random_cases::write(2026, 50_000, out)));
    let chosen = |text: &str, wanted, longest| choose(&kept(text, sets), wanted, longest);
    [
        kept(&figures, sets),
        limits(sets),
        chosen(&short, 500, LONGEST),
        chosen(&random, 1400, LONGEST),
        chosen(&short_sets, 200, LONGEST_OF_SETS),
        chosen(&random_sets, if sets { 330 } else { 1700 }, LONGEST_OF_SETS),
    ]
    .concat()
}

/// Writes the sample into a folder.
pub fn write(folder: &Path) -> io::Result<()> {
    for (sets, name, replies) in [(false, "cases.txt", "replies.txt"), (true, "sets.txt", "sets.replies.txt")] {
        let text = made(sets);
        fs::write(folder.join(name), &text)?;
        fs::write(folder.join(replies), replies_to(&text))?;
        println!("{name}: {} calls, {} bytes", count(&text), text.len());
    }
    Ok(())
}
