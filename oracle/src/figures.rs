//! figures.txt: the worked figures of docs/VALUE-CLIPS.md and its finer points, tried as assertions.

use crate::doubles::{at, place};
use crate::text::Line;
use crate::writer::has_reply;

const FIGURES: &str = include_str!("../figures.txt");

/// `x`, or with `^` the next double above, with `_` the next one below.
fn double(text: &str) -> f64 {
    let parse = |text: &str| text.parse::<f64>().unwrap_or_else(|_| panic!("not a double: {text}"));
    match (text.strip_suffix('^'), text.strip_suffix('_')) {
        (Some(below), _) => at(place(parse(below)) + 1),
        (_, Some(above)) => at(place(parse(above)) - 1),
        _ => parse(text),
    }
}

fn number(text: &str) -> usize {
    text.parse().unwrap_or_else(|_| panic!("not a number: {text}"))
}

/// What a word stands for: `x*n` for n words x, `a..b` for all whole numbers from a to b, `a..b*n` for both.
fn words(text: &str) -> Vec<String> {
    let (word, times) = text.split_once('*').map_or((text, 1), |(word, times)| (word, number(times)));
    let once = match word.split_once("..") {
        Some((from, to)) => (number(from)..=number(to)).map(|n| n.to_string()).collect(),
        None => vec![word.to_owned()],
    };
    vec![once; times].concat()
}

/// A line of figures.txt as case text.
fn spell(line: &str) -> String {
    let mut out = Line::default();
    let mut rest = line.trim();
    while let Some(first) = rest.chars().next() {
        let close = match first {
            '{' => '}',
            '[' => ']',
            '\'' => '\'',
            _ => ' ',
        };
        let from = if close == ' ' { 0 } else { 1 };
        let to = from + rest[from..].find(close).unwrap_or(rest.len() - from);
        let inner = &rest[from..to];
        rest = &rest[(to + from).min(rest.len())..];
        match first {
            '{' => _ = out.double(double(inner)),
            '[' => _ = out.doubles(&inner.split_whitespace().map(double).collect::<Vec<_>>()),
            '\'' => {
                let times = rest.strip_prefix('*').map(|more| &more[..more.find(' ').unwrap_or(more.len())]);
                rest = &rest[times.map_or(0, |times| times.len() + 1)..];
                out.bytes(&inner.as_bytes().repeat(times.map_or(1, number)));
            }
            _ => words(inner).iter().for_each(|word| _ = out.word(word)),
        }
        rest = rest.trim_start();
    }
    String::from_utf8(out.0).expect("figures are ASCII")
}

/// The calls and the replies that figures.txt wants.
pub fn calls_and_replies() -> (String, String) {
    let (mut calls, mut replies) = (String::new(), String::new());
    for line in FIGURES.lines().filter(|line| !line.starts_with(';') && !line.trim().is_empty()) {
        match line.split_once("=>") {
            Some((call, reply)) => {
                calls += &(spell(call) + "\n");
                replies += &(spell(reply) + "\n");
            }
            None => {
                calls += &(spell(line) + "\n");
                if line.starts_with("case") {
                    replies += &(spell(line) + "\n");
                }
            }
        }
    }
    (calls, replies)
}

/// Whether the Rust gives every figure, and the document's text with it.
pub fn test() -> bool {
    let (calls, replies) = calls_and_replies();
    let mut given = Vec::new();
    let differences =
        crate::answer(&mut calls.as_bytes(), &mut given, true, false, false).expect("in memory").differences;
    let given = String::from_utf8(given).expect("replies are ASCII");
    let asking: Vec<&str> = calls.lines().filter(|line| has_reply(line.as_bytes())).collect();
    let mut wrong = 0;
    for ((call, wanted), got) in asking.iter().zip(replies.lines()).zip(given.lines()) {
        if wanted != got {
            wrong += 1;
            println!("{call}\n  wanted {wanted}\n  given  {got}");
        }
    }
    let counts = (asking.len(), replies.lines().count(), given.lines().count());
    println!("{} figures, {wrong} wrong, {differences} where Rust and document differ", counts.0);
    counts.0 == counts.1 && counts.1 == counts.2 && wrong == 0 && differences == 0
}
