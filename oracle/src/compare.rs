//! Holds two lists of replies against each other, and shows the case that led to each of the first differing ones.

use std::io::{self, BufRead, BufReader};
use std::{fs::File, path::Path};

use crate::writer::has_reply;

struct Lines(BufReader<File>);

impl Lines {
    fn open(path: &str) -> io::Result<Self> {
        let file = File::open(Path::new(path)).map_err(|e| io::Error::new(e.kind(), format!("{path}: {e}")))?;
        Ok(Lines(BufReader::with_capacity(1 << 20, file)))
    }

    fn next(&mut self) -> io::Result<Option<Vec<u8>>> {
        let mut line = Vec::new();
        if self.0.read_until(b'\n', &mut line)? == 0 {
            return Ok(None);
        }
        while line.last().is_some_and(|b| matches!(b, b'\n' | b'\r' | b' ')) {
            line.pop();
        }
        Ok(Some(line))
    }
}

#[derive(Default)]
pub struct Counts {
    pub replies: u64,
    pub differing: u64,
    /// Replies that one side has and the other has not.
    pub missing: u64,
}

fn shown(line: &[u8]) -> String {
    let text = String::from_utf8_lossy(line);
    match text.char_indices().nth(1500) {
        Some((end, _)) => format!("{}... ({} bytes)", &text[..end], line.len()),
        None => text.into_owned(),
    }
}

/// Whether a call sets up what later calls of its case are asked about.
fn sets_up(line: &[u8]) -> bool {
    let line = line.trim_ascii_start();
    let of_desk: [&[u8]; 7] = [b"case", b"explicit", b"template", b"examine", b"install", b"retime", b"samples"];
    let begins = |line: &[u8]| of_desk.iter().any(|word| line.starts_with(word));
    // The dispatcher's begin with a `d` more, but for the order.
    begins(line) || line.strip_prefix(b"d").is_some_and(begins) || line.starts_with(b"order")
}

/// Compares, telling the first `told` differing replies.
pub fn compare(cases: &str, left: &str, right: &str, told: u64) -> io::Result<Counts> {
    let (mut calls, mut a, mut b) = (Lines::open(cases)?, Lines::open(left)?, Lines::open(right)?);
    let mut counts = Counts::default();
    let mut set_up: Vec<Vec<u8>> = Vec::new();
    while let Some(call) = calls.next()? {
        if call.starts_with(b"case") {
            set_up.clear();
        }
        if has_reply(&call) {
            counts.replies += 1;
            let (one, other) = (a.next()?, b.next()?);
            if one.is_none() || other.is_none() {
                counts.missing += 1;
            } else if one != other {
                counts.differing += 1;
            }
            if one != other && counts.differing + counts.missing <= told {
                println!("---- reply {}", counts.replies);
                set_up.iter().for_each(|line| println!("{}", shown(line)));
                println!("{}", shown(&call));
                let reply = |reply: &Option<Vec<u8>>| reply.as_ref().map_or("(no reply)".into(), |line| shown(line));
                println!("  {left}: {}\n  {right}: {}", reply(&one), reply(&other));
            }
        }
        if sets_up(&call) {
            set_up.push(call);
        }
    }
    while a.next()?.is_some() | b.next()?.is_some() {
        counts.missing += 1;
    }
    Ok(counts)
}
