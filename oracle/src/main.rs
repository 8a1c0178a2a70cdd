//! The Rust as oracle: case text in, replies out; and a generator and a comparer of such text.
#![allow(dead_code)]

#[path = "standins/gf.rs"]
mod gf;
#[path = "standins/pcp.rs"]
mod pcp;
#[path = "standins/sdf.rs"]
mod sdf;
#[path = "standins/tf.rs"]
mod tf;
#[path = "standins/vt.rs"]
mod vt;

mod answers;
mod bake;
mod beyond;
mod calls;
mod compare;
mod desk;
mod dispatcher;
mod dispatcher_cases;
mod dispatcher_numbers;
mod doubles;
mod examine;
mod figures;
mod known_sets;
mod labels;
mod lent;
mod name_lists;
mod notes;
mod numbers;
mod patterns;
mod plain;
mod plain_dispatcher;
mod prepared;
mod random;
mod random_cases;
mod read_cases;
mod sample;
mod setless;
mod shares;
mod short_cases;
mod short_dispatcher;
mod slot_cases;
mod text;
mod track;
mod writer;

use std::io::{self, BufRead, Write};

use answers::Answers;
use notes::Counts;
use text::{Line, Words};
use writer::Writer;

/// What a run has to tell: differences between Rust and document, and what was counted.
struct Told {
    differences: usize,
    counts: Counts,
}

/// Answers the case text of `input`. With `check`, tells on standard error where Rust and document differ.
fn answer(
    input: &mut dyn BufRead,
    output: &mut dyn Write,
    check: bool,
    timed: bool,
    probing: bool,
) -> io::Result<Told> {
    let mut answers = Answers::new(check, probing);
    let mut line = Vec::new();
    let mut case = String::new();
    let mut differences = 0;
    while input.read_until(b'\n', &mut line)? > 0 {
        let mut words = Words::new(&line);
        if let Some(first) = words.word() {
            let mut out = Line::default();
            let began = std::time::Instant::now();
            match calls::read(first, words) {
                Some(call) => {
                    if let calls::Call::Case(name) = &call {
                        case.clone_from(name);
                    }
                    answers.answer(call, &mut out)
                }
                None => out.word("unreadable").end(),
            }
            if timed && !out.0.is_empty() {
                let head: String = String::from_utf8_lossy(&out.0).chars().take(60).collect();
                eprintln!("{:>10.3} ms  {case}  {}", began.elapsed().as_secs_f64() * 1e3, head.trim_end());
            }
            output.write_all(&out.0)?;
            for difference in answers.notes.differences.drain(..) {
                differences += 1;
                eprintln!("{case}: {}\n  {difference}", String::from_utf8_lossy(&line).trim_end());
            }
        }
        line.clear();
    }
    output.flush()?;
    Ok(Told { differences, counts: answers.notes.counts })
}

/// What a check counted, on standard error.
fn tell(counts: &Counts) {
    let Counts { tracks, zeros, reads, chains, installed, dispatched, placed, .. } = counts;
    eprintln!("{} tracks by the Rust's values, {} by the document's", tracks[0], tracks[1]);
    eprintln!("{} of them write a value zero; {} times a zero's sign alone changes", zeros[0], zeros[1]);
    eprintln!("{} replies to read, {} of them with a sample", reads[0], reads[1]);
    eprintln!("{} sets retimed twice or more often, {} three times or more", chains[0], chains[1]);
    eprintln!(
        "{} prepared sets installed, {} of them prepared before another was installed, {} again after a retiming",
        installed[0], installed[1], installed[2]
    );
    eprintln!(
        "{dispatched} replies to a dispatcher's calls, {} of them values and tracks, {} of these of a set, {} of one that is \
         not the first in its order",
        placed[0], placed[1], placed[2]
    );
}

const USAGE: &str =
    "oracle [check | timed | probe | test | gen SEED REPLIES | short PART OF | compare CASES A B | sample FOLDER]
  (nothing)            case text on standard input, replies on standard output
  check                the same, and every reply worked out from docs/VALUE-CLIPS.md too; differences go to standard error
  timed                the same, with the time of each reply on standard error
  test                 the worked figures, and what the Rust does beyond the document
  gen SEED REPLIES     case text from a seed, at least that many replies' worth
  short PART OF        every OF-th of all short sets and lists, beginning with PART
  compare CASES A B    two lists of replies to the same case text
  sample FOLDER        the stored sample";

fn main() -> io::Result<()> {
    let arguments: Vec<String> = std::env::args().skip(1).collect();
    let words: Vec<&str> = arguments.iter().map(String::as_str).collect();
    let mut input = io::BufReader::with_capacity(1 << 20, io::stdin());
    let mut output = io::BufWriter::with_capacity(1 << 20, io::stdout());
    let number = |word: &str| word.parse::<u64>().unwrap_or_else(|_| panic!("not a number: {word}"));
    match words[..] {
        [] => answer(&mut input, &mut output, false, false, false).map(drop),
        ["timed"] => answer(&mut input, &mut output, false, true, false).map(drop),
        ["check"] => {
            let Told { differences, counts } = answer(&mut input, &mut output, true, false, false)?;
            tell(&counts);
            eprintln!("{differences} differences between Rust and document");
            std::process::exit((differences > 0).into());
        }
        ["probe"] => {
            let Told { differences, counts } = answer(&mut input, &mut io::sink(), false, false, true)?;
            println!("{} tracks, {} doubles probed, {differences} differing", counts.tracks[0], counts.probed);
            std::process::exit((differences > 0).into());
        }
        ["gen", seed, replies] => {
            random_cases::write(number(seed), number(replies), &mut Writer::new(&mut output));
            output.flush()
        }
        ["short", part, of] => {
            short_cases::write(number(part) as usize, number(of) as usize, &mut Writer::new(&mut output));
            output.flush()
        }
        ["compare", cases, left, right] => {
            let counts = compare::compare(cases, left, right, 5)?;
            let equal = counts.replies - counts.differing - counts.missing.min(counts.replies);
            println!(
                "{} replies, {equal} equal, {} differing, {} missing",
                counts.replies, counts.differing, counts.missing
            );
            std::process::exit((counts.differing + counts.missing > 0).into());
        }
        ["sample", folder] => sample::write(folder.as_ref()),
        ["test"] => std::process::exit((!(figures::test() & beyond::test())).into()),
        _ => {
            eprintln!("{USAGE}");
            std::process::exit(2);
        }
    }
}
