//! The plain Rust bake's tracks against the Rust's own values, and against the oracle's replies.

use crate::calls::{self, Call, Fields, Samples};
use crate::doubles::{at, place};
use crate::plain::{self, Answer, Set};
use crate::rust::Rust;
use crate::sets::{Case, Random};
use crate::text::{Line, Words};
use crate::track::{self, Track};
use crate::{bake, plain_track};

/// What a track gives at a stage time.
fn held(track: &Track, t: f64) -> Answer {
    let after = track.changes.partition_point(|change| change.0 <= t);
    if after == 0 { track.head } else { track.changes[after - 1].1 }
}

/// The track against the Rust's value at changes and the doubles below them, near starts and knots, at doubles from all
/// over and at the times asked about, for some two seconds' worth of values.
pub fn by_values(case: &Case, track: &Track, value: f64) -> String {
    let most = (2.0 / value).clamp(10.0, 4000.0) as usize;
    let mut random = Random(4);
    let set = &case.set;
    let mut times: Vec<f64> = track.changes.iter().map(|change| change.0).chain(set.start_times.clone()).collect();
    times.extend(&set.knot_x);
    times = times.iter().flat_map(|&t| [t, at(place(t) - 1)]).collect();
    times.extend((0..times.len().max(500)).map(|_| f64::from_bits(random.bits())).filter(|t| t.is_finite()));
    times.extend(&case.times);
    let mut side = Rust::new(set, &case.samples);
    let asked =
        (0..most.min(times.len())).map(|i| if most < times.len() { random.bits() as usize % times.len() } else { i });
    let (mut count, mut differing) = (0, 0);
    for i in asked {
        count += 1;
        differing += usize::from(!side.value(times[i]).alike(held(track, times[i])));
    }
    if differing == 0 { format!("{count} values equal") } else { format!("{differing} of {count} values DIFFERING") }
}

/// The reply to a question for a track.
fn reply(set: &Set, samples: &Samples, slots: Option<u64>) -> Line {
    let mut out = Line::default();
    let Some(slots) = slots else {
        let track = plain_track(set, samples);
        out.word("trackhash").number(track.head.mark.into()).bits(track.head.bits);
        out.number(track.changes.len() as u64).bits(track::hash(&track.changes));
        return out;
    };
    let slots = slots as usize;
    let (mut times, mut values, mut marks) = (vec![7.0; slots], vec![7.0; slots], vec![7; slots]);
    let baked = bake::bake(set, samples, &mut times, &mut values, &mut marks);
    let count = baked.map_or(0, |baked| baked.1);
    let untouched = times[count..].iter().chain(&values[count..]).all(|&slot| slot == 7.0);
    assert!(untouched && marks[count..].iter().all(|&mark| mark == 7), "slots past the reply are as they were");
    match baked {
        Err(number) => {
            out.word("refused").number(number.into());
        }
        Ok((head, _)) => {
            out.word("track").number(head.mark.into()).bits(head.bits).number(count as u64);
            for i in 0..count {
                out.double(times[i]).number(marks[i].into()).double(values[i]);
            }
        }
    }
    out
}

/// Every track of a case text, against the replies that the oracle gave.
pub fn by_replies(cases: &str, replies: &str) {
    let (cases, replies) = (std::fs::read(cases).expect(cases), std::fs::read(replies).expect(replies));
    let mut replies = replies.split(|&byte| byte == b'\n');
    let (mut set, mut samples): (Option<Set>, _) = (None, Samples::default());
    let mut slots: [Option<Set>; calls::PREPARED] = Default::default();
    let (mut count, mut differing) = (0, 0);
    for line in cases.split(|&byte| byte == b'\n') {
        let mut words = Words::new(line);
        let Some(first) = words.word() else { continue };
        let call = calls::read(first, words);
        if let Some(Call::Samples(lent)) = call {
            samples = lent;
            continue;
        }
        // A dispatcher's are lent without a reply too, and its tracks are the desk's.
        if call.as_ref().is_some_and(|call| !call.has_reply()) {
            continue;
        }
        let told = replies.next().expect("a reply");
        match (call, told == b"ok") {
            (Some(Call::Case(_)), _) => (set, samples, slots) = (None, Samples::default(), Default::default()),
            (Some(Call::Explicit(e)), true) => set = Some(plain::explicit(&e)),
            (Some(Call::Template(t)), true) => set = Some(plain::template(&t)),
            (Some(Call::Examine(slot, Fields::Explicit(e))), true) => slots[slot] = Some(plain::explicit(&e)),
            (Some(Call::Examine(slot, Fields::Template(t))), true) => slots[slot] = Some(plain::template(&t)),
            (Some(Call::Install(slot)), true) => set = slots[slot].clone(),
            (Some(Call::Retime(offset, scale)), true) => set = set.map(|set| plain::retime(&set, offset, scale)),
            (Some(Call::Track(slots)), _) => compare(&set, &samples, Some(slots), told, &mut count, &mut differing),
            (Some(Call::TrackHash), _) => compare(&set, &samples, None, told, &mut count, &mut differing),
            _ => {}
        }
    }
    println!("{count} tracks, {differing} differing");
    std::process::exit((differing > 0).into());
}

fn compare(
    set: &Option<Set>,
    samples: &Samples,
    slots: Option<u64>,
    told: &[u8],
    count: &mut usize,
    differing: &mut usize,
) {
    let refused = told.starts_with(b"refused ") && (slots.is_none() || told != b"refused 22");
    let Some(set) = set.as_ref().filter(|_| !refused) else { return };
    let mut out = reply(set, samples, slots);
    out.end();
    *count += 1;
    if out.0.trim_ascii_end() != told {
        *differing += 1;
        eprintln!("the oracle {}\n   bake.rs {}", String::from_utf8_lossy(told), String::from_utf8_lossy(&out.0));
    }
}
