//! Tracks from the Rust's values where they are not too many, else from the document's.

use crate::doubles::{at, place};
use crate::lent::Rust;
use crate::notes::Notes;
use crate::plain::{self, Read};
use crate::track::{self, Track};

pub fn bake(rust: &mut Rust<'_>, notes: &mut Notes) -> Track {
    let read = rust.document();
    let candidates = track::candidates(&read);
    let plain = read.set;
    let longest = (0..plain.clips).map(|clip| read.clip(clip).len()).max().unwrap_or(0);
    let window = if plain.starts.len() > 1 { plain.knots.len() + 1 } else { 1 };
    let rust_work = candidates.len() * (plain.knots.len() + 200 + longest * window);
    if rust_work > 20_000_000 {
        notes.counts.tracks[1] += 1;
        let track = track::walk(&candidates, |t| read.value(t));
        if notes.check {
            spot_check(rust, &track, notes);
            count_zeros(&track, &candidates, &read, notes);
        }
        return track;
    }
    notes.counts.tracks[0] += 1;
    let baked = track::walk(&candidates, |t| rust.value(t));
    if notes.probing && candidates.len() <= 30 {
        let mut near = candidates.clone();
        near.extend(rust.lent.samples.times.iter().map(|&t| place(t)));
        probe(rust, &baked, &near, notes);
    }
    if notes.check {
        let text = track::walk(&candidates, |t| read.value(t));
        notes.compare("track", (baked.head, track::hash(&baked.changes)), (text.head, track::hash(&text.changes)));
        count_zeros(&baked, &candidates, &read, notes);
    }
    baked
}

fn count_zeros(track: &Track, candidates: &[i64], read: &Read<'_>, notes: &mut Notes) {
    let zero = plain::number(0.0);
    let written = track.head == zero || track.changes.iter().any(|change| change.1 == zero);
    notes.counts.zeros[0] += u64::from(written);
    notes.counts.zeros[1] += track::turned_zeros(candidates, |t| read.value(t)) as u64;
}

/// The track against the Rust's value at every double within 2,000 places of these, and at doubles from all over: read
/// held it is alike, and a double is a change exactly if its value is not alike to the one below.
fn probe(rust: &mut Rust<'_>, track: &Track, near: &[i64], notes: &mut Notes) {
    let mut places: Vec<i64> = near.iter().flat_map(|&n| n - 2000..=n + 2000).collect();
    let mut random = 0x9e37_79b9_7f4a_7c15u64 ^ near.len() as u64;
    for _ in 0..1000 {
        random = random.wrapping_mul(6_364_136_223_846_793_005).wrapping_add(1_442_695_040_888_963_407);
        places.push(place(f64::from_bits(random)));
    }
    places.sort_unstable();
    places.dedup();
    let most = place(f64::MAX);
    let mut before = None;
    for p in places.into_iter().filter(|p| p.abs() <= most) {
        let t = at(p);
        let last = track.changes.iter().rev().find(|c| c.0 <= t);
        let held = last.map_or(track.head, |c| c.1);
        let value = rust.value(t);
        notes.counts.probed += 1;
        if !value.alike(held) {
            notes.differs(&format!("track at {t:e}"), value, held);
        }
        let changes = last.is_some_and(|c| c.0 == t);
        if let Some((_, below)) = before.filter(|&(q, below)| q == p - 1 && changes == value.alike(below)) {
            notes.differs(&format!("change at {t:e}"), (below, value), changes);
        }
        before = Some((p, value));
    }
}

/// The Rust's values at some changes and at the doubles below them.
fn spot_check(rust: &mut Rust<'_>, track: &Track, notes: &mut Notes) {
    for i in (0..track.changes.len()).step_by(track.changes.len() / 20 + 1) {
        let (time, text) = track.changes[i];
        let below = if i == 0 { track.head } else { track.changes[i - 1].1 };
        let values = (rust.value(at(place(time) - 1)).written(), rust.value(time).written());
        notes.compare("long track", values, (below, text));
    }
    let head = rust.value(f64::MIN).written();
    notes.compare("long track's head", head, track.head);
}
