//! Several sets on one part, written out from the document alone, apart from the Rust, the definitions and the code: the
//! order in force, the set that answers, and each set's own samples.

use std::cmp::Ordering;

use crate::calls::Samples;
use crate::calls::dispatcher::{Label, Order, SetSamples};
use crate::plain::Set;

/// A set of a dispatcher, which has them in the order of acceptance.
#[derive(Clone, Copy)]
pub struct Named<'a> {
    pub label: &'a Label,
    pub set: &'a Set,
}

/// A set by its number in the order of acceptance, and its place in the order in force.
#[derive(Clone, Copy, Debug, PartialEq)]
pub struct Answering {
    pub set: usize,
    pub place: usize,
}

/// The first byte that differs decides; a name comes before the longer ones that begin with it.
fn byte_order(a: &[u8], b: &[u8]) -> Ordering {
    match a.iter().zip(b).find(|(a, b)| a != b) {
        Some((a, b)) => a.cmp(b),
        None => a.len().cmp(&b.len()),
    }
}

/// The names of a list that 23 does not refuse.
pub fn listed(order: &Order) -> Vec<&[u8]> {
    let mut from = 0;
    let name = |&end: &u64| &order.bytes[std::mem::replace(&mut from, end as usize)..end as usize];
    order.ends.iter().map(name).collect()
}

/// The set of a name.
pub fn named(sets: &[Named<'_>], name: &[u8]) -> Option<usize> {
    sets.iter().position(|set| set.label.name == name)
}

/// Without a list all sets, in byte order of their names; else the sets that it names, each at its first mention.
pub fn in_force(sets: &[Named<'_>], order: Option<&Order>) -> Vec<usize> {
    let Some(order) = order else {
        let mut all: Vec<usize> = (0..sets.len()).collect();
        all.sort_by(|&a, &b| byte_order(&sets[a].label.name, &sets[b].label.name));
        return all;
    };
    let mut mentioned = Vec::new();
    for set in listed(order).into_iter().filter_map(|name| named(sets, name)) {
        if !mentioned.contains(&set) {
            mentioned.push(set);
        }
    }
    mentioned
}

/// The first in the order that has a start and declares; those that do not are counted in its place.
pub fn answering(sets: &[Named<'_>], order: Option<&Order>) -> Option<Answering> {
    let in_force = in_force(sets, order);
    let place = in_force.iter().position(|&set| sets[set].label.declares && !sets[set].set.starts.is_empty())?;
    Some(Answering { set: in_force[place], place })
}

/// Each set's part of the samples, whose counts and ends are such as 1 does not refuse for sets of so many clips.
pub fn own_samples(s: &SetSamples, clips: &[usize]) -> Vec<Samples> {
    let (mut first, mut first_end) = (0, 0);
    let mut own = Vec::new();
    for (&count, &clips) in s.counts.iter().zip(clips) {
        let (part, ends) = (first..first + count as usize, first_end..first_end + clips);
        (first, first_end) = (part.end, ends.end);
        own.push(Samples {
            ends: s.lists.ends[ends].to_vec(),
            times: s.lists.times[part.clone()].to_vec(),
            values: s.lists.values[part.clone()].to_vec(),
            marks: s.lists.marks[part].to_vec(),
        });
    }
    own
}
