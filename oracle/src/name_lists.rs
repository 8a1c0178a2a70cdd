//! Names of sets and order lists from a seed: names that are told apart late, lists with unknown and repeated names, long
//! ones, and such as do not close.

use crate::calls::dispatcher::Order;
use crate::dispatcher_numbers::{NAME, NAMES};
use crate::random::Random;

/// Beginnings of one another, the empty one, bytes below and above 128.
const TAILS: [&[u8]; 20] = [
    b"",
    b"a",
    b"b",
    b"ba",
    b"bb",
    b"bab",
    b"c",
    b"\x00",
    b"b\x00",
    b"\x7f",
    b"\x80",
    b"\xff",
    b"b\x7f",
    b"b\x80",
    b"b\xff\xff",
    b"B",
    b"aa",
    b"ab",
    b"ca",
    b"\x80\x00",
];

/// The most that any program which reads case text can hold.
const MOST_NAMES: usize = 300;
const MOST_NAME: usize = 300;
const MOST_BYTES: usize = 66_000;

/// The names of a case, each no more than once.
pub struct Names(Vec<Vec<u8>>);

impl Names {
    /// They may all begin with so many bytes that the longest are too long.
    pub fn new(random: &mut Random) -> Self {
        let length = match random.below(8) {
            0..=4 => 0,
            5 => random.between(1, 3),
            _ => random.between(NAME - 3, NAME),
        };
        let stem = vec![random.pick(b"ab\x00\x80\xff"); length];
        let mut names: Vec<Vec<u8>> = TAILS.iter().map(|tail| [&stem[..], tail].concat()).collect();
        random.shuffle(&mut names);
        Names(names)
    }

    /// The n-th name, the same at each asking; there are as many as are asked for.
    pub fn nth(&self, n: usize) -> Vec<u8> {
        match self.0.get(n) {
            Some(name) => name.clone(),
            None => format!("z{n}").into_bytes(),
        }
    }

    /// One of the first few names, seldom one that is too long; now and then one at the limit or above it.
    pub fn any(&self, random: &mut Random, few: usize) -> Vec<u8> {
        if random.chance(3) {
            return vec![random.pick(b"n\x80"); random.pick(&[NAME - 1, NAME, NAME + 1, MOST_NAME])];
        }
        let name = self.nth(random.below(few));
        if name.len() > NAME && random.chance(90) { self.any(random, few) } else { name }
    }

    /// An order list, or none, of these names, which sets have, and of the first few, which may be unknown.
    pub fn order(&self, random: &mut Random, known: &[&[u8]], few: usize) -> Option<Order> {
        match random.below(40) {
            0..=7 => None,
            8 => Some(Order::default()),
            9..=15 => Some(all(random, known)),
            16..=19 => Some(self.damaged(random, known, few)),
            20 if random.chance(60) => Some(self.long(random, known, few)),
            _ => {
                let mentions = random.between(1, 6);
                Some(self.some(random, known, few, mentions))
            }
        }
    }

    /// So many mentions, repeated and unknown ones among them.
    fn some(&self, random: &mut Random, known: &[&[u8]], few: usize, mentions: usize) -> Order {
        let mention = |_| match known.len() {
            1.. if random.chance(60) => random.pick(known).to_vec(),
            _ => self.any(random, few),
        };
        Order::of(&(0..mentions).map(mention).collect::<Vec<_>>())
    }

    /// As many names as a list may have, or more; with a long stem some of them.
    fn long(&self, random: &mut Random, known: &[&[u8]], few: usize) -> Order {
        let mentions = random.pick(&[NAMES - 1, NAMES, NAMES, NAMES + 1, NAMES + 1, MOST_NAMES]);
        let mut order = self.some(random, known, few, mentions);
        let held = order.ends.partition_point(|&end| end <= MOST_BYTES as u64);
        order.ends.truncate(held);
        order.bytes.truncate(order.ends.last().map_or(0, |&end| end as usize));
        order
    }

    /// A list whose ends, most often, no longer fit its bytes.
    fn damaged(&self, random: &mut Random, known: &[&[u8]], few: usize) -> Order {
        let mentions = random.between(1, 4);
        let mut order = self.some(random, known, few, mentions);
        let (end, length) = (random.below(order.ends.len()), order.bytes.len() as u64);
        match random.below(9) {
            0 => order.bytes.push(b'a'),
            1 => _ = order.bytes.pop(),
            2 => order.ends.clear(),
            3 => _ = order.ends.pop(),
            4 => order.ends.push(random.pick(&[0, length, length + 1])),
            5 => order.ends.reverse(),
            6 => order.ends[end] = random.pick(&[0, length, length + 1, 1 << 32, u64::MAX, u64::MAX - 1]),
            7 => order.ends[end] = order.ends[end].wrapping_sub(1),
            _ => order.ends[end] += 1,
        }
        order
    }
}

/// All of these names, in any order.
fn all(random: &mut Random, names: &[&[u8]]) -> Order {
    let mut names: Vec<Vec<u8>> = names.iter().map(|name| name.to_vec()).collect();
    random.shuffle(&mut names);
    Order::of(&names)
}
