//! A small generator of numbers (SplitMix64), and the doubles that cases are made of.

use crate::doubles::{FAR, at, place};

pub struct Random(u64);

impl Random {
    pub fn new(seed: u64) -> Self {
        let mut random = Random(seed.wrapping_mul(0x2545f4914f6cdd1d) ^ 0x9e3779b97f4a7c15);
        random.bits();
        random
    }

    pub fn bits(&mut self) -> u64 {
        self.0 = self.0.wrapping_add(0x9e3779b97f4a7c15);
        let mut z = self.0;
        z = (z ^ z >> 30).wrapping_mul(0xbf58476d1ce4e5b9);
        z = (z ^ z >> 27).wrapping_mul(0x94d049bb133111eb);
        z ^ z >> 31
    }

    pub fn below(&mut self, n: usize) -> usize {
        ((u128::from(self.bits()) * n as u128) >> 64) as usize
    }

    /// From `low` to `high`, both included.
    pub fn between(&mut self, low: usize, high: usize) -> usize {
        low + self.below(high - low + 1)
    }

    /// True in `percent` of a hundred.
    pub fn chance(&mut self, percent: usize) -> bool {
        self.below(100) < percent
    }

    pub fn pick<T: Copy>(&mut self, list: &[T]) -> T {
        list[self.below(list.len())]
    }

    pub fn shuffle<T>(&mut self, list: &mut [T]) {
        for i in (1..list.len()).rev() {
            list.swap(i, self.below(i + 1));
        }
    }

    /// In [0, 1).
    pub fn unit(&mut self) -> f64 {
        (self.bits() >> 11) as f64 / 9007199254740992.0
    }

    /// Some places up or down.
    pub fn near(&mut self, d: f64, places: usize) -> f64 {
        let by = self.between(0, 2 * places) as i64 - places as i64;
        if by == 0 { d } else { at(place(d) + by) }
    }

    fn signed(&mut self, d: f64) -> f64 {
        if self.chance(50) { -d } else { d }
    }

    /// A magnitude of any size up to the limit.
    fn any_size(&mut self) -> f64 {
        let exponent = self.between(0, 80) as i32 - 40;
        let d = (1.0 + self.unit()) * 2f64.powi(exponent);
        self.signed(d).clamp(-FAR, FAR)
    }

    /// A zero, a limit, a subnormal or another double at an edge; a listed time.
    pub fn edge(&mut self) -> f64 {
        let d = match self.below(9) {
            0 | 1 => 0.0,
            2 => FAR,
            3 => at(place(FAR) - self.between(1, 3) as i64),
            4 => at(self.between(1, 4) as i64),
            5 => f64::MIN_POSITIVE,
            6 => at(place(f64::MIN_POSITIVE) - 1),
            7 => 1.0,
            _ => 2f64.powi(self.between(0, 50) as i32 - 12).min(FAR),
        };
        self.signed(d)
    }

    /// A double that no listed time may be.
    pub fn unlisted(&mut self) -> f64 {
        let d = match self.below(5) {
            0 => f64::NAN,
            1 => f64::INFINITY,
            2 => at(place(FAR) + 1),
            3 => f64::MAX,
            _ => FAR * (1.0 + self.unit() * 100.0) * 1.0000001,
        };
        self.signed(d)
    }

    /// A finite double of any size.
    pub fn finite(&mut self) -> f64 {
        match self.below(4) {
            0 => {
                let d = f64::from_bits(self.bits());
                if d.is_finite() { d } else { 1.5 }
            }
            1 => self.signed(f64::MAX),
            2 => self.edge(),
            _ => self.any_size(),
        }
    }

    /// A value's bits: zeros and small numbers for the most part, so that some are alike.
    pub fn value(&mut self) -> f64 {
        match self.below(12) {
            0 => self.pick(&[f64::INFINITY, f64::NEG_INFINITY, f64::MIN_POSITIVE, f64::MAX, 5e-324, -5e-324]),
            1 => self.finite(),
            2 | 3 => self.zero(),
            _ => self.between(1, 6) as f64,
        }
    }

    /// A zero of either sign.
    pub fn zero(&mut self) -> f64 {
        self.signed(0.0)
    }

    /// A block's slot: anything.
    pub fn slot(&mut self) -> f64 {
        match self.below(4) {
            0 => f64::NAN,
            1 => f64::from_bits(self.bits()),
            _ => self.value(),
        }
    }
}

/// Where a case's times come from.
#[derive(Clone, Copy, PartialEq)]
pub enum Scale {
    Whole,
    Tenths,
    Wide,
    Close(f64),
    Sizes,
    Edges,
}

impl Scale {
    pub fn any(random: &mut Random) -> Scale {
        match random.below(12) {
            0..=2 => Scale::Whole,
            3..=5 => Scale::Tenths,
            6..=7 => Scale::Wide,
            8 => {
                let base = random.pick(&[0.0, 1.0, -1.0, 0.1, 3.0, 1024.0, -7.3, 1e6, 2f64.powi(39), 5e-320]);
                Scale::Close(base)
            }
            9..=10 => Scale::Sizes,
            _ => Scale::Edges,
        }
    }

    pub fn time(self, random: &mut Random) -> f64 {
        match self {
            _ if random.below(40) == 0 => random.edge(),
            Scale::Whole => {
                let d = random.between(0, 12) as f64 - 4.0;
                if d == 0.0 && random.chance(30) { -0.0 } else { d }
            }
            Scale::Tenths => (random.between(0, 120) as f64 - 40.0) / 10.0,
            Scale::Wide => (random.unit() - 0.4) * 50.0,
            Scale::Close(base) => random.near(base, 12),
            Scale::Sizes => random.any_size(),
            Scale::Edges => {
                let d = random.edge();
                random.near(d, 2).clamp(-FAR, FAR)
            }
        }
    }
}
