//! Inputs by seed and index: the same numbers give the same bytes everywhere.

pub mod aimed;
pub mod decimals;
pub mod floats;
pub mod hostile;
pub mod limits;
pub mod names;
pub mod pages;
pub mod parts;
pub mod requests;
pub mod roots;
pub mod sheets;
pub mod touching;

/// A source of numbers (splitmix64).
#[derive(Clone, Debug)]
pub struct Random {
    state: u64,
}

impl Random {
    /// The source for one index of a seed.
    pub fn new(seed: u64, index: u64) -> Self {
        let mut random = Self { state: seed };
        random.state = random.bits() ^ index.wrapping_mul(0xD1342543DE82EF95);
        random.state = random.bits();
        random
    }

    /// Any 64 bits.
    pub fn bits(&mut self) -> u64 {
        self.state = self.state.wrapping_add(0x9E3779B97F4A7C15);
        let mut mixed = self.state;
        mixed = (mixed ^ (mixed >> 30)).wrapping_mul(0xBF58476D1CE4E5B9);
        mixed = (mixed ^ (mixed >> 27)).wrapping_mul(0x94D049BB133111EB);
        mixed ^ (mixed >> 31)
    }

    /// A number below the count, which is not zero.
    pub fn below(&mut self, count: usize) -> usize {
        (self.bits() % count as u64) as usize
    }

    /// True once in so many times.
    pub fn once_in(&mut self, count: usize) -> bool {
        self.below(count) == 0
    }

    /// One of these.
    pub fn pick<T: Copy>(&mut self, of: &[T]) -> T {
        of[self.below(of.len())]
    }

    /// A float from 0 to 1, 1 left out.
    pub fn unit(&mut self) -> f64 {
        (self.bits() >> 11) as f64 / 9007199254740992.0
    }

    /// A float between minus and plus the radius.
    pub fn within(&mut self, radius: f64) -> f64 {
        (2.0 * self.unit() - 1.0) * radius
    }

    /// 1.0 or -1.0.
    pub fn sign(&mut self) -> f64 {
        self.pick(&[1.0, -1.0])
    }

    /// A float from 1 to 10, times ten to a power from the first to the last.
    pub fn decimal(&mut self, first: i32, last: i32) -> f64 {
        let exponent = first + self.below((last - first + 1) as usize) as i32;
        power(10.0, exponent) * (1.0 + 9.0 * self.unit())
    }

    /// x, or a float at most two steps away.
    pub fn near(&mut self, x: f64) -> f64 {
        match self.below(5) {
            0 => x.next_up(),
            1 => x.next_down(),
            2 => x.next_up().next_up(),
            3 => x.next_down().next_down(),
            _ => x,
        }
    }
}

/// The base to a whole power, by products or quotients one after the other.
pub fn power(base: f64, exponent: i32) -> f64 {
    let mut result = 1.0;
    for _ in 0..exponent.abs() {
        result = if exponent < 0 {
            result / base
        } else {
            result * base
        };
    }
    result
}
