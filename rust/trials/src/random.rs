//! A small generator of numbers (splitmix64), so that a seed gives the same
//! sessions on every machine.

pub struct Random(u64);

impl Random {
    pub fn new(seed: u64) -> Random {
        Random(seed)
    }

    pub fn number(&mut self) -> u64 {
        self.0 = self.0.wrapping_add(0x9E37_79B9_7F4A_7C15);
        let mut mixed = self.0;
        mixed = (mixed ^ (mixed >> 30)).wrapping_mul(0xBF58_476D_1CE4_E5B9);
        mixed = (mixed ^ (mixed >> 27)).wrapping_mul(0x94D0_49BB_1331_11EB);
        mixed ^ (mixed >> 31)
    }

    /// 0 to `count` - 1.
    pub fn below(&mut self, count: u64) -> u64 {
        self.number() % count
    }

    /// `low` to `high`, both included; `low` where `high` lies below it.
    pub fn between(&mut self, low: u64, high: u64) -> u64 {
        low + self.below(high.saturating_sub(low).saturating_add(1))
    }

    /// True `times` times in `of`.
    pub fn chance(&mut self, times: u64, of: u64) -> bool {
        self.below(of) < times
    }

    pub fn pick<T: Copy>(&mut self, from: &[T]) -> T {
        from[self.below(from.len() as u64) as usize]
    }

    /// One of the pairs' values, each as often as its weight says.
    pub fn weighted<T: Copy>(&mut self, from: &[(u64, T)]) -> T {
        let mut place = self.below(from.iter().map(|(weight, _)| weight).sum());
        for &(weight, value) in from {
            if place < weight {
                return value;
            }
            place -= weight;
        }
        unreachable!("the place lies within the sum of the weights")
    }

    /// The value, one less or one more: where a rule turns. No more than can be
    /// written.
    pub fn near(&mut self, value: u64) -> u64 {
        self.pick(&[value.saturating_sub(1), value, value, value + 1]).min((1 << 63) - 1)
    }

    /// The value, one less or one more, up to 2^64 - 1: a call takes what cannot be written.
    pub fn about(&mut self, value: u64) -> u64 {
        self.pick(&[value.saturating_sub(1), value, value, value.saturating_add(1)])
    }

    /// A value at or around a width's edge, up to 2^64 - 1.
    pub fn widest(&mut self) -> u64 {
        let edge = self.pick(&[0, 1 << 32, 1 << 48, 1 << 49, 1 << 63, u64::MAX]);
        self.about(edge)
    }

    /// A value at or around a width's edge that can still be written.
    pub fn wide(&mut self) -> u64 {
        let edge = self.pick(&[1 << 16, 1 << 32, 1 << 48, 1 << 62, (1 << 63) - 2]);
        self.near(edge)
    }
}
