//! Numbers that look random, and are the same for the same input.

pub struct Dice(u64);

impl Dice {
    /// Dice that depend on each byte of the text.
    pub fn of(text: &[u8]) -> Dice {
        let mut dice = Dice(0x9e37_79b9_7f4a_7c15);
        for byte in text {
            dice.0 ^= u64::from(*byte) + 1;
            dice.throw();
        }
        dice
    }

    fn throw(&mut self) -> u64 {
        self.0 = self
            .0
            .wrapping_mul(6_364_136_223_846_793_005)
            .wrapping_add(1_442_695_040_888_963_407);
        self.0 >> 33
    }

    /// A number below `count`, which is at least 1.
    pub fn below(&mut self, count: usize) -> usize {
        self.throw() as usize % count
    }

    pub fn one_in(&mut self, count: usize) -> bool {
        self.below(count) == 0
    }

    pub fn pick<'a, X>(&mut self, of: &'a [X]) -> &'a X {
        &of[self.below(of.len())]
    }
}
