//! A small pseudo-random generator (splitmix64).

/// The generator's state.
#[derive(Clone, Debug)]
pub struct Random {
    state: u64,
}

impl Random {
    /// The stream of one case under one seed.
    pub fn new(seed: u64, number: u64) -> Self {
        let mut random = Random { state: seed };
        random.state = random
            .bits()
            .wrapping_add(number.wrapping_mul(0xD1B5_4A32_D192_ED03));
        random.bits();
        random
    }

    /// The next 64 bits.
    pub fn bits(&mut self) -> u64 {
        self.state = self.state.wrapping_add(0x9E37_79B9_7F4A_7C15);
        let mut bits = self.state;
        bits = (bits ^ (bits >> 30)).wrapping_mul(0xBF58_476D_1CE4_E5B9);
        bits = (bits ^ (bits >> 27)).wrapping_mul(0x94D0_49BB_1331_11EB);
        bits ^ (bits >> 31)
    }

    /// A number below `bound`, which is not 0.
    pub fn below(&mut self, bound: usize) -> usize {
        (self.bits() % bound as u64) as usize
    }

    /// A number from `low` to `high`.
    pub fn between(&mut self, low: usize, high: usize) -> usize {
        low + self.below(high - low + 1)
    }

    /// A number from 0 to `most`, small ones as often as large ones: first its
    /// greatest number of bits is drawn, then the number.
    pub fn spread(&mut self, most: usize) -> usize {
        let bits = self.between(0, most.ilog2() as usize + 1);
        self.below(most.min((1 << bits) - 1) + 1)
    }

    /// True once in `count` times.
    pub fn one_in(&mut self, count: usize) -> bool {
        self.below(count) == 0
    }

    /// A place among `count` things, or behind the last.
    pub fn place(&mut self, count: usize) -> usize {
        self.below(count + 1)
    }

    pub fn byte(&mut self) -> u8 {
        self.bits() as u8
    }

    /// One of the items.
    pub fn pick<'a, T>(&mut self, items: &'a [T]) -> &'a T {
        &items[self.below(items.len())]
    }
}
