//! A small seedable source of chance.

/// Steps a 64-bit counter by an odd constant and mixes its bits (the splitmix scheme), so that
/// neighbouring seeds give unrelated runs.
#[derive(Clone)]
pub struct Chance {
    counter: u64,
}

const STEP: u64 = 0x9e37_79b9_7f4a_7c15;

impl Chance {
    pub fn seeded(seed: u64) -> Chance {
        Chance { counter: seed }
    }

    /// The source of one case, so that a case can be made again without the ones before it.
    pub fn of_case(seed: u64, case: u64) -> Chance {
        let mut of_seed = Chance::seeded(seed);
        Chance::seeded(of_seed.next() ^ case.wrapping_mul(STEP))
    }

    pub fn next(&mut self) -> u64 {
        self.counter = self.counter.wrapping_add(STEP);
        let mut bits = self.counter;
        bits = (bits ^ (bits >> 30)).wrapping_mul(0xbf58_476d_1ce4_e5b9);
        bits = (bits ^ (bits >> 27)).wrapping_mul(0x94d0_49bb_1331_11eb);
        bits ^ (bits >> 31)
    }

    /// A number below a limit that is not 0.
    pub fn below(&mut self, limit: u32) -> u32 {
        ((self.next() >> 32) * u64::from(limit) >> 32) as u32
    }

    pub fn index(&mut self, length: usize) -> usize {
        self.below(length as u32) as usize
    }

    /// A number from low to high, both included.
    pub fn between(&mut self, low: u32, high: u32) -> u32 {
        low + self.below(high - low + 1)
    }

    pub fn one_in(&mut self, times: u32) -> bool {
        self.below(times) == 0
    }

    pub fn pick<T: Copy>(&mut self, from: &[T]) -> T {
        from[self.index(from.len())]
    }

    pub fn byte(&mut self) -> u8 {
        self.below(256) as u8
    }

    /// A word a task may deliver; the ends of the range come up often.
    pub fn word(&mut self) -> u32 {
        match self.below(8) {
            0 => self.pick(&[0, 1, u32::MAX, 0x8000_0000]),
            _ => self.next() as u32,
        }
    }

    /// The numbers below a length in some order.
    pub fn shuffled(&mut self, length: usize) -> Vec<usize> {
        let mut numbers: Vec<usize> = (0..length).collect();
        self.shuffle(&mut numbers);
        numbers
    }

    pub fn shuffle<T>(&mut self, items: &mut [T]) {
        for last in (1..items.len()).rev() {
            let other = self.index(last + 1);
            items.swap(last, other);
        }
    }
}
