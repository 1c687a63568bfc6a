//! The generator of random numbers behind the makers of logs and of tables: splitmix64.

/// The step of splitmix64: 2^64 divided by the golden ratio, made odd.
const STEP: u64 = 0x9E37_79B9_7F4A_7C15;

/// Splitmix64: a counter in steps of `STEP`, each value scrambled. The same
/// start gives the same numbers everywhere.
#[derive(Clone, Debug)]
pub struct Generator {
    counter: u64,
}

/// The scrambling of splitmix64.
fn scrambled(value: u64) -> u64 {
    let value = (value ^ (value >> 30)).wrapping_mul(0xBF58_476D_1CE4_E5B9);
    let value = (value ^ (value >> 27)).wrapping_mul(0x94D0_49BB_1331_11EB);
    value ^ (value >> 31)
}

impl Generator {
    /// The generator for one log: seed and index are scrambled one after the
    /// other, so that neighbouring indexes share no run of numbers.
    pub fn new(seed: u64, index: u64) -> Generator {
        let of_seed = scrambled(seed.wrapping_add(STEP));
        Generator {
            counter: scrambled(of_seed ^ index.wrapping_mul(STEP)),
        }
    }

    /// The next 64 bits.
    pub fn bits(&mut self) -> u64 {
        self.counter = self.counter.wrapping_add(STEP);
        scrambled(self.counter)
    }

    /// A number below the limit, which is not 0. The remainder is a little
    /// uneven, which does not matter for limits this small.
    pub fn below(&mut self, limit: usize) -> usize {
        (self.bits() % limit as u64) as usize
    }

    /// A number from the first to the last, both included.
    pub fn between(&mut self, first: usize, last: usize) -> usize {
        first + self.below(last - first + 1)
    }

    /// True in so many of a hundred cases.
    pub fn chance(&mut self, percent: usize) -> bool {
        self.below(100) < percent
    }

    /// Any byte.
    pub fn byte(&mut self) -> u8 {
        self.below(256) as u8
    }

    /// One of the values, which are not none.
    pub fn pick<T: Copy>(&mut self, values: &[T]) -> T {
        values[self.below(values.len())]
    }

    /// One of the values, the first ones more often.
    pub fn pick_early<T: Copy>(&mut self, values: &[T]) -> T {
        let one = self.below(values.len());
        let other = self.below(values.len());
        values[one.min(other)]
    }

    /// Puts the values into a random order.
    pub fn shuffle<T>(&mut self, values: &mut [T]) {
        for last in (1..values.len()).rev() {
            let other = self.below(last + 1);
            values.swap(last, other);
        }
    }

    /// So many different numbers below the limit: the lowest ones in order, or
    /// any in any order, and sometimes surely the last one below the limit.
    pub fn labels(&mut self, count: usize, limit: u8) -> Vec<u8> {
        let mut labels: Vec<u8> = (0..limit).collect();
        if self.chance(50) {
            self.shuffle(&mut labels);
        }
        labels.truncate(count);
        if self.chance(15) && !labels.contains(&(limit - 1)) {
            let place = self.below(count);
            labels[place] = limit - 1;
        }
        labels
    }
}
