//! A small generator of random numbers (SplitMix64) and the seeds that a driver runs through.

/// Random numbers from a seed.
#[derive(Clone)]
pub struct Random(u64);

impl Random {
    pub const fn new(seed: u64) -> Self {
        Self(seed)
    }

    pub const fn number(&mut self) -> u64 {
        self.0 = self.0.wrapping_add(0x9E37_79B9_7F4A_7C15);
        let mixed = (self.0 ^ self.0 >> 30).wrapping_mul(0xBF58_476D_1CE4_E5B9);
        let mixed = (mixed ^ mixed >> 27).wrapping_mul(0x94D0_49BB_1331_11EB);
        mixed ^ mixed >> 31
    }

    /// A number below `limit`, which is not 0.
    pub const fn below(&mut self, limit: u64) -> u64 {
        self.number() % limit
    }

    pub const fn index(&mut self, limit: usize) -> usize {
        self.below(limit as u64) as usize
    }

    /// True once in so many times.
    pub const fn once_in(&mut self, times: u64) -> bool {
        self.below(times) == 0
    }

    pub fn pick<T: Copy>(&mut self, choices: &[T]) -> T {
        choices[self.index(choices.len())]
    }

    /// One of what `choices` yields, if it yields anything.
    pub fn pick_from<T>(&mut self, mut choices: impl Iterator<Item = T> + Clone) -> Option<T> {
        let count = choices.clone().count();
        if count == 0 { None } else { choices.nth(self.index(count)) }
    }

    pub fn bytes(&mut self, length: usize) -> Vec<u8> {
        (0..length).map(|_| self.number() as u8).collect()
    }
}

/// Runs a driver's rounds, at most as many as `CHIRIMOK_ROUNDS` says, or the one that
/// `CHIRIMOK_SEED` names, and prints the seed of a round that fails.
pub fn for_each_seed(rounds: u64, mut round: impl FnMut(u64)) {
    let seeds = match named_seed() {
        Some(seed) => seed..seed + 1,
        None => 0..named("CHIRIMOK_ROUNDS").map_or(rounds, |most| most.min(rounds)),
    };
    for seed in seeds {
        let _printed = PrintedOnPanic(seed);
        round(seed);
    }
}

/// The seed to repeat. A single round need not show all that a driver's rounds show together.
pub fn named_seed() -> Option<u64> {
    named("CHIRIMOK_SEED")
}

/// The number that a variable of the environment names.
fn named(variable: &str) -> Option<u64> {
    let number = std::env::var(variable).ok()?;
    Some(number.parse().unwrap_or_else(|_| panic!("{variable} is a decimal number")))
}

struct PrintedOnPanic(u64);

impl Drop for PrintedOnPanic {
    fn drop(&mut self) {
        if std::thread::panicking() {
            eprintln!("CHIRIMOK_SEED={} repeats this round", self.0);
        }
    }
}
