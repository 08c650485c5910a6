//! Turns: two engines do the same work one after the other, many times over.

use std::time::Duration;

/// What one turn took, and a sum over all that was answered.
pub struct Turn {
    pub time: Duration,
    pub sum: u64,
}

/// The times of an engine's turns, shortest first.
pub struct Turns(Vec<Duration>);

impl Turns {
    fn new(mut times: Vec<Duration>) -> Self {
        times.sort_unstable();
        Self(times)
    }

    pub fn best(&self) -> Duration {
        self.0[0]
    }

    pub fn middle(&self) -> Duration {
        self.0[self.0.len() / 2]
    }
}

/// Lets two engines take turns at the same work, so that whatever else the machine does falls on
/// both. They must answer the same.
pub fn take_turns(
    turns: usize,
    mut one: impl FnMut() -> Turn,
    mut other: impl FnMut() -> Turn,
) -> [Turns; 2] {
    let mut times = [Vec::new(), Vec::new()];
    for _ in 0..turns {
        let both = [one(), other()];
        assert_eq!(both[0].sum, both[1].sum, "both engines answer the same");
        for (times, turn) in times.iter_mut().zip(both) {
            times.push(turn.time);
        }
    }
    times.map(Turns::new)
}

/// How many times as long as the first the second engine takes, by the best turns.
pub fn ratio([one, other]: &[Turns; 2]) -> f64 {
    other.best().as_secs_f64() / one.best().as_secs_f64()
}
