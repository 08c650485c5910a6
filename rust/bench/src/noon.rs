//! The noon work of 02, T-12: 100,000 reads and updates, nine reads to one update over 300 rows,
//! with a new session for each update and its nine reads and a sweep of all rows after every 200
//! updates.

use std::time::Instant;

use crate::engine::{Engine, body};
use crate::turns::{Turn, Turns, take_turns};

/// Rows at work.
const ROWS: u64 = 300;

/// Pages of data and of undo: three hold the rows.
const PAGES: usize = 3;

const UPDATES: u64 = 10_000;
const READS_EACH: u64 = 9;
const UPDATES_EACH_SWEEP: u64 = 200;

/// How often each engine does the noon work.
const TURNS: usize = 151;

/// Times both engines, each at a store of its own, anew in each turn.
pub fn noon<A: Engine, B: Engine>() -> [Turns; 2] {
    take_turns(TURNS, || turn(&mut A::formatted(PAGES)), || turn(&mut B::formatted(PAGES)))
}

/// Fills the rows, then times the noon work.
fn turn(engine: &mut impl Engine) -> Turn {
    let session = engine.begin();
    for row in 0..ROWS {
        assert_eq!(engine.insert(session, &body(row)), row);
    }
    engine.commit(session);

    let mut rows = Rows(1);
    let mut sum = 0;
    let start = Instant::now();
    for update in 1..=UPDATES {
        sum += one_session(engine, &mut rows, update);
        if update % UPDATES_EACH_SWEEP == 0 {
            sum += engine.sweep(ROWS);
        }
    }
    Turn { time: start.elapsed(), sum }
}

/// A new session with its nine reads and its update.
fn one_session(engine: &mut impl Engine, rows: &mut Rows, update: u64) -> u64 {
    let session = engine.begin();
    let sum = (0..READS_EACH).map(|_| engine.read(session, rows.next())).sum();
    engine.update(session, rows.next(), &body(update));
    engine.commit(session);
    sum
}

/// Rows in an order that jumps about and is the same for each engine.
struct Rows(u64);

impl Rows {
    fn next(&mut self) -> u64 {
        self.0 =
            self.0.wrapping_mul(6_364_136_223_846_793_005).wrapping_add(1_442_695_040_888_963_407);
        (self.0 >> 33) % ROWS
    }
}
