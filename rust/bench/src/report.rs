//! What a run prints: tables as docs/PERFORMANCE.md has them.

use std::time::Duration;

use crate::calls::Timed;
use crate::engine::Engine;
use crate::turns::{Turns, ratio};

/// What one of so many calls took, in a unit that suits it.
fn shown(time: Duration, times: u64) -> String {
    match time.as_secs_f64() / times as f64 {
        seconds if seconds < 1e-6 => format!("{:.0} ns", seconds * 1e9),
        seconds if seconds < 1e-3 => format!("{:.2} µs", seconds * 1e6),
        seconds => format!("{:.2} ms", seconds * 1e3),
    }
}

/// The line over a table: best and middle of each engine's turns, and the ratio of the best.
fn print_head<A: Engine, B: Engine>(what: &str) {
    let (one, other) = (A::NAME, B::NAME);
    println!("| {what:40} | {one:>9} | {:>9} | {other:>9} | {:>9} | ratio |", "middle", "middle");
    println!("|---|--:|--:|--:|--:|--:|");
}

fn print_line(what: &str, turns: &[Turns; 2], times: u64) {
    let [one, other] = turns;
    let times = [one.best(), one.middle(), other.best(), other.middle()]
        .map(|time| format!("{:>9}", shown(time, times)));
    println!("| {what:40} | {} | {:5.2} |", times.join(" | "), ratio(turns));
}

pub fn print_calls<A: Engine, B: Engine>(timed: &[Timed]) {
    print_head::<A, B>("call");
    for Timed { name, size, times, turns } in timed {
        print_line(&format!("{name}, {size} areas"), turns, *times);
    }
    println!();
}

/// The last line is the ratio of the noon work.
pub fn print_noon<A: Engine, B: Engine>(turns: &[Turns; 2]) {
    print_head::<A, B>("the noon work");
    print_line("100,000 reads and updates", turns, 1);
    println!();
    println!("{} takes {:.2} times as long", B::NAME, ratio(turns));
}
