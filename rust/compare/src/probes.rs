//! Calls to try at a store, whatever is wrong with it.

use crate::mix::EDGES;
use crate::random::Random;
use crate::{Call, Store};

/// All twelve calls, with arguments near the row of interest and at the edges.
pub fn probes(random: &mut Random, store: &Store, row: u64) -> Vec<Call> {
    let mut calls = vec![Call::Format, Call::Open, Call::Seal, Call::Begin];
    for session in probed_sessions(random, store) {
        calls.extend([
            Call::Next { session },
            Call::Commit { session },
            Call::Withdraw { session },
            Call::Insert { session, body: probed_body(random) },
        ]);
        let last = store.rows().wrapping_sub(1);
        for row in [row, random.pick(&[0, last, last.wrapping_add(1)]), random.pick(&EDGES)] {
            calls.extend([
                Call::Read { session, row },
                Call::Update { session, row, body: probed_body(random) },
                Call::Delete { session, row },
            ]);
        }
    }
    calls.extend(probed_sweeps(random, store, row));
    calls
}

/// Up to three of the desk's sessions, and a number at an edge.
fn probed_sessions(random: &mut Random, store: &Store) -> Vec<u64> {
    let mut sessions: Vec<u64> =
        (0..3).filter_map(|_| random.pick_from(store.sessions())).collect();
    let edge = random.pick(&EDGES);
    sessions.push(random.pick(&[store.next(), edge]));
    sessions.sort_unstable();
    sessions.dedup();
    sessions
}

fn probed_body(random: &mut Random) -> Vec<u8> {
    let length = random.pick(&[32, 32, 32, 32, 32, 0, 31, 33]);
    random.bytes(length)
}

/// Sweeps of all rows, of the row alone, of the rows around it, and at the edges.
fn probed_sweeps(random: &mut Random, store: &Store, row: u64) -> [Call; 6] {
    let rows = store.rows();
    let sweep = |first, quota| Call::Sweep { first, quota };
    [
        sweep(0, rows),
        sweep(row, 1),
        sweep(0, row),
        sweep(row.wrapping_add(1), u64::MAX),
        sweep(random.pick(&[rows, rows.wrapping_add(1)]), random.pick(&EDGES)),
        sweep(random.pick(&EDGES), random.pick(&EDGES)),
    ]
}
