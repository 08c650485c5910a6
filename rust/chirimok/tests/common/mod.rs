//! The proved store behind the safe wrapper, as an engine that the drivers can run.

mod reported;

use chirimok::{Refusal, Row, Session, Store};
use compare::{Answer, Call, Engine};

pub struct Station;

impl Engine for Station {
    fn name(&self) -> &str {
        "station"
    }

    fn call(&self, lent: &mut compare::Store, call: &Call) -> Answer {
        let answer = match call {
            Call::Format | Call::Open => start(lent, call),
            _ => go_on(lent, call),
        };
        match answer {
            Ok(values) => Answer::done(values),
            Err(refusal) => {
                // Numbers and desk are those that the library wrote or left, and not the wrapper's.
                let (code, values) = reported::by_library(lent, call, refusal.number());
                assert_eq!(code, refusal.number(), "{call:?}, refused once more");
                Answer { code, values }
            }
        }
    }
}

/// Format or open, which make the desk themselves.
fn start(lent: &mut compare::Store, call: &Call) -> Result<[u64; 3], Refusal> {
    let compare::Store { data, undo, status, desk } = lent;
    let store = match call {
        Call::Format => Store::format(data, undo, status),
        _ => Store::open(data, undo, status),
    };
    *desk = *store?.desk().words();
    Ok([0; 3])
}

/// Any other call, with the desk that is lent.
fn go_on(lent: &mut compare::Store, call: &Call) -> Result<[u64; 3], Refusal> {
    let compare::Store { data, undo, status, desk } = lent;
    let mut store = Store::from_kept_words(data, undo, status, *desk);
    let answer = station_call(&mut store, call);
    // The desk is taken back after a refusal too: 10 marks a session, and no other may change it.
    *desk = *store.desk().words();
    answer
}

fn station_call(store: &mut Store<&mut Vec<u8>>, call: &Call) -> Result<[u64; 3], Refusal> {
    let done = |()| [0; 3];
    let (session, row) = (Session::from_number, Row::from_number);
    match *call {
        Call::Format | Call::Open => unreachable!("a store is there already"),
        Call::Seal => store.seal().map(done),
        Call::Begin => store.begin().map(|begun| [begun.number(), 0, 0]),
        Call::Next { session: s } => store.next(session(s)).map(done),
        Call::Insert { session: s, ref body } => {
            store.insert(session(s), body).map(|row| [row.number(), 0, 0])
        }
        Call::Update { session: s, row: r, ref body } => {
            store.update(session(s), row(r), body).map(done)
        }
        Call::Delete { session: s, row: r } => store.delete(session(s), row(r)).map(done),
        Call::Read { session: s, row: r } => {
            let reading = store.read(session(s), row(r))?;
            let (area, offset) = place_of(store, reading.body);
            Ok([reading.count, area, offset])
        }
        Call::Commit { session: s } => store.commit(session(s)).map(done),
        Call::Withdraw { session: s } => store.withdraw(session(s)).map(done),
        Call::Sweep { first, quota } => {
            let swept = store.sweep(row(first), quota)?;
            Ok([swept.next_row.number(), swept.removed, 0])
        }
    }
}

/// Where a body lies: 1 for data or 2 for undo, and the byte offset there. A copy lies in neither.
fn place_of(store: &Store<&mut Vec<u8>>, body: &[u8]) -> (u64, u64) {
    let start = body.as_ptr().addr();
    let offset_in = |area: &[u8]| {
        let offset = start.checked_sub(area.as_ptr().addr())?;
        (offset < area.len()).then_some(offset as u64)
    };
    offset_in(store.data())
        .map(|offset| (1, offset))
        .or_else(|| offset_in(store.undo()).map(|offset| (2, offset)))
        .expect("a body lies in the data or the undo area")
}
