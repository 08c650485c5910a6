//! What the drivers ask of an engine, and the ordinary Rust version as one.

use plain::{Area, Desk, Refusal};

use crate::{Answer, Call, Store};

/// An engine of the store.
pub trait Engine {
    /// Its name, for failing tests.
    fn name(&self) -> &str;

    /// Makes a call on the areas and the desk of `store`.
    fn call(&self, store: &mut Store, call: &Call) -> Answer;
}

/// The ordinary Rust version.
pub struct Plain;

impl Engine for Plain {
    fn name(&self) -> &str {
        "plain"
    }

    fn call(&self, store: &mut Store, call: &Call) -> Answer {
        let mut desk = Desk::from_words(&store.desk);
        let answer = plain_call(store, &mut desk, call);
        // The desk is taken back after a refusal too: 10 marks a session, and no other may change it.
        store.desk = desk.words();
        match answer {
            Ok(values) => Answer::done(values),
            Err(refusal) => Answer::refused(refusal.number()),
        }
    }
}

fn plain_call(store: &mut Store, desk: &mut Desk, call: &Call) -> Result<[u64; 3], Refusal> {
    let Store { data, undo, status, .. } = store;
    let done = [0; 3];
    match *call {
        Call::Format => plain::format(data, undo, status, desk).map(|()| done),
        Call::Open => plain::open(data, undo, status, desk).map(|()| done),
        Call::Seal => plain::seal(data, undo, status, desk).map(|()| done),
        Call::Begin => plain::begin(data, undo, status, desk).map(|number| [number, 0, 0]),
        Call::Next { session } => plain::next(data, undo, status, desk, session).map(|()| done),
        Call::Insert { session, ref body } => {
            plain::insert(data, undo, status, desk, session, body).map(|row| [row, 0, 0])
        }
        Call::Update { session, row, ref body } => {
            plain::update(data, undo, status, desk, session, row, body).map(|()| done)
        }
        Call::Delete { session, row } => {
            plain::delete(data, undo, status, desk, session, row).map(|()| done)
        }
        Call::Read { session, row } => {
            let reading = plain::read(data, undo, status, desk, session, row)?;
            let area = match reading.body.area {
                Area::Data => 1,
                Area::Undo => 2,
            };
            Ok([reading.count, area, reading.body.at as u64])
        }
        Call::Commit { session } => plain::commit(data, undo, status, desk, session).map(|()| done),
        Call::Withdraw { session } => {
            plain::withdraw(data, undo, status, desk, session).map(|()| done)
        }
        Call::Sweep { first, quota } => {
            let swept = plain::sweep(data, undo, status, desk, first, quota)?;
            Ok([swept.next_row, swept.removed, 0])
        }
    }
}
