//! The proved store, through its safe wrapper.

use std::mem;

use chirimok::{Row, Session, Store, limits};

use crate::engine::{Engine, Lent, PAGE, added_up};

pub struct StationEngine {
    store: Store<Vec<u8>>,
}

impl StationEngine {
    /// Takes the areas out, to make a store of them anew.
    fn areas(&mut self) -> [Vec<u8>; 3] {
        let none = Store::from_kept_words(vec![], vec![], vec![], [0; limits::WORDS]);
        mem::replace(&mut self.store, none).into_areas()
    }
}

impl Engine for StationEngine {
    const NAME: &'static str = "station";

    fn formatted(pages: usize) -> Self {
        let (data, undo, status) = (vec![0; pages * PAGE], vec![0; pages * PAGE], vec![0; PAGE]);
        Self { store: Store::format(data, undo, status).expect("format") }
    }

    fn take(&mut self, lent: &Lent) {
        let [mut data, mut undo, mut status] = self.areas();
        data.copy_from_slice(&lent.data);
        undo.copy_from_slice(&lent.undo);
        status.copy_from_slice(&lent.status);
        self.store = Store::from_kept_words(data, undo, status, lent.desk);
    }

    fn lent(&self) -> Lent {
        let [data, undo, status] =
            [self.store.data(), self.store.undo(), self.store.status()].map(<[u8]>::to_vec);
        Lent { data, undo, status, desk: *self.store.desk().words() }
    }

    fn look(&self) -> u64 {
        added_up([self.store.data(), self.store.undo(), self.store.status()])
    }

    fn format(&mut self) {
        let [data, undo, status] = self.areas();
        self.store = Store::format(data, undo, status).expect("format");
    }

    fn open(&mut self) {
        let [data, undo, status] = self.areas();
        self.store = Store::open(data, undo, status).expect("open");
    }

    fn seal(&mut self) {
        self.store.seal().expect("seal");
    }

    fn begin(&mut self) -> u64 {
        self.store.begin().expect("begin").number()
    }

    fn next(&mut self, session: u64) {
        self.store.next(Session::from_number(session)).expect("next");
    }

    fn insert(&mut self, session: u64, body: &[u8]) -> u64 {
        self.store.insert(Session::from_number(session), body).expect("insert").number()
    }

    fn update(&mut self, session: u64, row: u64, body: &[u8]) {
        let (session, row) = (Session::from_number(session), Row::from_number(row));
        self.store.update(session, row, body).expect("update");
    }

    fn delete(&mut self, session: u64, row: u64) {
        let (session, row) = (Session::from_number(session), Row::from_number(row));
        self.store.delete(session, row).expect("delete");
    }

    fn read(&mut self, session: u64, row: u64) -> u64 {
        let (session, row) = (Session::from_number(session), Row::from_number(row));
        let reading = self.store.read(session, row).expect("read");
        reading.count + u64::from(reading.body[0])
    }

    fn commit(&mut self, session: u64) {
        self.store.commit(Session::from_number(session)).expect("commit");
    }

    fn withdraw(&mut self, session: u64) {
        self.store.withdraw(Session::from_number(session)).expect("withdraw");
    }

    fn sweep(&mut self, rows: u64) -> u64 {
        self.store.sweep(Row::FIRST, rows).expect("sweep").removed
    }
}
