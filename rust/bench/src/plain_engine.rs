//! The ordinary Rust version.

use plain::{Area, Desk};

use crate::engine::{Engine, Lent, PAGE, added_up};

pub struct PlainEngine {
    data: Vec<u8>,
    undo: Vec<u8>,
    status: Vec<u8>,
    desk: Desk,
}

impl Engine for PlainEngine {
    const NAME: &'static str = "plain";

    fn formatted(pages: usize) -> Self {
        let (data, undo, status) = (vec![0; pages * PAGE], vec![0; pages * PAGE], vec![0; PAGE]);
        let desk = Desk::without_sessions(Desk::FIRST_NUMBER);
        let mut engine = Self { data, undo, status, desk };
        engine.format();
        engine
    }

    fn take(&mut self, lent: &Lent) {
        self.data.copy_from_slice(&lent.data);
        self.undo.copy_from_slice(&lent.undo);
        self.status.copy_from_slice(&lent.status);
        self.desk = Desk::from_words(&lent.desk);
    }

    fn lent(&self) -> Lent {
        let Self { data, undo, status, desk } = self;
        let (data, undo, status) = (data.clone(), undo.clone(), status.clone());
        Lent { data, undo, status, desk: desk.words() }
    }

    fn look(&self) -> u64 {
        added_up([&self.data, &self.undo, &self.status])
    }

    fn format(&mut self) {
        let Self { data, undo, status, desk } = self;
        plain::format(data, undo, status, desk).expect("format");
    }

    fn open(&mut self) {
        plain::open(&self.data, &self.undo, &self.status, &mut self.desk).expect("open");
    }

    fn seal(&mut self) {
        let Self { data, undo, status, desk } = self;
        plain::seal(data, undo, status, desk).expect("seal");
    }

    fn begin(&mut self) -> u64 {
        plain::begin(&self.data, &self.undo, &mut self.status, &mut self.desk).expect("begin")
    }

    fn next(&mut self, session: u64) {
        let Self { data, undo, status, desk } = self;
        plain::next(data, undo, status, desk, session).expect("next");
    }

    fn insert(&mut self, session: u64, body: &[u8]) -> u64 {
        let Self { data, undo, status, desk } = self;
        plain::insert(data, undo, status, desk, session, body).expect("insert")
    }

    fn update(&mut self, session: u64, row: u64, body: &[u8]) {
        let Self { data, undo, status, desk } = self;
        plain::update(data, undo, status, desk, session, row, body).expect("update");
    }

    fn delete(&mut self, session: u64, row: u64) {
        let Self { data, undo, status, desk } = self;
        plain::delete(data, undo, status, desk, session, row).expect("delete");
    }

    fn read(&mut self, session: u64, row: u64) -> u64 {
        let Self { data, undo, status, desk } = self;
        let reading = plain::read(data, undo, status, desk, session, row).expect("read");
        let area = match reading.body.area {
            Area::Data => data,
            Area::Undo => undo,
        };
        reading.count + u64::from(area[reading.body.at])
    }

    fn commit(&mut self, session: u64) {
        let Self { data, undo, status, desk } = self;
        plain::commit(data, undo, status, desk, session).expect("commit");
    }

    fn withdraw(&mut self, session: u64) {
        let Self { data, undo, status, desk } = self;
        plain::withdraw(data, undo, status, desk, session).expect("withdraw");
    }

    fn sweep(&mut self, rows: u64) -> u64 {
        let Self { data, undo, status, desk } = self;
        plain::sweep(data, undo, status, desk, 0, rows).expect("sweep").removed
    }
}
