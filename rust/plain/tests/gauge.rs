//! The gauge pieces P5 to P12 and the whole run of document 01, on the ordinary Rust version. P1 to
//! P4 speak of places and stand beside the arithmetic in `status`, `entry` and `slot`.

use plain::{Area, Desk, Reading, Refusal, Swept};

const Z: [u8; 32] = [0x00; 32];
const F: [u8; 32] = [0xFF; 32];

/// A store of one page each, with the calls that the pieces use.
struct Store {
    data: Vec<u8>,
    undo: Vec<u8>,
    status: Vec<u8>,
    desk: Desk,
}

impl Store {
    fn formatted() -> Self {
        let [mut data, mut undo, mut status] = [(); 3].map(|()| vec![0xEE; 8192]);
        let mut desk = Desk::without_sessions(0);
        plain::format(&mut data, &mut undo, &mut status, &mut desk).unwrap();
        Self { data, undo, status, desk }
    }

    fn begin(&mut self) -> Result<u64, Refusal> {
        plain::begin(&self.data, &self.undo, &mut self.status, &mut self.desk)
    }

    fn next(&mut self, session: u64) -> Result<(), Refusal> {
        plain::next(&self.data, &self.undo, &self.status, &mut self.desk, session)
    }

    fn commit(&mut self, session: u64) -> Result<(), Refusal> {
        plain::commit(&self.data, &self.undo, &mut self.status, &mut self.desk, session)
    }

    fn insert(&mut self, session: u64, body: &[u8]) -> Result<u64, Refusal> {
        plain::insert(&mut self.data, &self.undo, &self.status, &self.desk, session, body)
    }

    fn update(&mut self, session: u64, row: u64, body: &[u8]) -> Result<(), Refusal> {
        let Self { data, undo, status, desk } = self;
        plain::update(data, undo, status, desk, session, row, body)
    }

    fn delete(&mut self, session: u64, row: u64) -> Result<(), Refusal> {
        plain::delete(&mut self.data, &self.undo, &self.status, &mut self.desk, session, row)
    }

    fn withdraw(&mut self, session: u64) -> Result<(), Refusal> {
        let Self { data, undo, status, desk } = self;
        plain::withdraw(data, undo, status, desk, session)
    }

    /// The count of versions and the body.
    fn read(&self, session: u64, row: u64) -> Result<(u64, &[u8]), Refusal> {
        let Self { data, undo, status, desk } = self;
        let Reading { count, body } = plain::read(data, undo, status, desk, session, row)?;
        let area = match body.area {
            Area::Data => data,
            Area::Undo => undo,
        };
        Ok((count, &area[body.at..body.at + 32]))
    }

    /// The next row and the versions removed.
    fn sweep(&mut self, first: u64, quota: u64) -> Result<(u64, u64), Refusal> {
        let Self { data, undo, status, desk } = self;
        let Swept { next_row, removed } = plain::sweep(data, undo, status, desk, first, quota)?;
        Ok((next_row, removed))
    }
}

/// With 02, T-07: session 3 lost a conflict and is withdrawn, where document 01 has it commit.
#[test]
fn the_whole_run() {
    let mut store = Store::formatted();
    assert_eq!(store.begin(), Ok(1));
    assert_eq!(store.insert(1, &Z), Ok(0));
    assert_eq!(store.commit(1), Ok(()));
    assert_eq!(store.begin(), Ok(2));
    assert_eq!(store.begin(), Ok(3));
    assert_eq!(store.update(2, 0, &F), Ok(()));
    assert_eq!(store.read(3, 0), Ok((2, &Z[..])));
    assert_eq!(store.delete(3, 0), Err(Refusal::WriterInWork));
    assert_eq!(store.commit(2), Ok(()));
    assert_eq!(store.read(3, 0), Ok((2, &Z[..])));
    assert_eq!(store.delete(3, 0), Err(Refusal::WriterCommitted));
    assert_eq!(store.sweep(0, 127), Ok((127, 0)));
    assert_eq!(store.commit(3), Err(Refusal::SessionSpoiled));
    assert_eq!(store.withdraw(3), Ok(()));
    assert_eq!(store.sweep(0, 127), Ok((127, 1)));
    assert_eq!(store.begin(), Ok(4));
    assert_eq!(store.read(4, 0), Ok((1, &F[..])));
}

#[test]
fn p5_and_p6_own_insert_is_there_in_the_next_statement() {
    let mut store = Store::formatted();
    assert_eq!(store.begin(), Ok(1));
    assert_eq!(store.insert(1, &F), Ok(0));
    assert_eq!(store.read(1, 0), Err(Refusal::NoVersion));
    assert_eq!(store.next(1), Ok(()));
    assert_eq!(store.read(1, 0), Ok((1, &F[..])));
}

#[test]
fn p7_own_delete_still_shows_in_its_statement() {
    let mut store = Store::formatted();
    assert_eq!(store.begin(), Ok(1));
    assert_eq!(store.insert(1, &F), Ok(0));
    assert_eq!(store.next(1), Ok(()));
    assert_eq!(store.delete(1, 0), Ok(()));
    assert_eq!(store.read(1, 0), Ok((1, &F[..])));
    assert_eq!(store.next(1), Ok(()));
    assert_eq!(store.read(1, 0), Err(Refusal::NoVersion));
}

#[test]
fn p8_second_update_in_one_statement() {
    let mut store = Store::formatted();
    assert_eq!(store.begin(), Ok(1));
    assert_eq!(store.insert(1, &Z), Ok(0));
    assert_eq!(store.next(1), Ok(()));
    assert_eq!(store.update(1, 0, &F), Ok(()));
    assert_eq!(store.update(1, 0, &Z), Err(Refusal::OwnWrite));
}

/// Sessions 1 to 4 pass; 4 inserts, 5 deletes, 6 begins before 5 commits.
#[test]
fn p9_and_p10_a_listed_number_holds_the_mark() {
    let mut store = Store::formatted();
    for session in 1..=4 {
        assert_eq!(store.begin(), Ok(session));
        if session == 4 {
            assert_eq!(store.insert(4, &F), Ok(0));
        }
        assert_eq!(store.commit(session), Ok(()));
    }
    assert_eq!(store.begin(), Ok(5));
    assert_eq!(store.delete(5, 0), Ok(()));
    assert_eq!(store.begin(), Ok(6));
    assert_eq!(store.commit(5), Ok(()));
    assert_eq!(store.sweep(0, 127), Ok((127, 0)));
    assert_eq!(store.read(6, 0), Ok((1, &F[..])));
    assert_eq!(store.commit(6), Ok(()));
    assert_eq!(store.sweep(0, 127), Ok((127, 1)));
}

#[test]
fn p11_and_p12_the_last_statement() {
    let mut store = Store::formatted();
    assert_eq!(store.begin(), Ok(1));
    store.desk.statements[0] = 65_534;
    assert_eq!(store.next(1), Ok(()));
    assert_eq!(store.next(1), Err(Refusal::StatementsUsedUp));
}
