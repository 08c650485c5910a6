//! A table without pages that says what each open session should read: the replay of the committed
//! sessions' writes in commit order. It knows nothing of slots, chains or status bits.

use std::collections::{BTreeMap, BTreeSet};

use crate::layout::items;
use crate::mix::Mix;
use crate::random::{Random, for_each_seed};
use crate::tally::Tally;
use crate::{Answer, Call, Engine, Store};

type Table = BTreeMap<u64, Vec<u8>>;

/// A write that a session did; a body of none is a delete.
struct Write {
    row: u64,
    statement: u32,
    body: Option<Vec<u8>>,
}

/// An open session.
struct Open {
    /// The table as it was when the session began, and who had committed.
    began: Table,
    seen: BTreeSet<u64>,
    statement: u32,
    /// Whether it was answered 10 (02, T-07).
    spoiled: bool,
    writes: Vec<Write>,
}

impl Open {
    /// What the session reads: its own last write of an earlier statement, or what stood there when
    /// it began.
    fn reads(&self, row: u64) -> Option<&Vec<u8>> {
        let own = |write: &&Write| write.row == row && write.statement < self.statement;
        match self.writes.iter().rev().find(own) {
            Some(write) => write.body.as_ref(),
            None => self.began.get(&row),
        }
    }
}

/// The replayed table, the open sessions, and who wrote each row last.
#[derive(Default)]
struct Model {
    table: Table,
    committed: BTreeSet<u64>,
    open: BTreeMap<u64, Open>,
    /// For each row the sessions that wrote it, oldest first, without those withdrawn.
    writers: BTreeMap<u64, Vec<u64>>,
    /// Accepted updates of each row since it was inserted.
    updates: BTreeMap<u64, u64>,
    /// Versions that the store should hold.
    held: u64,
}

impl Model {
    /// The number that an update or a delete must get, as long as there is room.
    fn write_answer(&self, session: u64, row: u64) -> u32 {
        let open = &self.open[&session];
        if open.reads(row).is_none() {
            return 7;
        }
        match self.writers.get(&row).and_then(|writers| writers.last()) {
            Some(&writer) if writer == session => {
                let now = |write: &Write| write.row == row && write.statement == open.statement;
                if open.writes.iter().any(now) { 8 } else { 0 }
            }
            Some(writer) if open.seen.contains(writer) => 0,
            Some(writer) if self.committed.contains(writer) => 10,
            _ => 9,
        }
    }

    fn begin(&mut self, number: u64) {
        let (began, seen) = (self.table.clone(), self.committed.clone());
        let open = Open { began, seen, statement: 0, spoiled: false, writes: Vec::new() };
        self.open.insert(number, open);
    }

    fn write(&mut self, session: u64, row: u64, body: Option<Vec<u8>>) {
        let open = self.open.get_mut(&session).expect("an open session");
        self.held += u64::from(body.is_some());
        open.writes.push(Write { row, statement: open.statement, body });
        self.writers.entry(row).or_default().push(session);
    }

    /// A row that an insert takes must be out of everyone's sight.
    fn insert(&mut self, session: u64, row: u64, body: &[u8]) {
        assert!(!self.table.contains_key(&row), "insert took row {row}, which is in the table");
        let reader = self.open.iter().find(|(_, open)| open.reads(row).is_some());
        assert!(reader.is_none(), "insert took row {row}, which a session reads");
        self.updates.insert(row, 0);
        self.write(session, row, Some(body.to_vec()));
    }

    fn commit(&mut self, session: u64) {
        for Write { row, body, .. } in self.open.remove(&session).expect("open").writes {
            match body {
                Some(body) => self.table.insert(row, body),
                None => self.table.remove(&row),
            };
        }
        self.committed.insert(session);
    }

    fn withdraw(&mut self, session: u64) {
        let writes = self.open.remove(&session).expect("open").writes;
        self.held -= writes.iter().filter(|write| write.body.is_some()).count() as u64;
        for writers in self.writers.values_mut() {
            writers.retain(|&writer| writer != session);
        }
    }

    /// Whether the call must get 18: "insert, update, delete, next and commit" of a session that was
    /// answered 10, whatever the call's other arguments are (02, T-07).
    fn refuses_spoiled(&self, call: &Call) -> bool {
        match call {
            Call::Next { session }
            | Call::Insert { session, .. }
            | Call::Update { session, .. }
            | Call::Delete { session, .. }
            | Call::Commit { session } => self.open.get(session).is_some_and(|open| open.spoiled),
            _ => false,
        }
    }

    /// Checks an answer against the table, and follows a call that changed something.
    fn follow(&mut self, store: &Store, call: &Call, answer: Answer) {
        assert_eq!(answer.code == 18, self.refuses_spoiled(call), "{call:?}: {answer:?}");
        if answer.code != 18 {
            self.check_answer(store, call, answer);
        }
        match (call, answer.code) {
            (_, 0) => self.follow_accepted(call, answer),
            (Call::Update { session, .. } | Call::Delete { session, .. }, 10) => {
                self.open.get_mut(session).expect("open").spoiled = true;
            }
            _ => {}
        }
        let held = items(&store.data) + items(&store.undo);
        assert_eq!(held, self.held, "versions held after {call:?}");
    }

    /// Checks a reading or a conflict against the table.
    fn check_answer(&self, store: &Store, call: &Call, answer: Answer) {
        let known = |session: &u64| self.open.contains_key(session);
        let in_store = |row: &u64| *row < store.rows();
        match call {
            Call::Read { session, row } if known(session) && in_store(row) => {
                self.check_read(store, *session, *row, answer);
            }
            Call::Update { body, .. } if body.len() != 32 || answer.code == 11 => {}
            Call::Update { session, row, .. } | Call::Delete { session, row }
                if known(session) && in_store(row) =>
            {
                assert_eq!(answer.code, self.write_answer(*session, *row), "{call:?}");
            }
            _ => {}
        }
    }

    fn follow_accepted(&mut self, call: &Call, answer: Answer) {
        let [value, removed, _] = answer.values;
        match call {
            Call::Format => *self = Self::default(),
            Call::Begin => self.begin(value),
            Call::Next { session } => self.open.get_mut(session).expect("open").statement += 1,
            Call::Insert { session, body } => self.insert(*session, value, body),
            Call::Update { session, row, body } => {
                *self.updates.entry(*row).or_default() += 1;
                self.write(*session, *row, Some(body.clone()));
            }
            Call::Delete { session, row } => self.write(*session, *row, None),
            Call::Commit { session } => self.commit(*session),
            Call::Withdraw { session } => self.withdraw(*session),
            Call::Sweep { .. } => self.held -= removed,
            Call::Open | Call::Seal | Call::Read { .. } => {}
        }
    }

    /// A read finds what the table says, where it lies, and looks "at most 1 more than the accepted
    /// updates of that row since its slot was last empty".
    fn check_read(&self, store: &Store, session: u64, row: u64, answer: Answer) {
        let [count, area, offset] = answer.values;
        let Some(expected) = self.open[&session].reads(row) else {
            assert_eq!(answer.code, 7, "session {session} should find nothing in row {row}");
            return;
        };
        assert_eq!(answer.code, 0, "session {session} should find row {row}");
        let area = if area == 1 { &store.data } else { &store.undo };
        let body = &area[offset as usize..offset as usize + 32];
        assert_eq!(body, expected.as_slice(), "session {session} reads row {row}");
        assert!((1..=1 + self.updates[&row]).contains(&count), "session {session}, row {row}");
    }
}

/// Runs random histories with one engine and fails where a reading, a conflict, a count or the
/// number of versions held is not what the table says, or a session that lost a conflict does more
/// than read and withdraw.
pub fn agree_with_table(engine: &dyn Engine, rounds: u64) {
    let mut tally = Tally::default();
    for_each_seed(rounds, |seed| run(engine, seed, &mut tally));
    let (changes, writes): (&[u32], &[u32]) = (&[0, 18], &[0, 7, 8, 9, 10, 18]);
    let expected = [
        ("next", changes),
        ("insert", changes),
        ("update", writes),
        ("delete", writes),
        ("read", &[0, 7]),
        ("commit", changes),
    ];
    tally.assert_seen("replay", &expected);
    tally.assert_never("replay", &[6, 17]);
}

fn run(engine: &dyn Engine, seed: u64, tally: &mut Tally) {
    let mut random = Random::new(seed);
    let mut store = Store::unformatted(1 + random.index(2), 1 + random.index(3));
    let hot = random.pick(&[1, 3, 8, 30]);
    let mut model = Model::default();
    let mut step = |store: &mut Store, model: &mut Model, call: &Call| {
        let answer = engine.call(store, call);
        tally.add(call, answer);
        model.follow(store, call, answer);
    };
    step(&mut store, &mut model, &Call::Format);
    for _ in 0..30 {
        let mix = random.pick(&Mix::ALL);
        for _ in 0..random.below(20) {
            let call = mix.call(&mut random, &store, hot);
            step(&mut store, &mut model, &call);
        }
        for session in model.open.keys().copied().collect::<Vec<_>>() {
            for row in 0..hot + 2 {
                step(&mut store, &mut model, &Call::Read { session, row });
            }
        }
    }
}
