//! Random calls, mixed so that what should happen often does.

use crate::layout::{CREATE, EXPIRE, slot_at, word_at};
use crate::random::Random;
use crate::{Call, Store};

/// Numbers at the edges of what sessions, rows and quotas can be.
pub const EDGES: [u64; 8] =
    [0, 1, 32_575, 32_576, u32::MAX as u64, 1 << 32, u64::MAX - 1, u64::MAX];

/// How often each call comes, in the order of [`Call::NAMES`].
#[derive(Clone, Copy)]
pub struct Mix([u64; 12]);

impl Mix {
    /// A bit of everything.
    pub const EVEN: Self = Self([0, 1, 1, 6, 6, 8, 10, 4, 12, 5, 3, 2]);
    /// Sixteen sessions open most of the time: 12.
    pub const CROWDED: Self = Self([0, 0, 1, 12, 4, 4, 6, 2, 8, 1, 1, 1]);
    /// Data pages run full: insert's 11.
    pub const FILLING: Self = Self([0, 0, 0, 3, 1, 40, 2, 1, 4, 2, 1, 1]);
    /// Undo pages run full, and sessions write the same rows in many statements: update's 11. Who is
    /// not spoiled takes nothing back.
    pub const REWRITING: Self = Self([0, 0, 0, 1, 40, 4, 40, 0, 3, 2, 0, 0]);
    /// Many sessions want the same rows: 8, 9 and 10.
    pub const CONTENDED: Self = Self([0, 0, 0, 8, 6, 3, 20, 10, 6, 5, 3, 1]);
    /// Work is taken back and swept.
    pub const RECEDING: Self = Self([0, 0, 0, 5, 8, 8, 12, 6, 4, 4, 8, 8]);
    /// Sessions close, and the store is sealed and opened: 3 and 15.
    pub const CLOSING: Self = Self([1, 6, 6, 5, 2, 6, 4, 2, 4, 10, 5, 4]);

    pub const ALL: [Self; 7] = [
        Self::EVEN,
        Self::CROWDED,
        Self::FILLING,
        Self::REWRITING,
        Self::CONTENDED,
        Self::RECEDING,
        Self::CLOSING,
    ];

    fn pick(self, random: &mut Random) -> usize {
        let mut rest = random.below(self.0.iter().sum());
        for (call, weight) in self.0.into_iter().enumerate() {
            if rest < weight {
                return call;
            }
            rest -= weight;
        }
        unreachable!("the rest is below the sum of the weights")
    }

    /// A call that suits the store; `hot` rows get most of the writes and reads.
    pub fn call(self, random: &mut Random, store: &Store, hot: u64) -> Call {
        if store.sessions().next().is_none() && !random.once_in(3) {
            return Call::Begin;
        }
        let session = pick_session(random, store);
        // Nothing else closes a spoiled session, and too many of them would leave a history no work.
        if store.is_spoiled(session) && random.once_in(3) {
            return Call::Withdraw { session };
        }
        match self.pick(random) {
            0 => Call::Format,
            1 => Call::Open,
            2 => Call::Seal,
            3 => Call::Begin,
            4 => Call::Next { session },
            5 => Call::Insert { session, body: pick_body(random) },
            6 => {
                Call::Update { session, row: pick_row(random, store, hot), body: pick_body(random) }
            }
            7 => Call::Delete { session, row: pick_row(random, store, hot) },
            8 => Call::Read { session, row: pick_row(random, store, hot) },
            9 => Call::Commit { session },
            10 => Call::Withdraw { session },
            _ => pick_sweep(random, store),
        }
    }
}

fn pick_session(random: &mut Random, store: &Store) -> u64 {
    let odd = [0, store.next(), store.next().wrapping_sub(1), random.pick(&EDGES)];
    match random.pick_from(store.sessions()) {
        Some(session) if !random.once_in(24) => session,
        _ => random.pick(&odd),
    }
}

/// Rows with a version that nobody has expired.
fn living_rows(store: &Store) -> impl Iterator<Item = u64> + Clone + '_ {
    let field = |row, field| word_at(&store.data, slot_at(row) + field);
    (0..store.rows()).filter(move |&row| field(row, CREATE) != 0 && field(row, EXPIRE) == 0)
}

fn pick_row(random: &mut Random, store: &Store, hot: u64) -> u64 {
    let odd = random.pick(&EDGES);
    match random.below(40) {
        0 => random.pick(&[store.rows() - 1, store.rows(), odd]),
        1 => random.below(store.rows()),
        2..10 => random.below(hot),
        _ => random.pick_from(living_rows(store).take(hot as usize)).unwrap_or(0),
    }
}

fn pick_body(random: &mut Random) -> Vec<u8> {
    let length = if random.once_in(60) { random.pick(&[0, 31, 33]) } else { 32 };
    random.bytes(length)
}

fn pick_sweep(random: &mut Random, store: &Store) -> Call {
    let rows = store.rows();
    let (odd, within) = (random.pick(&EDGES), random.below(rows));
    let first = random.pick(&[0, 0, 0, within, rows - 1, rows, odd]);
    let quota = random.pick(&[rows, rows, 3, 1, 0, odd]);
    Call::Sweep { first, quota }
}
