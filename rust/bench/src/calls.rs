//! Single calls at small and at full areas.

use std::time::Instant;

use crate::engine::{ENTRIES, Engine, Lent, body};
use crate::stock::Stock;
use crate::turns::{Turn, Turns, take_turns};

/// Pages of data and of undo in small and in full areas.
const SIZES: [(&str, usize); 2] = [("small", 3), ("full", 64)];

/// Versions in a chain, up to the one that is read.
const CHAINS: [u64; 3] = [1, 16, 256];

/// Sessions open at a read.
const OPEN: [u64; 3] = [1, 8, 16];

/// Rows written in one turn, or in the session that is withdrawn.
const WRITTEN: u64 = 64;

/// How often each engine makes the calls of a case.
const TURNS: usize = 101;

/// The calls that a turn makes. Rows count from `first` on.
enum Calls {
    Read { session: u64, row: u64 },
    BeginAndCommit,
    Next { session: u64 },
    Insert { session: u64 },
    Update { session: u64, first: u64 },
    Delete { session: u64, first: u64 },
    Withdraw { session: u64 },
    Sweep { rows: u64 },
    Seal,
    Open,
    Format,
    Look,
}

impl Calls {
    /// Makes the call, for the `time`th time in its turn.
    fn once(&self, engine: &mut impl Engine, time: u64) -> u64 {
        match *self {
            Self::Read { session, row } => return engine.read(session, row),
            Self::BeginAndCommit => {
                let session = engine.begin();
                engine.commit(session);
            }
            Self::Next { session } => engine.next(session),
            Self::Insert { session } => return engine.insert(session, &body(time)),
            Self::Update { session, first } => engine.update(session, first + time, &body(time)),
            Self::Delete { session, first } => engine.delete(session, first + time),
            Self::Withdraw { session } => engine.withdraw(session),
            Self::Sweep { rows } => return engine.sweep(rows),
            Self::Seal => engine.seal(),
            Self::Open => engine.open(),
            Self::Format => engine.format(),
            Self::Look => return engine.look(),
        }
        0
    }
}

/// Calls to be timed, and the store on which each turn starts.
struct Case {
    name: String,
    start: Lent,
    calls: Calls,
    /// Calls in a turn.
    times: u64,
}

impl Case {
    fn new(name: &str, stock: &Stock, calls: Calls, times: u64) -> Self {
        Self { name: name.to_owned(), start: stock.engine.lent(), calls, times }
    }

    fn turn(&self, engine: &mut impl Engine) -> Turn {
        engine.take(&self.start);
        let start = Instant::now();
        let sum = (0..self.times).map(|time| self.calls.once(engine, time)).sum();
        Turn { time: start.elapsed(), sum }
    }
}

fn reads(pages: usize) -> impl Iterator<Item = Case> {
    let each = CHAINS.into_iter().flat_map(|chain| OPEN.map(|open| (chain, open)));
    each.map(move |(chain, open)| {
        let mut stock = Stock::versions(pages, 256);
        let session = stock.reader(chain - 1, open);
        let name = format!("read, chain of {chain}, {open} open");
        Case::new(&name, &stock, Calls::Read { session, row: stock.rows - 1 }, 500)
    })
}

fn sessions(pages: usize) -> [Case; 2] {
    let mut stock = Stock::versions(pages, 0);
    let begin = Case::new("begin with commit", &stock, Calls::BeginAndCommit, 500);
    let session = stock.engine.begin();
    [begin, Case::new("next", &stock, Calls::Next { session }, 500)]
}

/// The lowest free slot and entry are as far back as the areas reach.
fn writes(pages: usize) -> [Case; 4] {
    let mut rows = Stock::rows(pages, WRITTEN);
    let session = rows.engine.begin();
    let insert = Case::new("insert", &rows, Calls::Insert { session }, WRITTEN);

    let mut stock = Stock::versions(pages, WRITTEN);
    let (session, first) = (stock.engine.begin(), stock.rows - WRITTEN);
    let update = Case::new("update", &stock, Calls::Update { session, first }, WRITTEN);
    let delete = Case::new("delete", &stock, Calls::Delete { session, first }, WRITTEN);
    for row in first..stock.rows {
        stock.engine.update(session, row, &body(row));
    }
    let name = format!("withdraw of {WRITTEN} updates");
    [insert, update, delete, Case::new(&name, &stock, Calls::Withdraw { session }, 1)]
}

fn sweeps(pages: usize) -> [Case; 2] {
    let (nothing, much) = (Stock::read_versions(pages, 0), Stock::versions(pages, 0));
    let (rows, versions) = (nothing.rows, pages as u64 * ENTRIES);
    [
        Case::new("sweep of nothing", &nothing, Calls::Sweep { rows }, 10),
        Case::new(&format!("sweep of {versions} versions"), &much, Calls::Sweep { rows }, 1),
    ]
}

/// The calls that run over every byte, and what it takes to read every byte and no more.
fn days(pages: usize) -> [Case; 4] {
    let mut stock = Stock::versions(pages, 0);
    let seal = Case::new("seal", &stock, Calls::Seal, 1);
    stock.engine.seal();
    [
        seal,
        Case::new("open", &stock, Calls::Open, 1),
        Case::new("format", &stock, Calls::Format, 1),
        Case::new("every byte read", &stock, Calls::Look, 1),
    ]
}

/// What one call takes each engine, at one size of areas.
pub struct Timed {
    pub name: String,
    pub size: &'static str,
    pub times: u64,
    pub turns: [Turns; 2],
}

/// Times every call with both engines, which must leave the same bytes.
pub fn calls<A: Engine, B: Engine>() -> Vec<Timed> {
    let mut timed = Vec::new();
    for (size, pages) in SIZES {
        let (mut one, mut other) = (A::formatted(pages), B::formatted(pages));
        let cases = reads(pages).chain(sessions(pages)).chain(writes(pages));
        for case in cases.chain(sweeps(pages)).chain(days(pages)) {
            let turns = take_turns(TURNS, || case.turn(&mut one), || case.turn(&mut other));
            assert!(one.lent() == other.lent(), "both engines leave the same after {}", case.name);
            timed.push(Timed { name: case.name, size, times: case.times, turns });
        }
    }
    timed
}
