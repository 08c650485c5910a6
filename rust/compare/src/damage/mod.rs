//! Stores damaged on purpose: each kind of break that document 01 names, numbers with the reserved
//! status, each header field, each rule of a sound desk, each wrong length.
//!
//! A [`Damage`] spoils a working store in one way. Both engines then get every call at copies of
//! it. Each kind lists the answers that it must have brought about in all rounds together, so that
//! a kind which spoils nothing is noticed.

mod chains;
mod desks;
mod headers;
mod lengths;
mod odd;
mod reserved;

pub use chains::broken_chains;
pub use desks::desks;
pub use headers::wrong_headers;
pub use lengths::lengths;
pub use odd::odd_bytes;
pub use reserved::reserved_numbers;

use crate::layout::HEADER;
use crate::mix::Mix;
use crate::pair::Pair;
use crate::probes::probes;
use crate::random::{Random, for_each_seed};
use crate::tally::Tally;
use crate::{Call, Engine, Plain, Store};

/// Answers that a kind of damage must bring about.
type Expected = &'static [(&'static str, &'static [u32])];

/// Spoils a store and names a row to look at. None where the store has nothing to spoil.
type Spoil = Box<dyn Fn(&mut Store, &mut Random) -> Option<u64>>;

/// One kind of damage.
pub struct Damage {
    name: String,
    expected: Expected,
    spoil: Spoil,
}

impl Damage {
    fn new(
        name: impl Into<String>,
        expected: Expected,
        spoil: impl Fn(&mut Store, &mut Random) -> Option<u64> + 'static,
    ) -> Self {
        Self { name: name.into(), expected, spoil: Box::new(spoil) }
    }
}

/// Fails where two engines differ at stores damaged in any of the ways.
pub fn agree(engines: [&dyn Engine; 2], damages: &[Damage], base: fn(u64) -> Store, rounds: u64) {
    let mut tallies: Vec<Tally> = damages.iter().map(|_| Tally::default()).collect();
    for_each_seed(rounds, |seed| {
        let sound = base(seed);
        let mut random = Random::new(!seed);
        for (damage, tally) in damages.iter().zip(&mut tallies) {
            let mut store = sound.clone();
            if let Some(row) = (damage.spoil)(&mut store, &mut random) {
                probe(engines, &damage.name, &store, row, &mut random, tally);
            }
        }
    });
    for (damage, tally) in damages.iter().zip(&tallies) {
        tally.assert_seen(&damage.name, damage.expected);
    }
}

fn probe(
    engines: [&dyn Engine; 2],
    name: &str,
    store: &Store,
    row: u64,
    random: &mut Random,
    tally: &mut Tally,
) {
    let _named = NamedOnPanic(name);
    let mut pair = Pair::new(engines, store.clone());
    for call in probes(random, store, row) {
        let answer = pair.must_agree(&call);
        tally.add(&call, answer);
        if answer.changes() {
            pair.reset(store);
        }
    }
}

struct NamedOnPanic<'a>(&'a str);

impl Drop for NamedOnPanic<'_> {
    fn drop(&mut self) {
        if std::thread::panicking() {
            eprintln!("damage: {}", self.0);
        }
    }
}

/// A store in the midst of work: sessions open, some of them spoiled, and chains of several
/// versions.
pub fn working_store(seed: u64) -> Store {
    let mut random = Random::new(seed);
    let mut store = Store::unformatted(1 + random.index(3), 1 + random.index(3));
    Plain.call(&mut store, &Call::Format);
    let hot = random.pick(&[2, 3, 5]);
    for mix in [Mix::EVEN, Mix::REWRITING, Mix::CONTENDED, Mix::REWRITING] {
        for _ in 0..40 {
            let call = mix.call(&mut random, &store, hot);
            Plain.call(&mut store, &call);
        }
    }
    end_work(&mut store, &mut random);
    store
}

/// Lets some sessions commit, so that others have a conflict before them which they have not met,
/// and marks some as if they had.
fn end_work(store: &mut Store, random: &mut Random) {
    for session in store.sessions().collect::<Vec<_>>() {
        if random.once_in(3) {
            Plain.call(store, &Call::Commit { session });
        }
    }
    for place in 0..store.sessions().count() {
        if random.once_in(5) {
            *store.mark_mut(place) = 1;
        }
    }
}

/// A store that was worked on, closed and sealed: open accepts it. Spoiled sessions cannot commit.
pub fn sealed_store(seed: u64) -> Store {
    let mut store = working_store(seed);
    for session in store.sessions().collect::<Vec<_>>() {
        let close = match session % 3 {
            0 => Call::Withdraw { session },
            _ if store.is_spoiled(session) => Call::Withdraw { session },
            _ => Call::Commit { session },
        };
        Plain.call(&mut store, &close);
    }
    Plain.call(&mut store, &Call::Seal);
    store
}

/// Sets the two bits of a number.
fn set_bits(store: &mut Store, number: u64, bits: u8) {
    let byte = &mut store.status[HEADER + number as usize / 4];
    let shift = number % 4 * 2;
    *byte = *byte & !(3 << shift) | bits << shift;
}

/// A row that the working stores write often.
fn hot_row(random: &mut Random) -> Option<u64> {
    Some(random.below(4))
}
