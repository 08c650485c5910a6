//! Random histories: each starts at a format, and each call gets the desk that the one before
//! handed back.

use crate::mix::Mix;
use crate::pair::Pair;
use crate::random::{Random, for_each_seed};
use crate::tally::Tally;
use crate::{Call, Engine, Store};

/// What the calls must have answered in all histories together. Numbers 1 and 2 belong to areas and
/// desks that no history has.
const EXPECTED: [(&str, &[u32]); 12] = [
    ("format", &[0]),
    ("open", &[0, 3]),
    ("seal", &[0, 15]),
    ("begin", &[0, 12]),
    ("next", &[0, 4, 18]),
    ("insert", &[0, 4, 5, 11, 18]),
    ("update", &[0, 4, 5, 7, 8, 9, 10, 11, 18]),
    ("delete", &[0, 4, 5, 7, 8, 9, 10, 18]),
    ("read", &[0, 4, 5, 7]),
    ("commit", &[0, 4, 18]),
    ("withdraw", &[0, 4]),
    ("sweep", &[0, 5]),
];

/// Runs random histories with two engines and fails where they differ, where an expected answer
/// stays away, or where a call answers 6 or 17: "In a history of demand 3 no call answers 6", and
/// "Histories under demand 3 never meet 17" (02, T-05).
pub fn agree(engines: [&dyn Engine; 2], rounds: u64) {
    let mut tally = Tally::default();
    for_each_seed(rounds, |seed| run(engines, seed, &mut tally));
    tally.assert_seen("histories", &EXPECTED);
    tally.assert_never("histories", &[1, 2, 6, 17]);
}

fn run(engines: [&dyn Engine; 2], seed: u64, tally: &mut Tally) {
    let mut random = Random::new(seed);
    let store = Store::unformatted(1 + random.index(3), 1 + random.index(3));
    let hot = random.pick(&[1, 2, 4, 12, 127]);
    let mut pair = Pair::new(engines, store);
    let mut step = |pair: &mut Pair<'_>, call: &Call| {
        let answer = pair.must_agree(call);
        tally.add(call, answer);
        answer.code
    };
    step(&mut pair, &Call::Format);
    for _ in 0..4 {
        let mix = random.pick(&Mix::ALL);
        for _ in 0..random.pick(&[20, 60, 150, 500]) {
            let call = mix.call(&mut random, pair.store(), hot);
            if step(&mut pair, &call) == 0 && call == Call::Seal {
                assert_eq!(step(&mut pair, &Call::Open), 0, "open straight after a seal");
            }
        }
    }
}

/// Hands out all 32,575 numbers, half committed and half withdrawn; then begin answers 13. The
/// sealed store opens again, and still hands out none.
pub fn agree_until_numbers_end(engines: [&dyn Engine; 2]) {
    let mut pair = Pair::new(engines, Store::unformatted(1, 1));
    pair.must(&Call::Format, 0);
    for session in 1..=32_575 {
        pair.must(&Call::Begin, 0);
        let close = match session % 2 {
            0 => Call::Withdraw { session },
            _ => Call::Commit { session },
        };
        pair.must(&close, 0);
    }
    pair.must(&Call::Begin, 13);
    pair.must(&Call::Seal, 0);
    pair.must(&Call::Open, 0);
    pair.must(&Call::Begin, 13);
}

/// Takes a session through all its statements; then next answers 14 (P11 and P12).
pub fn agree_until_statements_end(engines: [&dyn Engine; 2]) {
    let mut pair = Pair::new(engines, Store::unformatted(1, 1));
    pair.must(&Call::Format, 0);
    pair.must(&Call::Begin, 0);
    pair.must(&Call::Insert { session: 1, body: vec![7; 32] }, 0);
    for _ in 0..65_535 {
        pair.must(&Call::Next { session: 1 }, 0);
    }
    pair.must(&Call::Next { session: 1 }, 14);
    pair.must(&Call::Read { session: 1, row: 0 }, 0);
}
