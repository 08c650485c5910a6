//! Desks that break one rule each, and sound ones at the limits or with spoiled sessions.

use super::{Damage, Expected, hot_row};
use crate::random::Random;
use crate::{Store, WORDS};

const UNSOUND: Expected = &[
    ("seal", &[2]),
    ("begin", &[2]),
    ("next", &[2]),
    ("insert", &[2]),
    ("update", &[2]),
    ("delete", &[2]),
    ("read", &[2]),
    ("commit", &[2]),
    ("withdraw", &[2]),
    ("sweep", &[2]),
];

/// What spoiled sessions are answered: "A spoiled session may read and withdraw" (02, T-07).
const SPOILED: Expected = &[
    ("begin", &[0]),
    ("next", &[4, 18]),
    ("insert", &[4, 18]),
    ("update", &[4, 18]),
    ("delete", &[4, 18]),
    ("read", &[0, 4, 5, 7]),
    ("commit", &[4, 18]),
    ("withdraw", &[0, 4]),
    ("sweep", &[0, 5]),
];

/// A desk that keeps every rule, near its limits: three sessions, the last with a list of two.
fn sound_desk(store: &mut Store) {
    store.desk = [0; WORDS];
    *store.next_mut() = 9;
    for (place, number) in [3, 5, 8].into_iter().enumerate() {
        *store.number_mut(place) = number;
    }
    *store.statement_mut(0) = 2;
    *store.member_mut(0, 0) = 2;
    *store.member_mut(2, 0) = 3;
    *store.member_mut(2, 1) = 5;
}

fn desk(
    name: &str,
    expected: Expected,
    spoil: impl Fn(&mut Store, &mut Random) + 'static,
) -> Damage {
    Damage::new(name, expected, move |store, random| {
        sound_desk(store);
        spoil(store, random);
        hot_row(random)
    })
}

/// Desks that break one rule each, and sound ones at the limits or with spoiled sessions.
pub fn desks() -> Vec<Damage> {
    let unsound = |name, spoil: fn(&mut Store, &mut Random)| desk(name, UNSOUND, spoil);
    vec![
        desk("sound", &[("begin", &[0]), ("next", &[0]), ("seal", &[15])], |_, _| {}),
        unsound("next 0", |store, _| *store.next_mut() = 0),
        unsound("next 0 without sessions", |store, _| store.desk = [0; WORDS]),
        unsound("next above 32,576", |store, random| {
            *store.next_mut() = random.pick(&[32_577, 1 << 16, 1 << 31, u32::MAX]);
        }),
        unsound("number not below next", |store, random| {
            *store.number_mut(2) = random.pick(&[9, 10, 1 << 31, u32::MAX]);
        }),
        unsound("equal numbers", |store, _| *store.number_mut(1) = 3),
        unsound("descending numbers", |store, _| {
            *store.number_mut(0) = 5;
            *store.number_mut(1) = 3;
        }),
        unsound("unused place before a used one", |store, _| *store.number_mut(1) = 0),
        unsound("number behind unused places", |store, random| {
            *store.number_mut(4 + random.index(12)) = 8;
        }),
        unsound("statement above 65,535", |store, random| {
            *store.statement_mut(random.index(3)) = random.pick(&[65_536, 1 << 31, u32::MAX]);
        }),
        unsound("statement beyond 16 bits, low bits sound", |store, random| {
            *store.statement_mut(random.index(3)) = 1 << 16 | 1;
        }),
        unsound("unused place with a statement", |store, random| {
            *store.statement_mut(3 + random.index(13)) = random.pick(&[1, 1 << 31, u32::MAX]);
        }),
        unsound("mark above 1", |store, random| {
            *store.mark_mut(random.index(3)) = random.pick(&[2, 3, 1 << 31, u32::MAX]);
        }),
        unsound("mark beyond 8 bits, low bits sound", |store, random| {
            *store.mark_mut(random.index(3)) = random.pick(&[1 << 8, 1 << 16 | 1]);
        }),
        unsound("unused place with a mark", |store, random| {
            *store.mark_mut(3 + random.index(13)) = random.pick(&[1, 2, u32::MAX]);
        }),
        unsound("unused place with a member", |store, random| {
            *store.member_mut(3 + random.index(13), random.index(15)) = 1;
        }),
        unsound("last unused place with a statement", |store, _| *store.statement_mut(15) = 1),
        unsound("last unused place with a mark", |store, _| *store.mark_mut(15) = 1),
        unsound("last unused place with a member", |store, _| *store.member_mut(15, 14) = 1),
        unsound("last unused place of a list with a member", |store, random| {
            *store.member_mut(random.index(3), 14) = random.pick(&[1, 7]);
        }),
        unsound("unused member before a used one", |store, _| *store.member_mut(2, 0) = 0),
        unsound("member behind unused places", |store, random| {
            *store.member_mut(2, 3 + random.index(12)) = 7;
        }),
        unsound("equal members", |store, _| *store.member_mut(2, 1) = 3),
        unsound("descending members", |store, _| *store.member_mut(2, 1) = 2),
        unsound("member not below its session", |store, random| {
            *store.member_mut(2, 1) = random.pick(&[8, 9, 1 << 31, u32::MAX]);
        }),
        unsound("any one word", |store, random| {
            store.desk[random.index(WORDS)] = random.number() as u32;
        }),
        desk("last number", &[("begin", &[13])], |store, _| *store.next_mut() = 32_576),
        desk("last number but one", &[("begin", &[0])], |store, _| *store.next_mut() = 32_575),
        desk("last statement", &[("next", &[14])], |store, _| *store.statement_mut(1) = 65_535),
        desk("last statement but one", &[("next", &[0])], |store, _| {
            *store.statement_mut(1) = 65_534;
        }),
        desk("all sessions spoiled", SPOILED, |store, _| {
            (0..3).for_each(|place| *store.mark_mut(place) = 1);
        }),
        desk("some session spoiled", &[("commit", &[0, 18])], |store, random| {
            *store.mark_mut(random.index(3)) = 1;
        }),
        desk("spoiled in the last statement", &[("next", &[0, 18])], |store, _| {
            *store.statement_mut(1) = 65_535;
            *store.mark_mut(1) = 1;
        }),
        desk("sixteen sessions, full lists, last number", &[("begin", &[12])], |store, random| {
            *store.next_mut() = 32_576;
            for place in 0..16 {
                *store.number_mut(place) = 32_560 + place as u32;
                *store.mark_mut(place) = random.pick(&[0, 1]);
                (0..15).for_each(|member| *store.member_mut(place, member) = 1 + member as u32);
            }
        }),
        desk("no session", &[("seal", &[0]), ("sweep", &[0])], |store, _| {
            store.desk = [0; WORDS];
            *store.next_mut() = 9;
        }),
    ]
}
