//! Refusals by name, of the proved store and of the ordinary Rust version: desks and stores that
//! break one rule of document 01 each, and calls with two causes at once, of which the lowest
//! number is given. Each call that is refused must leave areas and desk as they were and report
//! zeros.

mod common;

use common::Station;
use compare::{Answer, Call, Engine, Plain, Store, WORDS};

const BOTH: [&dyn Engine; 2] = [&Station, &Plain];

const PAGE: usize = 8192;

/// Where the desk's columns begin among its words.
const NUMBERS: usize = 1;
const STATEMENTS: usize = 17;
const MARKS: usize = 33;
const LISTS: usize = 49;

fn insert(session: u64) -> Call {
    Call::Insert { session, body: vec![7; 32] }
}

fn update(session: u64, row: u64) -> Call {
    Call::Update { session, row, body: vec![8; 32] }
}

/// The calls that take a desk and replace it by none: all but format and open.
fn desk_calls(session: u64, row: u64) -> Vec<Call> {
    let mut calls = vec![Call::Seal, Call::Begin, Call::Sweep { first: 0, quota: 254 }];
    calls.extend(session_calls(session, row));
    calls
}

fn session_calls(session: u64, row: u64) -> Vec<Call> {
    vec![
        Call::Next { session },
        insert(session),
        update(session, row),
        Call::Delete { session, row },
        Call::Read { session, row },
        Call::Commit { session },
        Call::Withdraw { session },
    ]
}

/// Makes the call, which must be accepted.
fn done(store: &mut Store, call: &Call) -> [u64; 3] {
    let answer = Station.call(store, call);
    assert_eq!(answer.code, 0, "{call:?}");
    answer.values
}

/// Makes the call, which must be refused with that number, leave everything and report zeros.
fn refused(what: &str, store: &Store, call: &Call, number: u32) {
    for engine in BOTH {
        let mut copy = store.clone();
        let (name, answer) = (engine.name(), engine.call(&mut copy, call));
        assert_eq!(answer, Answer::refused(number), "{name}, {what}: {call:?}");
        if let Some(difference) = store.difference(&copy) {
            panic!("{name}, {what}: a refused {call:?} changes {difference}");
        }
    }
}

/// Two data pages and one undo page; session 1 inserted row 0 and committed, 2 updated it and
/// committed, and 3, 4 and 5 are open: 5 with the list {3, 4}, in its second statement.
fn working() -> Store {
    let mut store = Store::unformatted(2, 1);
    done(&mut store, &Call::Format);
    done(&mut store, &Call::Begin);
    done(&mut store, &insert(1));
    done(&mut store, &Call::Commit { session: 1 });
    done(&mut store, &Call::Begin);
    done(&mut store, &update(2, 0));
    done(&mut store, &Call::Commit { session: 2 });
    for _ in 3..=5 {
        done(&mut store, &Call::Begin);
    }
    done(&mut store, &Call::Next { session: 5 });
    store
}

/// The same with nobody open, sealed.
fn sealed() -> Store {
    let mut store = working();
    for session in 3..=5 {
        done(&mut store, &Call::Commit { session });
    }
    done(&mut store, &Call::Seal);
    store
}

/// One change of a desk's words.
type Change = fn(&mut [u32; WORDS]);

/// Desks that break one rule each ("Anything else is an unsound desk").
const UNSOUND: &[(&str, Change)] = &[
    ("next is 0", |w| w[0] = 0),
    ("next is 32,577", |w| w[0] = 32_577),
    ("a number that is next", |w| w[0] = 5),
    ("numbers out of order", |w| w.swap(NUMBERS, NUMBERS + 1)),
    ("a number twice", |w| w[NUMBERS + 1] = 3),
    ("an unused place before a session", |w| w[NUMBERS + 1] = 0),
    ("a statement above 65,535", |w| w[STATEMENTS] = 65_536),
    ("a statement of 2^32 - 1", |w| w[STATEMENTS + 2] = u32::MAX),
    ("an unused place with a statement", |w| w[STATEMENTS + 3] = 1),
    ("the last unused place with a statement", |w| w[STATEMENTS + 15] = 1),
    ("a mark of 2", |w| w[MARKS + 2] = 2),
    ("a mark of 2^32 - 1", |w| w[MARKS] = u32::MAX),
    ("an unused place with a mark", |w| w[MARKS + 3] = 1),
    ("the last unused place with a mark", |w| w[MARKS + 15] = 1),
    ("an unused place with a list", |w| w[LISTS + 3 * 15] = 1),
    ("a member at its own number", |w| w[LISTS + 15 + 1] = 4),
    ("a member above its own number", |w| w[LISTS + 15 + 1] = 5),
    ("a list with a gap", |w| w[LISTS + 2 * 15 + 2] = 1),
    ("a list that begins with a gap", |w| w[LISTS + 2 * 15] = 0),
    ("a list out of order", |w| w.swap(LISTS + 2 * 15, LISTS + 2 * 15 + 1)),
    ("a member twice", |w| w[LISTS + 2 * 15 + 1] = 3),
    ("a member behind fourteen gaps", |w| w[LISTS + 14] = 1),
    ("the last place of the last list", |w| w[WORDS - 1] = 1),
];

#[test]
fn an_unsound_desk_is_2() {
    for (what, change) in UNSOUND {
        let mut store = working();
        change(&mut store.desk);
        for call in desk_calls(5, 0) {
            refused(what, &store, &call, 2);
        }
    }
}

/// A header field: its name, where it begins, and whether open looks at it.
const FIELDS: [(&str, usize, bool); 15] = [
    ("page_lsn", 0, true),
    ("txn_id", 8, false),
    ("page_id", 16, true),
    ("checksum", 20, true),
    ("prev", 24, true),
    ("next", 28, true),
    ("overflow", 32, true),
    ("free_space_offset", 36, true),
    ("item_count", 38, true),
    ("flags", 40, true),
    ("reserved", 42, true),
    ("page_type", 44, true),
    ("engine_tag", 45, true),
    ("byte 46", 46, true),
    ("format_version", 47, true),
];

/// Each field alone wrong by its lowest bit on each page, the page sealed again, so that its
/// checksum is right; for the checksum itself the page stays as it was.
#[test]
fn a_wrong_header_field_is_3() {
    let sound = sealed();
    for (name, offset, looked_at) in FIELDS {
        for page in 0..4 {
            let mut store = sound.clone();
            let area = match page {
                0 | 1 => &mut store.data[page * PAGE..],
                2 => &mut store.undo[..],
                _ => &mut store.status[..],
            };
            area[offset] ^= 1;
            if name != "checksum" {
                done(&mut store, &Call::Seal);
            }
            let what = format!("{name} of page {page}");
            if looked_at {
                refused(&what, &store, &Call::Open, 3);
            } else if page < 3 {
                done(&mut store, &Call::Open);
            }
        }
    }
}

#[test]
fn a_wrong_status_page_is_3() {
    let status = |what: &str, number: u32, change: fn(&mut [u8])| {
        let mut store = sealed();
        change(&mut store.status);
        done(&mut store, &Call::Seal);
        if number == 0 {
            done(&mut store, &Call::Open);
        } else {
            refused(what, &store, &Call::Open, number);
        }
    };
    status("the highest number is 32,576", 3, |s| {
        s[8..16].copy_from_slice(&32_576u64.to_le_bytes())
    });
    status("the highest number is 2^64 - 1", 3, |s| s[8..16].fill(255));
    status("number 3 has status 11", 3, |s| s[48] |= 0b1100_0000);
    status("number 3 has status 00", 3, |s| s[48] &= 0b0011_1111);
    status("number 5, the highest, has status 00", 3, |s| s[49] &= 0b1111_0011);
    status("number 0 has status 11", 0, |s| s[48] |= 0b11);
    status("number 6, above the highest, has status 11", 0, |s| s[49] |= 0b0011_0000);
}

/// "Lowest number first, among those that the call can give"; where 17 stands is in `reserved.rs`,
/// and where 18 stands in `spoiled.rs`.
#[test]
fn the_lowest_of_two_causes_is_given() {
    let working = working();
    let unsound = |mut store: Store| {
        store.desk[0] = 0;
        store
    };
    let short = |mut store: Store| {
        store.data.truncate(PAGE - 1);
        store
    };
    for call in desk_calls(99, 999) {
        refused("1 with 2, 4 and 5", &short(unsound(working.clone())), &call, 1);
    }
    refused("1 with 3", &short(working.clone()), &Call::Open, 1);
    for call in session_calls(99, 999) {
        refused("2 with 4 and 5", &unsound(working.clone()), &call, 2);
    }
    refused("2 with 15", &unsound(working.clone()), &Call::Seal, 2);
    refused("2 with 5", &unsound(working.clone()), &Call::Sweep { first: 255, quota: 1 }, 2);
    for session in [0, 2, 99, u64::MAX] {
        let short_body = Call::Insert { session, body: vec![7; 31] };
        for call in [short_body, update(session, 254), Call::Delete { session, row: 254 }] {
            refused("4 with 5", &working, &call, 4);
        }
        refused("4 with 5", &working, &Call::Read { session, row: u64::MAX }, 4);
    }
    let full = full_desk();
    refused("12 with 13", &full, &Call::Begin, 12);
    let mut unsound_full = full;
    unsound_full.desk[STATEMENTS] = 65_536;
    refused("2 with 12 and 13", &unsound_full, &Call::Begin, 2);
}

/// 16 sessions open, and no number left: 32,575 is the last that is handed out.
fn full_desk() -> Store {
    let mut store = working();
    store.desk = [0; WORDS];
    store.desk[0] = 32_576;
    for place in 0..16 {
        store.desk[NUMBERS + place] = 32_560 + place as u32;
    }
    store
}

/// A break met before a version is found is 6, though none would be there behind it; a row outside
/// and a body too short are told first, and so is a full area behind a short body.
#[test]
fn a_break_is_told_before_absence() {
    let mut store = working();
    // Row 0's slot becomes session 6's, whom nobody sees, and its pointer leads nowhere that is.
    store.data[48..56].copy_from_slice(&6u64.to_le_bytes());
    store.data[64..72].copy_from_slice(&(5u64 << 56).to_le_bytes());
    for call in [Call::Read { session: 5, row: 0 }, Call::Delete { session: 5, row: 0 }] {
        refused("6 with 7", &store, &call, 6);
    }
    refused("6 with 7", &store, &update(5, 0), 6);
    let short_body = Call::Update { session: 5, row: 0, body: vec![8; 33] };
    refused("5 with 6", &store, &short_body, 5);
    refused("5 with 6", &store, &Call::Sweep { first: 255, quota: 1 }, 5);
    // The same slot with pointer 0: no version is there, and no break.
    store.data[64..72].fill(0);
    for call in [Call::Read { session: 5, row: 0 }, Call::Delete { session: 5, row: 0 }] {
        refused("7 alone", &store, &call, 7);
    }
    let mut full = working();
    for row in 0..254 {
        let at = row / 127 * PAGE + 48 + row % 127 * 64;
        full.data[at] = 1;
    }
    refused("5 with 11", &full, &Call::Insert { session: 5, body: vec![7; 31] }, 5);
    refused("11 alone", &full, &insert(5), 11);
}

/// The edge of sweep's 5: a first row behind the last is refused, the row count itself is not.
#[test]
fn sweep_takes_the_row_count_as_first() {
    let mut store = working();
    refused("first row > rows", &store, &Call::Sweep { first: 255, quota: 0 }, 5);
    assert_eq!(done(&mut store, &Call::Sweep { first: 254, quota: 9 }), [254, 0, 0]);
}
