//! Refusal 18, of the proved store and of the ordinary Rust version (02, T-07): "After an answer 10,
//! the desk marks that session spoiled, the one change that refusal makes. A spoiled session may
//! read and withdraw; insert, update, delete, next and commit answer 18, directly after 4." What
//! each call must answer, and which words of the desk it leaves, is written here from the paper.

mod common;

use common::Station;
use compare::{Answer, Call, Engine, Plain, Store, both_answer};

const BOTH: [&dyn Engine; 2] = [&Station, &Plain];

/// Where the desk's columns begin among its words.
const NUMBERS: usize = 1;
const STATEMENTS: usize = 17;
const MARKS: usize = 33;
const LISTS: usize = 49;

const fn next(session: u64) -> Call {
    Call::Next { session }
}

fn insert(session: u64) -> Call {
    Call::Insert { session, body: vec![7; 32] }
}

fn update(session: u64, row: u64) -> Call {
    Call::Update { session, row, body: vec![8; 32] }
}

const fn delete(session: u64, row: u64) -> Call {
    Call::Delete { session, row }
}

const fn read(session: u64, row: u64) -> Call {
    Call::Read { session, row }
}

const fn commit(session: u64) -> Call {
    Call::Commit { session }
}

const fn withdraw(session: u64) -> Call {
    Call::Withdraw { session }
}

/// The five calls that a spoiled session is refused, on that row.
fn changes(session: u64, row: u64) -> [Call; 5] {
    [next(session), insert(session), update(session, row), delete(session, row), commit(session)]
}

/// Makes the call with both engines, and goes on with what they leave.
fn answers(what: &str, store: &mut Store, call: &Call, answer: Answer) {
    *store = both_answer(BOTH, what, store, call, answer);
}

fn refused(what: &str, store: &mut Store, call: &Call, number: u32) {
    answers(what, store, call, Answer::refused(number));
}

/// Makes calls that must be accepted and report nothing.
fn done(store: &mut Store, calls: &[Call]) {
    for call in calls {
        answers("done", store, call, Answer::done([0; 3]));
    }
}

/// Begins a session, which must get this number.
fn begin(store: &mut Store, number: u64) {
    answers("begin", store, &Call::Begin, Answer::done([number, 0, 0]));
}

/// The marks at the desk's first places; all others must be 0.
fn marks(store: &Store, places: usize) -> &[u32] {
    let (marks, rest) = store.desk[MARKS..LISTS].split_at(places);
    assert!(rest.iter().all(|&mark| mark == 0), "marks behind the {places} sessions");
    marks
}

/// One page an area. Session 1 has inserted rows 0 and 1 and committed; 2 to 5 are open, and 3 has
/// updated row 0.
fn contended() -> Store {
    let mut store = Store::unformatted(1, 1);
    done(&mut store, &[Call::Format]);
    begin(&mut store, 1);
    for row in 0..2 {
        answers("insert", &mut store, &insert(1), Answer::done([row, 0, 0]));
    }
    done(&mut store, &[commit(1)]);
    (2..=5).for_each(|session| begin(&mut store, session));
    done(&mut store, &[update(3, 0)]);
    store
}

/// The same, with 3 committed: 2, 4 and 5 are open and would lose a conflict on row 0.
fn committed() -> Store {
    let mut store = contended();
    done(&mut store, &[commit(3)]);
    store
}

/// The same, with 4 spoiled, at the second place of the desk.
fn spoiled() -> Store {
    let mut store = committed();
    refused("4 loses", &mut store, &update(4, 0), 10);
    assert_eq!(marks(&store, 3), [0, 1, 0]);
    store
}

#[test]
fn ten_changes_one_word_alone() {
    for (place, session) in [2, 4, 5].into_iter().enumerate() {
        for call in [update(session, 0), delete(session, 0)] {
            let before = committed();
            let mut after = before.clone();
            refused("a conflict", &mut after, &call, 10);
            let mut expected = before;
            expected.desk[MARKS + place] = 1;
            assert_eq!(expected.difference(&after), None, "{call:?}");
        }
    }
}

/// "9 and 8 mark nothing", and no other refusal does: whoever was told them may go on and commit.
#[test]
fn no_other_refusal_marks() {
    let mut store = contended();
    let short = Call::Update { session: 4, row: 0, body: vec![8; 31] };
    refused("9", &mut store, &update(4, 0), 9);
    refused("9", &mut store, &delete(4, 0), 9);
    refused("8", &mut store, &update(3, 0), 8);
    refused("8", &mut store, &delete(3, 0), 8);
    refused("7", &mut store, &update(4, 5), 7);
    refused("5", &mut store, &short, 5);
    refused("5", &mut store, &delete(4, 127), 5);
    refused("4", &mut store, &delete(1, 0), 4);
    let mut full = store.clone();
    (0..101).for_each(|entry| full.undo[48 + 80 * entry] = 1);
    refused("11", &mut full, &update(4, 1), 11);
    let mut broken = store.clone();
    broken.data[48 + 16] = 1;
    refused("6", &mut broken, &update(4, 0), 6);
    let mut reserved = store.clone();
    reserved.status[48] |= 0b11 << 6;
    refused("17", &mut reserved, &update(4, 0), 17);
    assert_eq!(marks(&store, 4), [0; 4]);
    done(&mut store, &[next(4), commit(4), commit(3)]);
}

#[test]
fn a_spoiled_session_may_read_and_withdraw() {
    let mut store = spoiled();
    // Read finds what it found before: the copy of row 0 in the undo page, and row 1 in its slot.
    let copy = Answer::done([2, 2, 48 + 16 + 32]);
    let slot = Answer::done([1, 1, 48 + 64 + 32]);
    for call in changes(4, 1) {
        refused("18", &mut store, &call, 18);
        answers("read", &mut store, &read(4, 0), copy);
        answers("read", &mut store, &read(4, 1), slot);
    }
    assert_eq!(marks(&store, 3), [0, 1, 0]);
    done(&mut store, &[withdraw(4)]);
    assert_eq!(store.desk[NUMBERS..NUMBERS + 3], [2, 5, 0]);
    assert_eq!(marks(&store, 2), [0, 0]);
    assert_eq!(store.status[48 + 1], 0b10, "4 is withdrawn, and 5 is in work");
    for call in changes(4, 1) {
        refused("closed", &mut store, &call, 4);
    }
    // Who begins now sees the writer, and is not refused.
    begin(&mut store, 6);
    done(&mut store, &[update(6, 0), commit(6)]);
}

/// What the session wrote before it lost the conflict goes with it.
#[test]
fn its_writes_are_withdrawn() {
    let mut store = committed();
    done(&mut store, &[update(4, 1)]);
    answers("insert", &mut store, &insert(4), Answer::done([2, 0, 0]));
    done(&mut store, &[next(4)]);
    refused("4 loses", &mut store, &delete(4, 0), 10);
    refused("approved", &mut store, &commit(4), 18);
    done(&mut store, &[withdraw(4)]);
    begin(&mut store, 6);
    answers("row 1 is as it was", &mut store, &read(6, 1), Answer::done([1, 1, 48 + 64 + 32]));
    refused("row 2 is empty", &mut store, &read(6, 2), 7);
}

/// A call of session 4, at the second place: 18 as long as it is marked, and else this refusal.
fn hidden(store: &Store, call: &Call, number: u32) {
    let what = format!("{number} behind 18");
    let mut store = store.clone();
    refused(&what, &mut store, call, 18);
    store.desk[MARKS + 1] = 0;
    refused(&what, &mut store, call, number);
}

/// "Directly after 4": 1, 2 and 4 are told before 18, and 18 before 5.
#[test]
fn it_is_told_directly_after_4() {
    let mut store = spoiled();
    for body in [vec![], vec![8; 31], vec![8; 33]] {
        hidden(&store, &Call::Update { session: 4, row: 0, body: body.clone() }, 5);
        hidden(&store, &Call::Insert { session: 4, body }, 5);
    }
    for row in [127, 1 << 32, u64::MAX] {
        hidden(&store, &update(4, row), 5);
        hidden(&store, &delete(4, row), 5);
        refused("5 of read", &mut store, &read(4, row), 5);
    }
    for session in [0, 1, 3, 6, u64::MAX] {
        changes(session, 127).iter().for_each(|call| refused("4", &mut store, call, 4));
    }
    let mut unsound = store.clone();
    unsound.desk[0] = 0;
    changes(4, 0).iter().for_each(|call| refused("2 with 18", &mut unsound, call, 2));
    store.undo.truncate(8191);
    changes(4, 0).iter().for_each(|call| refused("1 with 18", &mut store, call, 1));
}

/// So it is before all others: 6, 17, 7 to 11 and 14.
#[test]
fn it_is_told_before_6_to_17() {
    let mut store = committed();
    done(&mut store, &[update(4, 1)]);
    refused("4 loses", &mut store, &update(4, 0), 10);
    hidden(&store, &delete(4, 0), 10);
    hidden(&store, &update(4, 1), 8);
    hidden(&store, &delete(4, 2), 7);
    store.desk[STATEMENTS + 1] = 65_535;
    hidden(&store, &next(4), 14);

    let mut full = store.clone();
    (2..127).for_each(|row| full.data[48 + 64 * row] = 1);
    (2..101).for_each(|entry| full.undo[48 + 80 * entry] = 1);
    hidden(&full, &insert(4), 11);
    hidden(&full, &update(4, 2), 11);

    // Number 3, who wrote row 0, in work and reserved; then the slot's pointer leads nowhere.
    store.status[48] &= 0b0011_1111;
    hidden(&store, &delete(4, 0), 9);
    store.status[48] |= 0b1100_0000;
    hidden(&store, &delete(4, 0), 17);
    store.data[48 + 16] = 1;
    hidden(&store, &update(4, 0), 6);
    refused("6 of read", &mut store, &read(4, 0), 6);
}

/// The mark belongs to the session and not to its place.
#[test]
fn the_mark_moves_up_with_its_session() {
    for close in [commit, withdraw] {
        let mut store = spoiled();
        done(&mut store, &[close(2)]);
        assert_eq!(store.desk[NUMBERS..NUMBERS + 3], [4, 5, 0]);
        assert_eq!(marks(&store, 2), [1, 0]);
        refused("4 at the first place", &mut store, &commit(4), 18);
        done(&mut store, &[next(5), close(5)]);
        assert_eq!(marks(&store, 1), [1]);
        done(&mut store, &[withdraw(4)]);
        assert_eq!(marks(&store, 0), [0; 0]);
    }
    // Where the spoiled one goes, who moves up to its place is not marked by that.
    let mut store = spoiled();
    refused("5 loses", &mut store, &delete(5, 0), 10);
    done(&mut store, &[withdraw(4)]);
    assert_eq!(marks(&store, 2), [0, 1]);
    done(&mut store, &[withdraw(5), commit(2)]);
}

#[test]
fn a_session_that_begins_is_not_marked() {
    let mut store = spoiled();
    refused("5 loses", &mut store, &update(5, 0), 10);
    begin(&mut store, 6);
    assert_eq!(marks(&store, 4), [0, 1, 1, 0]);
    done(&mut store, &[withdraw(5)]);
    begin(&mut store, 7);
    assert_eq!(marks(&store, 4), [0, 1, 0, 0]);
    done(&mut store, &[commit(6), commit(7)]);
}

/// All who were open beside the writer, fifteen at most; each is withdrawn on its own.
#[test]
fn fifteen_sessions_can_be_spoiled() {
    let mut store = committed();
    (6..=18).for_each(|session| begin(&mut store, session));
    done(&mut store, &[update(18, 0), commit(18)]);
    let losers: Vec<u64> = store.sessions().collect();
    assert_eq!(losers.len(), 15);
    for &session in &losers {
        refused("loses", &mut store, &update(session, 0), 10);
        refused("lost", &mut store, &update(session, 0), 18);
    }
    assert_eq!(marks(&store, 15), [1; 15]);
    begin(&mut store, 19);
    assert_eq!(store.desk[MARKS + 15], 0);
    for session in losers {
        done(&mut store, &[withdraw(session)]);
    }
    assert_eq!(marks(&store, 1), [0]);
    done(&mut store, &[update(19, 0), commit(19)]);
}

/// Seal, begin and sweep do not ask for the mark; the sweep's own is that of numbers, and a spoiled
/// session still holds the versions that it reads.
#[test]
fn the_other_calls_do_not_ask() {
    let mut store = spoiled();
    let sweep = Call::Sweep { first: 0, quota: 127 };
    done(&mut store, &[commit(2), commit(5)]);
    answers("what 4 reads stays", &mut store, &sweep, Answer::done([127, 0, 0]));
    refused("a session is open", &mut store, &Call::Seal, 15);
    done(&mut store, &[withdraw(4)]);
    answers("nobody reads it", &mut store, &sweep, Answer::done([127, 1, 0]));
    done(&mut store, &[Call::Seal, Call::Open]);
    begin(&mut store, 6);
    assert_eq!(marks(&store, 1), [0]);
}
