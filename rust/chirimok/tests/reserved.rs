//! Refusal 17, of the proved store and of the ordinary Rust version (02, T-05): chains written byte
//! by byte, in which one number has status 11. It "stands between 6 and 7: the walk goes on as if
//! that number weren't committed, a break met before a version is found answers 6, and otherwise
//! any such version looked at, the answer included, gives 17". What each call must answer is
//! written here from documents 01 and 02, beside what it must answer while the number is in work.

mod common;

use common::Station;
use compare::{Answer, Call, Engine, Plain, Store, WORDS, both_answer};

const BOTH: [&dyn Engine; 2] = [&Station, &Plain];

/// The acting session, in its statement 1, with the list {15}.
const S: u64 = 20;
/// Another session, in its statement 0.
const T: u64 = 21;
/// Numbers that are committed: seen by S, in its list, and above it.
const SEEN: u64 = 2;
const LISTED: u64 = 15;
const LATER: u64 = 30;
/// A number that is in work.
const WORKING: u64 = 25;
/// The number that gets status 11 where nothing else is said. Committed, S would see it.
const X: u64 = 3;

/// A version: its creator, its expirer, and the statements in which they wrote.
#[derive(Clone, Copy)]
struct Version {
    create: u64,
    expire: u64,
    cmd: u32,
    expire_cmd: u32,
}

/// A version that nobody has expired.
const fn by(create: u64) -> Version {
    until(create, 0)
}

const fn until(create: u64, expire: u64) -> Version {
    Version { create, expire, cmd: 0, expire_cmd: 0 }
}

/// The same, written and expired in statement 1, the present one of S.
const fn now(version: Version) -> Version {
    Version { cmd: 1, expire_cmd: 1, ..version }
}

/// How a chain ends: the pointer of its last version.
const WHOLE: u64 = 0;
/// It is not well formed.
const BROKEN: u64 = 5 << 56;
/// It leads to the second version once more.
const LOOP: u64 = 4 << 56 | 1 << 24 | 48 << 8;

/// Where the entry of that index begins.
const fn entry_at(index: usize) -> usize {
    48 + 80 * index
}

fn put_version(slot: &mut [u8], version: Version, pointer: u64) {
    slot[..8].copy_from_slice(&version.create.to_le_bytes());
    slot[8..16].copy_from_slice(&version.expire.to_le_bytes());
    slot[16..24].copy_from_slice(&pointer.to_le_bytes());
    slot[24..28].copy_from_slice(&version.cmd.to_le_bytes());
    slot[28..32].copy_from_slice(&version.expire_cmd.to_le_bytes());
    slot[32..64].fill(7);
}

/// Row 0 gets the versions, newest first: the slot, then entry 0 and so on.
fn put_chain(store: &mut Store, versions: &[Version], end: u64) {
    for (index, &version) in versions.iter().enumerate() {
        let last = index + 1 == versions.len();
        let pointer = if last { end } else { 4 << 56 | 1 << 24 | (entry_at(index) as u64) << 8 };
        let slot = match index {
            0 => &mut store.data[48..112],
            _ => {
                let entry = &mut store.undo[entry_at(index - 1)..entry_at(index)];
                entry[..8].copy_from_slice(&1u64.to_le_bytes());
                &mut entry[16..]
            }
        };
        put_version(slot, version, pointer);
    }
}

/// "Status of number n: byte 48 + n/4 … shifted by (n mod 4) × 2."
fn put_status(store: &mut Store, number: u64, bits: u8) {
    let (byte, shift) = (48 + number as usize / 4, number % 4 * 2);
    store.status[byte] = store.status[byte] & !(0b11 << shift) | bits << shift;
}

/// One data page and one undo page, formatted. S and T are open and in work like 25, and every
/// other number is committed. Row 0 gets the chain.
fn store(versions: &[Version], end: u64) -> Store {
    let mut store = Store::unformatted(1, 1);
    Plain.call(&mut store, &Call::Format);
    store.status[48..].fill(0b0101_0101);
    [S, T, WORKING].into_iter().for_each(|number| put_status(&mut store, number, 0b00));
    store.desk = [0; WORDS];
    store.desk[0] = 41;
    store.desk[1..3].copy_from_slice(&[20, 21]);
    store.desk[17] = 1;
    store.desk[49] = 15;
    store.desk[64..66].copy_from_slice(&[15, 20]);
    put_chain(&mut store, versions, end);
    store
}

/// Read, update and delete of row 0.
fn calls(session: u64) -> [Call; 3] {
    let body = vec![8; 32];
    [
        Call::Read { session, row: 0 },
        Call::Update { session, row: 0, body },
        Call::Delete { session, row: 0 },
    ]
}

/// What read, update and delete of row 0 answer.
type Answers = [Answer; 3];

const fn all(number: u32) -> Answers {
    [Answer::refused(number); 3]
}

/// Read finds the version at that place in the chain, counted from 1, and reports where its body
/// lies; update and delete answer a number.
const fn finds(count: usize, writes: u32) -> Answers {
    let read = match count {
        1 => [1, 1, 48 + 32],
        _ => [count as u64, 2, (entry_at(count - 2) + 16 + 32) as u64],
    };
    [Answer::done(read), Answer::refused(writes), Answer::refused(writes)]
}

/// Makes the call with both engines; the store stays as it was for the next.
fn answers(what: &str, store: &Store, call: &Call, answer: Answer) {
    both_answer(BOTH, what, store, call, answer);
}

fn answer_all(what: &str, store: &Store, session: u64, expected: Answers) {
    for (call, answer) in calls(session).iter().zip(expected) {
        answers(what, store, call, answer);
    }
}

/// A chain; what is answered while a number in it is in work, and once its status is 11.
#[derive(Clone, Copy)]
struct Case {
    what: &'static str,
    versions: &'static [Version],
    end: u64,
    number: u64,
    in_work: Answers,
    reserved: Answers,
}

impl Case {
    const fn new(what: &'static str, versions: &'static [Version], in_work: Answers) -> Self {
        Self { what, versions, end: WHOLE, number: X, in_work, reserved: all(17) }
    }

    const fn end(self, end: u64) -> Self {
        Self { end, ..self }
    }

    const fn number(self, number: u64) -> Self {
        Self { number, ..self }
    }

    /// The number's status does not count.
    const fn regardless(self) -> Self {
        Self { reserved: self.in_work, ..self }
    }

    fn check(&self) {
        let mut store = store(self.versions, self.end);
        put_status(&mut store, self.number, 0b00);
        answer_all(&format!("{}, in work", self.what), &store, S, self.in_work);
        put_status(&mut store, self.number, 0b11);
        answer_all(&format!("{}, reserved", self.what), &store, S, self.reserved);
    }
}

/// Creators and expirers of versions that are looked at, wherever they stand in the chain and
/// whatever else S would say to the number.
#[test]
fn a_reserved_number_looked_at_is_17() {
    const CASES: &[Case] = &[
        Case::new("the slot's creator", &[by(X)], all(7)),
        Case::new("the slot's expirer", &[until(SEEN, X)], finds(1, 9)),
        Case::new("creator and expirer", &[until(X, X)], all(7)),
        Case::new("the expirer of what isn't there", &[until(WORKING, X)], all(7)),
        Case::new("the creator of what S deleted", &[until(X, S)], all(7)),
        Case::new("the expirer of S's own", &[until(S, X)], finds(1, 9)),
        Case::new("a creator passed", &[by(X), until(SEEN, X)], finds(2, 9)),
        Case::new("an expirer passed", &[until(WORKING, X), until(SEEN, WORKING)], finds(2, 9)),
        Case::new("an older creator", &[by(WORKING), until(X, WORKING)], all(7)),
        Case::new("an older expirer", &[by(WORKING), until(WORKING, X)], all(7)),
        Case::new("the answer's expirer", &[by(WORKING), until(SEEN, X)], finds(2, 9)),
        Case::new(
            "a creator between",
            &[by(WORKING), until(X, WORKING), until(SEEN, X)],
            finds(3, 9),
        ),
        Case::new(
            "the third one's expirer",
            &[by(WORKING), until(LATER, WORKING), until(SEEN, X)],
            finds(3, 9),
        ),
        Case::new("one of S's list", &[by(LISTED)], all(7)).number(LISTED),
        Case::new("an expirer of S's list", &[until(SEEN, LISTED)], finds(1, 9)).number(LISTED),
        Case::new("one above S", &[by(LATER)], all(7)).number(LATER),
        Case::new("an expirer above S", &[until(SEEN, LATER)], finds(1, 9)).number(LATER),
        Case::new("another open session", &[until(SEEN, T)], finds(1, 9)).number(T),
        Case::new("number 1", &[by(1)], all(7)).number(1),
        Case::new("the last number", &[by(32_575)], all(7)).number(32_575),
        Case::new("the last as expirer", &[until(SEEN, 32_575)], finds(1, 9)).number(32_575),
    ];
    CASES.iter().for_each(Case::check);
}

/// "The answer included", and nothing behind it; no other field than creator and expirer.
#[test]
fn what_is_not_looked_at_does_not_count() {
    const CASES: &[Case] = &[
        Case::new("a creator behind", &[by(SEEN), until(X, SEEN)], finds(1, 0)),
        Case::new("an expirer behind", &[by(SEEN), until(SEEN, X)], finds(1, 0)),
        Case::new("behind S's own", &[by(S), until(X, S)], finds(1, 0)),
        Case::new(
            "behind an older answer",
            &[by(WORKING), until(SEEN, WORKING), until(X, SEEN)],
            finds(2, 9),
        ),
        Case::new("behind, and broken", &[by(SEEN), until(X, SEEN)], finds(1, 0)).end(BROKEN),
        Case::new("a number that no version names", &[by(SEEN)], finds(1, 0)),
        Case::new("an empty slot", &[until(0, X), until(X, X)], all(7)),
        Case::new("an empty slot, and broken", &[until(0, X)], all(7)).end(BROKEN),
        Case::new("a copy with create 0", &[by(WORKING), until(0, X)], all(6)),
    ];
    CASES.iter().for_each(|case| case.regardless().check());

    // The entry's writer, and the txn_ids of the pages.
    let mut store = store(&[by(WORKING), until(SEEN, WORKING)], WHOLE);
    put_status(&mut store, X, 0b11);
    store.undo[entry_at(0)..entry_at(0) + 8].copy_from_slice(&X.to_le_bytes());
    store.data[8..16].copy_from_slice(&X.to_le_bytes());
    store.undo[8..16].copy_from_slice(&X.to_le_bytes());
    answer_all("writer and txn_ids", &store, S, finds(2, 9));
}

/// "The creator or expirer, other than the acting session".
#[test]
fn the_own_status_does_not_count() {
    const CASES: &[Case] = &[
        Case::new("own, earlier", &[by(S)], finds(1, 0)),
        Case::new("own, in this statement", &[now(by(S))], all(7)),
        Case::new("deleted earlier", &[until(SEEN, S)], all(7)),
        Case::new("deleted in this statement", &[now(until(SEEN, S))], finds(1, 8)),
        Case::new("own, deleted earlier", &[until(S, S)], all(7)),
        Case::new("updated", &[now(by(S)), now(until(SEEN, S))], finds(2, 8)),
        Case::new("and expired by another", &[until(S, WORKING)], finds(1, 9)),
    ];
    CASES.iter().for_each(|case| case.number(S).regardless().check());

    // To T it is a number like any other, and T's own isn't.
    let mut store = store(&[by(S), until(SEEN, S)], WHOLE);
    answer_all("S in work, for T", &store, T, finds(2, 9));
    put_status(&mut store, T, 0b11);
    answer_all("T reserved, for T", &store, T, finds(2, 9));
    put_status(&mut store, S, 0b11);
    answer_all("S and T reserved, for T", &store, T, all(17));
    answer_all("S and T reserved, for S", &store, S, finds(1, 0));
}

/// "Number 0 and those above 32,575 stay 'never committed'", with every bit of the status page set
/// but those of number 2. The low bits of some of them are those of a number that has status 11.
#[test]
fn number_0_and_numbers_above_the_last_are_never_reserved() {
    let with_bits = |versions: &[Version]| {
        let mut store = store(versions, WHOLE);
        store.status[48..].fill(0xFF);
        put_status(&mut store, SEEN, 0b01);
        store
    };
    answer_all("expirer 0", &with_bits(&[by(SEEN)]), S, finds(1, 0));
    answer_all("creator 0", &with_bits(&[by(0)]), S, all(7));
    for above in [32_576, 32_577, 65_536 + X, (1 << 32) + X, (1 << 63) + X, u64::MAX] {
        let what = format!("{above}");
        answer_all(&what, &with_bits(&[by(above)]), S, all(7));
        answer_all(&what, &with_bits(&[until(above, above)]), S, all(7));
        answer_all(&what, &with_bits(&[until(SEEN, above)]), S, finds(1, 9));
        let older = [by(above), until(SEEN, above)];
        answer_all(&what, &with_bits(&older), S, finds(2, 9));
        answer_all(&what, &with_bits(&[by(above), until(X, above)]), S, all(17));
    }
}

/// "A break met before a version is found answers 6"; one behind it is not met.
#[test]
fn a_break_before_the_version_found_is_told_first() {
    const BEFORE: &[Case] = &[
        Case::new("the slot's creator", &[by(X)], all(6)).end(BROKEN),
        Case::new("the slot's expirer", &[until(WORKING, X)], all(6)).end(BROKEN),
        Case::new("an older creator", &[by(WORKING), until(X, WORKING)], all(6)).end(BROKEN),
        Case::new("both", &[by(X), until(X, X)], all(6)).end(BROKEN),
        Case::new("in a loop", &[by(WORKING), until(X, X)], all(6)).end(LOOP),
        Case::new("before a copy with create 0", &[by(X), until(0, X)], all(6)),
    ];
    BEFORE.iter().for_each(|case| case.regardless().check());
    const BEHIND: &[Case] = &[
        Case::new("the answer", &[until(SEEN, X)], finds(1, 9)).end(BROKEN),
        Case::new("a creator passed", &[by(X), until(SEEN, X)], finds(2, 9)).end(BROKEN),
        Case::new("the answer in a loop", &[by(WORKING), until(SEEN, X)], finds(2, 9)).end(LOOP),
    ];
    BEHIND.iter().for_each(Case::check);
}

/// 17 comes before 7 (above, wherever 7 is answered in work) and before 8 to 11.
#[test]
fn it_is_told_before_8_to_11() {
    const CASES: &[Case] = &[
        Case::new("8: own", &[now(by(S)), until(SEEN, X)], finds(2, 8)),
        Case::new("8: deleted", &[now(until(WORKING, S)), until(SEEN, X)], finds(2, 8)),
        Case::new("9: a creator", &[by(WORKING), until(SEEN, X)], finds(2, 9)),
        Case::new("9: an expirer", &[until(LATER, WORKING), until(SEEN, X)], finds(2, 9)),
        Case::new("10: a creator", &[by(LATER), until(SEEN, X)], finds(2, 10)),
        Case::new("10: an expirer", &[until(WORKING, LATER), until(SEEN, X)], finds(2, 10)),
        Case::new("10: the answer's", &[until(X, LATER), until(SEEN, X)], finds(2, 10)),
    ];
    CASES.iter().for_each(Case::check);

    let full = |versions: &[Version]| {
        let mut store = store(versions, WHOLE);
        for entry in 0..101 {
            store.undo[entry_at(entry)] = 1;
        }
        store
    };
    let update = &calls(S)[1];
    let mut reserved = full(&[until(SEEN, X)]);
    put_status(&mut reserved, X, 0b11);
    answers("17 with 9 and 11", &reserved, update, Answer::refused(17));
    answers("11 alone", &full(&[by(SEEN)]), update, Answer::refused(11));
}

/// 1, 2, 4 and 5 come before 17.
#[test]
fn lengths_desk_session_and_arguments_are_told_first() {
    let mut store = store(&[until(SEEN, X)], WHOLE);
    put_status(&mut store, X, 0b11);
    answer_all("17 alone", &store, S, all(17));
    for session in [0, X, WORKING, 40, u64::MAX] {
        answer_all("4 with 17", &store, session, all(4));
    }
    for body in [vec![], vec![8; 31], vec![8; 33]] {
        let update = Call::Update { session: S, row: 0, body };
        answers("5 with 17", &store, &update, Answer::refused(5));
    }
    for row in [127, 1 << 32, u64::MAX] {
        let body = vec![8; 32];
        let update = Call::Update { session: S, row, body };
        for call in [update, Call::Delete { session: S, row }, Call::Read { session: S, row }] {
            answers("5 alone", &store, &call, Answer::refused(5));
        }
    }
    let mut unsound = store.clone();
    unsound.desk[0] = 0;
    answer_all("2 with 17", &unsound, S, all(2));
    store.undo.truncate(8191);
    answer_all("1 with 17", &store, S, all(1));
}

/// Makes the call, which both must accept, and answers what the store then is.
fn accepted(store: &Store, call: &Call, values: [u64; 3]) -> Store {
    answers("accepted", store, call, Answer::done(values));
    let mut after = store.clone();
    Plain.call(&mut after, call);
    after
}

/// Withdraw and sweep answer 1, 2, 4, 5 and 6 alone. To them a reserved number is one that isn't
/// committed: withdraw puts its version back, and sweep leaves what it has expired.
#[test]
fn withdraw_and_sweep_take_reserved_numbers() {
    let reserved = |versions: &[Version]| {
        let mut store = store(versions, WHOLE);
        [X, S].into_iter().for_each(|number| put_status(&mut store, number, 0b11));
        store
    };
    let withdraw = Call::Withdraw { session: S };
    let mut slot = [0; 64];

    let after = accepted(&reserved(&[by(S), until(X, S)]), &withdraw, [0; 3]);
    put_version(&mut slot, by(X), 0);
    assert_eq!(after.data[48..112], slot, "the copy is put back");
    assert!(after.undo[48..].iter().all(|&byte| byte == 0), "the entry is freed");
    assert_eq!(after.status[48 + 5], 0b01_01_00_10, "20 is withdrawn");

    let after = accepted(&reserved(&[until(X, S)]), &withdraw, [0; 3]);
    assert_eq!(after.data[48..112], slot, "the expirer is cleared");

    // The mark is 15: X, committed, would be below it.
    let sweep = Call::Sweep { first: 0, quota: 127 };
    for versions in [&[by(SEEN), until(SEEN, X)][..], &[until(SEEN, X)], &[until(X, X)]] {
        let store = reserved(versions);
        assert_eq!(accepted(&store, &sweep, [127, 0, 0]).difference(&store), None);
    }
    accepted(&reserved(&[by(X), until(X, SEEN)]), &sweep, [127, 1, 0]);
    accepted(&reserved(&[until(X, SEEN), until(SEEN, X)]), &sweep, [127, 2, 0]);

    let mut broken = store(&[by(S), until(S, X)], BROKEN);
    put_status(&mut broken, X, 0b11);
    answers("6", &broken, &withdraw, Answer::refused(6));
    answers("6", &broken, &sweep, Answer::refused(6));
}

/// The calls that look at no version, with status 11 for every number.
#[test]
fn the_other_calls_do_not_ask() {
    let mut store = store(&[until(X, X)], WHOLE);
    store.status[48..].fill(0xFF);
    let after = accepted(&store, &Call::Begin, [41, 0, 0]);
    assert_eq!(after.status[48 + 10], 0b11_11_00_11, "41 is in work");
    accepted(&store, &Call::Next { session: S }, [0; 3]);
    accepted(&store, &Call::Insert { session: S, body: vec![8; 32] }, [1, 0, 0]);
    let after = accepted(&store, &Call::Commit { session: S }, [0; 3]);
    assert_eq!(after.status[48 + 5], 0b11_11_11_01, "20 is committed");
    answers("a session is open", &store, &Call::Seal, Answer::refused(15));
}
