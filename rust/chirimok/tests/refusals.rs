//! The wrapper's own types: refusal numbers and the desk's accessors.

use chirimok::limits::{PAGE, WORDS};
use chirimok::{OpenSession, Refusal, Row, Session, Store};

/// 1 to 15, 17 of 02, T-05, and 18 of T-07; 0 is done, and 16 is a line of a script that is ill
/// formed.
#[test]
fn refusals_have_their_numbers() {
    for number in (1..=15).chain([17, 18]) {
        assert_eq!(Refusal::from_number(number).map(Refusal::number), Some(number));
    }
    for number in [0, 16, 19] {
        assert_eq!(Refusal::from_number(number), None);
    }
}

#[test]
fn a_formatted_store_has_no_sessions() {
    let store = Store::format(vec![1; PAGE], vec![1; PAGE], vec![1; PAGE]).expect("format");
    assert_eq!(store.desk().next(), 1);
    assert_eq!(store.desk().sessions().count(), 0);
}

#[test]
fn a_desk_shows_its_sessions() {
    let mut words = [0; WORDS];
    words[..3].copy_from_slice(&[9, 3, 5]);
    words[17..19].copy_from_slice(&[2, 7]);
    words[34] = 1;
    words[49 + 15] = 3;
    let store = Store::from_kept_words(vec![], vec![], vec![], words);
    let sessions: Vec<_> = store.desk().sessions().collect();
    let number = Session::from_number;
    let first = OpenSession { number: number(3), statement: 2, spoiled: false, list: &[] };
    let second = OpenSession { number: number(5), statement: 7, spoiled: true, list: &[3] };
    assert_eq!(sessions, [first, second]);
}

/// A store of its own areas, in which a session that is open has inserted a row.
fn written() -> (Store<Vec<u8>>, Session, Row) {
    let [data, undo, status] = [(); 3].map(|()| vec![0; PAGE]);
    let mut store = Store::format(data, undo, status).expect("format");
    let writer = store.begin().expect("begin");
    let row = store.insert(writer, &[7; 32]).expect("insert");
    (store, writer, row)
}

/// What goes wrong with words that are not the last, as [`Store::from_kept_words`] warns: every call
/// is accepted, and a row is lost.
#[test]
fn words_from_before_a_commit_lose_its_rows() {
    let (mut store, writer, row) = written();
    let words = *store.desk().words();
    store.commit(writer).expect("commit");

    let [data, undo, status] = store.into_areas();
    let mut store = Store::from_kept_words(data, undo, status, words);
    store.withdraw(writer).expect("withdraw");
    let reader = store.begin().expect("begin");
    assert_eq!(store.read(reader, row), Err(Refusal::NoVersion));
}

/// A sealed store that is opened hands out the numbers behind those of its rows.
#[test]
fn an_opened_store_keeps_its_rows() {
    let (mut store, writer, row) = written();
    store.commit(writer).expect("commit");
    store.seal().expect("seal");

    let [data, undo, status] = store.into_areas();
    let mut store = Store::open(data, undo, status).expect("open");
    let other = store.begin().expect("begin");
    assert!(writer < other);
    store.withdraw(other).expect("withdraw");
    let reader = store.begin().expect("begin");
    assert_eq!(store.read(reader, row).expect("read").body, &[7; 32]);
}
