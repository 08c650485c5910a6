//! The limits that the wrapper names are the store's own, and those of `chirimok.h`, which also has
//! the wrapper's refusals with their texts.

use chirimok::ffi::{IN_DATA, IN_UNDO};
use chirimok::limits::{
    BODY, ENTRIES_PER_PAGE, LAST_NUMBER, LAST_STATEMENT, PAGE, PAGES, ROWS_PER_PAGE, SESSIONS,
};
use chirimok::{Refusal, Store};

const HEADER: &str = include_str!("../../../include/chirimok.h");

/// A formatted store with as many pages of data and of undo.
fn formatted(data_pages: usize, undo_pages: usize) -> Store<Vec<u8>> {
    format(data_pages * PAGE, undo_pages * PAGE, PAGE).expect("format")
}

fn format(data: usize, undo: usize, status: usize) -> Result<Store<Vec<u8>>, Refusal> {
    Store::format(vec![0; data], vec![0; undo], vec![0; status])
}

/// How often the call is accepted before it is refused, and with what.
fn until_refused<T>(mut call: impl FnMut() -> Result<T, Refusal>) -> (usize, Refusal) {
    for accepted in 0.. {
        if let Err(refusal) = call() {
            return (accepted, refusal);
        }
    }
    unreachable!("no call is accepted for ever")
}

#[test]
fn areas_have_whole_pages_up_to_the_most() {
    let most = PAGES * PAGE;
    assert!(format(most, most, PAGE).is_ok());
    assert!(format(PAGE, PAGE, PAGE).is_ok());
    for (data, undo, status) in [
        (most + PAGE, most, PAGE),
        (most, most + PAGE, PAGE),
        (most, most, 2 * PAGE),
        (PAGE - 1, PAGE, PAGE),
        (PAGE, PAGE + 1, PAGE),
        (PAGE, 0, PAGE),
        (PAGE, PAGE, PAGE - 1),
    ] {
        assert_eq!(format(data, undo, status).err(), Some(Refusal::AreaLength));
    }
}

#[test]
fn sessions_and_numbers_run_out() {
    let mut store = formatted(1, 1);
    assert_eq!(until_refused(|| store.begin()), (SESSIONS, Refusal::SessionsFull));

    let mut store = formatted(1, 1);
    let mut last = 0;
    let turns = until_refused(|| {
        let session = store.begin()?;
        last = session.number();
        store.commit(session)
    });
    assert_eq!(turns, (LAST_NUMBER as usize, Refusal::NumbersUsedUp));
    assert_eq!(last, LAST_NUMBER);
    assert_eq!(store.desk().next(), LAST_NUMBER + 1);
}

#[test]
fn rows_entries_and_statements_run_out() {
    let mut store = formatted(2, 2);
    let session = store.begin().expect("begin");
    assert_eq!(store.insert(session, &[7; BODY + 1]), Err(Refusal::RowOrBody));
    let row = store.insert(session, &[7; BODY]).expect("insert");
    let rows = until_refused(|| store.insert(session, &[7; BODY]));
    assert_eq!(rows, (2 * ROWS_PER_PAGE - 1, Refusal::NoRoom));

    let updates = until_refused(|| {
        store.next(session)?;
        store.update(session, row, &[8; BODY])
    });
    assert_eq!(updates, (2 * ENTRIES_PER_PAGE, Refusal::NoRoom));

    let (_, refusal) = until_refused(|| store.next(session));
    assert_eq!(refusal, Refusal::StatementsUsedUp);
    let statement = store.desk().sessions().next().map(|open| open.statement);
    assert_eq!(statement, Some(LAST_STATEMENT));
}

/// The number that the header defines under a name.
fn defined(name: &str) -> u64 {
    let start = format!("#define CHIRIMOK_{name} ");
    let line = HEADER.lines().find_map(|line| line.strip_prefix(&start));
    let number = line.and_then(|rest| rest.split_whitespace().next());
    number.and_then(|number| number.parse().ok()).expect(name)
}

#[test]
fn the_header_has_the_same_limits() {
    for (name, limit) in [
        ("PAGE", PAGE as u64),
        ("PAGES", PAGES as u64),
        ("BODY", BODY as u64),
        ("ROWS_PER_PAGE", ROWS_PER_PAGE as u64),
        ("ENTRIES_PER_PAGE", ENTRIES_PER_PAGE as u64),
        ("SESSIONS", SESSIONS as u64),
        ("LAST_NUMBER", LAST_NUMBER),
        ("LAST_STATEMENT", LAST_STATEMENT.into()),
        ("IN_DATA", IN_DATA),
        ("IN_UNDO", IN_UNDO),
    ] {
        assert_eq!(defined(name), limit, "{name}");
    }
}

/// A name as the header writes it: `CHIRIMOK_NO_ROOM` for `NoRoom`.
fn header_name(refusal: Refusal) -> String {
    let mut name = String::from("CHIRIMOK");
    for letter in format!("{refusal:?}").chars() {
        if letter.is_uppercase() {
            name.push('_');
        }
        name.push(letter.to_ascii_uppercase());
    }
    name
}

#[test]
fn the_header_has_the_same_refusals() {
    let has = |text: String| assert!(HEADER.contains(&text), "{text}");
    let refusals: Vec<_> = (0..100).filter_map(Refusal::from_number).collect();
    for &refusal in &refusals {
        let (name, number) = (header_name(refusal), refusal.number());
        let comma = if Some(&refusal) == refusals.last() { "\n" } else { ",\n" };
        has(format!("    {name} = {number}{comma}"));
        has(format!("    case {name}:\n        return \"{}\";\n", refusal.message()));
        has(format!("\n * {number:4}  "));
    }
    assert_eq!(HEADER.matches("    case CHIRIMOK_").count(), refusals.len() + 1, "and done");
}
