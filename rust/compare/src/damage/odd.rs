//! Odd bytes that break nothing by themselves.

use super::chains::bad_entry;
use super::{Damage, Expected, hot_row};
use crate::Store;
use crate::layout::{
    CREATE, ENTRY, ENTRY_COPY, EXPIRE, HEADER, PAGE, entries, put_word, slot_at, word_at,
};
use crate::mix::EDGES;
use crate::random::Random;

/// A number for a creator or expirer: known to the desk, or not, or none.
fn some_number(store: &Store, random: &mut Random) -> u64 {
    let handed_out = random.below(store.next() + 2);
    let open = random.pick_from(store.sessions()).unwrap_or(0);
    let edge = random.pick(&EDGES);
    random.pick(&[handed_out, handed_out, open, open, 0, edge])
}

/// Bytes that no history writes and that the rules still decide on.
pub fn odd_bytes() -> Vec<Damage> {
    let sight: Expected = &[("read", &[0, 7]), ("update", &[0, 7, 9, 10])];
    let status: Expected =
        &[("read", &[0, 7, 17]), ("update", &[0, 7, 9, 10, 17]), ("delete", &[0, 7, 9, 10, 17])];
    vec![
        bad_entry("zero field not zero", &[("sweep", &[0])], |store, at, random| {
            store.undo[at + 12 + random.index(4)] = 0xFF;
        }),
        bad_entry("another writer", &[("sweep", &[0])], |store, at, random| {
            let writer = some_number(store, random).max(1);
            put_word(&mut store.undo, at, writer);
        }),
        bad_entry("copy's creator", &[("read", &[0])], |store, at, random| {
            let number = some_number(store, random);
            put_word(&mut store.undo, at + ENTRY_COPY + CREATE, number);
        }),
        bad_entry("copy's expirer", &[("read", &[0])], |store, at, random| {
            let number = some_number(store, random);
            put_word(&mut store.undo, at + ENTRY_COPY + EXPIRE, number);
        }),
        bad_entry("copy's statements", &[("read", &[0])], |store, at, random| {
            store.undo[at + ENTRY_COPY + 24 + random.index(8)] = random.pick(&[0, 1, 5, 0xFF]);
        }),
        Damage::new("slot's creator", sight, |store, random| {
            let row = hot_row(random)?;
            let number = some_number(store, random);
            put_word(&mut store.data, slot_at(row) + CREATE, number);
            Some(row)
        }),
        Damage::new("slot's expirer", sight, |store, random| {
            let row = hot_row(random)?;
            let number = some_number(store, random);
            put_word(&mut store.data, slot_at(row) + EXPIRE, number);
            Some(row)
        }),
        Damage::new("slot's statements", sight, |store, random| {
            let row = hot_row(random)?;
            store.data[slot_at(row) + 24 + random.index(8)] = random.pick(&[0, 1, 5, 0xFF]);
            Some(row)
        }),
        Damage::new(
            "empty slot with odd bytes",
            &[("read", &[7]), ("sweep", &[0])],
            |store, random| {
                let row = hot_row(random)?;
                let slot = slot_at(row);
                store.data[slot..slot + 64].copy_from_slice(&random.bytes(64));
                put_word(&mut store.data, slot + CREATE, 0);
                Some(row)
            },
        ),
        Damage::new("free entries with odd bytes", &[("update", &[0])], |store, random| {
            for at in entries(&store.undo) {
                if word_at(&store.undo, at) == 0 && random.once_in(2) {
                    store.undo[at + 8..at + ENTRY].copy_from_slice(&random.bytes(ENTRY - 8));
                }
            }
            hot_row(random)
        }),
        Damage::new("status bits", status, |store, random| {
            for _ in 0..1 + random.index(4) {
                let byte = HEADER + random.index(store.next() as usize / 4 + 1);
                store.status[byte] = random.number() as u8;
            }
            hot_row(random)
        }),
        Damage::new(
            "item counts and txn_ids",
            &[("insert", &[0]), ("update", &[0])],
            |store, random| {
                for page in
                    store.data.chunks_exact_mut(PAGE).chain(store.undo.chunks_exact_mut(PAGE))
                {
                    page[8..16].copy_from_slice(&random.bytes(8));
                    page[38..40].copy_from_slice(&random.bytes(2));
                }
                hot_row(random)
            },
        ),
        Damage::new("scattered bytes", &[("read", &[0, 6]), ("sweep", &[6])], |store, random| {
            for _ in 0..300 {
                let at = random.index(store.data.len());
                store.data[at] = random.number() as u8;
                let at = random.index(store.undo.len());
                store.undo[at] = random.number() as u8;
            }
            hot_row(random)
        }),
        Damage::new("nothing but chance", &[], |store, random| {
            store.data = random.bytes(store.data.len());
            store.undo = random.bytes(store.undo.len());
            store.status = random.bytes(store.status.len());
            hot_row(random)
        }),
    ]
}
