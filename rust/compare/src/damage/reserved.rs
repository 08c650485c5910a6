//! Numbers with the reserved status (02, T-05), named by versions or not.

use super::chains::Link;
use super::{Damage, Expected, hot_row, set_bits};
use crate::Store;
use crate::layout::{CREATE, ENTRY_COPY, EXPIRE, HEADER, put_word, slot_at, word_at};
use crate::random::Random;

const RESERVED: u8 = 0b11;

const MET: Expected = &[
    ("read", &[0, 17]),
    ("update", &[0, 17, 18]),
    ("delete", &[0, 17, 18]),
    ("withdraw", &[0]),
    ("sweep", &[0]),
];

const MET_OR_BROKEN: Expected =
    &[("read", &[6, 17]), ("update", &[6, 17, 18]), ("delete", &[6, 17, 18])];

/// The creator or expirer of one of the chain's versions, the slot's own among them.
fn some_writer(store: &Store, link: &Link, random: &mut Random) -> u64 {
    let field = random.pick(&[CREATE, EXPIRE]);
    match random.index(1 + link.chain.len()) {
        0 => word_at(&store.data, slot_at(link.row) + field),
        passed => word_at(&store.undo, link.chain[passed - 1] + ENTRY_COPY + field),
    }
}

/// A number that a version of the chain names becomes reserved.
fn reserve_writer(store: &mut Store, link: &Link, random: &mut Random) {
    let number = some_writer(store, link, random);
    set_bits(store, number, RESERVED);
}

/// Reserved numbers in whole and in broken chains, those of open sessions, and all that have bits:
/// "Number 0 and those above 32,575" are none.
pub fn reserved_numbers() -> Vec<Damage> {
    vec![
        Damage::new("a number of a chain", MET, |store, random| {
            let link = Link::pick(store, random)?;
            reserve_writer(store, &link, random);
            Some(link.row)
        }),
        Damage::new("a number of a broken chain", MET_OR_BROKEN, |store, random| {
            let link = Link::pick(store, random)?;
            reserve_writer(store, &link, random);
            link.set(store, 1);
            Some(link.row)
        }),
        Damage::new("numbers of open sessions", MET, |store, random| {
            for session in store.sessions().collect::<Vec<_>>() {
                if random.once_in(2) {
                    set_bits(store, session, RESERVED);
                }
            }
            Link::pick(store, random).map(|link| link.row)
        }),
        Damage::new("all numbers", &[("read", &[0, 7, 17])], |store, random| {
            store.status[HEADER..].fill(0xFF);
            hot_row(random)
        }),
        Damage::new("all numbers, and one at the edge", &[("read", &[7, 17])], |store, random| {
            store.status[HEADER..].fill(0xFF);
            let row = hot_row(random)?;
            let low = random.below(store.next());
            let above = [32_576, 1 << 15 | low, 1 << 16 | low, 1 << 32 | low];
            let number = if random.once_in(3) { 32_575 } else { random.pick(&above) };
            let field = random.pick(&[CREATE, EXPIRE]);
            put_word(&mut store.data, slot_at(row) + field, number);
            Some(row)
        }),
    ]
}
