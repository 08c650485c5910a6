//! Headers and numbers, as open checks them.

use super::{Damage, Expected, hot_row, set_bits};
use crate::layout::{HEADER, PAGE, put_word, word_at};
use crate::random::Random;
use crate::{Call, Engine, Plain, Store};

const WRONG: Expected = &[("open", &[3])];

/// The header fields: name, offset, size.
const FIELDS: [(&str, usize, usize); 13] = [
    ("page_lsn", 0, 8),
    ("page_id", 16, 4),
    ("prev", 24, 4),
    ("next", 28, 4),
    ("overflow", 32, 4),
    ("free_space_offset", 36, 2),
    ("item_count", 38, 2),
    ("flags", 40, 2),
    ("reserved", 42, 2),
    ("page_type", 44, 1),
    ("engine_tag", 45, 1),
    ("byte 46", 46, 1),
    ("format_version", 47, 1),
];

/// One of the pages of the three areas.
fn some_page<'s>(store: &'s mut Store, random: &mut Random) -> &'s mut [u8] {
    let pages = [&mut store.data, &mut store.undo, &mut store.status];
    let mut pages: Vec<_> =
        pages.into_iter().flat_map(|area| area.chunks_exact_mut(PAGE)).collect();
    let index = random.index(pages.len());
    pages.swap_remove(index)
}

/// Damage to a sealed store, sealed again so that the checksum hides it.
fn resealed(
    name: impl Into<String>,
    expected: Expected,
    spoil: impl Fn(&mut Store, &mut Random) + 'static,
) -> Damage {
    Damage::new(name, expected, move |store, random| {
        spoil(store, random);
        Plain.call(store, &Call::Seal);
        hot_row(random)
    })
}

/// Each header field, the checksum, and the numbers that open looks at.
pub fn wrong_headers() -> Vec<Damage> {
    let mut damages = vec![
        Damage::new("nothing wrong", &[("open", &[0])], |_, random| hot_row(random)),
        Damage::new("checksum", WRONG, |store, random| {
            some_page(store, random)[20 + random.index(4)] ^= random.pick(&[1, 0x80, 0xFF]);
            hot_row(random)
        }),
        Damage::new("any one bit", WRONG, |store, random| {
            let bit = 1 << random.below(8);
            some_page(store, random)[random.index(PAGE)] ^= bit;
            hot_row(random)
        }),
        resealed("txn_id of data and undo", &[("open", &[0])], |store, random| {
            store.data[8..16].copy_from_slice(&random.bytes(8));
            store.undo[8..16].copy_from_slice(&random.bytes(8));
        }),
        resealed("bytes behind the last record", &[("open", &[0])], |store, random| {
            store.data[8176 + random.index(16)] = 1;
            store.undo[8128 + random.index(64)] = 1;
        }),
        resealed("highest number beyond the page", WRONG, |store, random| {
            store.status[HEADER..].fill(0x55);
            let highest = random.pick(&[32_576, 1 << 16, 1 << 32, u64::MAX]);
            put_word(&mut store.status, 8, highest);
        }),
        resealed("highest number the last", &[("open", &[0]), ("begin", &[0])], |store, _| {
            store.status[HEADER..].fill(0x99);
            put_word(&mut store.status, 8, 32_575);
        }),
        resealed("a number in work or reserved", WRONG, |store, random| {
            let highest = word_at(&store.status, 8);
            let between = 1 + random.below(highest);
            let number = random.pick(&[1, highest, between]);
            set_bits(store, number, random.pick(&[0b00, 0b11]));
        }),
        resealed("bits of 0 and above the highest", &[("open", &[0])], |store, random| {
            let highest = word_at(&store.status, 8);
            set_bits(store, 0, random.pick(&[0b01, 0b10, 0b11]));
            set_bits(store, highest + 1, random.pick(&[0b01, 0b10, 0b11]));
        }),
    ];
    damages.extend(FIELDS.map(|(name, offset, size)| {
        resealed(name, WRONG, move |store, random| {
            let byte = offset + random.index(size);
            some_page(store, random)[byte] ^= random.pick(&[1, 2, 0x10, 0x80, 0xFF]);
        })
    }));
    damages
}
