//! Areas of every number of pages: the proved store takes pages four at a time where an area has so
//! many left, and the rest one by one (02, T-02).

use crate::layout::{ENTRIES, ENTRY, HEADER, PAGE};
use crate::pair::Pair;
use crate::random::{Random, for_each_seed};
use crate::{Call, Engine, Store};

/// The most pages of data and of undo.
const MOST: usize = 64;

/// Bytes in a slot, and slots in a page.
const SLOT: usize = 64;
const SLOTS: usize = 127;

/// Bytes to spoil in a store of each size.
const SPOILED: usize = 6;

/// Formats, fills, seals and opens stores of every number of pages with two engines, and fails where
/// they differ. Open refuses what was filled and not sealed, and a sealed store with any byte wrong.
pub fn agree(engines: [&dyn Engine; 2]) {
    for_each_seed(MOST as u64, |seed| run(engines, seed as usize + 1, &mut Random::new(seed)));
}

fn run(engines: [&dyn Engine; 2], pages: usize, random: &mut Random) {
    let mut pair = Pair::new(engines, Store::unformatted(pages, MOST + 1 - pages));
    pair.must(&Call::Format, 0);
    let filled = filled(pair.store().clone(), random);
    pair.reset(&filled);
    pair.must(&Call::Open, 3);
    pair.must(&Call::Seal, 0);
    pair.must(&Call::Open, 0);
    let sealed = pair.store().clone();
    for _ in 0..SPOILED {
        pair.reset(&spoiled(sealed.clone(), random));
        pair.must(&Call::Open, 3);
    }
}

/// A formatted store with other bytes wherever open does not look at what they say: in slots and
/// entries that stay free, and in the bits of numbers that were not handed out.
fn filled(mut store: Store, random: &mut Random) -> Store {
    let areas = [(&mut store.data, SLOT, SLOTS), (&mut store.undo, ENTRY, ENTRIES)];
    for (area, size, count) in areas {
        for page in area.chunks_exact_mut(PAGE) {
            for record in page[HEADER..HEADER + size * count].chunks_exact_mut(size) {
                record[8..].copy_from_slice(&random.bytes(size - 8));
            }
        }
    }
    store.status[HEADER + 1..].copy_from_slice(&random.bytes(PAGE - HEADER - 1));
    store
}

/// The store with one byte wrong, in one of its pages.
fn spoiled(mut store: Store, random: &mut Random) -> Store {
    let area = match random.index(5) {
        0 | 1 => &mut store.data,
        2 | 3 => &mut store.undo,
        _ => &mut store.status,
    };
    let at = random.index(area.len());
    area[at] ^= 1 << random.below(8);
    store
}
