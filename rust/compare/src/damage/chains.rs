//! Breaks of chains.

use super::{Damage, Expected};
use crate::Store;
use crate::layout::{
    CREATE, ENTRIES, ENTRY, ENTRY_COPY, ENTRY_ROW, HEADER, PAGE, UNDO_PTR, chain, entries, pointer,
    pointer_to, put_word, slot_at, word_at,
};
use crate::random::Random;

const BROKEN: Expected = &[
    ("read", &[6]),
    ("update", &[6, 18]),
    ("delete", &[6, 18]),
    ("withdraw", &[6]),
    ("sweep", &[6]),
];

/// A pointer in a chain of at least one undo version.
pub(super) struct Link {
    pub row: u64,
    /// The row's entries, newest first.
    pub chain: Vec<usize>,
    /// How many entries are passed before the pointer: 0 means the slot's own.
    passed: usize,
}

impl Link {
    pub fn pick(store: &Store, random: &mut Random) -> Option<Self> {
        let chained = |row: &u64| word_at(&store.data, slot_at(*row) + UNDO_PTR) != 0;
        let row = random.pick_from((0..store.rows()).filter(chained))?;
        let chain = chain(&store.data, &store.undo, row);
        let passed = random.index(chain.len());
        Some(Self { row, chain, passed })
    }

    pub fn set(&self, store: &mut Store, pointer: u64) {
        match self.passed {
            0 => put_word(&mut store.data, slot_at(self.row) + UNDO_PTR, pointer),
            passed => {
                put_word(&mut store.undo, self.chain[passed - 1] + ENTRY_COPY + UNDO_PTR, pointer);
            }
        }
    }

    /// The entry that the pointer leads to in the sound store.
    fn entry(&self) -> usize {
        self.chain[self.passed]
    }
}

/// Damage to a pointer: what it is made of, given what it was.
fn bad_pointer(
    name: &str,
    bad: impl Fn(&Store, &Link, &mut Random) -> Option<u64> + 'static,
) -> Damage {
    Damage::new(name, BROKEN, move |store, random| {
        let link = Link::pick(store, random)?;
        let pointer = bad(store, &link, random)?;
        link.set(store, pointer);
        Some(link.row)
    })
}

/// Damage to the entry that a pointer leads to.
pub(super) fn bad_entry(
    name: &str,
    expected: Expected,
    spoil: impl Fn(&mut Store, usize, &mut Random) + 'static,
) -> Damage {
    Damage::new(name, expected, move |store, random| {
        let link = Link::pick(store, random)?;
        spoil(store, link.entry(), random);
        Some(link.row)
    })
}

/// Every way in which 01, "Sessions and sight", has a chain broken.
pub fn broken_chains() -> Vec<Damage> {
    vec![
        bad_pointer("top byte", |_, link, random| {
            let top = random.pick(&[0, 1, 3, 5, 6, 0x84, 0xFF]);
            Some(pointer_to(link.entry()) ^ (4 ^ top) << 56)
        }),
        bad_pointer("low byte", |_, link, random| {
            Some(pointer_to(link.entry()) | random.pick(&[1, 2, 0x80, 0xFF]))
        }),
        bad_pointer("page 0", |_, link, _| Some(pointer(0, (link.entry() % PAGE) as u64))),
        bad_pointer("page beyond", |store, link, random| {
            let pages = (store.undo.len() / PAGE) as u64;
            let page = random.pick(&[pages + 1, 65, 257, 1 << 16, 1 << 31 | 1, u32::MAX.into()]);
            Some(pointer(page, (link.entry() % PAGE) as u64))
        }),
        bad_pointer("offset in the header", |_, link, random| {
            let page = (link.entry() / PAGE + 1) as u64;
            Some(pointer(page, random.pick(&[0, 1, 16, 40, 47])))
        }),
        bad_pointer("between entries", |_, link, random| {
            Some(pointer_to(link.entry()) + (random.pick(&[1, 8, 16, 40, 64, 79]) << 8))
        }),
        bad_pointer("behind the last entry", |_, link, random| {
            let page = (link.entry() / PAGE + 1) as u64;
            let behind = ENTRIES as u64 + random.pick(&[0, 1, 2, 100, 717]);
            Some(pointer(page, HEADER as u64 + behind * ENTRY as u64))
        }),
        bad_pointer("free entry", |store, _, random| {
            let free = |at: &usize| word_at(&store.undo, *at) == 0;
            random.pick_from(entries(&store.undo).filter(free)).map(pointer_to)
        }),
        bad_pointer("another row's entry", |store, link, random| {
            let other = |at: &usize| word_at(&store.undo, *at) != 0 && !link.chain.contains(at);
            random.pick_from(entries(&store.undo).filter(other)).map(pointer_to)
        }),
        bad_pointer("entry already passed", |_, link, random| {
            random.pick_from(link.chain[..link.passed].iter()).copied().map(pointer_to)
        }),
        bad_entry("freed entry", BROKEN, |store, at, _| put_word(&mut store.undo, at, 0)),
        bad_entry("entry given to another row", BROKEN, |store, at, random| {
            store.undo[at + ENTRY_ROW + random.index(4)] ^= random.pick(&[1, 0x80, 0xFF]);
        }),
        bad_entry("copy with create 0", BROKEN, |store, at, _| {
            put_word(&mut store.undo, at + ENTRY_COPY + CREATE, 0);
        }),
    ]
}
