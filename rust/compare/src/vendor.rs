//! The vendor's checksum of a page, written out from source document 001 ("Checksum Calculation")
//! and from no engine, and the pages of many histories held against it (02, T-03).

use crate::layout::{PAGE, put_word};
use crate::mix::Mix;
use crate::random::{Random, for_each_seed};
use crate::{Call, Engine, Store};

/// Where the checksum lies in a page, and its txn_id.
const CHECKSUM: std::ops::Range<usize> = 20..24;
const TXN_ID: usize = 8;

/// CRC32C, bit by bit.
fn crc32c(bytes: &[u8]) -> u32 {
    let mut register = u32::MAX;
    for &byte in bytes {
        register ^= u32::from(byte);
        for _ in 0..8 {
            let low = register & 1;
            register >>= 1;
            if low == 1 {
                register ^= 0x82F6_3B78;
            }
        }
    }
    !register
}

/// The vendor's routine: the page is cloned, its checksum set to zero, and CRC32C run over all of it.
fn calculate_checksum(page: &[u8]) -> u32 {
    let mut buf = page.to_vec();
    buf[CHECKSUM].copy_from_slice(&[0, 0, 0, 0]);
    crc32c(&buf)
}

/// Document 01's rule before T-03: the four bytes are left out.
fn former_checksum(page: &[u8]) -> u32 {
    crc32c(&[&page[..CHECKSUM.start], &page[CHECKSUM.end..]].concat())
}

fn pages_mut(store: &mut Store) -> impl Iterator<Item = &mut [u8]> {
    let areas = [&mut store.data, &mut store.undo, &mut store.status];
    areas.into_iter().flat_map(|area| area.chunks_exact_mut(PAGE))
}

/// The vendor's tool calls no page damaged.
fn check_pages(store: &Store) {
    for (name, area) in [("data", &store.data), ("undo", &store.undo), ("status", &store.status)] {
        for (page, number) in area.chunks_exact(PAGE).zip(1..) {
            let written = &page[CHECKSUM];
            assert_eq!(written, calculate_checksum(page).to_le_bytes(), "{name} page {number}");
        }
    }
}

fn must(engine: &dyn Engine, store: &mut Store, call: &Call, code: u32) {
    assert_eq!(engine.call(store, call).code, code, "{}: {call:?}", engine.name());
}

/// Runs random histories with one engine, and fails where format or seal leaves another checksum
/// than the vendor's, or open takes up a page that was sealed under the old rule.
pub fn agree(engine: &dyn Engine, rounds: u64) {
    for_each_seed(rounds, |seed| run(engine, &mut Random::new(seed)));
}

fn run(engine: &dyn Engine, random: &mut Random) {
    let mut store = Store::unformatted(1 + random.index(6), 1 + random.index(6));
    let hot = random.pick(&[1, 4, 12, 127]);
    must(engine, &mut store, &Call::Format, 0);
    check_pages(&store);
    for _ in 0..4 {
        let mix = random.pick(&Mix::ALL);
        for _ in 0..random.below(100) {
            let call = mix.call(random, &store, hot);
            engine.call(&mut store, &call);
        }
    }
    for session in store.sessions().collect::<Vec<_>>() {
        // A spoiled session cannot commit (02, T-07).
        let close = match store.is_spoiled(session) {
            true => Call::Withdraw { session },
            false => Call::Commit { session },
        };
        must(engine, &mut store, &close, 0);
    }
    must(engine, &mut store, &Call::Seal, 0);
    check_pages(&store);
    refuse_former(engine, &store);
}

/// Sealed under the old rule the store is answered 3, and so it is with one such page alone. Sealed
/// by the engine it is again what it was.
fn refuse_former(engine: &dyn Engine, sealed: &Store) {
    let mut former = sealed.clone();
    let mut pages = 0;
    for page in pages_mut(&mut former) {
        seal_former(page);
        pages += 1;
    }
    must(engine, &mut former, &Call::Open, 3);
    must(engine, &mut former, &Call::Seal, 0);
    assert_eq!(former.difference(sealed), None, "sealed anew");
    for index in 0..pages {
        let mut one = sealed.clone();
        seal_former(pages_mut(&mut one).nth(index).expect("a page"));
        must(engine, &mut one, &Call::Open, 3);
    }
}

fn seal_former(page: &mut [u8]) {
    let sum = former_checksum(page);
    page[CHECKSUM].copy_from_slice(&sum.to_le_bytes());
}

/// The two txn_ids with which both rules give page number 1 the same checksum. No session has such
/// a number.
const AGREEING: [u64; 2] = [650_033_879, 3_659_175_800];

/// Open takes up a page whose two numbers agree, whichever rule it was sealed under; but a status
/// page with such a txn_id is none, since its highest number is too high.
pub fn agree_where_the_rules_do(engine: &dyn Engine) {
    for txn_id in AGREEING {
        let mut store = Store::unformatted(1, 1);
        must(engine, &mut store, &Call::Format, 0);
        for (area, code) in [(0, 0), (1, 0), (2, 3)] {
            let mut odd = store.clone();
            let page = pages_mut(&mut odd).nth(area).expect("one page in each area");
            put_word(page, TXN_ID, txn_id);
            seal_former(page);
            assert_eq!(former_checksum(page), calculate_checksum(page), "txn_id {txn_id}");
            must(engine, &mut odd, &Call::Open, code);
        }
    }
}
