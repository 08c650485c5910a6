//! Pages, their kinds and their headers (01, The page).

use crate::Refusal;
use crate::bytes::{put, u16_at, u32_at, u64_at};
use crate::crc32c::Crc32c;

/// Bytes in a page.
pub const PAGE: usize = 8192;

pub type Page = [u8; PAGE];

/// Bytes before the first record.
pub const HEADER: usize = 48;

/// Where the header fields that the store writes lie.
pub const TXN_ID: usize = 8;
const PAGE_ID: usize = 16;
const CHECKSUM: usize = 20;
const FREE_SPACE_OFFSET: usize = 36;
const ITEM_COUNT: usize = 38;
const PAGE_TYPE: usize = 44;
const ENGINE_TAG: usize = 45;
const FORMAT_VERSION: usize = 47;

/// The pages of an area.
#[inline]
pub fn pages(area: &[u8]) -> &[Page] {
    area.as_chunks().0
}

#[inline]
pub fn pages_mut(area: &mut [u8]) -> &mut [Page] {
    area.as_chunks_mut().0
}

/// What the pages of one area have in common. What runs over records is always inlined, so that a
/// kind's numbers are constants there.
pub struct Kind {
    page_type: u8,
    engine_tag: u8,
    free_space_offset: u16,
    /// Bytes in a record: a slot or an undo entry.
    pub record: usize,
    /// Records in a page.
    pub records: usize,
    /// The most pages that an area may have; the fewest is 1.
    most: usize,
}

impl Kind {
    pub const DATA: Self = Self {
        page_type: 0x10,
        engine_tag: 1,
        free_space_offset: 8176,
        record: 64,
        records: 127,
        most: 64,
    };

    pub const UNDO: Self = Self {
        page_type: 0x51,
        engine_tag: 0,
        free_space_offset: 8128,
        record: 80,
        records: 101,
        most: 64,
    };

    /// The status page holds two bits a number and no record that could be counted.
    pub const STATUS: Self = Self {
        page_type: 0x00,
        engine_tag: 0,
        free_space_offset: 8192,
        record: 0,
        records: 0,
        most: 1,
    };

    fn allows(&self, area: &[u8]) -> bool {
        area.len().is_multiple_of(PAGE) && (1..=self.most).contains(&(area.len() / PAGE))
    }

    /// Records in the whole area.
    #[inline]
    pub const fn records_in(&self, area: &[u8]) -> usize {
        area.len() / PAGE * self.records
    }

    /// Where the record `index` of an area starts: the page's records come one after another.
    #[inline]
    pub const fn record_at(&self, index: usize) -> usize {
        index / self.records * PAGE + HEADER + index % self.records * self.record
    }

    /// Where each record of a page starts.
    #[inline]
    fn records_at(&self) -> impl Iterator<Item = usize> {
        (0..self.records).map(|index| HEADER + index * self.record)
    }

    /// The lowest free record of the area, in its lowest page that has one.
    #[inline(always)]
    pub fn lowest_free(&self, area: &[u8]) -> Option<usize> {
        for (number, page) in pages(area).iter().enumerate() {
            if let Some(record) = self.records_at().position(|at| !in_use(page, at)) {
                return Some(number * self.records + record);
            }
        }
        None
    }

    #[inline(always)]
    fn count_items(&self, page: &Page) -> u16 {
        self.records_at().map(|at| u16::from(in_use(page, at))).sum()
    }

    /// Writes an empty page's bytes; `number` starts at 1 in each area.
    fn format_page(&self, page: &mut Page, number: u32) {
        page.fill(0);
        put(page, PAGE_ID, number.to_le_bytes());
        put(page, FREE_SPACE_OFFSET, self.free_space_offset.to_le_bytes());
        page[PAGE_TYPE] = self.page_type;
        page[ENGINE_TAG] = self.engine_tag;
        page[FORMAT_VERSION] = 1;
        seal_page(page);
    }

    pub fn format_area(&self, area: &mut [u8]) {
        for (page, number) in pages_mut(area).iter_mut().zip(1..) {
            self.format_page(page, number);
        }
    }

    /// Whether each header field but txn_id is what it must be, as open asks.
    fn page_sound(&self, page: &Page, number: u32) -> bool {
        let zeros = [0..TXN_ID, 24..FREE_SPACE_OFFSET, 40..PAGE_TYPE, 46..FORMAT_VERSION];
        zeros.into_iter().all(|part| page[part].iter().all(|&byte| byte == 0))
            && u32_at(page, PAGE_ID) == number
            && u16_at(page, FREE_SPACE_OFFSET) == self.free_space_offset
            && page[PAGE_TYPE] == self.page_type
            && page[ENGINE_TAG] == self.engine_tag
            && page[FORMAT_VERSION] == 1
            && u16_at(page, ITEM_COUNT) == self.count_items(page)
            && u32_at(page, CHECKSUM) == checksum(page)
    }

    pub fn area_sound(&self, area: &[u8]) -> bool {
        pages(area).iter().zip(1..).all(|(page, number)| self.page_sound(page, number))
    }

    /// Counts a touched page's records anew; what stood there may have been wrong.
    #[inline(always)]
    pub fn recount(&self, page: &mut Page) {
        let items = self.count_items(page);
        put(page, ITEM_COUNT, items.to_le_bytes());
    }
}

/// A record's first number, create or writer, is not 0 exactly when the record is in use.
#[inline]
pub fn in_use(bytes: &[u8], record: usize) -> bool {
    u64_at(bytes, record) != 0
}

/// CRC32C over all of the page, with zeros for the four checksum bytes (02, T-03).
fn checksum(page: &Page) -> u32 {
    Crc32c::new().over(&page[..CHECKSUM]).over(&[0; 4]).over(&page[CHECKSUM + 4..]).sum()
}

fn seal_page(page: &mut Page) {
    let sum = checksum(page);
    put(page, CHECKSUM, sum.to_le_bytes());
}

pub fn seal_area(area: &mut [u8]) {
    pages_mut(area).iter_mut().for_each(seal_page);
}

/// Refusal 1 looks at all three areas in every call.
#[inline]
pub fn check_lengths(data: &[u8], undo: &[u8], status: &[u8]) -> Result<(), Refusal> {
    if Kind::DATA.allows(data) && Kind::UNDO.allows(undo) && Kind::STATUS.allows(status) {
        Ok(())
    } else {
        Err(Refusal::AreaLength)
    }
}
