//! Touched pages (01, The page).

use crate::bytes::put;
use crate::chain::{Area, Place};
use crate::page::{Kind, PAGE, TXN_ID, pages_mut};

/// The pages of data and undo that a call has touched, a bit for each: no area has more than 64.
#[derive(Default)]
pub struct Touched {
    data: u64,
    undo: u64,
}

impl Touched {
    /// Touches the page in which the place lies.
    #[inline]
    pub fn touch(&mut self, place: Place) {
        let page = 1 << (place.at / PAGE);
        match place.area {
            Area::Data => self.data |= page,
            Area::Undo => self.undo |= page,
        }
    }

    /// Counts the records of each touched page anew and, for a session, leaves its number there.
    pub fn finish(&self, data: &mut [u8], undo: &mut [u8], session: Option<u64>) {
        finish_area(&Kind::DATA, data, self.data, session);
        finish_area(&Kind::UNDO, undo, self.undo, session);
    }
}

#[inline(always)]
fn finish_area(kind: &Kind, area: &mut [u8], touched: u64, session: Option<u64>) {
    for page in (0..area.len() / PAGE).filter(|page| touched >> page & 1 == 1) {
        finish_page(kind, area, page * PAGE, session);
    }
}

/// The same for the one page in which `at` lies. Sweeping "leaves txn_id": then there is no
/// session.
#[inline(always)]
pub fn finish_page(kind: &Kind, area: &mut [u8], at: usize, session: Option<u64>) {
    let page = &mut pages_mut(area)[at / PAGE];
    if let Some(number) = session {
        put(page, TXN_ID, number.to_le_bytes());
    }
    kind.recount(page);
}
