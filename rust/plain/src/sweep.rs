//! Sweep: versions that nobody can read any more go (01, Writes, withdrawal, sweep).

use std::ops::Range;

use crate::chain::{Area, Broken, Chain, Place, Version};
use crate::entry::{self, COPY_AT, entry_of};
use crate::page::check_lengths;
use crate::slot::{Meta, SLOT, end_chain, rows_in, slot_at};
use crate::status::committed;
use crate::touch::Touched;
use crate::{Desk, Refusal};

/// What an accepted sweep reports.
#[derive(Clone, Copy, Debug, PartialEq, Eq)]
pub struct Swept {
    /// The row behind the last one treated.
    pub next_row: u64,
    /// How many versions went.
    pub removed: u64,
}

/// Sweeps `quota` rows from `first` on, or as many as are left. Refusals: 1, 2, 5, 6.
pub fn sweep(
    data: &mut [u8],
    undo: &mut [u8],
    status: &[u8],
    desk: &Desk,
    first: u64,
    quota: u64,
) -> Result<Swept, Refusal> {
    check_lengths(data, undo, status)?;
    desk.check_sound()?;
    let rows = treated_rows(data, first, quota)?;
    let mark = desk.mark();
    for row in rows.clone() {
        check_chain(data, undo, row)?;
    }

    let mut touched = Touched::default();
    let mut removed = 0;
    for row in rows.clone() {
        if let Some(cut) = find_cut(data, undo, status, mark, row) {
            removed += remove(data, undo, row, cut, &mut touched);
        }
    }
    touched.finish(data, undo, None);
    Ok(Swept { next_row: rows.end as u64, removed })
}

/// Refusal 5, or the rows that the quota leaves to treat.
fn treated_rows(data: &[u8], first: u64, quota: u64) -> Result<Range<usize>, Refusal> {
    let rows = rows_in(data);
    let first = usize::try_from(first).ok().filter(|&first| first <= rows);
    let first = first.ok_or(Refusal::RowOrBody)?;
    let quota = usize::try_from(quota).unwrap_or(usize::MAX);
    Ok(first..first + quota.min(rows - first))
}

/// Any break in a treated row refuses the sweep, behind the cut too.
fn check_chain(data: &[u8], undo: &[u8], row: usize) -> Result<(), Broken> {
    Chain::of(data, undo, row).try_for_each(|version| version.map(drop))
}

/// Where a chain is cut: behind the newer version that stays, or before the slot's own.
enum Cut {
    BehindNewer(Version),
    AtSlot,
}

/// The cut before "the first version whose expirer is committed and below the mark", in a chain
/// known to be unbroken.
fn find_cut(data: &[u8], undo: &[u8], status: &[u8], mark: u64, row: usize) -> Option<Cut> {
    let mut cut = Cut::AtSlot;
    for version in Chain::of(data, undo, row).map_while(Result::ok) {
        let expirer = version.meta.expire;
        if expirer < mark && committed(status, expirer) {
            return Some(cut);
        }
        cut = Cut::BehindNewer(version);
    }
    None
}

/// Removes all versions behind the cut and answers how many they were. The chain is known to be
/// unbroken, so a pointer that leads to no entry is the 0 at its end.
fn remove(data: &mut [u8], undo: &mut [u8], row: usize, cut: Cut, touched: &mut Touched) -> u64 {
    let mut removed = 0;
    let mut pointer = match cut {
        Cut::BehindNewer(Version { place, meta }) => {
            match place.area {
                Area::Data => end_chain(data, place.at),
                Area::Undo => end_chain(undo, place.at),
            }
            touched.touch(place);
            meta.undo_ptr
        }
        Cut::AtSlot => {
            let at = slot_at(row);
            let pointer = Meta::read(data, at).undo_ptr;
            data[at..at + SLOT].fill(0);
            touched.touch(Place { area: Area::Data, at });
            removed += 1;
            pointer
        }
    };
    while let Some(entry) = entry_of(undo, row, pointer) {
        pointer = Meta::read(undo, entry + COPY_AT).undo_ptr;
        entry::free(undo, entry);
        touched.touch(Place { area: Area::Undo, at: entry });
        removed += 1;
    }
    removed
}
