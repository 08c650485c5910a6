//! Withdraw: a session takes all its writes back (01, Writes, withdrawal, sweep).

use crate::chain::{Area, Broken, Chain, Place};
use crate::entry::{self, COPY_AT, entry_of};
use crate::page::check_lengths;
use crate::slot::{Meta, SLOT, rows_in, slot_at};
use crate::status::{self, State};
use crate::touch::Touched;
use crate::{Desk, Refusal};

/// Takes back what the session wrote in each row, and closes it. Refusals: 1, 2, 4, 6.
pub fn withdraw(
    data: &mut [u8],
    undo: &mut [u8],
    status: &mut [u8],
    desk: &mut Desk,
    session: u64,
) -> Result<(), Refusal> {
    check_lengths(data, undo, status)?;
    desk.check_sound()?;
    let place = desk.session(session)?.place;
    for row in 0..rows_in(data) {
        check_own_versions(data, undo, session, row)?;
    }

    let mut touched = Touched::default();
    for row in 0..rows_in(data) {
        take_back(data, undo, session, row, &mut touched);
    }
    touched.finish(data, undo, Some(session));
    status::set(status, session, State::Withdrawn);
    desk.close(place);
    Ok(())
}

/// Only a break between a slot created by the session and the first version not created by it
/// counts; where the slot is another's, the walk ends there.
fn check_own_versions(data: &[u8], undo: &[u8], session: u64, row: usize) -> Result<(), Broken> {
    for version in Chain::of(data, undo, row) {
        if version?.meta.create != session {
            break;
        }
    }
    Ok(())
}

/// Takes the session's writes to one row back. Its own versions are known to be unbroken, so a
/// pointer that leads to no entry is the 0 at the end of the chain: "If no copy is left, empty the
/// slot."
fn take_back(data: &mut [u8], undo: &mut [u8], session: u64, row: usize, touched: &mut Touched) {
    let slot = slot_at(row);
    let meta = Meta::read(data, slot);
    if meta.create != session {
        if meta.create != 0 && meta.expire == session {
            clear_expirer(data, slot);
            touched.touch(Place { area: Area::Data, at: slot });
        }
        return;
    }
    touched.touch(Place { area: Area::Data, at: slot });
    loop {
        let meta = Meta::read(data, slot);
        if meta.create != session {
            break;
        }
        match entry_of(undo, row, meta.undo_ptr) {
            Some(entry) => {
                put_back(data, undo, slot, entry);
                touched.touch(Place { area: Area::Undo, at: entry });
            }
            None => data[slot..slot + SLOT].fill(0),
        }
    }
}

/// Puts an entry's copy back into the slot with both expire fields cleared, and frees the entry.
fn put_back(data: &mut [u8], undo: &mut [u8], slot: usize, entry: usize) {
    let copy = entry + COPY_AT;
    data[slot..slot + SLOT].copy_from_slice(&undo[copy..copy + SLOT]);
    clear_expirer(data, slot);
    entry::free(undo, entry);
}

fn clear_expirer(data: &mut [u8], slot: usize) {
    let meta = Meta::read(data, slot);
    Meta { expire: 0, expire_cmd: 0, ..meta }.write(data, slot);
}
