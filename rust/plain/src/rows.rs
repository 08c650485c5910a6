//! Insert, update, delete and read: the calls on one row (01, Writes, withdrawal, sweep).

use crate::chain::{Chain, Place};
use crate::desk::Session;
use crate::entry;
use crate::page::{Kind, check_lengths};
use crate::slot::{BODY, BODY_AT, Meta, SLOT, rows_in, slot_at};
use crate::touch::finish_page;
use crate::{Desk, Refusal};

/// What an accepted read reports.
#[derive(Clone, Copy, Debug, PartialEq, Eq)]
pub struct Reading {
    /// How many versions were looked at, the answer included.
    pub count: u64,
    /// Where the 32 bytes of the body lie.
    pub body: Place,
}

/// Refusal 5 for a row.
#[inline]
fn check_row(data: &[u8], row: u64) -> Result<usize, Refusal> {
    usize::try_from(row).ok().filter(|&row| row < rows_in(data)).ok_or(Refusal::RowOrBody)
}

/// Refusal 5 for a body.
#[inline]
fn check_body(body: &[u8]) -> Result<&[u8; BODY], Refusal> {
    body.try_into().map_err(|_| Refusal::RowOrBody)
}

/// Writes a version into the lowest empty slot and answers its row. Refusals: 1, 2, 4, 18, 5, 11.
pub fn insert(
    data: &mut [u8],
    undo: &[u8],
    status: &[u8],
    desk: &Desk,
    session: u64,
    body: &[u8],
) -> Result<u64, Refusal> {
    check_lengths(data, undo, status)?;
    desk.check_sound()?;
    let session = desk.unspoiled_session(session)?;
    let body = check_body(body)?;
    let row = Kind::DATA.lowest_free(data).ok_or(Refusal::NoRoom)?;

    write_slot(data, slot_at(row), &session, 0, body);
    finish_page(&Kind::DATA, data, slot_at(row), Some(session.number));
    Ok(row as u64)
}

/// Replaces a row's version and keeps the old one in an undo entry. Refusals: 1, 2, 4, 18, 5, 6,
/// 17, 7 to 11.
pub fn update(
    data: &mut [u8],
    undo: &mut [u8],
    status: &[u8],
    desk: &mut Desk,
    session: u64,
    row: u64,
    body: &[u8],
) -> Result<(), Refusal> {
    check_lengths(data, undo, status)?;
    desk.check_sound()?;
    let session = desk.unspoiled_session(session)?;
    let row = check_row(data, row)?;
    let body = check_body(body)?;
    if let Err(refusal) = check_writable(data, undo, status, &session, row) {
        return Err(unwritten(desk, session.place, refusal));
    }
    let entry = Kind::UNDO.lowest_free(undo).ok_or(Refusal::NoRoom)?;

    let (slot, entry) = (slot_at(row), Kind::UNDO.record_at(entry));
    expire(data, slot, &session);
    entry::fill(undo, entry, session.number, row, &data[slot..slot + SLOT]);
    write_slot(data, slot, &session, entry::pointer_to(entry), body);
    finish_page(&Kind::DATA, data, slot, Some(session.number));
    finish_page(&Kind::UNDO, undo, entry, Some(session.number));
    Ok(())
}

/// Sets the session as the expirer of a row's version. Refusals: 1, 2, 4, 18, 5, 6, 17, 7 to 10.
pub fn delete(
    data: &mut [u8],
    undo: &[u8],
    status: &[u8],
    desk: &mut Desk,
    session: u64,
    row: u64,
) -> Result<(), Refusal> {
    check_lengths(data, undo, status)?;
    desk.check_sound()?;
    let session = desk.unspoiled_session(session)?;
    let row = check_row(data, row)?;
    if let Err(refusal) = check_writable(data, undo, status, &session, row) {
        return Err(unwritten(desk, session.place, refusal));
    }

    expire(data, slot_at(row), &session);
    finish_page(&Kind::DATA, data, slot_at(row), Some(session.number));
    Ok(())
}

/// Finds the version of a row that is there for the session. Refusals: 1, 2, 4 to 6, 17, 7.
pub fn read(
    data: &[u8],
    undo: &[u8],
    status: &[u8],
    desk: &Desk,
    session: u64,
    row: u64,
) -> Result<Reading, Refusal> {
    check_lengths(data, undo, status)?;
    desk.check_sound()?;
    let session = desk.session(session)?;
    let row = check_row(data, row)?;
    let (count, version) = session.find(status, Chain::of(data, undo, row))?;
    let Place { area, at } = version.place;
    Ok(Reading { count, body: Place { area, at: at + BODY_AT } })
}

/// Refusals 6, 17 and 7 to 10: a version must be there, nothing in doubt, and the slot must let the
/// session write.
fn check_writable(
    data: &[u8],
    undo: &[u8],
    status: &[u8],
    session: &Session<'_>,
    row: usize,
) -> Result<(), Refusal> {
    session.find(status, Chain::of(data, undo, row))?;
    session.check_conflict(status, &Meta::read(data, slot_at(row)))
}

/// A write that is refused: 10 alone marks the session, "the one change that refusal makes" (02,
/// T-07).
fn unwritten(desk: &mut Desk, place: usize, refusal: Refusal) -> Refusal {
    if refusal == Refusal::WriterCommitted {
        desk.spoil(place);
    }
    refusal
}

/// Writes a slot whole: a new version by the session, with `undo_ptr` to the one that it replaces.
fn write_slot(data: &mut [u8], at: usize, session: &Session<'_>, undo_ptr: u64, body: &[u8; BODY]) {
    let (create, cmd) = (session.number, session.statement);
    Meta { create, expire: 0, undo_ptr, cmd, expire_cmd: 0 }.write(data, at);
    data[at + BODY_AT..at + SLOT].copy_from_slice(body);
}

/// Sets a slot's expirer to the session in its present statement.
fn expire(data: &mut [u8], at: usize, session: &Session<'_>) {
    let meta = Meta::read(data, at);
    Meta { expire: session.number, expire_cmd: session.statement, ..meta }.write(data, at);
}
