//! Begin, next statement and commit: the calls on the desk and the status page (01, Sessions and
//! sight).

use crate::desk::SESSIONS;
use crate::page::check_lengths;
use crate::status::{self, State};
use crate::{Desk, Refusal};

/// Opens a session and answers its number. Refusals: 1, 2, 12, 13.
pub fn begin(data: &[u8], undo: &[u8], status: &mut [u8], desk: &mut Desk) -> Result<u64, Refusal> {
    check_lengths(data, undo, status)?;
    desk.check_sound()?;
    if desk.open() == SESSIONS {
        return Err(Refusal::SessionsFull);
    }
    if desk.next == Desk::NUMBERS_END {
        return Err(Refusal::NumbersUsedUp);
    }
    let number = desk.begin();
    status::set(status, number, State::InWork);
    status::put_highest(status, number);
    Ok(number)
}

/// Moves a session on to its next statement. Refusals: 1, 2, 4, 18, 14.
pub fn next(
    data: &[u8],
    undo: &[u8],
    status: &[u8],
    desk: &mut Desk,
    session: u64,
) -> Result<(), Refusal> {
    check_lengths(data, undo, status)?;
    desk.check_sound()?;
    let place = desk.unspoiled_session(session)?.place;
    if desk.statements[place] == Desk::LAST_STATEMENT {
        return Err(Refusal::StatementsUsedUp);
    }
    desk.statements[place] += 1;
    Ok(())
}

/// Makes a session's writes seen by those that begin later, and closes it. Refusals: 1, 2, 4, 18.
pub fn commit(
    data: &[u8],
    undo: &[u8],
    status: &mut [u8],
    desk: &mut Desk,
    session: u64,
) -> Result<(), Refusal> {
    check_lengths(data, undo, status)?;
    desk.check_sound()?;
    let place = desk.unspoiled_session(session)?.place;
    status::set(status, session, State::Committed);
    desk.close(place);
    Ok(())
}
