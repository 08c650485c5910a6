//! Format, open and seal: the calls over whole areas.

use crate::page::{Kind, check_lengths, seal_area};
use crate::status::highest_closed;
use crate::{Desk, Refusal};

/// Writes empty pages over the three areas, and a desk without sessions over the desk. Refusal: 1.
pub fn format(
    data: &mut [u8],
    undo: &mut [u8],
    status: &mut [u8],
    desk: &mut Desk,
) -> Result<(), Refusal> {
    check_lengths(data, undo, status)?;
    Kind::DATA.format_area(data);
    Kind::UNDO.format_area(undo);
    Kind::STATUS.format_area(status);
    *desk = Desk::without_sessions(Desk::FIRST_NUMBER);
    Ok(())
}

/// Checks headers, checksums and numbers, and writes a desk without sessions whose next number
/// follows the highest handed out. It looks at no chain. Refusals: 1, 3.
pub fn open(data: &[u8], undo: &[u8], status: &[u8], desk: &mut Desk) -> Result<(), Refusal> {
    check_lengths(data, undo, status)?;
    let highest = highest_closed(status).ok_or(Refusal::UnsoundStore)?;
    let sound = Kind::DATA.area_sound(data)
        && Kind::UNDO.area_sound(undo)
        && Kind::STATUS.area_sound(status);
    if !sound {
        return Err(Refusal::UnsoundStore);
    }
    *desk = Desk::without_sessions(highest + 1);
    Ok(())
}

/// Writes the checksum of every page and nothing else. Refusals: 1, 2, 15.
pub fn seal(
    data: &mut [u8],
    undo: &mut [u8],
    status: &mut [u8],
    desk: &Desk,
) -> Result<(), Refusal> {
    check_lengths(data, undo, status)?;
    desk.check_sound()?;
    if desk.open() > 0 {
        return Err(Refusal::SessionOpen);
    }
    seal_area(data);
    seal_area(undo);
    seal_area(status);
    Ok(())
}
