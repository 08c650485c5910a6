//! The status page: two bits for each number, and the highest number handed out (01, The page).

use crate::bytes::{put, u64_at};
use crate::page::{HEADER, TXN_ID};

/// The highest number for which the page has room.
pub const HIGHEST_NUMBER: u32 = 32_575;

/// What a number's two bits say: "The status reader shall answer in four ways" (02, T-05).
#[derive(Clone, Copy, PartialEq, Eq)]
#[repr(u8)]
pub enum State {
    InWork = 0b00,
    Committed = 0b01,
    Withdrawn = 0b10,
    /// Never written.
    Reserved = 0b11,
}

/// The byte that holds the bits of `number`, and how far they are shifted in it.
#[inline]
const fn place(number: u64) -> (usize, u32) {
    (HEADER + (number / 4) as usize, (number % 4) as u32 * 2)
}

/// The state of a number. "Number 0 and numbers above 32,575 are never committed", nor are they
/// reserved: whatever bits there are, they read as in work.
#[inline]
pub fn state(status: &[u8], number: u64) -> State {
    if number == 0 || number > HIGHEST_NUMBER.into() {
        return State::InWork;
    }
    let (byte, shift) = place(number);
    match status[byte] >> shift & 0b11 {
        0b00 => State::InWork,
        0b01 => State::Committed,
        0b10 => State::Withdrawn,
        _ => State::Reserved,
    }
}

#[inline]
pub fn committed(status: &[u8], number: u64) -> bool {
    state(status, number) == State::Committed
}

#[inline]
pub fn reserved(status: &[u8], number: u64) -> bool {
    state(status, number) == State::Reserved
}

/// Sets the bits of `number` and leaves its neighbours'.
#[inline]
pub fn set(status: &mut [u8], number: u64, state: State) {
    let (byte, shift) = place(number);
    status[byte] = status[byte] & !(0b11 << shift) | (state as u8) << shift;
}

/// Writes the highest number handed out: the status page's txn_id.
pub fn put_highest(status: &mut [u8], number: u64) {
    put(status, TXN_ID, number.to_le_bytes());
}

/// The highest number handed out, if it has a place and each number from 1 to it is committed or
/// withdrawn.
pub fn highest_closed(status: &[u8]) -> Option<u32> {
    let highest = u32::try_from(u64_at(status, TXN_ID)).ok()?;
    let all_closed = || (1..=highest.into()).all(|number| closed(status, number));
    (highest <= HIGHEST_NUMBER && all_closed()).then_some(highest)
}

/// 01 and 10 are the states whose two bits differ.
fn closed(status: &[u8], number: u64) -> bool {
    let (byte, shift) = place(number);
    let bits = status[byte] >> shift;
    (bits ^ bits >> 1) & 1 == 1
}

#[cfg(test)]
mod tests {
    use super::*;

    /// P1 and P2 of the gauge pieces.
    #[test]
    fn gauge_places() {
        assert_eq!(place(32_575), (8191, 6));
        assert_eq!(place(5), (49, 2));
    }
}
