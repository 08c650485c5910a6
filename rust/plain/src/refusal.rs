//! The refusal numbers.

/// Why a call did nothing, with the numbers of 01, "When the desk says no", and of document 02. A
/// call gives the lowest that applies, but that 17 stands between 6 and 7, and 18 directly after 4.
#[derive(Clone, Copy, Debug, PartialEq, Eq)]
#[repr(u32)]
pub enum Refusal {
    /// An area's length isn't allowed.
    AreaLength = 1,
    /// The desk is unsound.
    UnsoundDesk = 2,
    /// Open found a wrong header field or a number that isn't closed.
    UnsoundStore = 3,
    /// The session is not open.
    SessionNotOpen = 4,
    /// The row is outside the data area, or the body isn't 32 bytes long.
    RowOrBody = 5,
    /// A broken chain was met.
    BrokenChain = 6,
    /// No version of the row is there for the session.
    NoVersion = 7,
    /// The session itself wrote the row, in this statement or by deleting it.
    OwnWrite = 8,
    /// Another writer of the row is not committed.
    WriterInWork = 9,
    /// A writer of the row whom the session does not see is committed. The one refusal that changes
    /// something: the session's mark at the desk (02, T-07).
    WriterCommitted = 10,
    /// No empty slot, or no free undo entry.
    NoRoom = 11,
    /// Sixteen sessions are open.
    SessionsFull = 12,
    /// All numbers are handed out.
    NumbersUsedUp = 13,
    /// The session is in its last statement.
    StatementsUsedUp = 14,
    /// Seal found an open session.
    SessionOpen = 15,
    /// A version that was looked at names a number with the reserved status (02, T-05).
    ReservedStatus = 17,
    /// The session was answered 10 before: it may read and withdraw (02, T-07).
    SessionSpoiled = 18,
}

impl Refusal {
    /// The number that document 01 or 02 gives this refusal.
    pub const fn number(self) -> u32 {
        self as u32
    }
}
