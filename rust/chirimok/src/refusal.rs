//! The refusal numbers.

use std::error::Error;
use std::fmt;

/// Why a call did nothing, with the numbers of 01, "When the desk says no", and of document 02, and
/// what a station does about it. One refusal leaves something behind:
/// [`WriterCommitted`](Self::WriterCommitted) marks its session at the desk. Number 16 is no refusal
/// of a call: the script's program answers it to a line that is ill formed.
#[derive(Clone, Copy, Debug, PartialEq, Eq)]
#[non_exhaustive]
#[repr(u32)]
pub enum Refusal {
    /// An area's length isn't allowed. Lend whole pages of 8,192 bytes: 1 to 64 of data, 1 to 64 of
    /// undo, exactly 1 of status.
    AreaLength = 1,
    /// The desk is unsound: words were kept that are not a desk's. Go on with those that the last
    /// call left; where they are lost, open the areas as they were sealed last.
    UnsoundDesk = 2,
    /// Open found a wrong header field or a number that isn't closed: the areas hold no store, are
    /// damaged, were not sealed after the last write, or were sealed before version 1.1 of the
    /// library (the header's `CHIRIMOK_VERSION`). Those are opened by the release that sealed them,
    /// and sealed by this one with [words](crate::Store::from_kept_words) that are all 0 but for the
    /// first, the next number of the desk that it made. Else open another copy that was sealed;
    /// format begins an empty store.
    UnsoundStore = 3,
    /// The session is not open: it is closed, or was never begun here. Begin one.
    SessionNotOpen = 4,
    /// The row is outside the data area, or the body isn't 32 bytes long. Mend the argument: a
    /// store has 127 rows for each page of data.
    RowOrBody = 5,
    /// A broken chain was met: the areas are damaged, or words were kept that are not the last. A
    /// store that the calls alone wrote since its format never answers it. Go back to a copy that
    /// was sealed; rows whose chains are whole can still be read.
    BrokenChain = 6,
    /// No version of the row is there for the session: the row is empty or deleted, or was written
    /// by someone whom the session does not see. What it inserted itself in this statement is there
    /// after [`next`](crate::Store::next).
    NoVersion = 7,
    /// The session itself wrote the row in this statement, or deleted it. Call
    /// [`next`](crate::Store::next) first; a row that it deleted is then gone.
    OwnWrite = 8,
    /// Another writer of the row is not committed. Try again when that session is closed: after its
    /// withdrawal the row can be written, after its commit the answer is
    /// [`WriterCommitted`](Self::WriterCommitted).
    WriterInWork = 9,
    /// A writer of the row whom the session does not see is committed. The session lost the conflict
    /// and is spoiled from now on, the one thing that a refused call changes: it can read on what it
    /// read, and is then withdrawn. Begin another. Every other change that it tries, and its commit,
    /// answers [`SessionSpoiled`](Self::SessionSpoiled).
    WriterCommitted = 10,
    /// No empty slot (insert), or no free undo entry (update). Sweep all rows and try again; if
    /// nothing went, end the oldest session and sweep again. With no session open, a sweep frees
    /// every undo entry; slots are then held by rows alone: delete some and sweep, or move to a
    /// larger store.
    NoRoom = 11,
    /// Sixteen sessions are open. Commit or withdraw one.
    SessionsFull = 12,
    /// All 32,575 numbers are handed out. They never return: format a store anew. What shall be
    /// carried over is read by a session that is open, so keep the last number for that.
    NumbersUsedUp = 13,
    /// The session is in its last statement, 65,535. It can still read, write, commit and withdraw;
    /// go on in another.
    StatementsUsedUp = 14,
    /// Seal found an open session. Commit or withdraw the sessions at the
    /// [desk](crate::Store::desk), and seal again.
    SessionOpen = 15,
    /// A version of the row that was looked at names a number, other than the session's own, whose
    /// status is 11: reserved, and written by no call. The status page is damaged, and whether that
    /// number was committed cannot be told. A store that the calls alone wrote since its format
    /// never answers it. Go back to a copy that was sealed; rows whose versions name no such number
    /// can still be read. It stands between [`BrokenChain`](Self::BrokenChain) and
    /// [`NoVersion`](Self::NoVersion) where several refusals apply.
    ReservedStatus = 17,
    /// The session is spoiled: an update or delete of it was answered
    /// [`WriterCommitted`](Self::WriterCommitted) before, and what it would approve rests on rows
    /// that another has changed since. It can still read. Withdraw it and begin another, which sees
    /// the change. It stands directly behind [`SessionNotOpen`](Self::SessionNotOpen) where several
    /// refusals apply.
    SessionSpoiled = 18,
}

impl Refusal {
    const ALL: [Self; 17] = [
        Self::AreaLength,
        Self::UnsoundDesk,
        Self::UnsoundStore,
        Self::SessionNotOpen,
        Self::RowOrBody,
        Self::BrokenChain,
        Self::NoVersion,
        Self::OwnWrite,
        Self::WriterInWork,
        Self::WriterCommitted,
        Self::NoRoom,
        Self::SessionsFull,
        Self::NumbersUsedUp,
        Self::StatementsUsedUp,
        Self::SessionOpen,
        Self::ReservedStatus,
        Self::SessionSpoiled,
    ];

    /// The number that document 01 or 02 gives this refusal.
    pub const fn number(self) -> u32 {
        self as u32
    }

    /// The refusal of that number, if it has one.
    pub fn from_number(number: u32) -> Option<Self> {
        Self::ALL.into_iter().find(|refusal| refusal.number() == number)
    }

    /// What the refusal says, in the words of `chirimok_refusal`.
    pub const fn message(self) -> &'static str {
        match self {
            Self::AreaLength => "an area's length isn't allowed",
            Self::UnsoundDesk => "the desk is unsound",
            Self::UnsoundStore => "a header field is wrong, or a number isn't closed",
            Self::SessionNotOpen => "the session is not open",
            Self::RowOrBody => "no such row, or the body isn't 32 bytes long",
            Self::BrokenChain => "the row's chain is broken",
            Self::NoVersion => "no version of the row is there for the session",
            Self::OwnWrite => "the session itself wrote or deleted the row",
            Self::WriterInWork => "another writer of the row is not committed",
            Self::WriterCommitted => {
                "a writer of the row whom the session does not see is committed"
            }
            Self::NoRoom => "no empty slot, or no free undo entry",
            Self::SessionsFull => "sixteen sessions are open",
            Self::NumbersUsedUp => "all numbers are handed out",
            Self::StatementsUsedUp => "the session is in its last statement",
            Self::SessionOpen => "a session is open",
            Self::ReservedStatus => "a number that the row names has the reserved status",
            Self::SessionSpoiled => "the session lost a conflict and is spoiled",
        }
    }
}

impl fmt::Display for Refusal {
    fn fmt(&self, formatter: &mut fmt::Formatter<'_>) -> fmt::Result {
        write!(formatter, "{} ({})", self.message(), self.number())
    }
}

impl Error for Refusal {}
