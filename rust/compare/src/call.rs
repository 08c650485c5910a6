//! The twelve calls as values, and what they answer.

/// A call and its arguments, without areas and desk.
#[derive(Clone, Debug, PartialEq, Eq)]
pub enum Call {
    Format,
    Open,
    Seal,
    Begin,
    Next { session: u64 },
    Insert { session: u64, body: Vec<u8> },
    Update { session: u64, row: u64, body: Vec<u8> },
    Delete { session: u64, row: u64 },
    Read { session: u64, row: u64 },
    Commit { session: u64 },
    Withdraw { session: u64 },
    Sweep { first: u64, quota: u64 },
}

impl Call {
    /// The calls' names, in the order of 01, "What the station lends, and who decides".
    pub const NAMES: [&'static str; 12] = [
        "format", "open", "seal", "begin", "next", "insert", "update", "delete", "read", "commit",
        "withdraw", "sweep",
    ];

    /// The call's place among the names.
    pub const fn index(&self) -> usize {
        match self {
            Self::Format => 0,
            Self::Open => 1,
            Self::Seal => 2,
            Self::Begin => 3,
            Self::Next { .. } => 4,
            Self::Insert { .. } => 5,
            Self::Update { .. } => 6,
            Self::Delete { .. } => 7,
            Self::Read { .. } => 8,
            Self::Commit { .. } => 9,
            Self::Withdraw { .. } => 10,
            Self::Sweep { .. } => 11,
        }
    }

    /// The call's name.
    pub const fn name(&self) -> &'static str {
        Self::NAMES[self.index()]
    }
}

/// What a call answers.
#[derive(Clone, Copy, Debug, PartialEq, Eq)]
pub struct Answer {
    /// The refusal number; 0 is done.
    pub code: u32,
    /// The values, unused ones 0: begin the number; insert the row; sweep next row and removed;
    /// read the count, the area of the body (1 data, 2 undo) and its byte offset there.
    pub values: [u64; 3],
}

impl Answer {
    /// An accepted call's answer.
    pub const fn done(values: [u64; 3]) -> Self {
        Self { code: 0, values }
    }

    /// A refused call's answer: "Each number reported by a refused call is 0."
    pub const fn refused(code: u32) -> Self {
        Self { code, values: [0; 3] }
    }

    /// Whether areas or desk may be others now: after an accepted call, and after 10, which marks its
    /// session (02, T-07).
    pub const fn changes(self) -> bool {
        matches!(self.code, 0 | 10)
    }
}
