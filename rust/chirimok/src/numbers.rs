//! Sessions and rows, each a number of its own kind.

/// A session, by the number that [`Store::begin`](crate::Store::begin) hands out.
///
/// It is no row, and a row is no session. This compiles:
///
/// ```
/// # let [mut data, mut undo, mut status] = [[0; 8192]; 3];
/// # let mut store = chirimok::Store::format(&mut data, &mut undo, &mut status)?;
/// let session = store.begin()?;
/// let row = store.insert(session, &[7; 32])?;
/// store.next(session)?;
/// store.delete(session, row)?;
/// # Ok::<(), chirimok::Refusal>(())
/// ```
///
/// and this, with the two exchanged, does not:
///
/// ```compile_fail,E0308
/// # let [mut data, mut undo, mut status] = [[0; 8192]; 3];
/// # let mut store = chirimok::Store::format(&mut data, &mut undo, &mut status)?;
/// let session = store.begin()?;
/// let row = store.insert(session, &[7; 32])?;
/// store.next(session)?;
/// store.delete(row, session)?;
/// # Ok::<(), chirimok::Refusal>(())
/// ```
#[derive(Clone, Copy, Debug, PartialEq, Eq, PartialOrd, Ord, Hash)]
pub struct Session(u64);

/// A row, by the number that [`Store::insert`](crate::Store::insert) answers. It counts the slots
/// of the data area from 0 on, and is free for another row once its row is deleted and swept.
#[derive(Clone, Copy, Debug, PartialEq, Eq, PartialOrd, Ord, Hash)]
pub struct Row(u64);

impl Session {
    /// The session of that number, open or not.
    pub const fn from_number(number: u64) -> Self {
        Self(number)
    }

    /// Its number.
    pub const fn number(self) -> u64 {
        self.0
    }
}

impl Row {
    /// The first row, at which a sweep of all rows begins.
    pub const FIRST: Self = Self(0);

    /// The row of that number, as a station kept it.
    pub const fn from_number(number: u64) -> Self {
        Self(number)
    }

    /// Its number.
    pub const fn number(self) -> u64 {
        self.0
    }
}
