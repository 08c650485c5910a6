//! The twelve calls on a store's areas and desk.

use std::fmt;

use crate::ffi::IN_DATA;
use crate::limits::{BODY, WORDS};
use crate::{Desk, Refusal, Row, Session, ffi};

/// A store: three areas, data (1 to 64 pages of 8,192 bytes), undo (1 to 64) and status (exactly
/// 1), and the desk that belongs to them.
///
/// The three areas are of one type: `&mut [u8]`, `&mut Vec<u8>` and the like where they are lent
/// for as long as the store is there, `Vec<u8>` or `Box<[u8]>` where they are the store's own.
/// Arrays of different lengths are lent as slices, `&mut data[..]`.
///
/// Each call checks the lengths and the desk first: every call can answer [`Refusal::AreaLength`],
/// and every one but format and open [`Refusal::UnsoundDesk`]. A store that came from format or
/// open never answers these two. The other refusals are listed at each call. Where several apply,
/// the lowest number is given, but that 17, [`Refusal::ReservedStatus`], stands between 6 and 7, and
/// 18, [`Refusal::SessionSpoiled`], directly behind 4. A refused call leaves areas and desk as they
/// were; alone 10, [`Refusal::WriterCommitted`], of update and delete marks its session at the desk.
/// How many pages a store has is not kept in its areas: open as many as were formatted.
///
/// # One desk for one store
///
/// A store comes from [`Store::format`] or [`Store::open`], which make its desk, and there is no
/// other desk to work with. Whoever has a sealed store opens it, and its numbers go on behind those
/// handed out:
///
/// ```
/// # use chirimok::{Refusal, Store};
/// # let [mut data, mut undo, mut status] = [[0; 8192]; 3];
/// # Store::format(&mut data, &mut undo, &mut status)?.seal()?;
/// let mut store = Store::open(&mut data, &mut undo, &mut status)?;
/// let session = store.begin()?;
/// store.withdraw(session)?;
/// # Ok::<(), Refusal>(())
/// ```
///
/// Areas that are not opened cannot be worked on. Their first session would be number 1 again, and
/// its withdrawal would take back what session 1 has committed:
///
/// ```compile_fail,E0599
/// # use chirimok::{Refusal, Store};
/// # let [mut data, mut undo, mut status] = [[0; 8192]; 3];
/// # Store::format(&mut data, &mut undo, &mut status)?.seal()?;
/// let mut store = Store::new(&mut data, &mut undo, &mut status);
/// let session = store.begin()?;
/// store.withdraw(session)?;
/// # Ok::<(), Refusal>(())
/// ```
///
/// And areas are lent to one store at a time, so that no two desks hand out the same numbers:
///
/// ```compile_fail,E0499
/// # use chirimok::{Refusal, Store};
/// # let [mut data, mut undo, mut status] = [[0; 8192]; 3];
/// # Store::format(&mut data, &mut undo, &mut status)?.seal()?;
/// let mut store = Store::open(&mut data, &mut undo, &mut status)?;
/// let mut other = Store::open(&mut data, &mut undo, &mut status)?;
/// let session = store.begin()?;
/// other.withdraw(session)?;
/// # Ok::<(), Refusal>(())
/// ```
///
/// The one way past this is [`Store::from_kept_words`].
pub struct Store<A> {
    data: A,
    undo: A,
    status: A,
    desk: Desk,
}

/// What an accepted read found.
#[derive(Clone, Copy, Debug, PartialEq, Eq)]
pub struct Reading<'s> {
    /// How many versions were looked at, the answer included.
    pub count: u64,
    /// The body where it lies in the data or the undo area.
    pub body: &'s [u8; BODY],
}

/// What an accepted sweep did.
#[derive(Clone, Copy, Debug, PartialEq, Eq)]
pub struct Swept {
    /// The row behind the last one treated: where the next sweep should start.
    pub next_row: Row,
    /// How many versions were removed.
    pub removed: u64,
}

/// The library's answer as a result.
fn answered(number: u32) -> Result<(), Refusal> {
    if number == 0 {
        return Ok(());
    }
    Err(Refusal::from_number(number).expect("the library answers with the numbers of a refusal"))
}

impl<A: AsRef<[u8]> + AsMut<[u8]>> Store<A> {
    /// Writes empty pages over the areas, whatever they held, and starts with a desk without
    /// sessions and with next number 1.
    pub fn format(mut data: A, mut undo: A, mut status: A) -> Result<Self, Refusal> {
        let mut desk = Desk::unwritten();
        let words = desk.words_mut();
        answered(ffi::format(data.as_mut(), undo.as_mut(), status.as_mut(), words))?;
        Ok(Self { data, undo, status, desk })
    }

    /// Checks a sealed store and starts with a desk without sessions, whose next number follows the
    /// highest handed out. [`Refusal::UnsoundStore`] where a header field is wrong or a number
    /// isn't closed; who wants to keep the areas then lends them.
    pub fn open(data: A, undo: A, status: A) -> Result<Self, Refusal> {
        let mut desk = Desk::unwritten();
        let words = desk.words_mut();
        answered(ffi::open(data.as_ref(), undo.as_ref(), status.as_ref(), words))?;
        Ok(Self { data, undo, status, desk })
    }

    /// Goes on with areas and a desk that were put away in the midst of work, sessions open or not:
    /// the words are those of [`Desk::words`] after the last call that was made on these very
    /// areas.
    ///
    /// **Any other words can lose rows, and no call tells.** Words that break a rule of the desk
    /// are answered with [`Refusal::UnsoundDesk`], and that is all that a call can see. With words
    /// from before a later call, a closed session is open again or a number is handed out a second
    /// time, and withdrawing it takes back what was committed under it. With another store's words,
    /// a sweep may remove what is still read, too. One sign can be looked for, which not every
    /// wrong desk shows: the first word should be one more than the highest number handed out,
    /// which stands in bytes 8 to 15 of the status page, little-endian.
    ///
    /// A store that was sealed needs no words: [`Store::open`].
    pub const fn from_kept_words(data: A, undo: A, status: A, words: [u32; WORDS]) -> Self {
        Self { data, undo, status, desk: Desk::from_words(words) }
    }

    /// The data area as it lies.
    pub fn data(&self) -> &[u8] {
        self.data.as_ref()
    }

    /// The undo area as it lies.
    pub fn undo(&self) -> &[u8] {
        self.undo.as_ref()
    }

    /// The status area as it lies.
    pub fn status(&self) -> &[u8] {
        self.status.as_ref()
    }

    /// The desk: the next number and the open sessions.
    pub const fn desk(&self) -> &Desk {
        &self.desk
    }

    /// Ends the store and hands its areas back: data, undo, status.
    pub fn into_areas(self) -> [A; 3] {
        [self.data, self.undo, self.status]
    }

    /// Writes the checksums, so that the areas can be opened again. [`Refusal::SessionOpen`] while
    /// there is an open session.
    pub fn seal(&mut self) -> Result<(), Refusal> {
        let Self { data, undo, status, desk } = self;
        answered(ffi::seal(data.as_mut(), undo.as_mut(), status.as_mut(), desk.words()))
    }

    /// Opens a session, in statement 0. [`Refusal::SessionsFull`], [`Refusal::NumbersUsedUp`].
    pub fn begin(&mut self) -> Result<Session, Refusal> {
        let Self { data, undo, status, desk } = self;
        let (words, mut out) = (desk.words_mut(), [0]);
        let number = ffi::begin(data.as_ref(), undo.as_ref(), status.as_mut(), words, &mut out);
        answered(number).map(|()| Session::from_number(out[0]))
    }

    /// Moves the session on to its next statement, in which it finds what it wrote before.
    /// [`Refusal::SessionNotOpen`], [`Refusal::SessionSpoiled`], [`Refusal::StatementsUsedUp`].
    pub fn next(&mut self, session: Session) -> Result<(), Refusal> {
        let Self { data, undo, status, desk } = self;
        let (words, session) = (desk.words_mut(), session.number());
        answered(ffi::next(data.as_ref(), undo.as_ref(), status.as_ref(), words, session))
    }

    /// Writes a body of 32 bytes into the lowest empty slot and answers its row.
    /// [`Refusal::SessionNotOpen`], [`Refusal::SessionSpoiled`], [`Refusal::RowOrBody`],
    /// [`Refusal::NoRoom`].
    pub fn insert(&mut self, session: Session, body: &[u8]) -> Result<Row, Refusal> {
        let Self { data, undo, status, desk } = self;
        let (data, undo, status) = (data.as_mut(), undo.as_ref(), status.as_ref());
        let mut out = [0];
        let session = session.number();
        answered(ffi::insert(data, undo, status, desk.words(), session, body, &mut out))
            .map(|()| Row::from_number(out[0]))
    }

    /// Replaces the row's body and keeps the old one for those who still read it. Numbers 4, 18, 5,
    /// 6, 17 and 7 to 11 of [`Refusal`], in this order. After 10 the session is spoiled.
    pub fn update(&mut self, session: Session, row: Row, body: &[u8]) -> Result<(), Refusal> {
        let Self { data, undo, status, desk } = self;
        let (data, undo, status) = (data.as_mut(), undo.as_mut(), status.as_ref());
        let (session, row) = (session.number(), row.number());
        answered(ffi::update(data, undo, status, desk.words_mut(), session, row, body))
    }

    /// Deletes the row for the session's later statements and, once it commits, for all who begin
    /// after. Numbers 4, 18, 5, 6, 17 and 7 to 10 of [`Refusal`], in this order. After 10 the session
    /// is spoiled.
    pub fn delete(&mut self, session: Session, row: Row) -> Result<(), Refusal> {
        let Self { data, undo, status, desk } = self;
        let (data, undo, status) = (data.as_mut(), undo.as_ref(), status.as_ref());
        let (session, row) = (session.number(), row.number());
        answered(ffi::delete(data, undo, status, desk.words_mut(), session, row))
    }

    /// Finds the version of the row that is there for the session, spoiled or not. Numbers 4 to 6, 17
    /// and 7 of [`Refusal`], in this order.
    pub fn read(&self, session: Session, row: Row) -> Result<Reading<'_>, Refusal> {
        let (data, undo, status) = (self.data(), self.undo(), self.status());
        let (session, row) = (session.number(), row.number());
        let mut out = [0; 3];
        answered(ffi::read(data, undo, status, self.desk.words(), session, row, &mut out))?;
        let [count, area, offset] = out;
        let area = if area == IN_DATA { data } else { undo };
        let body = area[offset as usize..].first_chunk();
        Ok(Reading { count, body: body.expect("the library answers where a body lies") })
    }

    /// Closes the session; those who begin later see what it wrote. [`Refusal::SessionNotOpen`],
    /// [`Refusal::SessionSpoiled`].
    pub fn commit(&mut self, session: Session) -> Result<(), Refusal> {
        let Self { data, undo, status, desk } = self;
        let (words, session) = (desk.words_mut(), session.number());
        answered(ffi::commit(data.as_ref(), undo.as_ref(), status.as_mut(), words, session))
    }

    /// Takes back what the session wrote, and closes it, spoiled or not.
    /// [`Refusal::SessionNotOpen`], [`Refusal::BrokenChain`].
    pub fn withdraw(&mut self, session: Session) -> Result<(), Refusal> {
        let Self { data, undo, status, desk } = self;
        let (words, session) = (desk.words_mut(), session.number());
        answered(ffi::withdraw(data.as_mut(), undo.as_mut(), status.as_mut(), words, session))
    }

    /// Removes versions that nobody can read any more, in `quota` rows from `first` on or in as
    /// many as are left. `first` may be the row behind the last: then nothing is left to do.
    /// [`Refusal::RowOrBody`], [`Refusal::BrokenChain`].
    pub fn sweep(&mut self, first: Row, quota: u64) -> Result<Swept, Refusal> {
        let Self { data, undo, status, desk } = self;
        let (data, undo, status) = (data.as_mut(), undo.as_mut(), status.as_ref());
        let (first, mut out) = (first.number(), [0; 2]);
        answered(ffi::sweep(data, undo, status, desk.words(), first, quota, &mut out))?;
        let [next_row, removed] = out;
        Ok(Swept { next_row: Row::from_number(next_row), removed })
    }
}

impl<A> fmt::Debug for Store<A> {
    fn fmt(&self, formatter: &mut fmt::Formatter<'_>) -> fmt::Result {
        formatter.debug_struct("Store").field("desk", &self.desk).finish_non_exhaustive()
    }
}
