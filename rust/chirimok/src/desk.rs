//! The desk as the library takes it.

use std::fmt;

use crate::Session;
use crate::limits::{MEMBERS, SESSIONS, WORDS};

const NUMBERS: usize = 1;
const STATEMENTS: usize = NUMBERS + SESSIONS;
const MARKS: usize = STATEMENTS + SESSIONS;
const LISTS: usize = MARKS + SESSIONS;

/// The session record that goes into each call (01, Sessions and sight). A [`Store`](crate::Store)
/// gets its desk from format or open and keeps it beside the areas. It can be looked at there,
///
/// ```
/// # let [mut data, mut undo, mut status] = [[0; 8192]; 3];
/// # let store = chirimok::Store::format(&mut data, &mut undo, &mut status)?;
/// let desk: &chirimok::Desk = store.desk();
/// # Ok::<(), chirimok::Refusal>(())
/// ```
///
/// but there is no new desk, no default one and no copy, which would know nothing of what its store
/// has handed out:
///
/// ```compile_fail,E0599
/// # let [mut data, mut undo, mut status] = [[0; 8192]; 3];
/// # let store = chirimok::Store::format(&mut data, &mut undo, &mut status)?;
/// let desk: &chirimok::Desk = &chirimok::Desk::new();
/// # Ok::<(), chirimok::Refusal>(())
/// ```
///
/// ```compile_fail,E0277
/// # let [mut data, mut undo, mut status] = [[0; 8192]; 3];
/// # let store = chirimok::Store::format(&mut data, &mut undo, &mut status)?;
/// let desk: &chirimok::Desk = &Default::default();
/// # Ok::<(), chirimok::Refusal>(())
/// ```
///
/// ```compile_fail,E0308
/// # let [mut data, mut undo, mut status] = [[0; 8192]; 3];
/// # let store = chirimok::Store::format(&mut data, &mut undo, &mut status)?;
/// let desk: chirimok::Desk = store.desk().clone();
/// # Ok::<(), chirimok::Refusal>(())
/// ```
#[derive(PartialEq, Eq)]
pub struct Desk([u32; WORDS]);

/// An open session at the desk.
#[derive(Clone, Copy, Debug, PartialEq, Eq)]
pub struct OpenSession<'d> {
    /// Its number.
    pub number: Session,
    /// The statement in which it is.
    pub statement: u32,
    /// Whether it lost a conflict: it can read and [withdraw](crate::Store::withdraw), and nothing
    /// else ([`SessionSpoiled`](crate::Refusal::SessionSpoiled)).
    pub spoiled: bool,
    /// The numbers that were open when it began, ascending.
    pub list: &'d [u32],
}

impl Desk {
    /// A desk for format or open to write over. As it is, every word of it breaks a rule.
    pub(crate) const fn unwritten() -> Self {
        Self([u32::MAX; WORDS])
    }

    pub(crate) const fn from_words(words: [u32; WORDS]) -> Self {
        Self(words)
    }

    /// The desk's words: next, 16 numbers, 16 statements, 16 marks (1 where the session is spoiled),
    /// 16 lists of 15.
    pub const fn words(&self) -> &[u32; WORDS] {
        &self.0
    }

    pub(crate) const fn words_mut(&mut self) -> &mut [u32; WORDS] {
        &mut self.0
    }

    /// The number that the next session gets; one more than
    /// [`LAST_NUMBER`](crate::limits::LAST_NUMBER) where all are handed out.
    pub const fn next(&self) -> u64 {
        self.0[0] as u64
    }

    /// The open sessions, ascending by number.
    pub fn sessions(&self) -> impl Iterator<Item = OpenSession<'_>> {
        let numbers = self.0[NUMBERS..STATEMENTS].iter();
        numbers.take_while(|&&number| number != 0).enumerate().map(|(place, &number)| {
            let list = &self.0[LISTS + place * MEMBERS..][..MEMBERS];
            let used = list.iter().position(|&member| member == 0).unwrap_or(MEMBERS);
            OpenSession {
                number: Session::from_number(number.into()),
                statement: self.0[STATEMENTS + place],
                spoiled: self.0[MARKS + place] != 0,
                list: &list[..used],
            }
        })
    }
}

impl fmt::Debug for Desk {
    fn fmt(&self, formatter: &mut fmt::Formatter<'_>) -> fmt::Result {
        let sessions: Vec<_> = self.sessions().collect();
        formatter
            .debug_struct("Desk")
            .field("next", &self.next())
            .field("sessions", &sessions)
            .finish()
    }
}
