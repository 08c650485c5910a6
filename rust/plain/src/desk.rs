//! The desk: the next number and the open sessions (01, Sessions and sight).

use std::array::from_fn;
use std::iter;

use crate::Refusal;
use crate::status::HIGHEST_NUMBER;

/// The most sessions open at a time.
pub const SESSIONS: usize = 16;

/// The most numbers that can be open when a session begins.
pub const MEMBERS: usize = 15;

/// Words in a desk.
pub const WORDS: usize = 1 + SESSIONS + SESSIONS + SESSIONS + SESSIONS * MEMBERS;

/// The session record that goes into each call: 289 words. Used places come first; unused ones are
/// zero.
#[derive(Clone, Debug, PartialEq, Eq)]
#[repr(C)]
pub struct Desk {
    /// The number that the next session gets.
    pub next: u32,
    /// The open sessions' numbers, ascending.
    pub numbers: [u32; SESSIONS],
    /// The statement in which each session is.
    pub statements: [u32; SESSIONS],
    /// 1 where the session is spoiled, else 0 (02, T-07).
    pub marks: [u32; SESSIONS],
    /// The numbers that were open when each session began, ascending.
    pub lists: [[u32; MEMBERS]; SESSIONS],
}

const _: () = assert!(size_of::<Desk>() == size_of::<[u32; WORDS]>());

/// An open session, as sight needs it.
#[derive(Clone, Copy)]
pub struct Session<'a> {
    /// Its place at the desk.
    pub place: usize,
    pub number: u64,
    pub statement: u32,
    pub list: &'a [u32; MEMBERS],
}

/// Whether used places come first, ascend and stay below `limit`, and the others are zero.
#[inline]
fn places_sound(places: &[u32], limit: u32) -> bool {
    let mut places = places.iter();
    let mut last = 0;
    while let Some(&place) = places.next() {
        if place == 0 {
            return places.all(|&unused| unused == 0);
        }
        if place <= last || place >= limit {
            return false;
        }
        last = place;
    }
    true
}

/// Whether the places of the open sessions hold at most `most`, and the others zero.
#[inline]
fn column_sound(column: &[u32; SESSIONS], open: usize, most: u32) -> bool {
    let (used, unused) = column.split_at(open);
    used.iter().all(|&place| place <= most) && unused.iter().all(|&place| place == 0)
}

/// One test at the end instead of one for each place, sixteen places a step: most places of a desk
/// are unused, and every call looks at all of them.
#[inline]
fn all_zero(places: &[u32]) -> bool {
    let (sixteens, rest) = places.as_chunks::<16>();
    let mut lanes = [0; 16];
    for sixteen in sixteens {
        for (lane, place) in lanes.iter_mut().zip(sixteen) {
            *lane |= place;
        }
    }
    lanes.iter().chain(rest).fold(0, |all, place| all | place) == 0
}

/// How many places stand before the first zero.
#[inline]
fn used(places: &[u32]) -> usize {
    places.iter().position(|&place| place == 0).unwrap_or(places.len())
}

impl Desk {
    /// The first number that a store hands out.
    pub const FIRST_NUMBER: u32 = 1;

    /// The statement in which a session begins.
    pub const FIRST_STATEMENT: u32 = 0;

    /// The statement that no session moves on from.
    pub const LAST_STATEMENT: u32 = 65_535;

    /// The mark of a session that is spoiled. Unmarked sessions have 0.
    pub const SPOILED: u32 = 1;

    /// `next` once all numbers are handed out.
    pub const NUMBERS_END: u32 = HIGHEST_NUMBER + 1;

    /// A desk without sessions.
    pub const fn without_sessions(next: u32) -> Self {
        Self {
            next,
            numbers: [0; SESSIONS],
            statements: [0; SESSIONS],
            marks: [0; SESSIONS],
            lists: [[0; MEMBERS]; SESSIONS],
        }
    }

    /// The desk that the words say: next, numbers, statements, marks, lists.
    pub fn from_words(words: &[u32; WORDS]) -> Self {
        let mut words = words.iter().copied();
        let mut word = || words.next().expect("as many words as a desk has places");
        Self {
            next: word(),
            numbers: from_fn(|_| word()),
            statements: from_fn(|_| word()),
            marks: from_fn(|_| word()),
            lists: from_fn(|_| from_fn(|_| word())),
        }
    }

    /// The desk's words: next, numbers, statements, marks, lists.
    pub fn words(&self) -> [u32; WORDS] {
        let lists = self.lists.as_flattened();
        let columns = [&self.numbers[..], &self.statements, &self.marks, lists];
        let mut words = iter::once(&self.next).chain(columns.into_iter().flatten());
        from_fn(|_| *words.next().expect("as many words as a desk has places"))
    }

    /// How many sessions are open.
    #[inline]
    pub fn open(&self) -> usize {
        used(&self.numbers)
    }

    /// Refusal 2. Soundness is judged from the desk alone.
    #[inline]
    pub fn check_sound(&self) -> Result<(), Refusal> {
        let open = self.open();
        let sound = (Self::FIRST_NUMBER..=Self::NUMBERS_END).contains(&self.next)
            && places_sound(&self.numbers, self.next)
            && column_sound(&self.statements, open, Self::LAST_STATEMENT)
            && column_sound(&self.marks, open, Self::SPOILED)
            && self.lists_sound(open);
        if sound { Ok(()) } else { Err(Refusal::UnsoundDesk) }
    }

    #[inline]
    fn lists_sound(&self, open: usize) -> bool {
        let (used, unused) = self.lists.split_at(open);
        used.iter().zip(&self.numbers).all(|(list, &number)| places_sound(list, number))
            && all_zero(unused.as_flattened())
    }

    /// The open session `number`, or refusal 4. Number 0 is never open, though unused places hold
    /// it.
    #[inline]
    pub fn session(&self, number: u64) -> Result<Session<'_>, Refusal> {
        let used = &self.numbers[..self.open()];
        let place = used.iter().position(|&open| u64::from(open) == number);
        let place = place.ok_or(Refusal::SessionNotOpen)?;
        Ok(Session { place, number, statement: self.statements[place], list: &self.lists[place] })
    }

    /// The same for a call that changes something: 18 where the session is spoiled, "directly after
    /// 4" (02, T-07).
    #[inline]
    pub fn unspoiled_session(&self, number: u64) -> Result<Session<'_>, Refusal> {
        let session = self.session(number)?;
        let spoiled = self.marks[session.place] == Self::SPOILED;
        if spoiled { Err(Refusal::SessionSpoiled) } else { Ok(session) }
    }

    /// "After an answer 10, the desk marks that session spoiled."
    pub fn spoil(&mut self, place: usize) {
        self.marks[place] = Self::SPOILED;
    }

    /// The smallest among all open sessions' numbers and list members; with none open, the next
    /// number. All ascend, so the first of each is the smallest.
    pub fn mark(&self) -> u64 {
        let open = self.open();
        let members = self.lists[..open].iter().map(|list| list[0]).filter(|&member| member != 0);
        let mark = members.chain(self.numbers[..open].first().copied()).min().unwrap_or(self.next);
        mark.into()
    }

    /// Opens a session in the first unused place, which must be there, and answers its number. An
    /// unused place is not marked, and so the session is not.
    pub fn begin(&mut self) -> u64 {
        let open = self.open();
        let number = self.next;
        self.lists[open][..open].copy_from_slice(&self.numbers[..open]);
        self.numbers[open] = number;
        self.statements[open] = Self::FIRST_STATEMENT;
        self.next += 1;
        number.into()
    }

    /// Moves later sessions up. Other sessions' lists keep the closed number.
    pub fn close(&mut self, place: usize) {
        let last = self.open() - 1;
        self.numbers.copy_within(place + 1..=last, place);
        self.statements.copy_within(place + 1..=last, place);
        self.marks.copy_within(place + 1..=last, place);
        self.lists.copy_within(place + 1..=last, place);
        self.numbers[last] = 0;
        self.statements[last] = 0;
        self.marks[last] = 0;
        self.lists[last] = [0; MEMBERS];
    }
}
