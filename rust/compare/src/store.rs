//! The lent areas and the desk, as one value that can be copied and compared.

use crate::Call;
use crate::layout::PAGE;

/// Words in a desk: next, 16 numbers, 16 statements, 16 marks, 16 lists of 15.
pub const WORDS: usize = 289;

const NUMBERS: usize = 1;
const STATEMENTS: usize = 17;
const MARKS: usize = 33;
const LISTS: usize = 49;

/// Areas and desk. The desk is kept in words, so that it can hold anything a caller could pass.
#[derive(Clone, PartialEq, Eq)]
pub struct Store {
    pub data: Vec<u8>,
    pub undo: Vec<u8>,
    pub status: Vec<u8>,
    pub desk: [u32; WORDS],
}

impl Store {
    /// Areas that hold nothing sensible yet, and a desk to match.
    pub fn unformatted(data_pages: usize, undo_pages: usize) -> Self {
        Self {
            data: vec![0xA5; data_pages * PAGE],
            undo: vec![0x5A; undo_pages * PAGE],
            status: vec![0xFF; PAGE],
            desk: [u32::MAX; WORDS],
        }
    }

    pub fn rows(&self) -> u64 {
        (self.data.len() / PAGE * 127) as u64
    }

    pub fn next(&self) -> u64 {
        self.desk[0].into()
    }

    pub fn next_mut(&mut self) -> &mut u32 {
        &mut self.desk[0]
    }

    pub fn number_mut(&mut self, place: usize) -> &mut u32 {
        &mut self.desk[NUMBERS + place]
    }

    pub fn statement_mut(&mut self, place: usize) -> &mut u32 {
        &mut self.desk[STATEMENTS + place]
    }

    pub fn mark_mut(&mut self, place: usize) -> &mut u32 {
        &mut self.desk[MARKS + place]
    }

    pub fn member_mut(&mut self, place: usize, member: usize) -> &mut u32 {
        &mut self.desk[LISTS + place * 15 + member]
    }

    /// The numbers in the desk's session places, up to the first zero.
    pub fn sessions(&self) -> impl Iterator<Item = u64> + Clone + '_ {
        let numbers = self.desk[NUMBERS..STATEMENTS].iter();
        numbers.map(|&number| number.into()).take_while(|&number| number != 0)
    }

    /// Whether the session is open and marked spoiled (02, T-07).
    pub fn is_spoiled(&self, session: u64) -> bool {
        let mut marked = self.sessions().zip(&self.desk[MARKS..LISTS]);
        marked.any(|(open, &mark)| open == session && mark == 1)
    }

    /// What a call refused with this number has changed that it must not: "every refusal leaves
    /// areas and desk unchanged", but that 10 of update and delete marks the session, "the one change
    /// that refusal makes" (02, T-07).
    pub fn difference_refused(&self, after: &Self, call: &Call, code: u32) -> Option<String> {
        let (Call::Update { session, .. } | Call::Delete { session, .. }, 10) = (call, code) else {
            return self.difference(after);
        };
        let mut marked = self.clone();
        if let Some(place) = self.sessions().position(|open| open == *session) {
            *marked.mark_mut(place) = 1;
        }
        marked.difference(after)
    }

    /// Where another store differs, in words for a failing test; none where it is equal.
    pub fn difference(&self, other: &Self) -> Option<String> {
        bytes_difference("data", &self.data, &other.data)
            .or_else(|| bytes_difference("undo", &self.undo, &other.undo))
            .or_else(|| bytes_difference("status", &self.status, &other.status))
            .or_else(|| {
                let word = (0..WORDS).find(|&word| self.desk[word] != other.desk[word])?;
                let (one, two) = (self.desk[word], other.desk[word]);
                Some(format!("desk word {word}: {one} and {two}"))
            })
    }
}

fn bytes_difference(area: &str, one: &[u8], other: &[u8]) -> Option<String> {
    if one == other {
        return None;
    }
    let at = one.iter().zip(other).position(|(one, other)| one != other);
    let at = at.unwrap_or(one.len().min(other.len()));
    let (page, offset) = (at / PAGE + 1, at % PAGE);
    Some(format!("{area} page {page}, offset {offset}: {:?} and {:?}", one.get(at), other.get(at)))
}
