//! A row's chain: the slot's version, then older ones in undo entries (01, Sessions and sight).
//!
//! A chain is broken at a pointer that leads to no entry of its row, or to an entry already passed.
//! The walk finds the latter by counting. An area has so many entries, so a walk that has passed as
//! many and goes on is in a loop. Until then it has met each version of the loop, and meeting them
//! again tells no caller anything new: what it looked for and did not find is still not there.

use crate::Refusal;
use crate::entry::{COPY_AT, entry_of};
use crate::page::{Kind, in_use};
use crate::slot::{Meta, slot_at};

/// The area in which a version lies.
#[derive(Clone, Copy, Debug, PartialEq, Eq)]
pub enum Area {
    Data,
    Undo,
}

/// A place in one of the areas, as its byte offset.
#[derive(Clone, Copy, Debug, PartialEq, Eq)]
pub struct Place {
    pub area: Area,
    pub at: usize,
}

/// A version that a walk came by: where its slot or slot copy starts, and its metadata.
#[derive(Clone, Copy)]
pub struct Version {
    pub place: Place,
    pub meta: Meta,
}

/// A walk met a break.
pub struct Broken;

impl From<Broken> for Refusal {
    fn from(_: Broken) -> Self {
        Self::BrokenChain
    }
}

/// A walk along the chain of a row, newest version first. Its last item is the break, if there is
/// one.
pub struct Chain<'a> {
    undo: &'a [u8],
    row: usize,
    slot: Option<Version>,
    pointer: u64,
    unpassed: usize,
}

impl<'a> Chain<'a> {
    /// "An empty slot has no chain, whatever its other bytes."
    #[inline]
    pub fn of(data: &[u8], undo: &'a [u8], row: usize) -> Self {
        let at = slot_at(row);
        let slot = in_use(data, at)
            .then(|| Version { place: Place { area: Area::Data, at }, meta: Meta::read(data, at) });
        Self { undo, row, slot, pointer: 0, unpassed: Kind::UNDO.records_in(undo) }
    }

    /// The version that the pointer leads to.
    #[inline]
    fn follow(&mut self) -> Result<Version, Broken> {
        let entry = entry_of(self.undo, self.row, self.pointer).ok_or(Broken)?;
        self.unpassed = self.unpassed.checked_sub(1).ok_or(Broken)?;
        let at = entry + COPY_AT;
        Ok(Version { place: Place { area: Area::Undo, at }, meta: Meta::read(self.undo, at) })
    }
}

impl Iterator for Chain<'_> {
    type Item = Result<Version, Broken>;

    #[inline]
    fn next(&mut self) -> Option<Self::Item> {
        let step = match self.slot.take() {
            Some(slot) => Ok(slot),
            None if self.pointer == 0 => return None,
            None => self.follow(),
        };
        self.pointer = step.as_ref().map_or(0, |version| version.meta.undo_ptr);
        Some(step)
    }
}
