//! The stores that single calls are timed on.

use crate::engine::{ENTRIES, Engine, ROWS, body};
use crate::plain_engine::PlainEngine;

/// A store under way, made by the ordinary version; either engine goes on with it.
pub struct Stock {
    pub engine: PlainEngine,
    pub rows: u64,
}

impl Stock {
    /// All rows in use but the last `free`, and no undo entry.
    pub fn rows(pages: usize, free: u64) -> Self {
        let mut engine = PlainEngine::formatted(pages);
        let rows = pages as u64 * ROWS - free;
        let session = engine.begin();
        for row in 0..rows {
            engine.insert(session, &body(row));
        }
        engine.commit(session);
        Self { engine, rows }
    }

    /// All rows in use, and all undo entries but the last `free`: one for each of the first rows,
    /// replaced by a session that has committed.
    pub fn versions(pages: usize, free: u64) -> Self {
        let mut stock = Self::rows(pages, 0);
        stock.replace_first(pages as u64 * ENTRIES - free);
        stock
    }

    /// The same, with a session open that may still read every version that was replaced.
    pub fn read_versions(pages: usize, free: u64) -> Self {
        let mut stock = Self::rows(pages, 0);
        stock.engine.begin();
        stock.replace_first(pages as u64 * ENTRIES - free);
        stock
    }

    fn replace_first(&mut self, rows: u64) {
        let session = self.engine.begin();
        for row in 0..rows {
            self.engine.update(session, row, &body(row + 1));
        }
        self.engine.commit(session);
    }

    /// Makes a reader that passes `passed` versions of the last row before it finds its own, and has
    /// as many sessions open in all. They were replaced by a writer that was open when the reader
    /// began: the last in the reader's list, and committed since. Answers the reader.
    pub fn reader(&mut self, passed: u64, open: u64) -> u64 {
        let engine = &mut self.engine;
        for _ in 2..open {
            engine.begin();
        }
        let writer = engine.begin();
        let reader = engine.begin();
        for version in 0..passed {
            engine.update(writer, self.rows - 1, &body(version));
            engine.next(writer);
        }
        engine.commit(writer);
        if open > 1 {
            engine.begin();
        }
        reader
    }
}
