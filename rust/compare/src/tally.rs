//! How often each call gave each answer.

use crate::random::named_seed;
use crate::{Answer, Call};

/// The highest number that a call answers.
const HIGHEST: usize = 18;

/// A count for each call and number.
#[derive(Default)]
pub struct Tally([[u64; HIGHEST + 1]; 12]);

impl Tally {
    pub fn add(&mut self, call: &Call, answer: Answer) {
        self.0[call.index()][answer.code as usize] += 1;
    }

    /// How often the call of that name gave the number.
    fn count(&self, name: &str, number: u32) -> u64 {
        let call = Call::NAMES.iter().position(|&other| other == name);
        self.0[call.expect("a call's name")][number as usize]
    }

    /// Fails unless each call gave each of its numbers, so that what was compared is worth
    /// something. A single repeated round is let off.
    pub fn assert_seen(&self, what: &str, expected: &[(&str, &[u32])]) {
        for &(name, numbers) in expected {
            for &number in numbers {
                let seen = self.count(name, number) > 0 || named_seed().is_some();
                assert!(seen, "{what}: no {name} answered {number}");
            }
        }
    }

    /// Fails if any call gave one of the numbers.
    pub fn assert_never(&self, what: &str, numbers: &[u32]) {
        for name in Call::NAMES {
            for &number in numbers {
                assert_eq!(self.count(name, number), 0, "{what}: a {name} answered {number}");
            }
        }
    }
}
