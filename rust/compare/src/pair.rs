//! Two engines side by side.

use crate::{Answer, Call, Engine, Store};

/// Two engines on copies of one store.
pub struct Pair<'e> {
    engines: [&'e dyn Engine; 2],
    stores: [Store; 2],
}

impl<'e> Pair<'e> {
    pub fn new(engines: [&'e dyn Engine; 2], store: Store) -> Self {
        Self { engines, stores: [store.clone(), store] }
    }

    /// The store, the same for both engines.
    pub fn store(&self) -> &Store {
        &self.stores[0]
    }

    /// Puts another store in place of both copies.
    pub fn reset(&mut self, store: &Store) {
        self.stores.iter_mut().for_each(|copy| copy.clone_from(store));
    }

    /// Makes the call with both engines. Answers, values, desk and every byte of the areas must be
    /// the same, and a refusal leaves areas and desk unchanged, but for the mark that 10 sets.
    pub fn must_agree(&mut self, call: &Call) -> Answer {
        let [one, two] = self.engines;
        let [store_one, store_two] = &mut self.stores;
        let answer = one.call(store_one, call);
        if answer.code != 0 {
            // The other engine's store is still as both were before.
            check_refusal(store_two, store_one, call, answer);
        }
        let other = two.call(store_two, call);
        assert_eq!(answer, other, "{} and {}, after {call:?}", one.name(), two.name());
        if let Some(difference) = store_one.difference(store_two) {
            panic!("{} and {} leave, after {call:?}, {difference}", one.name(), two.name());
        }
        answer
    }

    /// Makes a call that both engines must answer with this number.
    pub fn must(&mut self, call: &Call, code: u32) {
        assert_eq!(self.must_agree(call).code, code, "{call:?}");
    }
}

/// The numbers are those that the engine reported: an engine behind an adapter hands on what stands
/// in its out array, refused or not.
fn check_refusal(before: &Store, after: &Store, call: &Call, answer: Answer) {
    assert_eq!(answer.values, [0; 3], "a refused {call:?} reports numbers");
    if let Some(difference) = before.difference_refused(after, call, answer.code) {
        panic!("{call:?} is refused with {} and changes {difference}", answer.code);
    }
}

/// Makes the call with both engines, which must answer this and [agree](Pair::must_agree), and hands
/// back what they leave.
pub fn both_answer(
    engines: [&dyn Engine; 2],
    what: &str,
    store: &Store,
    call: &Call,
    answer: Answer,
) -> Store {
    let mut pair = Pair::new(engines, store.clone());
    assert_eq!(pair.must_agree(call), answer, "{what}: {call:?}");
    let [left, _] = pair.stores;
    left
}
