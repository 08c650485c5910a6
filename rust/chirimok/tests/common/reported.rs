//! What the library itself does in a refused call. "Each number reported by a refused call is 0":
//! the wrapper hands no numbers back then, so the four functions that have an out array are called
//! here without it, with an array that is full beforehand. And format and open must leave the desk
//! that is lent, where the wrapper has none to lend.

use chirimok::ffi;
use compare::{Call, Store};

/// What stands in an out array before the call.
const FULL: u64 = u64::MAX;

/// Makes a call that was refused once more, and answers its number and its out array; zeros where
/// the function has none, and places behind the array's end are 0. Refused, it changes nothing.
pub fn by_library(store: &mut Store, call: &Call, number: u32) -> (u32, [u64; 3]) {
    let Store { data, undo, status, desk } = store;
    match call {
        Call::Format => (ffi::format(data, undo, status, desk), [0; 3]),
        Call::Open => (ffi::open(data, undo, status, desk), [0; 3]),
        Call::Begin => {
            let mut out = [FULL];
            let number = ffi::begin(data, undo, status, desk, &mut out);
            (number, [out[0], 0, 0])
        }
        Call::Insert { session, body } => {
            let mut out = [FULL];
            let number = ffi::insert(data, undo, status, desk, *session, body, &mut out);
            (number, [out[0], 0, 0])
        }
        Call::Read { session, row } => {
            let mut out = [FULL; 3];
            let number = ffi::read(data, undo, status, desk, *session, *row, &mut out);
            (number, out)
        }
        Call::Sweep { first, quota } => {
            let mut out = [FULL; 2];
            let number = ffi::sweep(data, undo, status, desk, *first, *quota, &mut out);
            (number, [out[0], out[1], 0])
        }
        _ => (number, [0; 3]),
    }
}
