//! The library's C interface, and a safe function for each of its functions. The only module with
//! `unsafe`: what each function may read and write is in the types of the safe ones.
//!
//! Each answers the refusal number, 0 for done. On a refusal the out array is zeros, and areas and
//! desk are unchanged, but that 10 of update and delete sets the session's mark at the desk.

use crate::limits::WORDS;

/// The desk's words.
type Words = [u32; WORDS];

/// Where a body lies, as read reports it: in the data area, or in the undo area.
pub const IN_DATA: u64 = 1;
pub const IN_UNDO: u64 = 2;

/// Bytes that are lent: for writing (`mut`) or for reading (`const`).
macro_rules! bytes {
    (mut) => {
        &mut [u8]
    };
    (const) => {
        &[u8]
    };
}

/// Where they begin, as the library takes it.
macro_rules! pointer {
    (mut) => {
        *mut u8
    };
    (const) => {
        *const u8
    };
    (mut $bytes:ident) => {
        $bytes.as_mut_ptr()
    };
    (const $bytes:ident) => {
        $bytes.as_ptr()
    };
}

/// Declares functions of the library, each with the safe function over it. What is a slice in the
/// safe one, an area or the body behind the semicolon, the library takes as a pointer and a length.
macro_rules! functions {
    ($(
        $safe:ident = $function:ident(
            $data:tt data, $undo:tt undo, $status:tt status $(, $name:ident: $type:ty)*
            $(; const $body:ident $(, $out:ident: $out_type:ty)?)?
        );
    )*) => {
        unsafe extern "C" {
            $(fn $function(
                data: pointer!($data),
                data_length: usize,
                undo: pointer!($undo),
                undo_length: usize,
                status: pointer!($status),
                status_length: usize,
                $($name: $type,)*
                $($body: pointer!(const), body_length: usize, $($out: $out_type)?)?
            ) -> u32;)*
        }

        $(pub fn $safe(
            data: bytes!($data),
            undo: bytes!($undo),
            status: bytes!($status),
            $($name: $type,)*
            $($body: bytes!(const), $($out: $out_type)?)?
        ) -> u32 {
            // SAFETY: every pointer comes from a reference to as many bytes as the length says, or
            // as many words as the type says, exclusive where the function writes. The library
            // keeps none of them.
            unsafe {
                $function(
                    pointer!($data data),
                    data.len(),
                    pointer!($undo undo),
                    undo.len(),
                    pointer!($status status),
                    status.len(),
                    $($name,)*
                    $(pointer!(const $body), $body.len(), $($out)?)?
                )
            }
        })*
    };
}

functions! {
    format = chirimok_format(mut data, mut undo, mut status, desk: &mut Words);
    open = chirimok_open(const data, const undo, const status, desk: &mut Words);
    seal = chirimok_seal(mut data, mut undo, mut status, desk: &Words);
    begin = chirimok_begin(
        const data, const undo, mut status, desk: &mut Words, out: &mut [u64; 1]
    );
    next = chirimok_next(const data, const undo, const status, desk: &mut Words, session: u64);
    insert = chirimok_insert(
        mut data, const undo, const status, desk: &Words, session: u64;
        const body, out: &mut [u64; 1]
    );
    update = chirimok_update(
        mut data, mut undo, const status, desk: &mut Words, session: u64, row: u64; const body
    );
    delete = chirimok_delete(
        mut data, const undo, const status, desk: &mut Words, session: u64, row: u64
    );
    read = chirimok_read(
        const data, const undo, const status, desk: &Words, session: u64, row: u64,
        out: &mut [u64; 3]
    );
    commit = chirimok_commit(const data, const undo, mut status, desk: &mut Words, session: u64);
    withdraw = chirimok_withdraw(mut data, mut undo, mut status, desk: &mut Words, session: u64);
    sweep = chirimok_sweep(
        mut data, mut undo, const status, desk: &Words, first: u64, quota: u64,
        out: &mut [u64; 2]
    );
}
