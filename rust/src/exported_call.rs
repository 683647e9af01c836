//! The calls into the static library, and all that is `unsafe` here.

#![allow(unsafe_code)]

mod foreign {
    extern "C" {
        /// `crates/exports/src/lib.rt`. A slice is passed as its pointer and its length.
        pub fn exports_ghost_statements(
            types: *const u32,
            types_len: usize,
            fun: *const u32,
            fun_len: usize,
            forms: *mut u16,
            forms_len: usize,
            whats: *mut u16,
            whats_len: usize,
            out: *mut u32,
            out_len: usize,
            told: *mut u32,
            told_len: usize,
        ) -> u32;

        pub fn exports_crate_statements(
            types: *const u32,
            types_len: usize,
            words: *const u32,
            words_len: usize,
            forms: *mut u16,
            forms_len: usize,
            whats: *mut u16,
            whats_len: usize,
            out: *mut u32,
            out_len: usize,
        ) -> u32;

        /// An array is passed as its pointer.
        pub fn exports_ghosts(bytes: *const u8, bytes_len: usize, text: *mut u8) -> usize;

        pub fn exports_statement_items(
            list: *const u32,
            list_len: usize,
            out: *mut u32,
            out_len: usize,
        ) -> u32;

        pub fn exports_merge_types(
            first: *const u32,
            first_len: usize,
            second: *const u32,
            second_len: usize,
            out: *mut u32,
            out_len: usize,
        ) -> u32;
    }
}

/// A function, and an array for the numbers beside its statements; 0 or the refusal.
pub fn exported(
    types: &[u32],
    function: &[u32],
    forms: &mut [u16],
    whats: &mut [u16],
    out: &mut [u32],
    told: &mut [u32],
) -> u32 {
    // SAFETY: What the call is owed: pointers that are aligned and hold as many words as their
    // lengths say, that nobody else writes during the call, and of which nobody else reads the last
    // four. References to slices are all that, those of length 0 too. There is no `requires`, so any
    // words will do.
    // What it owes is proved of its source: it reads and writes inside the slices alone, keeps no
    // pointer, and ends. That it has enough stack is up to `run` in `stack.rs`.
    unsafe {
        foreign::exports_ghost_statements(
            types.as_ptr(),
            types.len(),
            function.as_ptr(),
            function.len(),
            forms.as_mut_ptr(),
            forms.len(),
            whats.as_mut_ptr(),
            whats.len(),
            out.as_mut_ptr(),
            out.len(),
            told.as_mut_ptr(),
            told.len(),
        )
    }
}

/// A crate's count and records, beside which no numbers stand; 0, or the refusal and 256 times its
/// position.
pub fn exported_crate(
    types: &[u32],
    words: &[u32],
    forms: &mut [u16],
    whats: &mut [u16],
    out: &mut [u32],
) -> u32 {
    // SAFETY: As above, of five slices of which the last three are written.
    unsafe {
        foreign::exports_crate_statements(
            types.as_ptr(),
            types.len(),
            words.as_ptr(),
            words.len(),
            forms.as_mut_ptr(),
            forms.len(),
            whats.as_mut_ptr(),
            whats.len(),
            out.as_mut_ptr(),
            out.len(),
        )
    }
}

/// What `ghosts` prints of these bytes is put at the start of `text`; how long it is.
pub fn exported_ghosts(bytes: &[u8], text: &mut [u8; PAGE]) -> usize {
    // SAFETY: As above: a pointer and its length, and a pointer to an array of as many bytes as the call
    // takes it for.
    unsafe { foreign::exports_ghosts(bytes.as_ptr(), bytes.len(), text.as_mut_ptr()) }
}

/// The items of a list of statements, as they are lent; 0 or the refusal.
pub fn exported_statement_items(list: &[u32], out: &mut [u32]) -> u32 {
    // SAFETY: As above, of two slices. It has no array of its own and doesn't call itself, so that any
    // thread has stack enough.
    unsafe {
        foreign::exports_statement_items(list.as_ptr(), list.len(), out.as_mut_ptr(), out.len())
    }
}

/// Two type records merged, as it is lent; 0 or the refusal.
pub fn exported_merge_types(first: &[u32], second: &[u32], out: &mut [u32]) -> u32 {
    // SAFETY: As above, of three slices of which the last is written; the first two may be one.
    unsafe {
        foreign::exports_merge_types(
            first.as_ptr(),
            first.len(),
            second.as_ptr(),
            second.len(),
            out.as_mut_ptr(),
            out.len(),
        )
    }
}

/// Room for what `ghosts` prints.
pub const PAGE: usize = 14336;
