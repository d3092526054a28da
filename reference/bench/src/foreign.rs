//! Calls of what is linked beside the proved library, and this package's only unsafe code: the check by
//! hand in C (`c/check.h`), and an older proved library where one is given (`build.rs`).
//!
//! What holds for every call below, and makes it safe for every argument:
//!
//! - A pointer and the length after it come from one slice, which stays borrowed until the call
//!   returns. A slice that may be written is borrowed for this call alone.
//! - The functions have no requirement beyond that and the processor: they test their arguments, touch
//!   nothing but the slices, and keep no pointer.

#![allow(unsafe_code)]

use crate::accepted::Refusal;

/// A call on p and three slices, the last of which is written; answers how many bytes were.
pub type Call = fn(u8, &[u8], &[u8], &mut [u8]) -> Result<usize, Refusal>;

/// A decoding: code line, frame, symbols, costs, store and margins; answers 0 (found) or 1 (not found), and t.
pub type Decode =
    fn(&[u8], &[u8], &mut [u8], &mut [u16], &mut [u8], &mut [u16]) -> Result<(u8, u8), Refusal>;

/// An older library's calls.
pub struct OldLibrary {
    /// Its check.
    pub check: Call,
    /// Its expansion.
    pub expand: Call,
    /// Its decoding. A library without margins leaves their buffer as it is.
    pub decode: Decode,
}

/// A call in C: each slice is a pointer and a length.
type ForeignCall =
    unsafe extern "C" fn(u8, *const u8, usize, *const u8, usize, *mut u8, usize) -> u32;

/// Declares functions of the form of a call.
macro_rules! foreign_calls {
    ($($name:ident)*) => {
        extern "C" {
            $(fn $name(
                p: u8,
                first: *const u8,
                first_len: usize,
                second: *const u8,
                second_len: usize,
                out: *mut u8,
                out_len: usize,
            ) -> u32;)*
        }
    };
}

foreign_calls!(hand_check_sse2 hand_check_avx2);

/// The check in C with SSE2, which every x86-64 processor has.
pub fn check_sse2(
    p: u8,
    weights: &[u8],
    costs: &[u8],
    record: &mut [u8],
) -> Result<usize, Refusal> {
    // SAFETY: as said above.
    unsafe { call(hand_check_sse2, p, weights, costs, record) }
}

/// The check in C with AVX2, where the processor has it.
pub fn check_avx2() -> Option<Call> {
    is_x86_feature_detected!("avx2").then_some(|p, weights, costs, record| {
        // SAFETY: as said above, and the processor has AVX2.
        unsafe { call(hand_check_avx2, p, weights, costs, record) }
    })
}

/// An older library, where one is linked.
#[cfg(not(old_library))]
pub fn old_library() -> Option<OldLibrary> {
    None
}

#[cfg(old_library)]
pub use old::old_library;

/// # Safety
///
/// The function is one of this module's, and the processor has what it takes.
unsafe fn call(
    function: ForeignCall,
    p: u8,
    first: &[u8],
    second: &[u8],
    out: &mut [u8],
) -> Result<usize, Refusal> {
    let answer = function(
        p,
        first.as_ptr(),
        first.len(),
        second.as_ptr(),
        second.len(),
        out.as_mut_ptr(),
        out.len(),
    );
    match answer >> 16 {
        0 => Ok(answer as usize & 0xFFFF),
        number => Err(number as Refusal),
    }
}

/// The older library, its functions renamed: `include/petsivola.h` declares them without `old_`.
#[cfg(old_library)]
mod old {
    use super::*;

    foreign_calls!(old_petsivola_check old_petsivola_expand);

    extern "C" {
        fn old_petsivola_decode(
            code: *const u8,
            code_len: usize,
            frame: *const u8,
            frame_len: usize,
            symbols: *mut u8,
            symbols_len: usize,
            costs: *mut u16,
            costs_len: usize,
            store: *mut u8,
            store_len: usize,
            margins: *mut u16,
            margins_len: usize,
        ) -> u32;
    }

    /// The older library.
    pub fn old_library() -> Option<OldLibrary> {
        Some(OldLibrary {
            check: |p, weights, costs, record| {
                // SAFETY: as said above.
                unsafe { call(old_petsivola_check, p, weights, costs, record) }
            },
            expand: |p, weights, record, out| {
                // SAFETY: as said above.
                unsafe { call(old_petsivola_expand, p, weights, record, out) }
            },
            decode,
        })
    }

    fn decode(
        code: &[u8],
        frame: &[u8],
        symbols: &mut [u8],
        costs: &mut [u16],
        store: &mut [u8],
        margins: &mut [u16],
    ) -> Result<(u8, u8), Refusal> {
        // SAFETY: as said above; `costs` and `margins` are aligned as slices of 16-bit numbers are. A function
        // without margins does not read their two arguments: on x86-64 Linux they stand last on the stack, and
        // the caller takes them off.
        let answer = unsafe {
            old_petsivola_decode(
                code.as_ptr(),
                code.len(),
                frame.as_ptr(),
                frame.len(),
                symbols.as_mut_ptr(),
                symbols.len(),
                costs.as_mut_ptr(),
                costs.len(),
                store.as_mut_ptr(),
                store.len(),
                margins.as_mut_ptr(),
                margins.len(),
            )
        };
        match answer >> 16 {
            number @ (0 | 1) => Ok((number as u8, answer as u8)),
            number => Err(number as Refusal),
        }
    }
}
