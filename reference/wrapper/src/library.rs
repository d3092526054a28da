//! The functions of `libpetsivola.a`, as `include/petsivola.h` declares them, and this package's only
//! unsafe code. Each takes a slice as a pointer and a length.
//!
//! What holds for every call below, and makes it safe for every argument:
//!
//! - A pointer and the length after it come from one slice, which stays borrowed until the call
//!   returns. A slice that the library may write is borrowed for this call alone.
//! - The library's functions have no requirement beyond that. They are proved to end and to stay
//!   inside the lent slices on every input, and they keep no pointer, call nothing of Rust's and do
//!   not unwind.

#![allow(unsafe_code)]

mod declared;

use crate::channels::Answer;
use crate::code_line::Summary;
use crate::lent::Lent;
pub(crate) use declared::Registers;
use declared::*;

pub(crate) fn product(p: u8, a: u8, b: u8) -> u32 {
    // SAFETY: the function takes three numbers, any of which it answers, and no memory.
    unsafe { petsivola_product(p, a, b) }
}

pub(crate) fn check(first: u8, weights: &[u8], costs: &[u8], record: &mut [u8]) -> u32 {
    // SAFETY: each pointer and length come from one borrowed slice; `record`, the only one written,
    // overlaps no other.
    unsafe {
        petsivola_check(
            first,
            weights.as_ptr(),
            weights.len(),
            costs.as_ptr(),
            costs.len(),
            record.as_mut_ptr(),
            record.len(),
        )
    }
}

pub(crate) fn sweep(first: u8, weights: &[u8], costs: &[u8], record: &mut [u8]) -> u32 {
    // SAFETY: each pointer and length come from one borrowed slice; `record`, the only one written,
    // overlaps no other.
    unsafe {
        petsivola_sweep(
            first,
            weights.as_ptr(),
            weights.len(),
            costs.as_ptr(),
            costs.len(),
            record.as_mut_ptr(),
            record.len(),
        )
    }
}

pub(crate) fn expand(first: u8, weights: &[u8], record: &[u8], out: &mut [u8]) -> u32 {
    // SAFETY: each pointer and length come from one borrowed slice; `out`, the only one written,
    // overlaps no other.
    unsafe {
        petsivola_expand(
            first,
            weights.as_ptr(),
            weights.len(),
            record.as_ptr(),
            record.len(),
            out.as_mut_ptr(),
            out.len(),
        )
    }
}

pub(crate) fn display(first: u8, weights: &[u8], record: &[u8], out: &mut [u8]) -> u32 {
    // SAFETY: each pointer and length come from one borrowed slice; `out`, the only one written,
    // overlaps no other.
    unsafe {
        petsivola_display(
            first,
            weights.as_ptr(),
            weights.len(),
            record.as_ptr(),
            record.len(),
            out.as_mut_ptr(),
            out.len(),
        )
    }
}

pub(crate) fn line(text: &[u8], out: &mut [u8]) -> u32 {
    // SAFETY: each pointer and length come from one borrowed slice; `out`, the only one written,
    // does not overlap `text`.
    unsafe { petsivola_line(text.as_ptr(), text.len(), out.as_mut_ptr(), out.len()) }
}

pub(crate) fn code_line(code: &[u8]) -> Summary {
    // SAFETY: pointer and length come from one borrowed slice, which is not written; the function answers with a struct
    // of numbers, any of which they may be.
    unsafe { petsivola_code_line(code.as_ptr(), code.len()) }
}

pub(crate) fn decode(
    code: &[u8],
    frame: &[u8],
    symbols: &mut [u8],
    costs: &mut [u16],
    store: &mut [u8],
    margins: &mut [u16],
) -> u32 {
    // SAFETY: each pointer and length come from one borrowed slice; `symbols`, `costs`, `store` and
    // `margins`, which are written, overlap no other, and `costs` and `margins` are aligned as slices of
    // 16-bit numbers are.
    unsafe {
        petsivola_decode(
            code.as_ptr(),
            code.len(),
            frame.as_ptr(),
            frame.len(),
            symbols.as_mut_ptr(),
            symbols.len(),
            costs.as_mut_ptr(),
            costs.len(),
            store.as_mut_ptr(),
            store.len(),
            margins.as_mut_ptr(),
            margins.len(),
        )
    }
}

pub(crate) fn decode_early(
    code: &[u8],
    frame: &[u8],
    symbols: &mut [u8],
    costs: &mut [u16],
    store: &mut [u8],
    margins: &mut [u16],
) -> u32 {
    // SAFETY: as for `decode`.
    unsafe {
        petsivola_decode_early(
            code.as_ptr(),
            code.len(),
            frame.as_ptr(),
            frame.len(),
            symbols.as_mut_ptr(),
            symbols.len(),
            costs.as_mut_ptr(),
            costs.len(),
            store.as_mut_ptr(),
            store.len(),
            margins.as_mut_ptr(),
            margins.len(),
        )
    }
}

pub(crate) fn encode(code: &[u8], message: &[u8], symbols: &mut [u8]) -> u32 {
    // SAFETY: each pointer and length come from one borrowed slice; `symbols`, the only one written,
    // overlaps no other.
    unsafe {
        petsivola_encode(
            code.as_ptr(),
            code.len(),
            message.as_ptr(),
            message.len(),
            symbols.as_mut_ptr(),
            symbols.len(),
        )
    }
}

pub(crate) fn combine(code: &[u8], first: &[u8], second: &[u8], out: &mut [u8]) -> u32 {
    // SAFETY: each pointer and length come from one borrowed slice; `out`, the only one written, overlaps no other.
    unsafe {
        petsivola_combine(
            code.as_ptr(),
            code.len(),
            first.as_ptr(),
            first.len(),
            second.as_ptr(),
            second.len(),
            out.as_mut_ptr(),
            out.len(),
        )
    }
}

pub(crate) fn window_write(window: Registers, address: u8, value: u8, lent: Lent) -> Registers {
    // SAFETY: as for `decode`; the registers are five bytes, any of which the function answers, and it answers
    // with five bytes.
    unsafe {
        petsivola_window_write(
            window,
            address,
            value,
            lent.code.as_ptr(),
            lent.code.len(),
            lent.frame.as_ptr(),
            lent.frame.len(),
            lent.symbols.as_mut_ptr(),
            lent.symbols.len(),
            lent.costs.as_mut_ptr(),
            lent.costs.len(),
            lent.store.as_mut_ptr(),
            lent.store.len(),
            lent.margins.as_mut_ptr(),
            lent.margins.len(),
        )
    }
}

pub(crate) fn channels(count: u8, allowance: u32, lent: Lent) -> Answer {
    // SAFETY: as for `decode`; the function answers every count and every allowance, and it answers with a struct of
    // numbers, any of which they may be.
    unsafe {
        petsivola_channels(
            count,
            allowance,
            lent.code.as_ptr(),
            lent.code.len(),
            lent.frame.as_ptr(),
            lent.frame.len(),
            lent.symbols.as_mut_ptr(),
            lent.symbols.len(),
            lent.costs.as_mut_ptr(),
            lent.costs.len(),
            lent.store.as_mut_ptr(),
            lent.store.len(),
            lent.margins.as_mut_ptr(),
            lent.margins.len(),
        )
    }
}

pub(crate) fn window_read(window: Registers, address: u8) -> u8 {
    // SAFETY: the function takes six bytes, any of which it answers, and no memory.
    unsafe { petsivola_window_read(window, address) }
}

pub(crate) fn window_interrupt(window: Registers) -> u8 {
    // SAFETY: the function takes five bytes, any of which it answers, and no memory.
    unsafe { petsivola_window_interrupt(window) }
}
