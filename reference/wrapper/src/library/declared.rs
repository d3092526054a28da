//! What `include/petsivola.h` declares.

use crate::channels::Answer;
use crate::code_line::Summary;

/// `struct petsivola_window`: the registers of a window from byte 1 on.
#[derive(Clone, Copy, Debug, Default, PartialEq, Eq, Hash)]
#[repr(C)]
pub(crate) struct Registers {
    pub(crate) state: u8,
    pub(crate) refusal: u8,
    pub(crate) iterations: u8,
    pub(crate) mask: u8,
    pub(crate) pending: u8,
}

extern "C" {
    pub(super) fn petsivola_product(p: u8, a: u8, b: u8) -> u32;

    pub(super) fn petsivola_check(
        first: u8,
        weights: *const u8,
        weights_len: usize,
        costs: *const u8,
        costs_len: usize,
        record: *mut u8,
        record_len: usize,
    ) -> u32;

    pub(super) fn petsivola_sweep(
        first: u8,
        weights: *const u8,
        weights_len: usize,
        costs: *const u8,
        costs_len: usize,
        record: *mut u8,
        record_len: usize,
    ) -> u32;

    pub(super) fn petsivola_expand(
        first: u8,
        weights: *const u8,
        weights_len: usize,
        record: *const u8,
        record_len: usize,
        out: *mut u8,
        out_len: usize,
    ) -> u32;

    pub(super) fn petsivola_display(
        first: u8,
        weights: *const u8,
        weights_len: usize,
        record: *const u8,
        record_len: usize,
        out: *mut u8,
        out_len: usize,
    ) -> u32;

    pub(super) fn petsivola_line(
        text: *const u8,
        text_len: usize,
        out: *mut u8,
        out_len: usize,
    ) -> u32;

    pub(super) fn petsivola_code_line(code: *const u8, code_len: usize) -> Summary;

    pub(super) fn petsivola_decode(
        code: *const u8,
        code_len: usize,
        frame: *const u8,
        frame_len: usize,
        symbols: *mut u8,
        symbols_len: usize,
        costs: *mut u16,
        costs_len: usize,
        store: *mut u8,
        store_len: usize,
        margins: *mut u16,
        margins_len: usize,
    ) -> u32;

    pub(super) fn petsivola_decode_early(
        code: *const u8,
        code_len: usize,
        frame: *const u8,
        frame_len: usize,
        symbols: *mut u8,
        symbols_len: usize,
        costs: *mut u16,
        costs_len: usize,
        store: *mut u8,
        store_len: usize,
        margins: *mut u16,
        margins_len: usize,
    ) -> u32;

    pub(super) fn petsivola_encode(
        code: *const u8,
        code_len: usize,
        message: *const u8,
        message_len: usize,
        symbols: *mut u8,
        symbols_len: usize,
    ) -> u32;

    pub(super) fn petsivola_combine(
        code: *const u8,
        code_len: usize,
        first: *const u8,
        first_len: usize,
        second: *const u8,
        second_len: usize,
        out: *mut u8,
        out_len: usize,
    ) -> u32;

    pub(super) fn petsivola_window_write(
        window: Registers,
        address: u8,
        value: u8,
        code: *const u8,
        code_len: usize,
        frame: *const u8,
        frame_len: usize,
        symbols: *mut u8,
        symbols_len: usize,
        costs: *mut u16,
        costs_len: usize,
        store: *mut u8,
        store_len: usize,
        margins: *mut u16,
        margins_len: usize,
    ) -> Registers;

    pub(super) fn petsivola_channels(
        count: u8,
        allowance: u32,
        code: *const u8,
        code_len: usize,
        frames: *const u8,
        frames_len: usize,
        symbols: *mut u8,
        symbols_len: usize,
        costs: *mut u16,
        costs_len: usize,
        store: *mut u8,
        store_len: usize,
        margins: *mut u16,
        margins_len: usize,
    ) -> Answer;

    pub(super) fn petsivola_window_read(window: Registers, address: u8) -> u8;

    pub(super) fn petsivola_window_interrupt(window: Registers) -> u8;
}
