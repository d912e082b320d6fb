//! The calls of examples/c/conway.h. `tests/run/header` compares both.
use std::os::raw::c_void;

/// A handle: a pointer to a ledger, or null where it is closed.
#[repr(C)]
pub struct Conway {
    pub ledger: *mut c_void,
}

/// What a call answers.
#[repr(C)]
pub struct Answer {
    pub status: u32,
    pub written: usize,
    pub wanted: usize,
}

pub const DONE: u32 = 0;
pub const BAD_GENESIS: u32 = 3;
pub const NO_MEMORY: u32 = 6;
pub const BAD_CHECKPOINT: u32 = 8;
pub const IS_CLOSED: u32 = 20;
pub const IS_FULL: u32 = 21;
pub const IS_BLANK: u32 = 22;

extern "C" {
    pub fn conway_open(
        genesis: *const u8,
        length: usize,
        number: u64,
        seed_first: u64,
        seed_second: u64,
        ledger: *mut Conway,
    ) -> Answer;
    pub fn conway_resume(
        text: *const u8,
        length: usize,
        seed_first: u64,
        seed_second: u64,
        ledger: *mut Conway,
    ) -> Answer;
    pub fn conway_record(
        ledger: *mut Conway,
        line: *const u8,
        length: usize,
        room: *mut u8,
        size: usize,
    ) -> Answer;
    pub fn conway_judge(
        ledger: *mut Conway,
        line: *const u8,
        length: usize,
        room: *mut u8,
        size: usize,
    ) -> Answer;
    pub fn conway_explain(
        ledger: *mut Conway,
        line: *const u8,
        length: usize,
        room: *mut u8,
        size: usize,
    ) -> Answer;
    pub fn conway_checkpoint(ledger: *mut Conway, room: *mut u8, size: usize) -> Answer;
    pub fn conway_outlook(ledger: *mut Conway, room: *mut u8, size: usize) -> Answer;
    pub fn conway_text(ledger: *mut Conway, room: *mut u8, size: usize) -> Answer;
    pub fn conway_close(ledger: *mut Conway);
}
