//! The library's exports, as kijolvar.h declares them, and the numbers of their answers.
use crate::wire::WireSettings;
use std::ffi::{c_char, c_int, c_void};

/// What a till is from the call that wrote it to the next one.
#[repr(C)]
#[derive(Clone, Copy)]
pub(crate) struct Raw(pub(crate) *mut c_void);

// SAFETY: the library keeps nothing of a thread: a till may be used from any, one call at a time.
unsafe impl Send for Raw {}

extern "C" {
    pub(crate) fn kijolvar_version() -> u32;
    pub(crate) fn kijolvar_open(profile: *const u8, profile_len: usize, out: *mut *mut c_void) -> u32;
    pub(crate) fn kijolvar_open_file(
        profile: *const u8,
        profile_len: usize,
        bytes: *const u8,
        bytes_len: usize,
        out: *mut *mut c_void,
    ) -> u32;
    pub(crate) fn kijolvar_format_file(
        profile: *const u8,
        profile_len: usize,
        bytes: *const u8,
        bytes_len: usize,
        out: *mut *mut c_void,
    ) -> u32;
    pub(crate) fn kijolvar_migrate_file(
        profile: *const u8,
        profile_len: usize,
        bytes: *const u8,
        bytes_len: usize,
        out: *mut *mut c_void,
    ) -> u32;
    pub(crate) fn kijolvar_profile_mistake(
        profile: *const u8,
        profile_len: usize,
        at: *mut u64,
        text: *mut u8,
        text_len: usize,
        needed: *mut usize,
    ) -> u32;
    pub(crate) fn kijolvar_devices(
        profile: *const u8,
        profile_len: usize,
        text: *mut u8,
        text_len: usize,
        needed: *mut usize,
    ) -> u32;
    pub(crate) fn kijolvar_survey(
        bytes: *const u8,
        bytes_len: usize,
        at: *mut u64,
        text: *mut u8,
        text_len: usize,
        needed: *mut usize,
    ) -> u32;
    pub(crate) fn kijolvar_next_errand(
        till: Raw,
        out: *mut *mut c_void,
        at: *mut u64,
        bytes: *mut u8,
        bytes_len: usize,
        needed: *mut usize,
    ) -> u32;
    pub(crate) fn kijolvar_errand_failed(till: Raw, out: *mut *mut c_void);
    pub(crate) fn kijolvar_carry_out(
        till: Raw,
        out: *mut *mut c_void,
        lines: *const u8,
        lines_len: usize,
        text: *mut u8,
        text_len: usize,
        needed: *mut usize,
    ) -> u32;
    pub(crate) fn kijolvar_answer(
        till: Raw,
        out: *mut *mut c_void,
        text: *mut u8,
        text_len: usize,
        needed: *mut usize,
    ) -> u32;
    pub(crate) fn kijolvar_host(till: Raw, out: *mut *mut c_void, name: *const u8, name_len: usize) -> u32;
    pub(crate) fn kijolvar_drive(till: Raw, out: *mut *mut c_void, name: *const u8, name_len: usize) -> u32;
    pub(crate) fn kijolvar_tear_off(till: Raw, out: *mut *mut c_void, name: *const u8, name_len: usize) -> u32;
    pub(crate) fn kijolvar_order_done(
        till: Raw,
        out: *mut *mut c_void,
        outcome: u32,
        inputs: *const u8,
        inputs_len: usize,
        text: *mut u8,
        text_len: usize,
        needed: *mut usize,
    ) -> u32;
    pub(crate) fn kijolvar_next_order(
        till: Raw,
        out: *mut *mut c_void,
        text: *mut u8,
        text_len: usize,
        needed: *mut usize,
    ) -> u32;
    pub(crate) fn kijolvar_order_bytes(
        till: Raw,
        out: *mut *mut c_void,
        settings: *const WireSettings,
        is_new: u32,
        end: u32,
        bytes: *mut u8,
        bytes_len: usize,
        needed: *mut usize,
    ) -> u32;
    pub(crate) fn kijolvar_replies(
        till: Raw,
        out: *mut *mut c_void,
        name: *const u8,
        name_len: usize,
        settings: *const WireSettings,
        asked: u32,
        bytes: *const u8,
        bytes_len: usize,
        used: *mut usize,
        skipped: *mut usize,
        text: *mut u8,
        text_len: usize,
        needed: *mut usize,
    ) -> u32;
    pub(crate) fn kijolvar_control(
        till: Raw,
        out: *mut *mut c_void,
        name: *const u8,
        name_len: usize,
        control: *mut usize,
    ) -> u32;
    pub(crate) fn kijolvar_next_event(till: Raw, out: *mut *mut c_void, from: usize, control: *mut usize) -> u32;
    pub(crate) fn kijolvar_close(till: Raw);
    pub(crate) fn linkat(from: c_int, old: *const c_char, to: c_int, new: *const c_char, flags: c_int) -> c_int;
}

/// Linux's numbers for `open` and `linkat`, on x86-64.
pub(crate) const O_TMPFILE: c_int = 0o20200000;
pub(crate) const AT_FDCWD: c_int = -100;
pub(crate) const AT_SYMLINK_FOLLOW: c_int = 0x400;
