//! What keyset.h declares.

use std::ffi::c_void;
use std::ptr;

/// What C keeps of a session.
#[repr(C)]
#[derive(Debug)]
pub(crate) struct Handle {
    place: *mut c_void,
    is_open: bool,
}

impl Handle {
    pub(crate) const CLOSED: Handle = Handle {
        place: ptr::null_mut(),
        is_open: false,
    };
}

// SAFETY: what a session shares with its copies is only read, and its owners are counted
// atomically, so a thread may take it over.
unsafe impl Send for Handle {}
// SAFETY: who has a shared reference only asks, and a question writes nothing into the session.
unsafe impl Sync for Handle {}

#[repr(C)]
pub(crate) struct Answered {
    pub(crate) status: u32,
    pub(crate) length: usize,
    pub(crate) line: usize,
}

pub(crate) const ANSWERED: u32 = 0;
pub(crate) const MALFORMED: u32 = 1;
pub(crate) const SHORT: u32 = 4;
pub(crate) const CLOSED: u32 = 5;
pub(crate) const NO_SUCH_CALL: u32 = 7;
pub(crate) const SEEN_EARLY: u32 = 8;
pub(crate) const MOMENT_FALLS: u32 = 9;
pub(crate) const REFUSED: u32 = 10;
pub(crate) const PUBLISHED_EARLY: u32 = 11;
pub(crate) const LOST: u32 = 12;
pub(crate) const NOT_SAID: u32 = 13;
pub(crate) const NO_NOTES: u32 = 14;

extern "C" {
    pub(crate) fn keyset_answer(
        script: *const u8,
        len: usize,
        out: *mut u8,
        room: usize,
    ) -> Answered;
    pub(crate) fn keyset_version() -> u32;
    pub(crate) fn keyset_open(line: *const u8, len: usize, session: *mut Handle) -> u32;
    pub(crate) fn keyset_call(
        session: *mut Handle,
        line: *const u8,
        len: usize,
        out: *mut u8,
        room: usize,
    ) -> Answered;
    pub(crate) fn keyset_told(session: *const Handle, out: *mut u8, room: usize) -> Answered;
    pub(crate) fn keyset_closing(session: *const Handle, out: *mut u8, room: usize) -> Answered;
    pub(crate) fn keyset_status(session: *const Handle, out: *mut u8, room: usize) -> Answered;
    pub(crate) fn keyset_note(session: *mut Handle, line: *const u8, len: usize) -> u32;
    pub(crate) fn keyset_forgo_notes(session: *mut Handle) -> u32;
    pub(crate) fn keyset_due(
        session: *const Handle,
        seconds: u64,
        out: *mut u8,
        room: usize,
    ) -> Answered;
    pub(crate) fn keyset_next(
        policy: *const u8,
        policy_len: usize,
        script: *const u8,
        script_len: usize,
        notes: *const u8,
        notes_len: usize,
        seconds: u64,
        out: *mut u8,
        room: usize,
    ) -> Answered;
    pub(crate) fn keyset_copy(session: *const Handle, copy: *mut Handle) -> u32;
    pub(crate) fn keyset_accept(session: *mut Handle, line: *const u8, len: usize) -> u32;
    pub(crate) fn keyset_calls(session: *const Handle) -> usize;
    pub(crate) fn keyset_close(session: *mut Handle);
}
