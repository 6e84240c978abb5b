//! The calls of `egw.h`, as C has them.

use std::ffi::c_void;

/// A document or a peer, as C keeps it: null where it is ended.
#[repr(C)]
pub struct Handle {
    pub at: *mut c_void,
}

impl Handle {
    pub const NULL: Handle = Handle { at: std::ptr::null_mut() };
}

#[repr(C)]
pub struct Answer {
    pub number: u64,
    pub status: u32,
}

#[repr(C)]
#[derive(Clone, Copy)]
pub struct Change {
    pub kind: u32,
    pub at: u32,
    pub ch: u32,
}

extern "C" {
    pub fn egw_new(document: *mut Handle) -> Answer;
    pub fn egw_open(document: *mut Handle, file: *const u8, len: usize) -> Answer;
    pub fn egw_free(document: *mut Handle);
    pub fn egw_length(document: *mut Handle) -> u32;
    pub fn egw_count(document: *mut Handle) -> u32;
    pub fn egw_insert(document: *mut Handle, agent: *const u8, agent_len: usize, at: u32, text: *const u8, text_len: usize) -> Answer;
    pub fn egw_delete(document: *mut Handle, agent: *const u8, agent_len: usize, at: u32, count: u32) -> Answer;
    pub fn egw_mark(document: *mut Handle, agent: *const u8, agent_len: usize, label: *const u8, label_len: usize) -> Answer;
    pub fn egw_undo(document: *mut Handle, agent: *const u8, agent_len: usize, of: *const u8, of_len: usize, count: u32) -> Answer;
    pub fn egw_text(document: *mut Handle) -> Answer;
    pub fn egw_range(document: *mut Handle, from: u32, count: u32) -> Answer;
    pub fn egw_to_utf16(document: *mut Handle, at: u32) -> Answer;
    pub fn egw_from_utf16(document: *mut Handle, units: u64) -> Answer;
    pub fn egw_to_bytes(document: *mut Handle, at: u32) -> Answer;
    pub fn egw_from_bytes(document: *mut Handle, bytes: u64) -> Answer;
    pub fn egw_text_at(document: *mut Handle, version: *const u8, len: usize) -> Answer;
    pub fn egw_heads(document: *mut Handle) -> Answer;
    pub fn egw_save(document: *mut Handle) -> Answer;
    pub fn egw_ask(document: *mut Handle) -> Answer;
    pub fn egw_events(document: *mut Handle, from: u32) -> Answer;
    pub fn egw_marks(document: *mut Handle) -> Answer;
    pub fn egw_caret(document: *mut Handle, at: u32) -> Answer;
    pub fn egw_caret_index(document: *mut Handle, caret: *const u8, len: usize) -> Answer;
    pub fn egw_blame(document: *mut Handle, version: *const u8, len: usize, columns: u32) -> Answer;
    pub fn egw_receive(document: *mut Handle, peer: *mut Handle, bytes: *const u8, len: usize) -> Answer;
    pub fn egw_changes(document: *mut Handle, from: u32) -> Answer;
    pub fn egw_copy(document: *mut Handle, out: *mut u8, room: usize) -> usize;
    pub fn egw_copy_changes(document: *mut Handle, out: *mut Change, room: usize) -> usize;
    pub fn egw_peer_new(peer: *mut Handle) -> Answer;
    pub fn egw_peer_free(peer: *mut Handle);
}
