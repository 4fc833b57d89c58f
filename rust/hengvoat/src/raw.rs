//! The archive's functions and structs, as `include/hengvoat.h` has them, behind functions that are safe to call. All `unsafe` of the crate
//! is in this file.
//!
//! What the header asks of a caller, Rust's references give: none is null, what a `&mut` lends overlaps nothing else that is lent, and no
//! thread writes what a `&` lends. The fields of a session are private to the crate, so that it is made by `hengvoat_new` and changed by
//! the calls alone, which is all that the engine's theorems require. What stays to be trusted is that the declarations below are those of
//! the archive; `c/layout.c` holds it to them, and so do the tests.

use std::mem::{align_of, offset_of, size_of};

pub const PERMITTED: usize = 256;
pub const NODES: usize = 256;
pub const EDGES: usize = 512;
pub const COPIES: usize = 8;
pub const PATTERN_NODES: usize = 6;

/// Bit n of `declared` stands for number n, and is set in `second` too where its kind is 1.
#[repr(C)]
#[derive(Clone, Copy)]
pub struct Declarations {
    pub declared: u64,
    pub second: u64,
}

#[repr(C)]
#[derive(Clone, Copy)]
pub struct Scheme {
    pub classes: Declarations,
    pub names: Declarations,
    pub permitted: [u64; PERMITTED],
    pub permissions: usize,
}

#[repr(C)]
#[derive(Clone, Copy)]
pub struct Instance {
    pub nodes: [u64; NODES],
    pub order: usize,
    pub edges: [u64; EDGES],
    pub size: usize,
}

#[repr(C)]
#[derive(Clone, Copy)]
pub struct History {
    pub copies: [Instance; COPIES],
    pub depth: usize,
}

#[repr(C)]
#[derive(Clone, Copy)]
pub struct Session {
    pub opened: bool,
    pub scheme: Scheme,
    pub instance: Instance,
    pub history: History,
}

#[repr(C)]
pub struct StepResult {
    pub refusal: u64,
    pub returned: u64,
}

#[repr(C)]
pub struct OpenResult {
    pub refusal: u64,
    pub returned: u64,
    pub classes: u64,
    pub names: u64,
}

#[repr(C)]
pub struct ApplyResult {
    pub refusal: u64,
    pub returned: u64,
    pub matchings: u64,
    pub nodes_added: u64,
    pub edges_added: u64,
    pub nodes_removed: u64,
    pub edges_removed: u64,
}

#[repr(C)]
pub struct MatchingResult {
    pub refusal: u64,
    pub returned: u64,
    pub found: u64,
    pub length: u64,
    pub numbers: [u64; PATTERN_NODES],
}

#[repr(C)]
pub struct SaveResult {
    pub refusal: u64,
    pub returned: u64,
    pub length: u64,
}

// HENGVOAT_SESSION_SIZE and HENGVOAT_SESSION_ALIGN, and the sizes that the header asserts of the results.
const _: () = assert!(size_of::<Session>() == 57_544 && align_of::<Session>() == 8);
const _: () = assert!(offset_of!(Session, scheme) == 8 && offset_of!(Session, instance) == 2_096 && offset_of!(Session, history) == 8_256);
const _: () = assert!(size_of::<StepResult>() == 16 && size_of::<OpenResult>() == 32 && size_of::<ApplyResult>() == 56);
const _: () = assert!(size_of::<MatchingResult>() == 80 && size_of::<SaveResult>() == 24);

extern "C" {
    fn hengvoat_new() -> Session;
    fn hengvoat_open(session: *mut Session, file: *const u8, length: usize) -> OpenResult;
    fn hengvoat_apply(session: *mut Session, rule: *const u8, length: usize) -> ApplyResult;
    fn hengvoat_undo(session: *mut Session) -> StepResult;
    fn hengvoat_close(session: *mut Session) -> StepResult;
    fn hengvoat_first(session: *const Session, rule: *const u8, length: usize) -> MatchingResult;
    fn hengvoat_after(session: *const Session, rule: *const u8, length: usize, list: *const u64, list_length: usize) -> MatchingResult;
    fn hengvoat_save(session: *const Session, buffer: *mut u8, length: usize) -> SaveResult;
}

pub fn new() -> Box<Session> {
    // SAFETY: it asks for nothing, and gives a whole session.
    Box::new(unsafe { hengvoat_new() })
}

pub fn open(session: &mut Session, file: &[u8]) -> OpenResult {
    // SAFETY: a session of `new` and the calls, borrowed alone; a slice beside it that is only read.
    unsafe { hengvoat_open(session, file.as_ptr(), file.len()) }
}

pub fn apply(session: &mut Session, rule: &[u8]) -> ApplyResult {
    // SAFETY: as for `open`.
    unsafe { hengvoat_apply(session, rule.as_ptr(), rule.len()) }
}

pub fn undo(session: &mut Session) -> StepResult {
    // SAFETY: as for `open`.
    unsafe { hengvoat_undo(session) }
}

pub fn close(session: &mut Session) -> StepResult {
    // SAFETY: as for `open`.
    unsafe { hengvoat_close(session) }
}

pub fn first(session: &Session, rule: &[u8]) -> MatchingResult {
    // SAFETY: a session of `new` and the calls, and a slice; both are only read.
    unsafe { hengvoat_first(session, rule.as_ptr(), rule.len()) }
}

pub fn after(session: &Session, rule: &[u8], list: &[u64]) -> MatchingResult {
    // SAFETY: as for `first`.
    unsafe { hengvoat_after(session, rule.as_ptr(), rule.len(), list.as_ptr(), list.len()) }
}

pub fn save(session: &Session, buffer: &mut [u8]) -> SaveResult {
    // SAFETY: a session of `new` and the calls, only read; a slice that is borrowed alone, of bytes, any of which may be written.
    unsafe { hengvoat_save(session, buffer.as_mut_ptr(), buffer.len()) }
}
