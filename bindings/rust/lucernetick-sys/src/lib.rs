//! The functions of `lucernetick.h`, as they are. The header says what callers must ensure. The
//! crate `lucernetick` is the safe interface.

use std::os::raw::c_char;

/// An opaque engine.
#[repr(C)]
pub struct Engine {
    _private: [u8; 0],
}

/// A byte string.
#[repr(C)]
pub struct Bytes {
    pub at: *const u8,
    pub length: usize,
}

impl Default for Bytes {
    fn default() -> Self {
        Bytes { at: std::ptr::null(), length: 0 }
    }
}

#[repr(C)]
#[derive(Default)]
pub struct Attributes {
    pub size: u64,
    pub given: u32,
    pub uid: u32,
    pub gid: u32,
    pub permissions: u32,
    pub atime: u32,
    pub mtime: u32,
}

/// The record of a call.
#[repr(C)]
#[derive(Default)]
pub struct Call {
    pub number: u64,
    pub session: u64,
    pub moment: u32,
    pub kind: u32,
    pub path: Bytes,
    pub new_path: Bytes,
    pub handle: u64,
    pub offset: u64,
    pub length: u64,
    pub flags: u32,
    pub answer: u32,
    pub attributes: Attributes,
    pub written: Bytes,
    pub status: u32,
    pub names: u32,
    pub answer_handle: u64,
    pub answer_attributes: Attributes,
    pub answer_bytes: Bytes,
}

/// An opaque snapshot.
#[repr(C)]
pub struct Tree {
    _private: [u8; 0],
}

/// An entry of a snapshot.
#[repr(C)]
#[derive(Default)]
pub struct Leaf {
    pub path: Bytes,
    pub attributes: Attributes,
    pub label: u64,
}

/// A rule that injects errors.
#[repr(C)]
pub struct Rule {
    pub session: u64,
    pub pass: u64,
    pub refuse: u64,
    pub path: Bytes,
    pub kind: u32,
    pub status: u32,
}

/// The request at which a function that writes files stopped.
#[repr(C)]
pub struct Place {
    pub length: u64,
    pub kind: u32,
}

pub const LT_KIND_REALPATH: u32 = 16;
pub const LT_REFUSAL_IS_BLOCKED: i64 = -8;
pub const LT_REFUSAL_NO_REPLY: i64 = -11;
pub const LT_REFUSAL_STATUS_BASE: i64 = -100;

extern "C" {
    pub fn lt_version() -> *const c_char;
    pub fn lt_message(answer: i64) -> *const c_char;
    pub fn lt_new() -> *mut Engine;
    pub fn lt_new_keeping(keep: u64) -> *mut Engine;
    pub fn lt_free(engine: *mut Engine);
    pub fn lt_open(engine: *mut Engine) -> i64;
    pub fn lt_feed(engine: *mut Engine, session: u64, bytes: *const u8, length: usize) -> i64;
    pub fn lt_turn(engine: *mut Engine, session: u64, moment: u32) -> i64;
    pub fn lt_settle(
        engine: *mut Engine,
        session: u64,
        moment: u32,
        most: u64,
        moved: *mut bool,
    ) -> i64;
    pub fn lt_run_all(engine: *mut Engine) -> i64;
    pub fn lt_wants_bytes(engine: *const Engine, session: u64) -> i64;
    pub fn lt_close(engine: *mut Engine, session: u64) -> i64;
    pub fn lt_output(engine: *const Engine, session: u64, room: *mut u8, length: usize) -> i64;
    pub fn lt_sent(engine: *mut Engine, session: u64, count: usize) -> i64;
    pub fn lt_refuse(engine: *mut Engine, rule: *const Rule) -> i64;
    pub fn lt_refused(engine: *const Engine, number: u64) -> i64;
    pub fn lt_calls(engine: *mut Engine, at: u64, call: *mut Call) -> i64;
    pub fn lt_make_directory(
        engine: *mut Engine,
        path: Bytes,
        moment: u32,
        place: *mut Place,
    ) -> i64;
    pub fn lt_write_file(
        engine: *mut Engine,
        path: Bytes,
        contents: Bytes,
        moment: u32,
        place: *mut Place,
    ) -> i64;
    pub fn lt_link(
        engine: *mut Engine,
        path: Bytes,
        new_path: Bytes,
        moment: u32,
        place: *mut Place,
    ) -> i64;
    pub fn lt_tree_of(engine: *const Engine, tree: *mut *mut Tree) -> i64;
    pub fn lt_tree_leaf(tree: *mut Tree, at: u64, leaf: *mut Leaf) -> i64;
    pub fn lt_tree_leaves(
        tree: *const Tree,
        at: u64,
        leaves: *mut Leaf,
        most: usize,
        room: *mut u8,
        length: usize,
    ) -> i64;
    pub fn lt_tree_read(
        tree: *const Tree,
        at: u64,
        offset: u64,
        room: *mut u8,
        length: usize,
    ) -> i64;
    pub fn lt_tree_gap(tree: *const Tree, at: u64, offset: u64) -> i64;
    pub fn lt_tree_free(tree: *mut Tree);
}
