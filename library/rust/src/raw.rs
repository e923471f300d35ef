//! `timestore.h`, `timestore_file.h` and `timestore_shared.h`.
use std::ffi::{c_char, c_int, c_void};

/// Codes that are no refusals of a caller; `error.rs` has those.
pub const NONE: i32 = 1;
pub const READ_ONLY: i32 = 3;
pub const SMALL: i32 = -4;
pub const NEEDS_ARCHIVE: i32 = -26;

/// The bytes of the longest value.
pub const VALUE_MOST: usize = 4097;

#[repr(C)]
pub struct Handle {
    at: *mut c_void,
    full: bool,
}

#[repr(C)]
pub struct File {
    _private: [u8; 0],
}

#[repr(C)]
pub struct Shared {
    _private: [u8; 0],
}

#[repr(C)]
pub struct Cursor {
    _private: [u8; 0],
}

#[repr(C)]
pub struct Policy {
    pub every: u64,
    pub keep: u64,
    pub grows: bool,
}

#[repr(C)]
#[derive(Clone, Copy, Default)]
pub struct Info {
    pub a: u64,
    pub b: u64,
}

#[repr(C)]
#[derive(Clone, Copy, Debug)]
pub struct Row {
    pub record: u64,
    pub from: u64,
    pub upto: u64,
    pub at: u64,
    pub len: u64,
}

#[repr(C)]
pub struct Cause {
    pub call: *const c_char,
    pub file: *const c_char,
    pub number: c_int,
}

impl Cause {
    pub fn none() -> Cause {
        Cause {
            call: std::ptr::null(),
            file: std::ptr::null(),
            number: 0,
        }
    }
}

/// Calls that copy out a value.
macro_rules! give_a_value {
    ($of:ty; $($name:ident($($word:ident: $kind:ty),*);)*) => {
        unsafe extern "C" {
            $(pub fn $name(
                h: *mut $of, $($word: $kind,)* out: *mut u8, len: usize, info: &mut Info,
            ) -> i32;)*
        }
    };
}

/// Calls that make a cursor over a range of records.
macro_rules! make_cursors {
    ($of:ty; $($name:ident($($word:ident: $kind:ty),*);)*) => {
        unsafe extern "C" {
            $(pub fn $name(
                h: *mut $of, number: u64, relation: u16, first: u64, last: u64, $($word: $kind,)*
                cursor: &mut *mut Cursor, info: &mut Info,
            ) -> i32;)*
        }
    };
}

give_a_value! { Handle;
    ts_get(txn: u64, relation: u16, record: u64);
    ts_recent(view: u64, relation: u16, record: u64, time: u64);
    ts_at(view: u64, relation: u16, record: u64, time: u64, archive: *const u8, size: usize);
}

make_cursors! { Handle;
    ts_cursor_of();
    ts_cursor_at(time: u64, archive: *const u8, size: usize);
    ts_cursor_between(from: u64, upto: u64, archive: *const u8, size: usize);
}

give_a_value! { Shared;
    ts_shared_get(relation: u16, record: u64);
    ts_shared_txn_get(txn: u64, relation: u16, record: u64);
    ts_shared_at(view: u64, relation: u16, record: u64, time: u64);
}

make_cursors! { Shared;
    ts_shared_cursor_of();
    ts_shared_cursor_at(time: u64);
    ts_shared_cursor_between(from: u64, upto: u64);
}

unsafe extern "C" {
    pub fn ts_cursor_next(
        cursor: *mut Cursor,
        most: usize,
        rows: &mut *const Row,
        count: &mut usize,
        values: &mut *const u8,
    ) -> i32;
    pub fn ts_cursor_free(cursor: *mut Cursor);
}

unsafe extern "C" {
    pub fn ts_shared_open(folder: *const c_char, store: &mut *mut Shared, info: &mut Info) -> i32;
    pub fn ts_shared_close(s: *mut Shared) -> i32;
    pub fn ts_shared_free(s: *mut Shared);
    pub fn ts_shared_error(s: *mut Shared, cause: &mut Cause) -> i32;
    pub fn ts_shared_last(s: *mut Shared, info: &mut Info) -> i32;
    pub fn ts_shared_put(
        s: *mut Shared,
        relation: u16,
        record: u64,
        value: *const u8,
        len: usize,
        label: u64,
        now: u64,
        info: &mut Info,
    ) -> i32;
    pub fn ts_shared_delete(
        s: *mut Shared,
        relation: u16,
        record: u64,
        label: u64,
        now: u64,
        info: &mut Info,
    ) -> i32;
    pub fn ts_shared_begin(s: *mut Shared, info: &mut Info) -> i32;
    pub fn ts_shared_txn_put(
        s: *mut Shared,
        txn: u64,
        relation: u16,
        record: u64,
        value: *const u8,
        len: usize,
    ) -> i32;
    pub fn ts_shared_txn_delete(s: *mut Shared, txn: u64, relation: u16, record: u64) -> i32;
    pub fn ts_shared_commit(s: *mut Shared, txn: u64, label: u64, now: u64, info: &mut Info)
    -> i32;
    pub fn ts_shared_resume(s: *mut Shared, ticket: u64, info: &mut Info) -> i32;
    pub fn ts_shared_give_up(s: *mut Shared, ticket: u64) -> i32;
    pub fn ts_shared_abort(s: *mut Shared, txn: u64) -> i32;
    pub fn ts_shared_view(s: *mut Shared, info: &mut Info) -> i32;
    pub fn ts_shared_end(s: *mut Shared, view: u64) -> i32;
    pub fn ts_shared_times_of(
        s: *mut Shared,
        label: u64,
        times: *mut u64,
        count: usize,
        info: &mut Info,
    ) -> i32;
    pub fn ts_shared_archive(s: *mut Shared, upto: u64, info: &mut Info) -> i32;
    pub fn ts_shared_reclaim(s: *mut Shared, info: &mut Info) -> i32;
    pub fn ts_shared_floor(s: *mut Shared, time: u64, info: &mut Info) -> i32;
    pub fn ts_shared_floor_of(s: *mut Shared, relation: u16, time: u64, info: &mut Info) -> i32;
    pub fn ts_shared_grow(s: *mut Shared, info: &mut Info) -> i32;
    pub fn ts_shared_job(s: *mut Shared) -> i32;
    pub fn ts_shared_vacuum(s: *mut Shared, policy: &Policy) -> i32;
    pub fn ts_shared_vacuumed(s: *mut Shared, info: &mut Info) -> i32;
}

unsafe extern "C" {
    pub fn ts_last(h: *mut Handle, info: &mut Info) -> i32;
    pub fn ts_begin(h: *mut Handle, info: &mut Info) -> i32;
    pub fn ts_put(
        h: *mut Handle,
        txn: u64,
        relation: u16,
        record: u64,
        value: *const u8,
        len: usize,
    ) -> i32;
    pub fn ts_delete(h: *mut Handle, txn: u64, relation: u16, record: u64) -> i32;
    pub fn ts_submit(h: *mut Handle, txn: u64, label: u64, now: u64, info: &mut Info) -> i32;
    pub fn ts_abort(h: *mut Handle, txn: u64) -> i32;
    pub fn ts_redeem(h: *mut Handle, ticket: u64, info: &mut Info) -> i32;
    pub fn ts_give_up(h: *mut Handle, ticket: u64) -> i32;
    pub fn ts_view(h: *mut Handle, info: &mut Info) -> i32;
    pub fn ts_end(h: *mut Handle, view: u64) -> i32;
    pub fn ts_times_of(
        h: *mut Handle,
        label: u64,
        archive: *const u8,
        size: usize,
        times: *mut u64,
        count: usize,
        info: &mut Info,
    ) -> i32;
    pub fn ts_archive(h: *mut Handle, upto: u64, info: &mut Info) -> i32;
    pub fn ts_reclaim(h: *mut Handle, info: &mut Info) -> i32;
    pub fn ts_floor(h: *mut Handle, time: u64, info: &mut Info) -> i32;
    pub fn ts_floor_of(h: *mut Handle, relation: u16, time: u64, info: &mut Info) -> i32;
    pub fn ts_grow(h: *mut Handle, info: &mut Info) -> i32;
    pub fn ts_file_format(folder: *const c_char, slots: u32) -> i32;
    pub fn ts_file_format_endless(folder: *const c_char, extents: u32) -> i32;
    pub fn ts_file_open(folder: *const c_char, file: &mut *mut File, info: &mut Info) -> i32;
    pub fn ts_file_store(file: *mut File) -> *mut Handle;
    pub fn ts_file_archive(file: *mut File, at: &mut *const u8, len: &mut usize) -> i32;
    pub fn ts_file_pump(file: *mut File, info: &mut Info) -> i32;
    pub fn ts_file_job_pump(file: *mut File, info: &mut Info) -> i32;
    pub fn ts_file_flush(file: *mut File) -> i32;
    pub fn ts_file_job(file: *mut File) -> i32;
    pub fn ts_file_error(file: *const File, cause: &mut Cause) -> i32;
    pub fn ts_file_get(
        file: *mut File,
        relation: u16,
        record: u64,
        out: *mut u8,
        len: usize,
        info: &mut Info,
    ) -> i32;
    pub fn timestore_version() -> *const c_char;
    pub fn ts_file_close(file: *mut File);
    pub fn ts_text(code: i32) -> *const c_char;
}
