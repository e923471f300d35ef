//! What queries find, made row by row as it is taken.
use crate::{Fields, Store, fields_of, raw};
use std::iter::FusedIterator;
use std::marker::PhantomData;
use std::ops::{Bound, RangeBounds};
use std::{ptr, slice};

// So many rows are taken of a cursor at once.
const BLOCK: usize = 256;

/// A value that a record had, from one time on up to another.
#[derive(Clone, Debug, PartialEq, Eq)]
pub struct Row {
    /// The record's number.
    pub record: u64,
    /// From when on.
    pub from: u64,
    /// Up to when.
    pub upto: u64,
    /// Its value.
    pub fields: Fields,
}

/// The first and the last of a range of records; of one without any the first is the greater.
pub(crate) fn ends(records: impl RangeBounds<u64>) -> (u64, u64) {
    let first = match records.start_bound() {
        Bound::Included(first) => Some(*first),
        Bound::Excluded(before) => before.checked_add(1),
        Bound::Unbounded => Some(0),
    };
    let last = match records.end_bound() {
        Bound::Included(last) => Some(*last),
        Bound::Excluded(after) => after.checked_sub(1),
        Bound::Unbounded => Some(u64::MAX),
    };
    first.zip(last).unwrap_or((1, 0))
}

/// What a query has found. It is in memory of the library until it is dropped, and needs no store.
#[derive(Debug)]
pub(crate) struct Cursor {
    at: *mut raw::Cursor,
    // Of the block that was taken last the rows that are left, and where their values lie.
    rows: *const raw::Row,
    left: usize,
    values: *const u8,
}

// SAFETY: a cursor is no thread's own, and one call of it is made at a time.
unsafe impl Send for Cursor {}

impl Cursor {
    // The cursor that a call has made.
    pub(crate) fn of(made: *mut raw::Cursor) -> Cursor {
        Cursor {
            at: made,
            rows: ptr::null(),
            left: 0,
            values: ptr::null(),
        }
    }

    // Takes the next block; whether there is one.
    fn take_block(&mut self) -> bool {
        let Cursor {
            at,
            rows,
            left,
            values,
        } = self;
        // SAFETY: the cursor was made, and is not freed.
        unsafe { raw::ts_cursor_next(*at, BLOCK, rows, left, values) != raw::NONE }
    }

    fn next(&mut self) -> Option<Row> {
        if self.left == 0 && !self.take_block() {
            return None;
        }
        // SAFETY: a row is left, and it and its value stay until the next block is taken.
        let (raw, value) = unsafe {
            let raw = *self.rows;
            self.rows = self.rows.add(1);
            let at = self.values.add(raw.at as usize);
            (raw, slice::from_raw_parts(at, raw.len as usize))
        };
        self.left -= 1;
        Some(Row {
            record: raw.record,
            from: raw.from,
            upto: raw.upto,
            fields: fields_of(value),
        })
    }
}

impl Drop for Cursor {
    fn drop(&mut self) {
        // SAFETY: the cursor was made, and nothing of it is used any more.
        unsafe { raw::ts_cursor_free(self.at) }
    }
}

/// The rows that a query found, each made as it is taken.
///
/// The query was made once. What it found is in memory of the library, which is given back as the iterator goes on.
#[derive(Debug)]
pub struct RowsOf<H> {
    cursor: Cursor,
    of: PhantomData<H>,
}

/// The rows that a query found, each made as it is taken.
pub type Rows<'a> = RowsOf<&'a Store>;

impl<H> RowsOf<H> {
    pub(crate) fn new(cursor: Cursor) -> RowsOf<H> {
        RowsOf {
            cursor,
            of: PhantomData,
        }
    }
}

impl<H> Iterator for RowsOf<H> {
    type Item = Row;

    fn next(&mut self) -> Option<Row> {
        self.cursor.next()
    }
}

impl<H> FusedIterator for RowsOf<H> {}

/// The records that a scan found, with their values.
#[derive(Debug)]
pub struct RecordsOf<H>(pub(crate) RowsOf<H>);

/// The records that a scan found, with their values.
pub type Records<'a> = RecordsOf<&'a Store>;

impl<H> Iterator for RecordsOf<H> {
    type Item = (u64, Fields);

    fn next(&mut self) -> Option<(u64, Fields)> {
        let row = self.0.next()?;
        Some((row.record, row.fields))
    }
}

impl<H> FusedIterator for RecordsOf<H> {}
