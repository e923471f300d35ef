//! Views, and the questions about the past.
use crate::calls::Calls;
use crate::rows::{Records, RecordsOf, Rows, ends};
use crate::{Fields, Result, Store, raw};
use std::ops::RangeBounds;

/// What was published at one moment. Dropped, it is given back.
#[derive(Debug)]
pub struct View<'a> {
    store: &'a Store,
    number: u64,
    last: u64,
}

impl<'a> View<'a> {
    pub(crate) fn new(store: &'a Store, number: u64, last: u64) -> View<'a> {
        View {
            store,
            number,
            last,
        }
    }

    /// The time of the last commit that it has, 0 for none.
    pub fn last(&self) -> u64 {
        self.last
    }

    /// The value of a record after its last commit.
    pub fn get(&self, relation: u16, record: u64) -> Result<Option<Fields>> {
        self.recent(relation, record, self.last)
    }

    /// The records of a relation with their values after its last commit, in rising order.
    pub fn scan(&self, relation: u16) -> Result<Records<'a>> {
        self.scan_at(relation, self.last)
    }

    /// The value of a record at a time, from memory alone.
    pub fn recent(&self, relation: u16, record: u64, time: u64) -> Result<Option<Fields>> {
        // SAFETY: at most `len` bytes are written at `out`, here and below.
        self.store.read(|h, out, len, info| unsafe {
            raw::ts_recent(h, self.number, relation, record, time, out, len, info)
        })
    }

    /// The value of a record at a time.
    pub fn at(&self, relation: u16, record: u64, time: u64) -> Result<Option<Fields>> {
        let number = self.number;
        self.store.read_lent(|h, at, size, out, len, info| unsafe {
            raw::ts_at(h, number, relation, record, time, at, size, out, len, info)
        })
    }

    /// The records of a relation that have a value at a time, in rising order.
    pub fn scan_at(&self, relation: u16, time: u64) -> Result<Records<'a>> {
        self.range_at(relation, .., time)
    }

    /// The same of a range of records.
    pub fn range_at(
        &self,
        relation: u16,
        records: impl RangeBounds<u64>,
        time: u64,
    ) -> Result<Records<'a>> {
        let (number, (first, last)) = (self.number, ends(records));
        // SAFETY: the archive that is lent stays where it is for the call, here and below.
        let found = self.store.rows_lent(|h, at, size, cursor, info| unsafe {
            raw::ts_cursor_at(
                h, number, relation, first, last, time, at, size, cursor, info,
            )
        });
        found.map(RecordsOf)
    }

    /// The values of a record from one time up to another, by rising time.
    pub fn between(&self, relation: u16, record: u64, from: u64, upto: u64) -> Result<Rows<'a>> {
        self.range_between(relation, record..=record, from, upto)
    }

    /// The same of a relation's records, by record and then by time.
    pub fn scan_between(&self, relation: u16, from: u64, upto: u64) -> Result<Rows<'a>> {
        self.range_between(relation, .., from, upto)
    }

    /// The same of a range of records.
    pub fn range_between(
        &self,
        relation: u16,
        records: impl RangeBounds<u64>,
        from: u64,
        upto: u64,
    ) -> Result<Rows<'a>> {
        let (number, (first, last)) = (self.number, ends(records));
        self.store.rows_lent(|h, at, size, cursor, info| unsafe {
            raw::ts_cursor_between(
                h, number, relation, first, last, from, upto, at, size, cursor, info,
            )
        })
    }
}

impl Drop for View<'_> {
    fn drop(&mut self) {
        // SAFETY: the store is open.
        unsafe { raw::ts_end(self.store.handle, self.number) };
    }
}
