//! Transactions, and the tickets of their commits.
use crate::calls::Calls;
use crate::error::WAITING;
use crate::rows::{Records, RecordsOf, ends};
use crate::{Error, Fields, Result, Store, WaitingTicket, When, raw, spelled};
use std::cell::Cell;
use std::ops::RangeBounds;

/// An open transaction: what it reads is its snapshot with its own writes over it. Dropped, it is given up.
#[derive(Debug)]
pub struct Txn<'a> {
    store: &'a Store,
    number: u64,
    snapshot: u64,
}

impl<'a> Txn<'a> {
    pub(crate) fn new(store: &'a Store, number: u64, snapshot: u64) -> Txn<'a> {
        Txn {
            store,
            number,
            snapshot,
        }
    }

    /// The time of its snapshot.
    pub fn snapshot(&self) -> u64 {
        self.snapshot
    }

    /// Writes a value.
    pub fn put(&mut self, relation: u16, record: u64, fields: &[&[u8]]) -> Result<()> {
        let value = spelled(fields)?;
        let number = self.number;
        // SAFETY: the value's bytes are read, and no more.
        self.store.make(|h, _| unsafe {
            raw::ts_put(h, number, relation, record, value.as_ptr(), value.len())
        })
    }

    /// Deletes a record that has a value.
    pub fn delete(&mut self, relation: u16, record: u64) -> Result<()> {
        let number = self.number;
        // SAFETY: the store is open, here and below.
        self.store
            .make(|h, _| unsafe { raw::ts_delete(h, number, relation, record) })
    }

    /// The value that it sees.
    pub fn get(&self, relation: u16, record: u64) -> Result<Option<Fields>> {
        // SAFETY: at most `len` bytes are written at `out`.
        self.store.read(|h, out, len, info| unsafe {
            raw::ts_get(h, self.number, relation, record, out, len, info)
        })
    }

    /// The records of a relation that it sees, in rising order.
    pub fn scan(&self, relation: u16) -> Result<Records<'a>> {
        self.range(relation, ..)
    }

    /// The same of a range of records.
    pub fn range(&self, relation: u16, records: impl RangeBounds<u64>) -> Result<Records<'a>> {
        let (number, (first, last)) = (self.number, ends(records));
        let found = self.store.rows(|h, cursor, info| unsafe {
            raw::ts_cursor_of(h, number, relation, first, last, cursor, info)
        });
        found.map(RecordsOf)
    }

    /// Queues the writes as a commit with a label; none where there are no writes.
    pub fn submit(self, label: u64, now: impl Into<When>) -> Result<Option<Ticket<'a>>> {
        let (store, number, now) = (self.store, self.number, now.into().micros());
        let (code, info) =
            store.ask(|h, info| unsafe { raw::ts_submit(h, number, label, now, info) })?;
        // What was submitted is over; `drop` then meets a number that names nothing.
        Ok(if code == raw::READ_ONLY {
            None
        } else {
            Some(Ticket::new(store, info.a))
        })
    }

    /// Gives it up, as dropping it does.
    pub fn abort(self) {}

    /// Submits, publishes, and gives the commit's time; none where nothing was written. `InDoubt` where the
    /// device failed on the way, `Waiting` where memory was refused there; any other refusal says that
    /// nothing was committed.
    pub fn commit(self, label: u64, now: impl Into<When>) -> Result<Option<u64>> {
        let store = self.store;
        let Some(ticket) = self.submit(label, now)? else {
            return Ok(None);
        };
        // Where it is refused, the ticket says what became of the commit.
        let _ = store.flush();
        match ticket.redeem()? {
            Some(time) => Ok(Some(time)),
            None => Err(Error::Waiting(ticket.into_waiting())),
        }
    }
}

impl Drop for Txn<'_> {
    fn drop(&mut self) {
        // SAFETY: the store is open.
        unsafe { raw::ts_abort(self.store.handle, self.number) };
    }
}

/// A commit that waits, or is published. Dropped, the ticket is given up, and the commit goes its way.
#[derive(Debug)]
pub struct Ticket<'a> {
    store: &'a Store,
    number: Cell<Option<u64>>,
}

impl<'a> Ticket<'a> {
    pub(crate) fn new(store: &'a Store, number: u64) -> Ticket<'a> {
        Ticket {
            store,
            number: Cell::new(Some(number)),
        }
    }

    /// The time of the commit once it is published, else none. After a time, or a refusal, it is spent.
    pub fn redeem(&self) -> Result<Option<u64>> {
        let number = self.number.take().ok_or(Error::Unknown)?;
        // SAFETY: the store is open.
        let (code, info) = self
            .store
            .ask(|h, info| unsafe { raw::ts_redeem(h, number, info) })?;
        if code == WAITING {
            self.number.set(Some(info.a));
            return Ok(None);
        }
        Ok(Some(info.a))
    }

    // Its number, which names nothing once it is spent.
    fn into_waiting(self) -> WaitingTicket {
        WaitingTicket(self.number.take().unwrap_or_default())
    }
}

impl Drop for Ticket<'_> {
    fn drop(&mut self) {
        if let Some(number) = self.number.take() {
            // SAFETY: the store is open.
            unsafe { raw::ts_give_up(self.store.handle, number) };
        }
    }
}
