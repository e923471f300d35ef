//! A store that any thread may call.
//!
//! Commits of several threads are written together, up to 16 with the syncs of one. Queries take the store's lock for as
//! long as they take, and wait for no commit. What is given out here is of its own: it may be sent to another
//! thread, and used by several. The store is closed by [`SharedStore::close`], or with the last of all that it
//! gave out.
//!
//! ```
//! # fn main() -> timestore::Result<()> {
//! # let folder = std::env::temp_dir().join(format!("timestore-shared-doc-{}", std::process::id()));
//! # std::fs::create_dir(&folder).unwrap();
//! timestore::format(&folder, 1024)?;
//! let store = timestore::SharedStore::open(&folder)?;
//! std::thread::scope(|scope| {
//!     for record in 0..4 {
//!         let store = &store;
//!         scope.spawn(move || store.put(1, record, &[b"a"], 0));
//!     }
//! });
//! assert_eq!(store.scan(1)?.count(), 4);
//! # drop(store);
//! # std::fs::remove_dir_all(&folder).unwrap();
//! # Ok(())
//! # }
//! ```
use crate::calls::{Calls, asked, attempted, path_of};
use crate::error::WAITING;
use crate::raw::{self, Info};
use crate::rows::{RecordsOf, RowsOf, ends};
use crate::{Cause, Error, Fields, Result, WaitingTicket, When, spelled};
use std::ops::RangeBounds;
use std::path::Path;
use std::sync::Arc;
use std::time::Duration;

// Ends what it gave out with itself: a number of it names nothing then.
#[derive(Debug)]
struct Open(*mut raw::Shared);

// SAFETY: any thread may make each call of a shared store, also several at once.
unsafe impl Send for Open {}
// SAFETY: as above.
unsafe impl Sync for Open {}

impl Drop for Open {
    fn drop(&mut self) {
        // SAFETY: it is the last that names it, so no thread is in a call.
        unsafe { raw::ts_shared_free(self.0) }
    }
}

impl Calls for Open {
    type Raw = raw::Shared;

    fn raw(&self) -> *mut raw::Shared {
        self.0
    }

    fn cause(&self) -> Option<Cause> {
        // SAFETY: the store is there, also where it is closed, here and in all calls below.
        Cause::told(|cause| unsafe { raw::ts_shared_error(self.0, cause) })
    }
}

impl Open {
    // The time of a commit; none where nothing was written.
    fn commit(&self, call: impl FnOnce(*mut raw::Shared, &mut Info) -> i32) -> Result<Option<u64>> {
        match self.ask(call)? {
            (WAITING, info) => Err(Error::Waiting(WaitingTicket(info.a))),
            (raw::READ_ONLY, _) => Ok(None),
            (_, info) => Ok(Some(info.a)),
        }
    }

    // The same of a commit that writes.
    fn committed(&self, call: impl FnOnce(*mut raw::Shared, &mut Info) -> i32) -> Result<u64> {
        Ok(self.commit(call)?.expect("something was written"))
    }

    // What a query finds, which makes a cursor.
    fn rows(
        &self,
        query: impl FnOnce(*mut raw::Shared, &mut *mut raw::Cursor, &mut Info) -> i32,
    ) -> Result<Rows> {
        Ok(RowsOf::new(self.cursor(query)?))
    }
}

/// An open store that any thread may call. A clone is the same store.
#[derive(Clone, Debug)]
pub struct SharedStore(Arc<Open>);

/// What a vacuum does: [`SharedStore::vacuum`].
#[derive(Clone, Copy, Debug, PartialEq, Eq)]
pub struct Policy {
    /// From one look to the next.
    pub every: Duration,
    /// Memory keeps what ended less than so long before the last commit; the rest is archived and reclaimed.
    pub keep: Duration,
    /// It makes 256 slots more once a commit or a job was refused with `StatusFull`, which is then made again.
    pub grows: bool,
}

fn micros_of(time: Duration) -> u64 {
    u64::try_from(time.as_micros()).unwrap_or(u64::MAX)
}

impl SharedStore {
    /// Opens the store of a folder.
    pub fn open(folder: impl AsRef<Path>) -> Result<SharedStore> {
        let path = path_of(folder.as_ref())?;
        let (mut store, mut info) = (std::ptr::null_mut(), Info::default());
        // SAFETY: the path is a string that ends in zero; the store is written where the call is answered.
        let code = unsafe { raw::ts_shared_open(path.as_ptr(), &mut store, &mut info) };
        asked(code, info, || None)?;
        Ok(SharedStore(Arc::new(Open(store))))
    }

    /// Closes it, once the calls that are being made have returned. All others answer [`Error::Closed`].
    pub fn close(&self) -> Result<()> {
        self.0.make(|s, _| unsafe { raw::ts_shared_close(s) })
    }

    /// The time of the last commit, 0 for none.
    pub fn last(&self) -> Result<u64> {
        Ok(self.told()?.a)
    }

    /// The floor: history before this time may be gone; 0 for none, and where each relation has one of its own.
    pub fn floor(&self) -> Result<u64> {
        Ok(self.told()?.b)
    }

    fn told(&self) -> Result<Info> {
        let (_, info) = self
            .0
            .ask(|s, info| unsafe { raw::ts_shared_last(s, info) })?;
        Ok(info)
    }

    /// Commits one value, at the time that it is; the commit's time, once it outlasts a stop.
    pub fn put(&self, relation: u16, record: u64, fields: &[&[u8]], label: u64) -> Result<u64> {
        let (value, now) = (spelled(fields)?, When::Now.micros());
        let (at, len) = (value.as_ptr(), value.len());
        self.0.committed(|s, info| unsafe {
            raw::ts_shared_put(s, relation, record, at, len, label, now, info)
        })
    }

    /// Commits the deletion of a record that has a value, at the time that it is; the commit's time.
    pub fn delete(&self, relation: u16, record: u64, label: u64) -> Result<u64> {
        let now = When::Now.micros();
        self.0.committed(|s, info| unsafe {
            raw::ts_shared_delete(s, relation, record, label, now, info)
        })
    }

    /// The present value, after the last commit.
    pub fn get(&self, relation: u16, record: u64) -> Result<Option<Fields>> {
        self.0.read(|s, out, len, info| unsafe {
            raw::ts_shared_get(s, relation, record, out, len, info)
        })
    }

    /// The records of a relation with their present values, in rising order.
    pub fn scan(&self, relation: u16) -> Result<Records> {
        self.view()?.scan(relation)
    }

    /// A transaction on what is published now.
    pub fn begin(&self) -> Result<Txn> {
        let (_, info) = self
            .0
            .ask(|s, info| unsafe { raw::ts_shared_begin(s, info) })?;
        Ok(Txn {
            store: Arc::clone(&self.0),
            number: info.a,
            snapshot: info.b,
        })
    }

    /// What `work` gives for a transaction, which is committed then, and the commit's time; none where nothing
    /// was written. Where another transaction was ahead in a record, `work` is called again with a new one;
    /// after so many attempts the `Conflict` is told. An error of `work` gives the transaction up.
    pub fn transact<T>(
        &self,
        label: u64,
        now: impl Into<When>,
        attempts: u32,
        mut work: impl FnMut(&mut Txn) -> Result<T>,
    ) -> Result<(T, Option<u64>)> {
        let now = now.into();
        attempted(attempts, || {
            let mut txn = self.begin()?;
            let answer = work(&mut txn)?;
            Ok((answer, txn.commit(label, now)?))
        })
    }

    /// Goes on with a commit that [`Error::Waiting`] gave back; its time.
    pub fn resume(&self, waiting: WaitingTicket) -> Result<u64> {
        self.0
            .committed(|s, info| unsafe { raw::ts_shared_resume(s, waiting.0, info) })
    }

    /// Spends such a ticket; its commit goes its way.
    pub fn give_up(&self, waiting: WaitingTicket) -> Result<()> {
        self.0
            .make(|s, _| unsafe { raw::ts_shared_give_up(s, waiting.0) })
    }

    /// What is published now, which later commits do not change.
    pub fn view(&self) -> Result<View> {
        let (_, info) = self
            .0
            .ask(|s, info| unsafe { raw::ts_shared_view(s, info) })?;
        Ok(View {
            store: Arc::clone(&self.0),
            number: info.a,
            last: info.b,
        })
    }

    /// The times of the commits with a label, rising, as [`crate::Store::times_of`].
    pub fn times_of(&self, label: u64) -> Result<Vec<u64>> {
        // As many times as there is room for are written.
        self.0
            .times(|s, at, len, info| unsafe { raw::ts_shared_times_of(s, label, at, len, info) })
    }

    /// Copies what ended by a time into the archive, while commits go on. One job is made at a time.
    pub fn archive(&self, upto: u64) -> Result<()> {
        self.0
            .make(|s, info| unsafe { raw::ts_shared_archive(s, upto, info) })
    }

    /// Gives up in the heap and in memory what is archived.
    pub fn reclaim(&self) -> Result<()> {
        self.0
            .make(|s, info| unsafe { raw::ts_shared_reclaim(s, info) })
    }

    /// Raises the floor of a relation to a time: of it views that are taken then answer `BeforeKept` at an
    /// earlier one.
    pub fn floor_of(&self, relation: u16, time: u64) -> Result<()> {
        self.0
            .make(|s, info| unsafe { raw::ts_shared_floor_of(s, relation, time, info) })
    }

    /// The same of all relations, in a store that an earlier timestore made.
    pub fn raise_floor(&self, time: u64) -> Result<()> {
        self.0
            .make(|s, info| unsafe { raw::ts_shared_floor(s, time, info) })
    }

    /// Makes 256 slots more.
    pub fn grow(&self) -> Result<()> {
        self.0
            .make(|s, info| unsafe { raw::ts_shared_grow(s, info) })
    }

    /// Goes on with a job that ended in `NoMemory` on its way, if there is one.
    pub fn job(&self) -> Result<()> {
        self.0.make(|s, _| unsafe { raw::ts_shared_job(s) })
    }

    /// Starts a thread that archives and reclaims by a policy until the store is closed. `Busy` where one runs.
    pub fn vacuum(&self, policy: Policy) -> Result<()> {
        let policy = raw::Policy {
            every: micros_of(policy.every),
            keep: micros_of(policy.keep),
            grows: policy.grows,
        };
        self.0
            .make(|s, _| unsafe { raw::ts_shared_vacuum(s, &policy) })
    }

    /// How many archives, reclaims and growths that thread has made; or what it was refused last. None where
    /// none was started.
    pub fn vacuumed(&self) -> Result<Option<u64>> {
        let (code, info) = self
            .0
            .ask(|s, info| unsafe { raw::ts_shared_vacuumed(s, info) })?;
        Ok((code != raw::NONE).then_some(info.a))
    }
}

/// An open transaction: what it reads is its snapshot with its own writes over it. Dropped, it is given up.
#[derive(Debug)]
pub struct Txn {
    store: Arc<Open>,
    number: u64,
    snapshot: u64,
}

impl Txn {
    /// The time of its snapshot.
    pub fn snapshot(&self) -> u64 {
        self.snapshot
    }

    /// Writes a value.
    pub fn put(&mut self, relation: u16, record: u64, fields: &[&[u8]]) -> Result<()> {
        let (value, number) = (spelled(fields)?, self.number);
        let (at, len) = (value.as_ptr(), value.len());
        self.store
            .make(|s, _| unsafe { raw::ts_shared_txn_put(s, number, relation, record, at, len) })
    }

    /// Deletes a record that has a value.
    pub fn delete(&mut self, relation: u16, record: u64) -> Result<()> {
        let number = self.number;
        self.store
            .make(|s, _| unsafe { raw::ts_shared_txn_delete(s, number, relation, record) })
    }

    /// The value that it sees.
    pub fn get(&self, relation: u16, record: u64) -> Result<Option<Fields>> {
        self.store.read(|s, out, len, info| unsafe {
            raw::ts_shared_txn_get(s, self.number, relation, record, out, len, info)
        })
    }

    /// The records of a relation that it sees, in rising order.
    pub fn scan(&self, relation: u16) -> Result<Records> {
        self.range(relation, ..)
    }

    /// The same of a range of records.
    pub fn range(&self, relation: u16, records: impl RangeBounds<u64>) -> Result<Records> {
        let (number, (first, last)) = (self.number, ends(records));
        let found = self.store.rows(|s, cursor, info| unsafe {
            raw::ts_shared_cursor_of(s, number, relation, first, last, cursor, info)
        });
        found.map(RecordsOf)
    }

    /// Gives it up, as dropping it does.
    pub fn abort(self) {}

    /// Commits it, with a label, and gives the commit's time once it outlasts a stop; none where nothing was
    /// written. `InDoubt` where the device failed on the way, `Waiting` where memory was refused there; any
    /// other refusal says that nothing was committed.
    pub fn commit(self, label: u64, now: impl Into<When>) -> Result<Option<u64>> {
        let (number, now) = (self.number, now.into().micros());
        // What was committed is over; `drop` then meets a number that names nothing.
        self.store
            .commit(|s, info| unsafe { raw::ts_shared_commit(s, number, label, now, info) })
    }
}

impl Drop for Txn {
    fn drop(&mut self) {
        // SAFETY: the store is there.
        unsafe { raw::ts_shared_abort(self.store.0, self.number) };
    }
}

/// What was published at one moment. Dropped, it is given back.
#[derive(Debug)]
pub struct View {
    store: Arc<Open>,
    number: u64,
    last: u64,
}

impl View {
    /// The time of the last commit that it has, 0 for none.
    pub fn last(&self) -> u64 {
        self.last
    }

    /// The value of a record after its last commit.
    pub fn get(&self, relation: u16, record: u64) -> Result<Option<Fields>> {
        self.at(relation, record, self.last)
    }

    /// The records of a relation with their values after its last commit, in rising order.
    pub fn scan(&self, relation: u16) -> Result<Records> {
        self.scan_at(relation, self.last)
    }

    /// The value of a record at a time.
    pub fn at(&self, relation: u16, record: u64, time: u64) -> Result<Option<Fields>> {
        self.store.read(|s, out, len, info| unsafe {
            raw::ts_shared_at(s, self.number, relation, record, time, out, len, info)
        })
    }

    /// The records of a relation that have a value at a time, in rising order.
    pub fn scan_at(&self, relation: u16, time: u64) -> Result<Records> {
        self.range_at(relation, .., time)
    }

    /// The same of a range of records.
    pub fn range_at(
        &self,
        relation: u16,
        records: impl RangeBounds<u64>,
        time: u64,
    ) -> Result<Records> {
        let (number, (first, last)) = (self.number, ends(records));
        let found = self.store.rows(|s, cursor, info| unsafe {
            raw::ts_shared_cursor_at(s, number, relation, first, last, time, cursor, info)
        });
        found.map(RecordsOf)
    }

    /// The values of a record from one time up to another, by rising time.
    pub fn between(&self, relation: u16, record: u64, from: u64, upto: u64) -> Result<Rows> {
        self.range_between(relation, record..=record, from, upto)
    }

    /// The same of a relation's records, by record and then by time.
    pub fn scan_between(&self, relation: u16, from: u64, upto: u64) -> Result<Rows> {
        self.range_between(relation, .., from, upto)
    }

    /// The same of a range of records.
    pub fn range_between(
        &self,
        relation: u16,
        records: impl RangeBounds<u64>,
        from: u64,
        upto: u64,
    ) -> Result<Rows> {
        let (number, (first, last)) = (self.number, ends(records));
        self.store.rows(|s, cursor, info| unsafe {
            raw::ts_shared_cursor_between(
                s, number, relation, first, last, from, upto, cursor, info,
            )
        })
    }
}

impl Drop for View {
    fn drop(&mut self) {
        // SAFETY: the store is there.
        unsafe { raw::ts_shared_end(self.store.0, self.number) };
    }
}

/// The rows that a query found, each made as it is taken.
pub type Rows = RowsOf<()>;

/// The records that a scan found, with their values.
pub type Records = RecordsOf<()>;
