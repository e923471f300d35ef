//! An open store.
use crate::calls::{Calls, asked, attempted, path_of};
use crate::raw::{self, Info};
use crate::rows::{Records, Rows, RowsOf};
use crate::{Cause, Error, Fields, Result, Ticket, Txn, View, WaitingTicket, When};
use std::path::Path;

/// What a step of a group or of a job did.
#[derive(Clone, Copy, Debug, PartialEq, Eq)]
#[non_exhaustive]
pub enum Step {
    /// There was nothing to do.
    Idle,
    /// An extent of the group, or a part of an archive, was written.
    Wrote,
    /// What was written of it was synced.
    Synced,
    /// The body of its slot was written.
    BodyWritten,
    /// The body of its slot was synced.
    BodySynced,
    /// Its gate was written.
    GateWritten,
    /// So many commits are published, or the job is done.
    Published(u64),
    /// Of a reclaim: an extent of the values at its time, or of its base, was written.
    KeptWritten,
    /// Of a reclaim: these were synced. Where the log lies in the heap: a job's entry was, but for its gate.
    KeptSynced,
    /// Of a growth: zeros were written after the slots.
    ZerosWritten,
    /// Of a growth: these were synced.
    ZerosSynced,
    /// Where the log lies in the heap: a job's entry was written, but for its gate.
    EntryWritten,
    /// Where the log lies in the heap: the gate where the log will end was closed.
    GateClosed,
    /// Of a reclaim there: a part of the names of archived commits was written.
    RollWritten,
    /// Of a reclaim there: these were synced.
    RollSynced,
    /// Of a reclaim there: the status area names the new base, which does not count yet.
    RootWritten,
    /// Of a reclaim there: that was synced.
    RootSynced,
    /// Of a reclaim there: the base comes to count.
    TurnWritten,
}

impl Step {
    fn of(info: Info) -> Step {
        match info.a {
            1 => Step::Wrote,
            2 => Step::Synced,
            3 => Step::BodyWritten,
            4 => Step::BodySynced,
            5 => Step::GateWritten,
            6 => Step::Published(info.b),
            7 => Step::KeptWritten,
            8 => Step::KeptSynced,
            9 => Step::ZerosWritten,
            10 => Step::ZerosSynced,
            12 => Step::EntryWritten,
            13 => Step::GateClosed,
            14 => Step::RollWritten,
            15 => Step::RollSynced,
            16 => Step::RootWritten,
            17 => Step::RootSynced,
            18 => Step::TurnWritten,
            _ => Step::Idle,
        }
    }
}

/// An open store. What it gives out borrows it, so it is over before the store is closed, which it is where
/// it is dropped: what waits then is not published.
#[derive(Debug)]
pub struct Store {
    file: *mut raw::File,
    pub(crate) handle: *mut raw::Handle,
}

// It is neither `Send` nor `Sync`, so no two calls are made at once.
impl Calls for Store {
    type Raw = raw::Handle;

    fn raw(&self) -> *mut raw::Handle {
        self.handle
    }

    fn cause(&self) -> Option<Cause> {
        Cause::of(self.file)
    }
}

/// Makes a store with 16 to 65,536 slots in a folder that is there.
pub fn format(folder: impl AsRef<Path>, slots: u32) -> Result<()> {
    let path = path_of(folder.as_ref())?;
    // SAFETY: the path is a string that ends in zero.
    let code = unsafe { raw::ts_file_format(path.as_ptr(), slots) };
    asked(code, Info::default(), || None)?;
    Ok(())
}

/// Makes a store of the endless profile in a folder that is there.
///
/// Its heap may have so many extents of 8,192 bytes, a multiple of 16 from 64 to 1,048,576. This profile is being made:
/// later versions may not read its files.
pub fn format_endless(folder: impl AsRef<Path>, extents: u32) -> Result<()> {
    let path = path_of(folder.as_ref())?;
    // SAFETY: the path is a string that ends in zero.
    let code = unsafe { raw::ts_file_format_endless(path.as_ptr(), extents) };
    asked(code, Info::default(), || None)?;
    Ok(())
}

impl Store {
    /// Opens the store of a folder.
    pub fn open(folder: impl AsRef<Path>) -> Result<Store> {
        let path = path_of(folder.as_ref())?;
        let (mut file, mut info) = (std::ptr::null_mut(), Info::default());
        // SAFETY: the path is a string that ends in zero; the file is written where the call is answered.
        let code = unsafe { raw::ts_file_open(path.as_ptr(), &mut file, &mut info) };
        asked(code, info, || None)?;
        // SAFETY: the file is open until the store is dropped.
        let handle = unsafe { raw::ts_file_store(file) };
        Ok(Store { file, handle })
    }

    /// The time of the last commit, 0 for none.
    pub fn last(&self) -> Result<u64> {
        // SAFETY: the handle is open, here and below.
        Ok(self.ask(|h, info| unsafe { raw::ts_last(h, info) })?.1.a)
    }

    /// The floor: history before this time may be gone; 0 for none, and where each relation has one of its own.
    pub fn floor(&self) -> Result<u64> {
        Ok(self.ask(|h, info| unsafe { raw::ts_last(h, info) })?.1.b)
    }

    /// A transaction on what is published now.
    pub fn begin(&self) -> Result<Txn<'_>> {
        let (_, info) = self.ask(|h, info| unsafe { raw::ts_begin(h, info) })?;
        Ok(Txn::new(self, info.a, info.b))
    }

    /// What `work` gives for a transaction, which is committed then, and the commit's time; none where nothing
    /// was written. Where another transaction was ahead in a record, `work` is called again with a new one;
    /// after so many attempts the `Conflict` is told. An error of `work` gives the transaction up.
    pub fn transact<T>(
        &self,
        label: u64,
        now: impl Into<When>,
        attempts: u32,
        mut work: impl FnMut(&mut Txn<'_>) -> Result<T>,
    ) -> Result<(T, Option<u64>)> {
        let now = now.into();
        attempted(attempts, || {
            let mut txn = self.begin()?;
            let answer = work(&mut txn)?;
            Ok((answer, txn.commit(label, now)?))
        })
    }

    // Commits what was written in a transaction; the commit's time.
    fn committed(txn: Txn<'_>, label: u64) -> Result<u64> {
        let time = txn.commit(label, When::Now)?;
        Ok(time.expect("something was written"))
    }

    /// Commits one value, at the time that it is; the commit's time.
    pub fn put(&self, relation: u16, record: u64, fields: &[&[u8]], label: u64) -> Result<u64> {
        let mut txn = self.begin()?;
        txn.put(relation, record, fields)?;
        Store::committed(txn, label)
    }

    /// Commits the deletion of a record that has a value, at the time that it is; the commit's time.
    pub fn delete(&self, relation: u16, record: u64, label: u64) -> Result<u64> {
        let mut txn = self.begin()?;
        txn.delete(relation, record)?;
        Store::committed(txn, label)
    }

    /// The present value, after the last commit.
    pub fn get(&self, relation: u16, record: u64) -> Result<Option<Fields>> {
        let file = self.file;
        // SAFETY: the file is open, and at most `len` bytes are written at `out`.
        self.read(|_, out, len, info| unsafe {
            raw::ts_file_get(file, relation, record, out, len, info)
        })
    }

    /// The records of a relation with their present values, in rising order.
    pub fn scan(&self, relation: u16) -> Result<Records<'_>> {
        self.view()?.scan(relation)
    }

    /// The ticket of a commit that waits, as a refused commit gave it back. That of another store is unknown.
    pub fn ticket(&self, waiting: WaitingTicket) -> Ticket<'_> {
        Ticket::new(self, waiting.0)
    }

    /// What is published now, which later commits do not change.
    pub fn view(&self) -> Result<View<'_>> {
        let last = self.last()?;
        let (_, info) = self.ask(|h, info| unsafe { raw::ts_view(h, info) })?;
        Ok(View::new(self, info.a, last))
    }

    /// Publishes what waits.
    pub fn flush(&self) -> Result<()> {
        let file = self.file;
        // SAFETY: the file is open.
        self.make(|_, _| unsafe { raw::ts_file_flush(file) })
    }

    /// One step of the group that is being written, with its device call.
    pub fn pump(&self) -> Result<Step> {
        let file = self.file;
        // SAFETY: the file is open.
        let (_, info) = self.ask(|_, info| unsafe { raw::ts_file_pump(file, info) })?;
        Ok(Step::of(info))
    }

    /// Copies what ended by a time into the archive.
    pub fn archive(&self, upto: u64) -> Result<()> {
        self.archive_start(upto)?;
        self.job()
    }

    /// Begins that copy, of which [`Store::job_pump`] takes each step.
    pub fn archive_start(&self, upto: u64) -> Result<()> {
        self.make(|h, info| unsafe { raw::ts_archive(h, upto, info) })
    }

    /// Gives up in the heap and in memory what is archived.
    pub fn reclaim(&self) -> Result<()> {
        self.reclaim_start()?;
        self.job()
    }

    /// Begins that, of which [`Store::job_pump`] takes each step.
    pub fn reclaim_start(&self) -> Result<()> {
        self.make(|h, info| unsafe { raw::ts_reclaim(h, info) })
    }

    /// Raises the floor of a relation to a time: of it views that are taken then answer `BeforeKept` at an
    /// earlier one.
    pub fn floor_of(&self, relation: u16, time: u64) -> Result<()> {
        self.floor_of_start(relation, time)?;
        self.job()
    }

    /// Begins that, of which [`Store::job_pump`] takes each step.
    pub fn floor_of_start(&self, relation: u16, time: u64) -> Result<()> {
        self.make(|h, info| unsafe { raw::ts_floor_of(h, relation, time, info) })
    }

    /// The same of all relations, in a store that an earlier timestore made.
    pub fn raise_floor(&self, time: u64) -> Result<()> {
        self.floor_start(time)?;
        self.job()
    }

    /// Begins that, of which [`Store::job_pump`] takes each step.
    pub fn floor_start(&self, time: u64) -> Result<()> {
        self.make(|h, info| unsafe { raw::ts_floor(h, time, info) })
    }

    /// Makes 256 slots more.
    pub fn grow(&self) -> Result<()> {
        self.grow_start()?;
        self.job()
    }

    /// Begins that, of which [`Store::job_pump`] takes each step.
    pub fn grow_start(&self) -> Result<()> {
        self.make(|h, info| unsafe { raw::ts_grow(h, info) })
    }

    /// One step of the job that is being made, with its device call.
    pub fn job_pump(&self) -> Result<Step> {
        let file = self.file;
        // SAFETY: the file is open.
        let (_, info) = self.ask(|_, info| unsafe { raw::ts_file_job_pump(file, info) })?;
        Ok(Step::of(info))
    }

    /// All steps of the job that is being made.
    pub fn job(&self) -> Result<()> {
        let file = self.file;
        // SAFETY: the file is open.
        self.make(|_, _| unsafe { raw::ts_file_job(file) })
    }

    /// The times of the commits with a label, rising. Where the log lies in the heap the names of those up to its last
    /// reclaim are read in the archive, and what refuses [`crate::View::at`] may refuse this.
    pub fn times_of(&self, label: u64) -> Result<Vec<u64>> {
        let mut refusal = None;
        let found = self.times(|h, times, count, info| {
            // SAFETY: as many times as there is room for are written, and the archive that is lent stays where it is.
            self.lent(&mut refusal, |at, size| unsafe {
                raw::ts_times_of(h, label, at, size, times, count, info)
            })
        });
        refusal.map_or(found, Err)
    }

    // The archive, which stays in memory until the next such call.
    fn archive_area(&self) -> Result<(*const u8, usize)> {
        let (mut at, mut len) = (std::ptr::null(), 0);
        let file = self.file;
        // SAFETY: the file is open.
        self.make(|_, _| unsafe { raw::ts_file_archive(file, &mut at, &mut len) })?;
        Ok((at, len))
    }

    // The code of a query, which is lent the archive only where it needs it, and why that could not be read.
    fn lent(
        &self,
        refusal: &mut Option<Error>,
        mut query: impl FnMut(*const u8, usize) -> i32,
    ) -> i32 {
        let code = query([0].as_ptr(), 0);
        if code != raw::NEEDS_ARCHIVE {
            return code;
        }
        match self.archive_area() {
            Ok((at, len)) => query(at, len),
            Err(why) => {
                let code = why.code();
                *refusal = Some(why);
                code
            }
        }
    }

    // The value that a query copies out, which may be lent the archive.
    pub(crate) fn read_lent(
        &self,
        mut query: impl FnMut(*mut raw::Handle, *const u8, usize, *mut u8, usize, &mut Info) -> i32,
    ) -> Result<Option<Fields>> {
        let mut refusal = None;
        let value = self.read(|h, out, len, info| {
            self.lent(&mut refusal, |at, size| query(h, at, size, out, len, info))
        });
        refusal.map_or(value, Err)
    }

    // What a query finds, which makes a cursor.
    pub(crate) fn rows(
        &self,
        query: impl FnOnce(*mut raw::Handle, &mut *mut raw::Cursor, &mut Info) -> i32,
    ) -> Result<Rows<'_>> {
        Ok(RowsOf::new(self.cursor(query)?))
    }

    // The same of a query that may be lent the archive.
    pub(crate) fn rows_lent(
        &self,
        mut query: impl FnMut(
            *mut raw::Handle,
            *const u8,
            usize,
            &mut *mut raw::Cursor,
            &mut Info,
        ) -> i32,
    ) -> Result<Rows<'_>> {
        let mut refusal = None;
        let rows = self.rows(|h, cursor, info| {
            self.lent(&mut refusal, |at, size| query(h, at, size, cursor, info))
        });
        refusal.map_or(rows, Err)
    }
}

impl Drop for Store {
    fn drop(&mut self) {
        // SAFETY: the file is open, and nothing that borrows the store is left.
        unsafe { raw::ts_file_close(self.file) }
    }
}
