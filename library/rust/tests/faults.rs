//! Calls of the system that go wrong: with the library of library/tests/faults.c preloaded, which run.sh does. Without
//! it these tests say that they test nothing.
use std::error::Error as _;
use std::ffi::{CStr, c_char, c_int, c_void};
use std::io;
use std::path::PathBuf;
use timestore::{Area, Cause, Error, Step, Store};

const EIO: c_int = 5;
const ENOSPC: c_int = 28;

unsafe extern "C" {
    fn dlsym(handle: *mut c_void, name: *const c_char) -> *mut c_void;
    fn fork() -> c_int;
    fn waitpid(child: c_int, state: *mut c_int, options: c_int) -> c_int;
    fn _exit(state: c_int) -> !;
}

// A function of the library that is preloaded.
fn preloaded(name: &CStr) -> Option<*mut c_void> {
    // SAFETY: the null handle is that of all that is loaded; the name ends in zero.
    let found = unsafe { dlsym(std::ptr::null_mut(), name.as_ptr()) };
    if found.is_null() {
        eprintln!("tests nothing: {name:?} is not preloaded");
        return None;
    }
    Some(found)
}

// The write or sync of this number from now on is refused on this thread; whether it can be.
fn refuse(call: u64, number: c_int) -> bool {
    let Some(found) = preloaded(c"faults_refuse") else {
        return false;
    };
    // SAFETY: faults.h declares it so.
    let refuse: extern "C" fn(u64, c_int) = unsafe { std::mem::transmute(found) };
    refuse(call, number);
    true
}

fn refuse_reads(number: c_int) -> bool {
    let Some(found) = preloaded(c"faults_refuse_reads") else {
        return false;
    };
    // SAFETY: faults.h declares it so.
    let refuse: extern "C" fn(c_int) = unsafe { std::mem::transmute(found) };
    refuse(number);
    true
}

fn refuse_memory(growth: u64) -> bool {
    let Some(found) = preloaded(c"faults_refuse_memory") else {
        return false;
    };
    // SAFETY: faults.h declares it so.
    let refuse: extern "C" fn(u64) = unsafe { std::mem::transmute(found) };
    refuse(growth);
    true
}

// A new store with a commit at 10.
fn new_store(name: &str) -> (PathBuf, Store) {
    let path = std::env::temp_dir().join(format!("timestore-{}-{name}", std::process::id()));
    std::fs::create_dir(&path).unwrap();
    timestore::format(&path, 1024).unwrap();
    let store = Store::open(&path).unwrap();
    store
        .transact(1, 10, 1, |txn| txn.put(1, 7, &[b"kept"]))
        .unwrap();
    (path, store)
}

fn lose(store: &Store) -> Error {
    let mut txn = store.begin().unwrap();
    txn.put(1, 7, &[b"lost"]).unwrap();
    txn.commit(1, 20).unwrap_err()
}

fn is_of(cause: &Cause, call: &str, area: Area, number: c_int) -> bool {
    cause.call == call && cause.area == Some(area) && cause.error.raw_os_error() == Some(number)
}

#[test]
fn a_refused_call_is_told_with_its_cause() {
    for (call, name, area, number) in [
        (1, "pwrite", Area::Heap, ENOSPC),
        (2, "fdatasync", Area::Heap, EIO),
        (6, "fdatasync", Area::Status, EIO),
    ] {
        let (path, store) = new_store(&format!("refused-{call}"));
        if !refuse(call, number) {
            return;
        }
        let why = lose(&store);
        assert!(
            matches!(&why, Error::InDoubt(Some(cause)) if is_of(cause, name, area, number)),
            "{why:?}"
        );
        let source = why
            .source()
            .and_then(|it| it.downcast_ref::<io::Error>())
            .unwrap();
        assert_eq!(source.raw_os_error(), Some(number));
        assert_eq!(store.last().unwrap(), 10);
        assert_eq!(store.get(1, 7).unwrap(), Some(vec![b"kept".to_vec()]));
        let why = store.begin().unwrap_err();
        assert!(
            matches!(&why, Error::Failed(Some(cause)) if is_of(cause, name, area, number)),
            "{why:?}"
        );
        drop(store);
        let last = Store::open(&path).unwrap().last().unwrap();
        assert!(last == 10 || last == 20, "{last}");
    }
}

// A reclaim whose slot is in the writing: a commit then waits for its end, and has memory to build.
fn begin_reclaim(store: &Store) {
    store.put(1, 7, &[b"ends"], 0).unwrap();
    let last = store.put(1, 7, &[b"stands"], 0).unwrap();
    store.archive(last).unwrap();
    store.reclaim_start().unwrap();
    while store.job_pump().unwrap() != Step::BodyWritten {}
}

// A commit whose growth of memory of this number is refused; how often it waited. None once so many are not made.
fn commit_in_need(store: &Store, growth: u64) -> Option<u32> {
    let mut txn = store.begin().unwrap();
    txn.put(1, 7, &[b"in need"]).unwrap();
    refuse_memory(growth);
    let answer = txn.commit(1, 0);
    refuse_memory(0);
    match answer {
        Ok(time) => {
            assert_eq!(time, Some(store.last().unwrap()));
            None
        }
        Err(Error::Waiting(waiting)) => {
            let ticket = store.ticket(waiting);
            assert_eq!(ticket.redeem().unwrap(), None);
            store.flush().unwrap();
            assert_eq!(ticket.redeem().unwrap(), Some(store.last().unwrap()));
            Some(1)
        }
        Err(Error::NoMemory | Error::InDoubt(None)) => Some(0),
        Err(why) => panic!("{why:?}"),
    }
}

#[test]
fn a_commit_that_waits_gives_its_ticket_back() {
    if !refuse_memory(0) {
        return;
    }
    let (path, store) = new_store("waiting");
    drop(store);
    let mut waited = 0;
    for growth in 1.. {
        let store = Store::open(&path).unwrap();
        begin_reclaim(&store);
        match commit_in_need(&store, growth) {
            Some(times) => waited += times,
            None => break,
        }
    }
    assert!(waited > 0);
}

#[test]
fn a_refused_read_is_an_error() {
    let (path, store) = new_store("reads");
    store.archive(10).unwrap();
    store
        .transact(1, 20, 1, |txn| txn.put(1, 7, &[b"later"]))
        .unwrap();
    store.archive(20).unwrap();
    store.reclaim().unwrap();
    let view = store.view().unwrap();
    if !refuse_reads(EIO) {
        return;
    }
    let why = view.at(1, 7, 10).unwrap_err();
    assert!(
        matches!(&why, Error::System(cause) if is_of(cause, "pread", Area::Archive, EIO)),
        "{why:?}"
    );
    assert!(matches!(view.between(1, 7, 0, 11), Err(Error::System(_))));
    assert_eq!(view.at(1, 7, 20).unwrap(), Some(vec![b"later".to_vec()]));
    refuse_reads(0);
    assert_eq!(view.at(1, 7, 10).unwrap(), Some(vec![b"kept".to_vec()]));
    drop(view);
    drop(store);
    refuse_reads(EIO);
    let why = Store::open(&path).unwrap_err();
    assert!(
        matches!(&why, Error::System(cause) if is_of(cause, "pread", Area::Status, EIO)),
        "{why:?}"
    );
    refuse_reads(0);
}

#[test]
fn a_child_has_no_store() {
    let (path, store) = new_store("fork");
    // SAFETY: the child makes a few calls of this thread's own, and ends without running what others began.
    let child = unsafe { fork() };
    if child == 0 {
        let is_closed = matches!(store.begin().map(|_| ()), Err(Error::Closed))
            && matches!(store.flush(), Err(Error::Closed))
            && matches!(Store::open(&path).map(|_| ()), Err(Error::Locked));
        drop(store);
        // SAFETY: it ends the child.
        unsafe { _exit(if is_closed { 0 } else { 1 }) }
    }
    let mut state = -1;
    // SAFETY: the child is this process's own.
    assert_eq!(unsafe { waitpid(child, &mut state, 0) }, child);
    assert_eq!(state, 0);
    assert!(matches!(Store::open(&path), Err(Error::AlreadyOpen)));
    assert_eq!(store.get(1, 7).unwrap(), Some(vec![b"kept".to_vec()]));
    drop(store);
    assert_eq!(Store::open(&path).unwrap().last().unwrap(), 10);
}
