//! The crate's calls.
use std::ops::Bound;
use std::path::PathBuf;
use timestore::{Area, Error, Row, Step, Store, When};

fn folder(name: &str) -> PathBuf {
    let path = std::env::temp_dir().join(format!("timestore-{}-{name}", std::process::id()));
    std::fs::create_dir(&path).unwrap();
    path
}

// A new store whose log lies in the heap, of 64 extents.
fn new_log_in_the_heap(name: &str) -> PathBuf {
    let path = folder(name);
    timestore::format_endless(&path, 64).unwrap();
    path
}

#[test]
fn a_store_whose_log_lies_in_the_heap_is_made() {
    let path = folder("format-endless");
    for extents in [0, 48, 63, 72, 1_048_592, u32::MAX] {
        let made = timestore::format_endless(&path, extents);
        assert!(matches!(made, Err(Error::BadSlots)));
    }
    assert_eq!(std::fs::read_dir(&path).unwrap().count(), 0);
    let nowhere = timestore::format_endless(path.join("nowhere"), 64);
    assert!(matches!(nowhere, Err(Error::System(_))));
    timestore::format_endless(&path, 64).unwrap();
    let mut header = [0; 512];
    header[..8].copy_from_slice(b"NOOVER01");
    (header[8], header[12], header[20]) = (4, 64, 1); // the profile, and where its log begins
    for (file, bytes) in [
        ("status", &header[..]),
        ("heap", &[0; 8192][..]),
        ("archive", &[][..]),
    ] {
        assert_eq!(std::fs::read(path.join(file)).unwrap(), bytes);
    }
    let again = timestore::format_endless(&path, 64);
    assert!(matches!(again, Err(Error::Occupied)));
    assert!(matches!(timestore::format(&path, 64), Err(Error::Occupied)));
    let store = Store::open(&path).unwrap();
    store.put(1, 7, &[b"a"], 9).unwrap();
    assert_eq!(store.get(1, 7).unwrap(), Some(vec![b"a".to_vec()]));
    let open = timestore::format_endless(&path, 64);
    assert!(matches!(open, Err(Error::AlreadyOpen)));
    assert!(matches!(store.grow(), Err(Error::NotGrowable)));
}

#[test]
fn commits_are_read() {
    let path = folder("read");
    timestore::format(&path, 64).unwrap();
    assert!(matches!(timestore::format(&path, 64), Err(Error::Occupied)));
    {
        let store = Store::open(&path).unwrap();
        assert!(matches!(Store::open(&path), Err(Error::AlreadyOpen)));
        let mut txn = store.begin().unwrap();
        for record in 0..100 {
            txn.put(1, record, &[&[record as u8; 200], b""]).unwrap();
        }
        assert_eq!(txn.scan(1).unwrap().count(), 100);
        assert!(matches!(txn.put(1, 1, &[]), Err(Error::BadValue)));
        assert!(matches!(txn.delete(1, 100), Err(Error::Missing)));
        let ticket = txn.submit(3, 50).unwrap().unwrap();
        assert_eq!(ticket.redeem().unwrap(), None);
        store.flush().unwrap();
        assert_eq!(ticket.redeem().unwrap(), Some(50));
        assert!(matches!(ticket.redeem(), Err(Error::Unknown)));
        assert_eq!(store.begin().unwrap().commit(1, 1).unwrap(), None);
    }
    let store = Store::open(&path).unwrap();
    let view = store.view().unwrap();
    assert_eq!(view.at(1, 5, 50).unwrap(), Some(vec![vec![5; 200], vec![]]));
    assert_eq!(view.at(1, 5, 49).unwrap(), None);
    assert_eq!(view.scan_at(1, 50).unwrap().count(), 100);
    let rows: Vec<Row> = view.scan_between(1, 0, 51).unwrap().collect();
    assert_eq!(
        (rows.len(), rows[99].record, rows[99].from, rows[99].upto),
        (100, 99, 50, 51)
    );
    assert!(
        view.between(1, 7, 0, 51)
            .unwrap()
            .eq(rows[7..8].iter().cloned())
    );
    assert_eq!(store.times_of(3).unwrap(), [50]);
    assert!(matches!(view.at(1, 5, 51), Err(Error::NotYet(50))));
}

#[test]
fn an_archive_is_read_where_it_is_needed() {
    let path = folder("archive");
    timestore::format(&path, 64).unwrap();
    let store = Store::open(&path).unwrap();
    store
        .transact(1, 10, 1, |txn| txn.put(1, 7, &[b"kept"]))
        .unwrap();
    store.archive(10).unwrap();
    store.reclaim().unwrap();
    assert!(matches!(store.reclaim(), Err(Error::NothingToDo)));
    let view = store.view().unwrap();
    assert!(matches!(view.recent(1, 7, 9), Err(Error::NeedsArchive)));
    assert_eq!(view.recent(1, 7, 10).unwrap(), Some(vec![b"kept".to_vec()]));
    assert_eq!(view.at(1, 7, 9).unwrap(), None);
    assert_eq!(view.scan_at(1, 9).unwrap().count(), 0);
    assert!(matches!(store.raise_floor(10), Err(Error::WrongProfile)));
    assert!(matches!(store.floor_of(1, 11), Err(Error::NotYet(10))));
    store.floor_of(1, 10).unwrap();
    assert_eq!(store.floor().unwrap(), 0);
    assert!(matches!(store.floor_of(1, 10), Err(Error::NothingToDo)));
    let later = store.view().unwrap();
    assert!(matches!(later.at(1, 7, 9), Err(Error::BeforeKept(10))));
    assert!(matches!(later.scan_at(1, 9), Err(Error::BeforeKept(10))));
    assert_eq!(view.at(1, 7, 9).unwrap(), None);
    assert_eq!(later.at(2, 7, 9).unwrap(), None);
    store.grow().unwrap();
}

// What stood when, whatever is archived and reclaimed.
fn has_all(store: &Store) {
    let view = store.view().unwrap();
    for (time, text) in [(100, b"a"), (199, b"a"), (200, b"b"), (300, b"c")] {
        assert_eq!(view.at(1, 7, time).unwrap(), Some(vec![text.to_vec()]));
    }
    assert_eq!(view.at(1, 7, 99).unwrap(), None);
    assert_eq!(store.times_of(9).unwrap(), [100, 200, 300]);
    assert!(store.times_of(8).unwrap().is_empty());
}

#[test]
fn a_log_in_the_heap_is_archived_and_reclaimed() {
    let path = new_log_in_the_heap("endless");
    {
        let store = Store::open(&path).unwrap();
        for (time, text) in [(100u64, b"a"), (200, b"b"), (300, b"c")] {
            store
                .transact(9, time, 1, |txn| txn.put(1, 7, &[text]))
                .unwrap();
        }
        assert!(matches!(store.reclaim(), Err(Error::NothingToDo)));
        store.archive(200).unwrap();
        store.reclaim_start().unwrap();
        assert!(matches!(store.reclaim_start(), Err(Error::JobBusy)));
        for step in [
            Step::KeptWritten,
            Step::KeptWritten,
            Step::KeptSynced,
            Step::RollWritten,
            Step::RollSynced,
            Step::RootWritten,
            Step::RootSynced,
            Step::TurnWritten,
            Step::Published(0),
            Step::Idle,
        ] {
            assert_eq!(store.job_pump().unwrap(), step);
        }
        assert!(matches!(store.reclaim(), Err(Error::NothingToDo)));
        has_all(&store);
    }
    let store = Store::open(&path).unwrap();
    has_all(&store);
    store.archive(300).unwrap();
    store.reclaim().unwrap();
    has_all(&store);
}

#[test]
fn what_stands_now_is_one_call() {
    let path = folder("now");
    timestore::format(&path, 64).unwrap();
    let store = Store::open(&path).unwrap();
    assert_eq!(store.get(1, 7).unwrap(), None);
    let before = timestore::micros(std::time::SystemTime::now()).unwrap();
    let first = store.put(1, 7, &[b"a", b""], 3).unwrap();
    assert!(
        first >= before && first - before < 60_000_000,
        "{first} {before}"
    );
    assert_eq!(store.get(1, 7).unwrap(), Some(vec![b"a".to_vec(), vec![]]));
    let view = store.view().unwrap();
    assert_eq!(view.last(), first);
    let second = store.put(1, 8, &[b"b"], 3).unwrap();
    assert!(second > first);
    assert_eq!(view.get(1, 8).unwrap(), None);
    assert_eq!(
        view.scan(1)
            .unwrap()
            .map(|(record, _)| record)
            .collect::<Vec<_>>(),
        [7]
    );
    assert_eq!(
        store
            .scan(1)
            .unwrap()
            .map(|(record, _)| record)
            .collect::<Vec<_>>(),
        [7, 8]
    );
    store.delete(1, 7, 4).unwrap();
    assert_eq!(store.get(1, 7).unwrap(), None);
    assert!(matches!(store.delete(1, 7, 4), Err(Error::Missing)));
    assert!(matches!(store.put(1, 7, &[], 4), Err(Error::BadValue)));
    assert_eq!(store.times_of(3).unwrap(), [first, second]);
    assert_eq!(timestore::library_version(), env!("CARGO_PKG_VERSION"));
}

// The number in a record, one more.
fn count(txn: &mut timestore::Txn<'_>) -> timestore::Result<u8> {
    let count = txn.get(1, 7)?.map_or(0, |fields| fields[0][0]) + 1;
    txn.put(1, 7, &[&[count]])?;
    Ok(count)
}

#[test]
fn a_transaction_is_made_again_where_others_were_ahead() {
    let path = folder("again");
    timestore::format(&path, 256).unwrap();
    let store = Store::open(&path).unwrap();
    let mut ahead = 3;
    let (counted, time) = store
        .transact(1, When::Now, 4, |txn| {
            let counted = count(txn)?;
            if ahead > 0 {
                ahead -= 1;
                store.transact(1, When::Now, 1, count)?;
            }
            Ok(counted)
        })
        .unwrap();
    assert_eq!((counted, time), (4, Some(store.last().unwrap())));
    let mut calls = 0;
    let beaten = store.transact(1, When::Now, 3, |txn| {
        calls += 1;
        count(txn)?;
        store.transact(1, When::Now, 1, count)
    });
    assert!(matches!(
        beaten,
        Err(Error::Conflict {
            relation: 1,
            record: 7
        })
    ));
    assert_eq!((calls, store.get(1, 7).unwrap()), (3, Some(vec![vec![7]])));
    let given_up = store.transact(1, When::Now, 3, |txn| {
        count(txn)?;
        Err::<(), _>(Error::Missing)
    });
    assert!(matches!(given_up, Err(Error::Missing)));
    assert_eq!(store.get(1, 7).unwrap(), Some(vec![vec![7]]));
    assert_eq!(store.transact(1, 0, 1, |_| Ok(())).unwrap(), ((), None));
}

#[test]
fn rows_are_made_as_they_are_taken() {
    let path = folder("rows");
    timestore::format(&path, 64).unwrap();
    let store = Store::open(&path).unwrap();
    store
        .transact(1, 10, 1, |txn| {
            (0..300).try_for_each(|record| txn.put(1, record, &[&[record as u8; 200]]))
        })
        .unwrap();
    let view = store.view().unwrap();
    // Two at once, of which the second one is asked while the first one is taken.
    let mut first = view.scan_at(1, 10).unwrap();
    assert_eq!(first.next(), Some((0, vec![vec![0; 200]])));
    let mut second = view.scan_between(1, 0, 11).unwrap();
    assert_eq!(
        second.next().map(|row| (row.record, row.from, row.upto)),
        Some((0, 10, 11))
    );
    for record in 1..300 {
        let wanted = vec![vec![record as u8; 200]];
        assert_eq!(first.next(), Some((record, wanted.clone())));
        assert_eq!(second.next().map(|row| row.fields), Some(wanted));
    }
    assert_eq!((first.next(), second.next()), (None, None));
}

#[test]
fn ranges_of_records() {
    let path = folder("ranges");
    timestore::format(&path, 64).unwrap();
    let store = Store::open(&path).unwrap();
    let mut txn = store.begin().unwrap();
    for record in (0..600).step_by(2).chain([u64::MAX]) {
        txn.put(1, record, &[&[record as u8; 200]]).unwrap();
    }
    assert_eq!(txn.range(1, 100..=104).unwrap().count(), 3);
    txn.commit(1, 10).unwrap();
    let view = store.view().unwrap();
    let has = |found: Vec<u64>, wanted: &[u64]| assert_eq!(found, wanted);
    let at = |records: (Bound<u64>, Bound<u64>)| -> Vec<u64> {
        let found = view.range_at(1, records, 10).unwrap();
        let rows = view.range_between(1, records, 0, 11).unwrap();
        let found: Vec<u64> = found.map(|it| it.0).collect();
        assert!(rows.map(|row| row.record).eq(found.iter().copied()));
        found
    };
    has(
        at((Bound::Included(100), Bound::Included(104))),
        &[100, 102, 104],
    );
    has(at((Bound::Excluded(100), Bound::Excluded(104))), &[102]);
    has(
        at((Bound::Included(598), Bound::Unbounded)),
        &[598, u64::MAX],
    );
    has(at((Bound::Excluded(598), Bound::Excluded(u64::MAX))), &[]);
    has(at((Bound::Excluded(u64::MAX), Bound::Unbounded)), &[]);
    has(at((Bound::Unbounded, Bound::Excluded(0))), &[]);
    has(at((Bound::Unbounded, Bound::Included(0))), &[0]);
    has(at((Bound::Included(9), Bound::Included(7))), &[]);
    assert_eq!(at((Bound::Unbounded, Bound::Unbounded)).len(), 301);
    // Goes on where an earlier one was left.
    let mut last = None;
    let mut all = 0;
    loop {
        let from = last.map_or(Bound::Unbounded, Bound::Excluded);
        let block: Vec<_> = view
            .range_at(1, (from, Bound::Unbounded), 10)
            .unwrap()
            .take(7)
            .collect();
        let Some((record, _)) = block.last() else {
            break;
        };
        last = Some(*record);
        all += block.len();
    }
    assert_eq!(all, 301);
    assert!(matches!(view.range_at(1, 5..5, 11), Err(Error::NotYet(10))));
}

#[test]
fn damage_is_named() {
    let path = folder("damaged");
    timestore::format(&path, 64).unwrap();
    let store = Store::open(&path).unwrap();
    store.put(1, 7, &[b"a"], 0).unwrap();
    drop(store);
    std::fs::write(path.join("heap"), b"").unwrap();
    let why = Store::open(&path).unwrap_err();
    assert!(matches!(
        why,
        Error::Damaged {
            area: Area::Heap,
            ..
        }
    ));
    assert!(why.to_string().starts_with("damaged heap "), "{why}");
    let why = Store::open(path.join("nowhere")).unwrap_err();
    let cause = why.cause().expect("the system refused a call");
    assert_eq!((cause.call, cause.area), ("open", None));
    assert_eq!(cause.error.kind(), std::io::ErrorKind::NotFound);
}
