//! A store that threads share.
use std::path::PathBuf;
use std::sync::atomic::{AtomicBool, Ordering};
use std::thread;
use std::time::Duration;
use timestore::shared::{Policy, Records, Rows, Txn, View};
use timestore::{Error, SharedStore, When};

fn new_store(name: &str) -> (PathBuf, SharedStore) {
    let path = std::env::temp_dir().join(format!("timestore-{}-shared-{name}", std::process::id()));
    std::fs::create_dir(&path).unwrap();
    timestore::format(&path, 1024).unwrap();
    let store = SharedStore::open(&path).unwrap();
    (path, store)
}

#[test]
fn all_may_go_to_another_thread() {
    fn sent<T: Send>() {}
    fn seen<T: Sync>() {}
    sent::<SharedStore>();
    seen::<SharedStore>();
    sent::<View>();
    seen::<View>();
    sent::<Txn>();
    seen::<Txn>();
    sent::<Rows>();
    sent::<Records>();
}

#[test]
fn each_call() {
    let (path, store) = new_store("calls");
    assert!(matches!(SharedStore::open(&path), Err(Error::AlreadyOpen)));
    assert_eq!(store.vacuumed().unwrap(), None);
    let first = store.put(1, 7, &[b"a"], 9).unwrap();
    let mut txn = store.begin().unwrap();
    assert_eq!(txn.snapshot(), first);
    txn.put(1, 7, &[b"b"]).unwrap();
    txn.put(1, 8, &[b"c", b""]).unwrap();
    assert_eq!(txn.get(1, 7).unwrap(), Some(vec![b"b".to_vec()]));
    assert_eq!(txn.scan(1).unwrap().count(), 2);
    assert_eq!(txn.range(1, 8..9).unwrap().count(), 1);
    assert!(matches!(txn.put(1, 7, &[]), Err(Error::BadValue)));
    assert_eq!(store.get(1, 7).unwrap(), Some(vec![b"a".to_vec()]));
    let second = txn.commit(9, When::Now).unwrap().unwrap();
    assert_eq!((store.last().unwrap(), store.floor().unwrap()), (second, 0));
    let view = store.view().unwrap();
    assert_eq!(view.last(), second);
    store.delete(1, 8, 0).unwrap();
    assert_eq!(
        store.scan(1).unwrap().map(|it| it.0).collect::<Vec<_>>(),
        [7]
    );
    assert_eq!(view.scan(1).unwrap().count(), 2);
    assert_eq!(view.range_at(1, 8.., second).unwrap().count(), 1);
    assert_eq!(
        view.range_between(1, ..8, first, second + 1)
            .unwrap()
            .count(),
        2
    );
    assert_eq!(view.at(1, 7, first).unwrap(), Some(vec![b"a".to_vec()]));
    assert_eq!(view.get(1, 8).unwrap(), Some(vec![b"c".to_vec(), vec![]]));
    let rows: Vec<_> = view
        .between(1, 7, first, second + 1)
        .unwrap()
        .map(|it| it.from)
        .collect();
    assert_eq!(rows, [first, second]);
    assert_eq!(view.scan_between(1, first, second + 1).unwrap().count(), 3);
    assert!(matches!(view.at(1, 7, second + 1), Err(Error::NotYet(_))));
    assert_eq!(store.times_of(9).unwrap(), [first, second]);
    assert_eq!(store.begin().unwrap().commit(0, When::Now).unwrap(), None);
    store.archive(second).unwrap();
    store.reclaim().unwrap();
    assert!(matches!(store.reclaim(), Err(Error::NothingToDo)));
    assert_eq!(
        store.view().unwrap().at(1, 7, first).unwrap(),
        Some(vec![b"a".to_vec()])
    );
    store.floor_of(1, second).unwrap();
    assert!(matches!(
        store.view().unwrap().at(1, 7, first),
        Err(Error::BeforeKept(_))
    ));
    assert!(matches!(
        store.raise_floor(second),
        Err(Error::WrongProfile)
    ));
    store.grow().unwrap();
    store.job().unwrap();
    let left = thread::spawn({
        let found = store.scan(1).unwrap();
        move || found.count()
    });
    store.close().unwrap();
    assert_eq!(left.join().unwrap(), 1);
    assert!(matches!(store.close(), Err(Error::Closed)));
    assert!(matches!(view.get(1, 7), Err(Error::Closed)));
    assert!(matches!(store.put(1, 7, &[b"a"], 0), Err(Error::Closed)));
}

#[test]
fn commits_of_many_threads() {
    let (path, store) = new_store("threads");
    let done = AtomicBool::new(false);
    thread::scope(|scope| {
        let reader = scope.spawn(|| {
            let mut asked = 0;
            while !done.load(Ordering::Relaxed) {
                let view = store.view().unwrap();
                let sum: u64 = view
                    .scan(2)
                    .unwrap()
                    .map(|(_, fields)| fields[0][0] as u64)
                    .sum();
                assert_eq!(
                    sum,
                    view.get(3, 0)
                        .unwrap()
                        .map_or(0, |fields| fields[0][0] as u64)
                );
                asked += 1;
            }
            asked
        });
        let writers: Vec<_> = (0..8u64)
            .map(|number| {
                let store = store.clone();
                scope.spawn(move || {
                    for _ in 0..20 {
                        // One more in a record of its own, and in that of the sum.
                        store
                            .transact(number, When::Now, 1000, |txn| {
                                let mine = txn.get(2, number)?.map_or(0, |fields| fields[0][0]);
                                let sum = txn.get(3, 0)?.map_or(0, |fields| fields[0][0]);
                                txn.put(2, number, &[&[mine + 1]])?;
                                txn.put(3, 0, &[&[sum + 1]])
                            })
                            .unwrap();
                    }
                })
            })
            .collect();
        for writer in writers {
            writer.join().unwrap();
        }
        done.store(true, Ordering::Relaxed);
        assert!(reader.join().unwrap() > 0);
    });
    drop(store);
    let store = timestore::Store::open(&path).unwrap();
    assert_eq!(store.get(3, 0).unwrap(), Some(vec![vec![160]]));
    assert!((0..8).all(|number| store.times_of(number).unwrap().len() == 20));
}

#[test]
fn what_one_thread_leaves_another_has() {
    let (_, store) = new_store("left");
    store.put(1, 7, &[b"a"], 0).unwrap();
    let mut txn = store.begin().unwrap();
    let view = store.view().unwrap();
    let time = thread::spawn(move || {
        assert_eq!(view.get(1, 7).unwrap(), Some(vec![b"a".to_vec()]));
        txn.put(1, 7, &[b"b"]).unwrap();
        txn.commit(0, When::Now).unwrap()
    })
    .join()
    .unwrap();
    assert_eq!(time, Some(store.last().unwrap()));
    // A thread that panics gives its transaction up.
    let other = store.clone();
    let panicked = thread::spawn(move || {
        let _txn = other.begin().unwrap();
        panic!("this thread ends, as it is to");
    });
    assert!(panicked.join().is_err());
    store.archive(store.last().unwrap()).unwrap();
    store.put(1, 7, &[b"c"], 0).unwrap();
    store.archive(store.last().unwrap()).unwrap();
    store.reclaim().unwrap();
    // The store is closed behind the last of what it gave out.
    let view = store.view().unwrap();
    drop(store);
    assert_eq!(view.get(1, 7).unwrap(), Some(vec![b"c".to_vec()]));
}

#[test]
fn a_vacuum_runs_by_policy() {
    let (_, store) = new_store("vacuum");
    let policy = Policy {
        every: Duration::from_millis(2),
        keep: Duration::from_micros(5),
        grows: true,
    };
    store.vacuum(policy).unwrap();
    assert!(matches!(store.vacuum(policy), Err(Error::Busy)));
    let first = store.put(1, 7, &[b"a"], 0).unwrap();
    while store.vacuumed().unwrap() < Some(2) {
        store.put(1, 7, &[b"b"], 0).unwrap();
        thread::sleep(Duration::from_millis(1));
    }
    assert_eq!(
        store.view().unwrap().at(1, 7, first).unwrap(),
        Some(vec![b"a".to_vec()])
    );
}
