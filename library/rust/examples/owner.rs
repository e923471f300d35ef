//! One store and several threads: `owner FOLDER`, a folder that is there. One thread opens the store and makes
//! all of its calls; the others send it what they want, and with each request where the answer goes.
use std::sync::mpsc::{Receiver, Sender, channel};
use std::thread;
use timestore::{Result, Store};

/// A commit of one record that a thread waits for.
struct Request {
    record: u64,
    answer: Sender<Result<Option<u64>>>,
}

/// Answers all requests, until no thread can send one any more.
fn own(folder: &str, requests: Receiver<Request>) -> Result<()> {
    let store = Store::open(folder)?;
    for Request { record, answer } in requests {
        let mut txn = store.begin()?;
        txn.put(1, record, &[b"a"])?;
        // A thread that has gone away needs no answer.
        let _ = answer.send(txn.commit(0, 0));
    }
    Ok(())
}

/// Commits a record; its time.
fn commit(owner: &Sender<Request>, record: u64) -> u64 {
    let (answer, answered) = channel();
    owner
        .send(Request { record, answer })
        .expect("the owner takes requests");
    let committed = answered.recv().expect("the owner answers");
    committed
        .expect("the commit is published")
        .expect("something was written")
}

fn main() -> Result<()> {
    let folder = std::env::args().nth(1).expect("a folder");
    timestore::format(&folder, 1024)?;
    thread::scope(|scope| {
        let (owner, requests) = channel();
        let folder = &folder;
        let owning = scope.spawn(move || own(folder, requests));
        let others: Vec<_> = (0..4)
            .map(|number| {
                let owner = owner.clone();
                scope.spawn(move || (0..25).map(|n| commit(&owner, 25 * number + n)).max())
            })
            .collect();
        let last = others
            .into_iter()
            .filter_map(|it| it.join().expect("a thread ended well"))
            .max();
        println!(
            "4 threads, 100 commits, the last one at {}",
            last.expect("there were commits")
        );
        drop(owner);
        owning.join().expect("the owner ended well")
    })
}
