//! Calls a second from Rust: `bench FOLDER COMMITS QUERIES`, a folder that is there and empty.
use std::time::Instant;
use timestore::{Result, Store};

fn rate(what: &str, count: u64, start: Instant) {
    println!(
        "{what:58} {:12.0} /s",
        count as f64 / start.elapsed().as_secs_f64()
    );
}

fn commits(store: &Store, count: u64) -> Result<()> {
    let start = Instant::now();
    for number in 0..count {
        let mut txn = store.begin()?;
        txn.put(1, number, &[b"abcdefgh"])?;
        txn.commit(number, 0)?;
    }
    rate("Rust: commits a second, one at a time", count, start);
    Ok(())
}

fn queries(store: &Store, count: u64, records: u64) -> Result<()> {
    let last = store.last()?;
    let start = Instant::now();
    for number in 0..count {
        store.view()?.at(1, number % records, last)?;
    }
    rate("Rust: point queries a second, a view each", count, start);
    let (view, start) = (store.view()?, Instant::now());
    for number in 0..count {
        view.at(1, number % records, last)?;
    }
    rate("Rust: point queries a second, on one view", count, start);
    Ok(())
}

fn main() -> Result<()> {
    let words: Vec<String> = std::env::args().skip(1).collect();
    let [folder, commit_count, query_count] = &words[..] else {
        panic!("bench FOLDER COMMITS QUERIES");
    };
    let number = |word: &str| word.parse::<u64>().expect("a number");
    timestore::format(folder, 65_536)?;
    let store = Store::open(folder)?;
    commits(&store, number(commit_count))?;
    queries(
        &store,
        number(query_count),
        number(commit_count).clamp(1, 200),
    )
}
