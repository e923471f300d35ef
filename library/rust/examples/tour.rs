//! The tour: `tour FOLDER`, a folder that is there.
use timestore::{Error, Result, Store, Txn, When};

/// Adds one to the number in a record. Where another transaction is ahead, it is called again.
fn count(txn: &mut Txn<'_>) -> Result<()> {
    let count = txn.get(1, 8)?.map_or(0, |fields| fields[0][0]) + 1;
    txn.put(1, 8, &[&[count]])
}

fn main() -> Result<()> {
    let folder = std::env::args().nth(1).expect("a folder");
    timestore::format(&folder, 1024)?;
    let store = Store::open(&folder)?;
    let mut txn = store.begin()?;
    println!("snapshot {}", txn.snapshot());
    txn.put(1, 7, &[b"a"])?;
    let time = txn.commit(9, 100)?.expect("something was written");
    println!("done {time}");
    let view = store.view()?;
    println!("at 100: {:?}", view.at(1, 7, 100)?);
    match view.at(1, 7, 101) {
        Err(Error::NotYet(last)) => println!("refused: not yet {last}"),
        other => panic!("{other:?}"),
    }
    for row in view.between(1, 7, 0, 101)? {
        println!("{} {} {:?}", row.from, row.upto, row.fields);
    }
    // Two transactions that wrote the same record: the first one wins.
    let (mut first, mut second) = (store.begin()?, store.begin()?);
    first.put(1, 7, &[b"b"])?;
    second.put(1, 7, &[b"c"])?;
    first.commit(9, 110)?;
    match second.commit(9, 111) {
        Err(why @ Error::Conflict { .. }) => println!("refused: {why}"),
        other => panic!("{other:?}"),
    }
    println!("the view still answers: {:?}", view.at(1, 7, 100)?);
    println!("times of 9: {:?}", store.times_of(9)?);
    for _ in 0..3 {
        store.transact(10, When::Now, 10, count)?;
    }
    println!("counted {:?}", store.get(1, 8)?);
    Ok(())
}
