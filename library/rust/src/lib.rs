//! A store of records that keeps every version, in files of a folder and in this process.
//!
//! ```
//! # fn main() -> timestore::Result<()> {
//! # let folder = std::env::temp_dir().join(format!("timestore-doc-{}", std::process::id()));
//! # std::fs::create_dir(&folder).unwrap();
//! timestore::format(&folder, 1024)?; // a folder that is there
//! let store = timestore::Store::open(&folder)?;
//! let first = store.put(1, 7, &[b"a"], 9)?;
//! let mut txn = store.begin()?;
//! txn.put(1, 7, &[b"b"])?;
//! txn.commit(9, timestore::When::Now)?;
//! assert_eq!(store.get(1, 7)?, Some(vec![b"b".to_vec()]));
//! assert_eq!(store.view()?.at(1, 7, first)?, Some(vec![b"a".to_vec()]));
//! # drop(store);
//! # std::fs::remove_dir_all(&folder).unwrap();
//! # Ok(())
//! # }
//! ```
//!
//! A record is named by its relation and its number; a value is a list of 1 to 16 fields of at most 255
//! bytes; a time is microseconds since 1970 ([`micros`], [`moment`]). A [`Store`] stays on the thread that
//! opened it, a [`SharedStore`] is for any thread. In the child of a fork their calls answer
//! [`Error::Closed`]:
//!
//! ```compile_fail
//! fn sent<T: Send>() {}
//! sent::<timestore::Store>();
//! ```

mod calls;
mod error;
mod raw;
mod rows;
pub mod shared;
mod store;
mod txn;
mod view;

pub use error::{Area, Cause, Error, WaitingTicket};
pub use rows::{Records, Row, Rows};
pub use shared::SharedStore;
pub use store::{Step, Store, format, format_endless};
pub use txn::{Ticket, Txn};
pub use view::View;

use std::ffi::CStr;
use std::time::{Duration, SystemTime, UNIX_EPOCH};

/// What a call gives.
pub type Result<T> = std::result::Result<T, Error>;

/// The fields of a value.
pub type Fields = Vec<Vec<u8>>;

/// The time that a commit is to have. Where it is not after the last commit, it comes a microsecond after it.
#[derive(Clone, Copy, Debug, Default, PartialEq, Eq)]
pub enum When {
    /// That of the system's clock.
    #[default]
    Now,
    /// This one, in microseconds since 1970.
    At(u64),
}

impl When {
    fn micros(self) -> u64 {
        match self {
            When::Now => micros(SystemTime::now()).unwrap_or_default(),
            When::At(time) => time,
        }
    }
}

impl From<u64> for When {
    fn from(time: u64) -> When {
        When::At(time)
    }
}

/// The version of the library that is linked.
pub fn library_version() -> &'static str {
    // SAFETY: the version is a string that ends in zero and stays.
    let version = unsafe { CStr::from_ptr(raw::timestore_version()) };
    version.to_str().unwrap_or_default()
}

/// Microseconds since 1970 of a time; none before that.
pub fn micros(time: SystemTime) -> Option<u64> {
    let since = time.duration_since(UNIX_EPOCH).ok()?;
    u64::try_from(since.as_micros()).ok()
}

/// The time of so many microseconds since 1970.
pub fn moment(time: u64) -> SystemTime {
    UNIX_EPOCH + Duration::from_micros(time)
}

fn spelled(fields: &[&[u8]]) -> Result<Vec<u8>> {
    if fields.is_empty() || fields.len() > 16 || fields.iter().any(|field| field.len() > 255) {
        return Err(Error::BadValue);
    }
    let mut value = vec![fields.len() as u8];
    for field in fields {
        value.push(field.len() as u8);
        value.extend_from_slice(field);
    }
    Ok(value)
}

fn fields_of(value: &[u8]) -> Fields {
    let mut rest = &value[1..];
    (0..value[0])
        .map(|_| {
            let (field, behind) = rest[1..].split_at(rest[0] as usize);
            rest = behind;
            field.to_vec()
        })
        .collect()
}
