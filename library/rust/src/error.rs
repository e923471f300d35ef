//! Why calls are refused.
use crate::raw::{self, File, Info};
use std::ffi::{CStr, c_char};
use std::{fmt, io};

/// The refusals by their codes, first those that tell nothing besides it, then those that tell a time.
macro_rules! refusals {
    (
        $($(#[$plain_doc:meta])* $plain:ident = $plain_code:literal,)*;
        $($(#[$timed_doc:meta])* $timed:ident = $timed_code:literal,)*
    ) => {
        /// A call that was refused.
        #[derive(Debug)]
        #[non_exhaustive]
        pub enum Error {
            $($(#[$plain_doc])* $plain,)*
            $($(#[$timed_doc])* $timed(u64),)*
            /// Another commit wrote this key after the transaction began.
            Conflict {
                /// The relation of the key.
                relation: u16,
                /// The record of the key.
                record: u64,
            },
            /// The files are not what a stop can leave.
            Damaged {
                /// The file that breaks a rule.
                area: Area,
                /// Where: a slot, the first extent of a chain, or the first byte of what an archive wrote.
                place: u64,
            },
            /// Memory was refused amid a commit, which waits: a later flush publishes it, and
            /// [`Store::ticket`](crate::Store::ticket) makes a ticket of what is given back. Where threads share
            /// the store, [`SharedStore::resume`](crate::SharedStore::resume) goes on with it.
            Waiting(WaitingTicket),
            /// The device failed before the commit was published: opened again, the store has it or not.
            /// Without a cause memory was refused.
            InDoubt(Option<Cause>),
            /// A device call was refused, now or before; without a cause memory was.
            Failed(Option<Cause>),
            /// The system refused a call.
            System(Cause),
            /// The system keeps a part of a file in memory that the disk may lack, and it can't be compared.
            Cached(Cause),
            /// A code that this crate does not know.
            Other(i32),
        }

        impl Error {
            // The refusal of a code; `cause` tells which device call failed the store.
            pub(crate) fn of(code: i32, info: Info, cause: impl FnOnce() -> Option<Cause>) -> Error {
                match code {
                    $($plain_code => Error::$plain,)*
                    $($timed_code => Error::$timed(info.a),)*
                    CONFLICT => Error::Conflict { relation: info.a as u16, record: info.b },
                    DAMAGED => Error::Damaged { area: Area::of(info.b), place: info.a },
                    WAITING => Error::Waiting(WaitingTicket(info.a)),
                    IN_DOUBT => Error::InDoubt(cause()),
                    FAILED => Error::Failed(cause()),
                    SYSTEM => Error::System(Cause::last()),
                    CACHED => Error::Cached(Cause::last()),
                    code => Error::Other(code),
                }
            }

            pub(crate) fn code(&self) -> i32 {
                match self {
                    $(Error::$plain => $plain_code,)*
                    $(Error::$timed(_) => $timed_code,)*
                    Error::Conflict { .. } => CONFLICT,
                    Error::Damaged { .. } => DAMAGED,
                    Error::Waiting(_) => WAITING,
                    Error::InDoubt(_) => IN_DOUBT,
                    Error::Failed(_) => FAILED,
                    Error::System(_) => SYSTEM,
                    Error::Cached(_) => CACHED,
                    Error::Other(code) => *code,
                }
            }

            // The time that it tells.
            fn time(&self) -> Option<u64> {
                match self {
                    $(Error::$timed(time) => Some(*time),)*
                    _ => None,
                }
            }
        }
    };
}

pub(crate) const WAITING: i32 = 2;
pub(crate) const IN_DOUBT: i32 = 4;
const FAILED: i32 = -6;
const CONFLICT: i32 = -8;
const DAMAGED: i32 = -18;
const SYSTEM: i32 = -100;
const CACHED: i32 = -103;

refusals! {
    /// The store was its process's before a fork.
    Closed = -2,
    /// No such transaction, ticket or view.
    Unknown = -3,
    /// Memory was refused.
    NoMemory = -5,
    /// A transaction, ticket or view of another store.
    Stranger = -7,
    /// The records need more extents than are free, or an archive or a floor where there are no slots.
    HeapFull = -9,
    /// Too few slots of the status log are left.
    StatusFull = -10,
    /// No commit time is left.
    ClockEnd = -11,
    /// A delete of a record without a value.
    Missing = -12,
    /// A transaction writes at most 1,024 records.
    TooManyKeys = -13,
    /// A value has 1 to 16 fields of at most 255 bytes.
    BadValue = -14,
    /// An interval that ends where it begins, or before.
    EmptyInterval = -17,
    /// The folder has no store.
    NotAStore = -19,
    /// One slot is written at a time.
    Busy = -20,
    /// An archive, a reclaim, a floor or a growth is being made.
    JobBusy = -21,
    /// All versions that ended by then are archived, or all that is archived is reclaimed, or the floor
    /// is as late.
    NothingToDo = -22,
    /// The archive is full.
    ArchiveFull = -23,
    /// A store has 16 to 65,536 slots; one of the endless profile a multiple of 16 extents from 64 to 1,048,576.
    BadSlots = -24,
    /// The answer needs the archive.
    NeedsArchive = -26,
    /// This store has a floor for each relation, or one for all.
    WrongProfile = -27,
    /// The store would have more than 65,536 slots, it has none, or the first timestore made it.
    NotGrowable = -28,
    /// Another process has the store open.
    Locked = -101,
    /// A store, or something else, is there already.
    Occupied = -102,
    /// This process has the store open.
    AlreadyOpen = -104,
    ;
    /// History before this time, the floor of the relation, may be gone.
    BeforeKept = -15,
    /// The last commit is of this time: a later one may still change the answer.
    NotYet = -16,
    /// An open transaction reads at a time too early for the reclaim or the floor; the least such time is named.
    InUse = -25,
}

/// A commit that waits, as [`Error::Waiting`] gives it back: [`Store::ticket`](crate::Store::ticket).
#[derive(Debug, PartialEq, Eq)]
pub struct WaitingTicket(pub(crate) u64);

/// A call of the system that was refused.
#[derive(Debug)]
pub struct Cause {
    /// Its name, as `fdatasync`.
    pub call: &'static str,
    /// The file that it was about; none for the folder.
    pub area: Option<Area>,
    /// Why.
    pub error: io::Error,
}

// A text of the library, all of which end in zero and stay.
fn text_of(text: *const c_char) -> &'static str {
    // SAFETY: as above.
    unsafe { CStr::from_ptr(text) }.to_str().unwrap_or_default()
}

impl Cause {
    // What the system refused to a file, or for null last of all.
    pub(crate) fn of(file: *const File) -> Option<Cause> {
        // SAFETY: the file is open, or null.
        Cause::told(|cause| unsafe { raw::ts_file_error(file, cause) })
    }

    // What a call tells, if it tells something.
    pub(crate) fn told(tell: impl FnOnce(&mut raw::Cause) -> i32) -> Option<Cause> {
        let mut cause = raw::Cause::none();
        (tell(&mut cause) == 0).then(|| Cause {
            call: text_of(cause.call),
            area: Area::named(text_of(cause.file)),
            error: io::Error::from_raw_os_error(cause.number),
        })
    }

    // What the system refused last on this thread.
    fn last() -> Cause {
        Cause::of(std::ptr::null()).unwrap_or(Cause {
            call: "",
            area: None,
            error: io::Error::last_os_error(),
        })
    }
}

impl fmt::Display for Cause {
    fn fmt(&self, f: &mut fmt::Formatter<'_>) -> fmt::Result {
        let file = self.area.map_or("the folder", Area::name);
        write!(f, "{} of {file}: {}", self.call, self.error)
    }
}

/// One of a store's three files.
#[derive(Clone, Copy, Debug, PartialEq, Eq)]
pub enum Area {
    /// The log of commits.
    Status,
    /// The records of commits.
    Heap,
    /// What was archived.
    Archive,
}

impl Area {
    fn of(number: u64) -> Area {
        match number {
            0 => Area::Status,
            1 => Area::Heap,
            _ => Area::Archive,
        }
    }

    fn named(name: &str) -> Option<Area> {
        [Area::Status, Area::Heap, Area::Archive]
            .into_iter()
            .find(|area| area.name() == name)
    }

    fn name(self) -> &'static str {
        match self {
            Area::Status => "status",
            Area::Heap => "heap",
            Area::Archive => "archive",
        }
    }
}

impl Error {
    /// What the system refused, where that is why.
    pub fn cause(&self) -> Option<&Cause> {
        match self {
            Error::System(cause) | Error::Cached(cause) => Some(cause),
            Error::InDoubt(cause) | Error::Failed(cause) => cause.as_ref(),
            _ => None,
        }
    }
}

impl fmt::Display for Error {
    fn fmt(&self, f: &mut fmt::Formatter<'_>) -> fmt::Result {
        // SAFETY: it takes any number.
        let text = text_of(unsafe { raw::ts_text(self.code()) });
        match (self, self.time()) {
            (Error::Conflict { relation, record }, _) => write!(f, "{text} {relation} {record}"),
            (Error::Damaged { area, place }, _) => write!(f, "{text} {} {place}", area.name()),
            (Error::System(cause), _) => write!(f, "{cause}"),
            (_, Some(time)) => write!(f, "{text} {time}"),
            (_, None) => f.write_str(text),
        }
    }
}

impl std::error::Error for Error {
    fn source(&self) -> Option<&(dyn std::error::Error + 'static)> {
        self.cause()
            .map(|cause| &cause.error as &(dyn std::error::Error + 'static))
    }
}
