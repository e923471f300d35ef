//! How calls are made of a store, that of one thread and that which threads share.
use crate::error::IN_DOUBT;
use crate::raw::{self, Info};
use crate::rows::Cursor;
use crate::{Cause, Error, Fields, Result, fields_of};
use std::ffi::CString;
use std::io;
use std::os::unix::ffi::OsStrExt;
use std::path::Path;

/// An open store.
pub(crate) trait Calls {
    /// What the library knows it by.
    type Raw;

    fn raw(&self) -> *mut Self::Raw;

    /// Which device call failed it.
    fn cause(&self) -> Option<Cause>;

    /// The code of an answer, or what a refusal is.
    fn asked(&self, code: i32, info: Info) -> Result<i32> {
        asked(code, info, || self.cause())
    }

    /// The code of a call, and what it tells.
    fn ask(&self, call: impl FnOnce(*mut Self::Raw, &mut Info) -> i32) -> Result<(i32, Info)> {
        let mut info = Info::default();
        let code = call(self.raw(), &mut info);
        Ok((self.asked(code, info)?, info))
    }

    /// A call of which only a refusal matters.
    fn make(&self, call: impl FnOnce(*mut Self::Raw, &mut Info) -> i32) -> Result<()> {
        self.ask(call)?;
        Ok(())
    }

    /// The value that a call copies out.
    fn read(
        &self,
        call: impl FnOnce(*mut Self::Raw, *mut u8, usize, &mut Info) -> i32,
    ) -> Result<Option<Fields>> {
        let (mut value, mut info) = ([0; raw::VALUE_MOST], Info::default());
        let code = call(self.raw(), value.as_mut_ptr(), value.len(), &mut info);
        let code = self.asked(code, info)?;
        Ok((code != raw::NONE).then(|| fields_of(&value[..info.a as usize])))
    }

    /// The cursor that a call makes.
    fn cursor(
        &self,
        call: impl FnOnce(*mut Self::Raw, &mut *mut raw::Cursor, &mut Info) -> i32,
    ) -> Result<Cursor> {
        let mut made = std::ptr::null_mut();
        self.ask(|h, info| call(h, &mut made, info))?;
        Ok(Cursor::of(made))
    }

    /// The times that a call writes, which is told how many there is room for.
    fn times(
        &self,
        mut call: impl FnMut(*mut Self::Raw, *mut u64, usize, &mut Info) -> i32,
    ) -> Result<Vec<u64>> {
        let mut times = vec![0; 16];
        loop {
            let mut info = Info::default();
            let code = call(self.raw(), times.as_mut_ptr(), times.len(), &mut info);
            if code != raw::SMALL {
                self.asked(code, info)?;
                times.truncate(info.a as usize);
                return Ok(times);
            }
            times.resize(info.a as usize, 0);
        }
    }
}

/// The code of an answer, or what a refusal is.
pub(crate) fn asked(code: i32, info: Info, cause: impl FnOnce() -> Option<Cause>) -> Result<i32> {
    if code < 0 || code == IN_DOUBT {
        return Err(Error::of(code, info, cause));
    }
    Ok(code)
}

/// What `once` gives, which is called again where another transaction was ahead in a record, so often at most.
pub(crate) fn attempted<T>(attempts: u32, mut once: impl FnMut() -> Result<T>) -> Result<T> {
    for _ in 1..attempts {
        match once() {
            Err(Error::Conflict { .. }) => {}
            answer => return answer,
        }
    }
    once()
}

/// The path of a folder, which has no byte that is zero.
pub(crate) fn path_of(folder: &Path) -> Result<CString> {
    CString::new(folder.as_os_str().as_bytes()).map_err(|why| {
        Error::System(Cause {
            call: "open",
            area: None,
            error: io::Error::new(io::ErrorKind::InvalidInput, why),
        })
    })
}
