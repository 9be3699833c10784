use crate::error::Error;
use colock_sys as sys;
use std::cell::UnsafeCell;

/// A handle of the library, which is closed where it is dropped.
///
/// The cell keeps it from being shared between threads: each call of the library has a handle to itself.
pub(crate) struct Handle(UnsafeCell<sys::Handle>);

// SAFETY: that what a handle holds may go to another thread is proved in crates/colock_c (`slot_crosses`).
unsafe impl Send for Handle {}

impl Handle {
    /// A handle behind which `put` puts something.
    pub(crate) fn made(put: impl FnOnce(*mut sys::Handle) -> u32) -> Result<Handle, (u32, Handle)> {
        let handle = Handle(UnsafeCell::new(sys::Handle::EMPTY));
        match put(handle.at()) {
            sys::code::OK => Ok(handle),
            code => Err((code, handle)),
        }
    }

    /// Where it is, for a call of the library.
    ///
    /// The pointer is there, aligned and apart from all others, and no other call has it: none calls back.
    #[inline]
    pub(crate) fn at(&self) -> *mut sys::Handle {
        self.0.get()
    }
}

impl Drop for Handle {
    fn drop(&mut self) {
        // SAFETY: a handle as `at` says. For one that holds nothing a code is returned.
        unsafe { sys::colock_close(self.at()) };
    }
}

/// The error of a code.
#[inline]
pub(crate) fn done(code: u32) -> Result<(), Error> {
    match code {
        sys::code::OK => Ok(()),
        code => Err(Error::of_code(code)),
    }
}
