//! The calls of libcolock, as `bindings/c/colock.h` has them, which says what each does and what its caller
//! owes. The crate `colock` has them in safe Rust.

mod calls;

pub use calls::*;

impl Handle {
    /// One that holds nothing.
    pub const EMPTY: Handle = Handle { live: false, at: std::ptr::null_mut() };
}
