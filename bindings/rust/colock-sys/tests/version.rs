//! The library that is linked has the calls of this crate.

#[test]
fn the_versions_are_the_same() {
    // SAFETY: it takes nothing.
    assert_eq!(unsafe { colock_sys::colock_version() }, colock_sys::VERSION);
}
