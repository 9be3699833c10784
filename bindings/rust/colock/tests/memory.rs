//! What is dropped gives its memory back. The test is alone in its process.

mod common;

use colock::{Kind, Store, Type};
use common::{Telling, Told};

/// How much memory the process has.
fn resident() -> i64 {
    let pages = std::fs::read_to_string("/proc/self/statm").unwrap();
    pages.split(' ').nth(1).unwrap().parse::<i64>().unwrap() * 4096
}

#[test]
fn memory_comes_back() {
    let use_some = || {
        for _ in 0..200 {
            let account = Type::account(20, &[1, 2, 3, 4, 5], Kind::Undo).unwrap();
            let store = Store::new([&account; 50], 1_000_000).unwrap();
            assert_eq!(store.begin().unwrap().call(0, "deposit:1").told(), Ok(Told::Operation(0.into())));
        }
    };
    use_some();
    let before = resident();
    (0..5).for_each(|_| use_some());
    assert!(resident() - before < 4_000_000, "{} bytes more", resident() - before);
}
