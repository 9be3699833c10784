//! Objects that are named.

mod common;

use colock::{Error, Kind, Limits, NewObject, Object, SharedStore, Store, Type};
use common::{counter, LONG};
use std::collections::BTreeMap;
use std::iter::once;
use std::thread;

/// That a store has no object of this name.
fn nobody(name: &str) -> Error {
    Error::NoObjectNamed(name.to_string())
}

/// That another object has this name.
fn taken<T>(name: &str) -> Result<T, Error> {
    Err(Error::NameTaken(name.to_string()))
}

#[test]
fn a_name_has_a_shape() {
    let counter = counter();
    let refused = |name: &str| Store::new([(name, &counter)], 9).err();
    let longest = "x".repeat(64);
    for name in ["a", "A12", "row_1/seat-2", "a:b.c", ".", "/", "-", "0", longest.as_str()] {
        assert_eq!(refused(name), None, "{name}");
    }
    let too_long = "x".repeat(65);
    for name in ["", " ", "A 1", "a\n", "a\0", "ä", "a,b", "@a", "a+b", "x\u{301}", too_long.as_str()] {
        assert_eq!(refused(name), Some(Error::BadName(name.to_string())), "{name}");
    }
    assert_eq!(Error::BadName("A 1".to_string()).to_string(), "\"A 1\" is no name of an object");
}

#[test]
fn no_name_is_there_twice() {
    let counter = counter();
    assert_eq!(Store::new([("a", &counter), ("b", &counter), ("a", &counter)], 9).map(drop), taken("a"));
    assert_eq!(SharedStore::new([("a", &counter), ("a", &counter)], 9).map(drop), taken("a"));
    let mut store = Store::new([("a", &counter), ("A", &counter)], 9).unwrap();
    assert_eq!((store.extend([("b", &counter), ("a", &counter)]), store.types().len()), (taken("a"), 2));
    assert_eq!((store.extend([("b", &counter), ("b", &counter)]), store.find("b")), (taken("b"), Err(nobody("b"))));
    assert_eq!((store.extend([("b", &counter)]), store.extend([("b", &counter)])), (Ok(2), taken("b")));
    assert_eq!(Error::NameTaken("b".to_string()).to_string(), "two objects have the name b");
    // the first of two that are wrong
    assert_eq!(store.extend([("a", &counter), ("", &counter)]), taken("a"));
    assert_eq!(store.extend([("", &counter), ("a", &counter)]), Err(Error::BadName(String::new())));
}

/// An extension that is refused takes no name.
#[test]
fn names_stay_free() {
    let counter = counter();
    let store = SharedStore::with_limits([("a", &counter)], Limits { objects: 2, ..Limits::STANDARD }).unwrap();
    let t = store.begin().unwrap();
    assert_eq!((store.extend([("b", &counter)]), store.find("b")), (Err(Error::StillOpen), Err(nobody("b"))));
    t.abort().unwrap();
    assert_eq!(store.extend([("b", &counter), ("c", &counter)]), Err(Error::TooManyObjects));
    assert_eq!((store.extend([("b", &counter)]), store.find("b"), store.find("c")), (Ok(1), Ok(1), Err(nobody("c"))));
}

#[test]
fn lists_are_mixed() {
    let (counter, seats) = (counter(), Type::seats(1, Kind::Undo).unwrap());
    let name = String::from("c");
    let objects = [NewObject::from(&counter), ("a", &seats).into(), (String::from("b"), &counter).into(), (&name, &seats).into()];
    let mut store = Store::new(objects.clone(), 9).unwrap();
    assert_eq!([0, 1, 2, 3, 4].map(|x| store.name_of(x)), [None, Some("a"), Some("b"), Some("c"), None]);
    assert_eq!(store.types().iter().map(Type::name).collect::<Vec<_>>(), ["counter", "seats", "counter", "seats"]);
    assert_eq!(store.extend([(None, &counter), (Some("d"), &seats)]), Ok(4));
    assert_eq!((store.name_of(4), store.name_of(5), store.find("d")), (None, Some("d"), Ok(5)));
    let by_name: BTreeMap<String, Type> = ["y", "x"].map(|name| (name.to_string(), counter.clone())).into();
    let shared = SharedStore::new(&by_name, 9).unwrap();
    assert_eq!((shared.find("x"), shared.find("y"), shared.name_of(1)), (Ok(0), Ok(1), Some("y")));
}

/// Each call takes a name, and says which isn't there.
#[test]
fn a_call_takes_a_name() {
    let store = Store::new([("a", &counter()), ("b", &counter())], 100).unwrap();
    let up = store.call_number("b", "inc:1").unwrap();
    let mut t = store.begin().unwrap();
    t.call("b", "inc:1").unwrap().expected("ok").unwrap();
    t.call_op(&String::from("a"), up).unwrap().expected("ok").unwrap();
    t.expect(Object::Name("b"), "inc:1", "ok").unwrap();
    t.expect_op(Object::Number(0), up, "ok").unwrap();
    assert!(t.would("a", "dec:1").unwrap().is("ok") && t.would_op("a", 1).unwrap().is("ok"));
    let none = [t.call("c", "inc:1").err(), t.call_op("c", up).err(), t.would("c", "inc:1").err(), t.would_op("c", up).err()];
    assert!(none.iter().all(|error| *error == Some(nobody("c"))));
    assert_eq!((t.expect("c", "inc:1", "ok"), t.expect_op("c", up, "ok")), (Err(nobody("c")), Err(nobody("c"))));
    t.commit().unwrap();
    assert_eq!((store.kept("a"), store.kept("b"), store.kept("c"), store.kept("1")), (Ok(2), Ok(2), Err(nobody("c")), Err(nobody("1"))));
    assert_eq!((store.call_number("c", "inc:1"), store.type_of("c").err()), (Err(nobody("c")), Some(nobody("c"))));
    assert_eq!(store.events(1).unwrap()[0].to_string(), "op 0 0 1 0");
    assert_eq!(nobody("c").to_string(), "the store has no object \"c\"");
}

#[test]
fn a_call_of_a_shared_store_takes_a_name() {
    let store = SharedStore::new([("a", &counter()), ("b", &counter())], 100).unwrap();
    let up = store.call_number("b", "inc:1").unwrap();
    let down = store.call_number("b", "dec:1").unwrap();
    let mut t = store.begin().unwrap();
    t.call("b", "inc:1").unwrap().expected("ok").unwrap();
    t.call_op("b", down).unwrap().expected("ok").unwrap();
    t.expect("b", "inc:1", "ok").unwrap();
    t.expect_op("b", down, "ok").unwrap();
    t.call_within("b", "inc:1", LONG).unwrap().expected("ok").unwrap();
    t.call_op_within("b", down, LONG).unwrap().expected("ok").unwrap();
    t.expect_within("b", "inc:1", "ok", LONG).unwrap();
    assert!(t.would("b", "dec:1").unwrap().is("ok") && t.would_op("b", up).unwrap().is("ok"));
    let none = [t.call("c", "x"), t.call_op("c", up), t.call_within("c", "x", LONG), t.call_op_within("c", up, LONG), t.would("c", "x"), t.would_op("c", up)];
    assert!(none.iter().all(|told| *told == Err(nobody("c"))));
    let none = [t.expect("c", "x", "ok"), t.expect_op("c", up, "ok"), t.expect_within("c", "x", "ok", LONG)];
    assert!(none.iter().all(|told| *told == Err(nobody("c"))));
    t.commit().unwrap();
    let told = store.transact(|turn| {
        turn.call("a", "inc:1")?.expected("ok")?;
        turn.call_op("a", down)?.expected("ok")?;
        turn.expect("a", "inc:1", "ok")?;
        turn.expect_op("a", up, "ok")?;
        assert!(turn.would("a", "dec:1")?.is("ok") && turn.would_op("a", down)?.is("ok"));
        let none = [turn.call("c", "x"), turn.call_op("c", up), turn.would("c", "x"), turn.would_op("c", up)];
        assert!(none.iter().all(|told| *told == Err(nobody("c"))));
        assert_eq!((turn.expect("c", "x", "ok"), turn.expect_op("c", up, "ok")), (Err(nobody("c")), Err(nobody("c"))));
        store.find("b")
    });
    assert_eq!((told, store.kept("a"), store.kept("b"), store.kept("c")), (Ok(1), Ok(2), Ok(1), Err(nobody("c"))));
    assert_eq!((store.call_number("c", "inc:1"), store.type_of("b").is_ok(), store.type_of("c").err()), (Err(nobody("c")), true, Some(nobody("c"))));
    assert!(!nobody("c").is_retryable());
}

/// A hall of 40 rows of 75 seats, and a balcony that is added.
#[test]
fn a_hall_of_named_seats() {
    let seat = Type::seats(1, Kind::Undo).unwrap();
    let hall: Vec<String> = (1..=40).flat_map(|row| (1..=75).map(move |seat| format!("R{row}-{seat}"))).collect();
    let store = SharedStore::with_limits(hall.iter().map(|name| (name, &seat)), Limits { objects: 4_000, ..Limits::STANDARD }).unwrap();
    thread::scope(|scope| {
        for part in hall.chunks(750) {
            let store = &store;
            scope.spawn(move || {
                for name in part {
                    store.transact(|turn| turn.expect(name, "hold:1", "ok")).unwrap();
                }
            });
        }
    });
    assert!(hall.iter().zip(0..).all(|(name, x)| store.find(name) == Ok(x) && store.name_of(x) == Some(name) && store.kept(name) == Ok(1)));
    let balcony: Vec<String> = (1..=1000).map(|seat| format!("B{seat}")).collect();
    assert_eq!(store.extend(balcony.iter().map(|name| (name, &seat))), Ok(3_000));
    for (name, x) in balcony.iter().zip(3_000..) {
        assert_eq!((store.find(name), store.name_of(x), store.kept(name)), (Ok(x), Some(name.as_str()), Ok(0)));
    }
    store.transact(|turn| turn.expect("B1000", "hold:1", "ok")).unwrap();
    assert_eq!((store.kept(3_999), store.kept("R1-1"), store.find("B1001")), (Ok(1), Ok(1), Err(nobody("B1001"))));
    assert_eq!(store.extend(once(("B1001", &seat))), Err(Error::TooManyObjects));
}
