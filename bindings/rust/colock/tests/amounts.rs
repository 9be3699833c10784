//! Calls with any amount, and a value that is read, at a number in escrow; in memory and over a child.

#[macro_use]
mod common;

use colock::{Error, Event, Kind, OperationId, SharedStore, Store, Type};
use common::{lines, number, until_asleep, Make, Telling, Told, LONG};
use std::thread;

/// A purse, of which any amount is taken and given, 100 by a line of its own, and what is in it is told.
const PURSE: &str = "number purse\nmax 10000\ninitial 500\ntake 100\ntake any\ngive any\nvalue\nend\n";

const TAKE_100: OperationId = OperationId::listed(0);

const fn take(amount: u32) -> OperationId {
    OperationId::with(2, amount)
}

const fn short(amount: u32) -> OperationId {
    OperationId::with(3, amount)
}

const fn give(amount: u32) -> OperationId {
    OperationId::with(4, amount)
}

const fn full(amount: u32) -> OperationId {
    OperationId::with(5, amount)
}

const fn value(amount: u32) -> OperationId {
    OperationId::with(6, amount)
}

fn purse() -> Type {
    Type::read(PURSE, Kind::Escrow).unwrap()
}

fn done(operation: OperationId) -> Result<Told, Error> {
    Ok(Told::Operation(operation))
}

over_both![
    any_amount_is_taken_and_given,
    these_are_no_calls,
    a_value_waits_for_an_open_give,
    a_give_waits_for_who_has_read_the_value,
    calls_are_made_by_number,
];

/// 500 - 17 + 3 = 486, and without the 100 that are taken by a line of their own 386.
fn any_amount_is_taken_and_given(make: Make) {
    let store = make(&[&purse()]);
    let mut t = store.begin().unwrap();
    assert_eq!((t.call(0, "take:17").told(), t.call(0, "give:3").told(), t.would(0, "value").told()), (done(take(17)), done(give(3)), done(value(486))));
    assert_eq!((t.call(0, "value").told(), t.call(0, "take:100").told(), t.call(0, "value").told()), (done(value(486)), done(TAKE_100), done(value(386))));
    assert_eq!((t.call(0, "take:387").told(), t.call(0, "give:9615").told()), (done(short(387)), done(full(9615))));
    assert_eq!(store.kept(0), Ok(500));
    t.commit().unwrap();
    assert_eq!(store.kept(0), Ok(386));
    let told =
        ["begin 0 0", "op 0 0 0 2 17", "op 0 0 0 4 3", "op 0 0 0 6 486", "op 0 0 0 0", "op 0 0 0 6 386", "op 0 0 0 3 387", "op 0 0 0 5 9615", "commit 0 0"];
    assert_eq!(lines(&store, 0), told);
    assert_eq!(store.events(1).unwrap()[0], Event::Operation { worker: 0, transaction: 0, object: 0, operation: take(17) });
}

fn these_are_no_calls(make: Make) {
    let store = make(&[&purse()]);
    let mut t = store.begin().unwrap();
    for name in ["take:0", "take:007", "take:10001", "take:4294967313", "take:any", "take:", "take", "take:+7", "give:any", "value:500", "500", ""] {
        assert_eq!((t.call(0, name), t.would(0, name)), (Err(Error::NoCall), Err(Error::NoCall)), "{name}");
        assert_eq!(store.call_number(0, name), Err(Error::NoCall), "{name}");
    }
    // the place alone, an amount that is listed, a second operation, a value that isn't 0, and more than there may be
    let listed = [2, 6, 7, 255].map(OperationId::listed);
    for call in listed.into_iter().chain([take(100), short(17), value(1), take(10_001), take(0), OperationId::with(0, 100), OperationId::with(255, u32::MAX)]) {
        assert_eq!((t.call_op(0, call), t.would_op(0, call)), (Err(Error::NoCall), Err(Error::NoCall)), "{call:?}");
    }
    assert_eq!((t.call_op(1, take(17)), t.call(1, "take:17")), (Err(Error::NoObject), Err(Error::NoObject)));
    assert_eq!(store.event_count(), Ok(1));
}

fn calls_are_made_by_number(make: Make) {
    let store = make(&[&purse()]);
    let number = |name| store.call_number(0, name).unwrap();
    assert_eq!(["take:17", "take:100", "give:10000", "value"].map(number), [take(17), TAKE_100, give(10_000), value(0)]);
    let mut t = store.begin().unwrap();
    assert_eq!((t.call_op(0, take(17)).told(), t.would_op(0, give(3)).told(), t.call_op(0, give(3)).told()), (done(take(17)), done(give(3)), done(give(3))));
    assert_eq!((t.call_op(0, value(0)).told(), t.call_op_within(0, 0, LONG).told()), (done(value(486)), done(TAKE_100)));
    assert_eq!(t.call(0, "value").told(), done(value(386)));
    t.commit().unwrap();
}

/// A value is read where nobody else may move the number. A take is done beside the give.
fn a_value_waits_for_an_open_give(make: Make) {
    let store = make(&[&purse()]);
    let (mut first, mut second) = (store.begin().unwrap(), store.begin().unwrap());
    assert_eq!(first.call(0, "give:3").told(), done(give(3)));
    assert_eq!((second.call(0, "value").told(), second.would(0, "value").told()), (Ok(Told::Busy { blocker: 0 }), Ok(Told::Busy { blocker: 0 })));
    assert_eq!(second.call(0, "take:17").told(), done(take(17)));
    thread::scope(|scope| {
        let waiter = scope.spawn(move || (second.call_within(0, "value", LONG).told(), second.commit()));
        until_asleep(&store, 1);
        first.commit().unwrap();
        assert_eq!(waiter.join().unwrap(), (done(value(486)), Ok(())));
    });
    assert_eq!(store.kept(0), Ok(486));
    let busy = Event::Busy { worker: 0, transaction: 1, object: 0, call: 6, blocker: 0 };
    assert!(store.events(0).unwrap().contains(&busy));
}

/// Who has read a value keeps it until the end. Who comes later doesn't overtake an older give that waits for it.
fn a_give_waits_for_who_has_read_the_value(make: Make) {
    let store = make(&[&purse()]);
    let (mut reader, mut giver, mut third) = (store.begin().unwrap(), store.begin().unwrap(), store.begin().unwrap());
    assert_eq!((reader.call(0, "value").told(), number(&reader), number(&giver), number(&third)), (done(value(500)), 0, 1, 2));
    thread::scope(|scope| {
        let waiter = scope.spawn(move || (giver.call_within(0, "give:1", LONG).told(), giver.commit()));
        until_asleep(&store, 1);
        // another value would be read beside the first, and keep the give out longer
        assert_eq!((third.call(0, "value").told(), third.call(0, "take:501").told()), (Ok(Told::Busy { blocker: 1 }), Ok(Told::Busy { blocker: 1 })));
        reader.commit().unwrap();
        assert_eq!(waiter.join().unwrap(), (done(give(1)), Ok(())));
    });
    assert_eq!((third.call(0, "take:501").told(), third.call(0, "value").told()), (done(take(501)), done(value(0))));
    third.commit().unwrap();
    assert_eq!(store.kept(0), Ok(0));
}

#[test]
fn a_type_has_operations_with_amounts() {
    let purse = purse();
    let names = |operation: OperationId| (purse.call_name(operation).unwrap(), purse.reply_name(operation).unwrap());
    let named = |call: &str, reply: &str| (call.to_string(), reply.to_string());
    assert_eq!((purse.states(), purse.initial(), purse.operations()), (10_001, 500, 7));
    assert_eq!((names(TAKE_100), names(OperationId::listed(3))), (named("take:100", "ok"), named("take:any", "short")));
    assert_eq!((names(take(17)), names(short(17)), names(full(10_000))), (named("take:17", "ok"), named("take:17", "short"), named("give:10000", "full")));
    assert_eq!((names(OperationId::listed(6)), names(value(0)), names(value(10_000))), (named("value", "n"), named("value", "0"), named("value", "10000")));
    for none in [OperationId::listed(7), take(0), take(10_001), value(10_001), OperationId::with(7, 1), OperationId::with(255, u32::MAX)] {
        assert_eq!((purse.call_name(none), purse.reply_name(none)), (Err(Error::NoOperation), Err(Error::NoOperation)), "{none:?}");
    }
    let steps = [(500, take(17)), (17, take(17)), (16, take(17)), (16, short(17)), (9998, give(3)), (9998, full(3)), (486, value(486)), (485, value(486))];
    let to = [Some(483), Some(0), None, Some(16), None, Some(9998), Some(486), None];
    assert_eq!(steps.map(|(state, operation)| purse.step(state, operation)), to.map(Ok));
    assert_eq!((purse.step(500, 2), purse.step(500, take(10_001)), purse.step(500, take(100))), (Err(Error::NoOperation), Err(Error::NoOperation), Ok(None)));
    assert_eq!((purse.conflicts(2, 6), purse.conflicts(take(17), 0)), (Ok(false), Err(Error::NoOperation)));
}

#[test]
fn operations_with_amounts_are_found_by_name() {
    let purse = purse();
    let found = |call: &str, reply: &str| purse.operation(call, reply);
    assert_eq!((found("take:17", "ok"), found("take:17", "short"), found("give:3", "full")), (Ok(take(17)), Ok(short(17)), Ok(full(3))));
    assert_eq!((found("take:100", "ok"), found("value", "0"), found("value", "486")), (Ok(TAKE_100), Ok(value(0)), Ok(value(486))));
    for (call, reply) in
        [("take:any", "ok"), ("take:0", "ok"), ("take:007", "ok"), ("take:17", "full"), ("value", "n"), ("value", "10001"), ("value", "07"), ("", "")]
    {
        assert_eq!(found(call, reply), Err(Error::NoOperation), "{call} {reply}");
    }
}

/// What was done with its amounts another purse does again; and not what isn't legal, or an operation without its amount.
#[test]
fn events_with_amounts_are_followed() {
    let (purse, follow) = (purse(), |store: &Store, operation| store.follow(&[Event::Operation { worker: 0, transaction: 1, object: 0, operation }]));
    let (store, other) = (Store::new([&purse], 100).unwrap(), Store::new([&purse], 100).unwrap());
    let mut t = store.begin().unwrap();
    assert_eq!((t.call(0, "take:17").told(), t.call(0, "give:3").told(), t.call(0, "value").told()), (done(take(17)), done(give(3)), done(value(486))));
    t.commit().unwrap();
    let events = store.events(0).unwrap();
    assert_eq!((other.follow(&events), other.events(0).as_ref(), other.kept(0)), (Ok(()), Ok(&events), Ok(486)));
    other.begin().unwrap().leave();
    for illegal in [take(487), value(487), take(100), take(0), OperationId::listed(2), OperationId::listed(6)] {
        let told = follow(&other, illegal).unwrap_err();
        assert_eq!((told.made, told.error), (0, Error::NotMade), "{illegal:?}");
    }
    assert_eq!((follow(&other, take(486)), other.event_count()), (Ok(()), 7));
}

#[test]
fn a_purse_is_shared_by_threads() {
    let store = SharedStore::new([&purse()], 1_000_000).unwrap();
    thread::scope(|scope| {
        for worker in 1..=8_u32 {
            let store = &store;
            scope.spawn(move || {
                for _ in 0..50 {
                    let mut t = store.begin().unwrap();
                    t.call_within(0, &format!("give:{worker}"), LONG).unwrap().expected("ok").unwrap();
                    t.commit().unwrap();
                }
            });
        }
    });
    // 50 times 1 + 2 + .. + 8
    assert_eq!(store.kept(0), Ok(500 + 50 * 36));
}
