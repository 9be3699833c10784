//! Each rule of waiting, by itself.

use crate::{Age, Asker, Class, Decision, Edge, Number, ObjectIndex, Touched, Verdict, Waiting};

const UP: Class = Class(0);
const DOWN: Class = Class(1);
const LOOK: Class = Class(2);

/// A call keeps out those of other classes; and a down another down too.
fn blocks(_: ObjectIndex, call: Class, other: Class) -> bool {
    call != other || call == DOWN
}

type Rules = Waiting<fn(ObjectIndex, Class, Class) -> bool>;

fn waiting() -> Rules {
    Waiting::new(blocks)
}

/// A transaction whose number is ten times its age, at object 0.
fn asker(age: u64, call: Class) -> Asker {
    Asker { number: Number(age * 10), age: Age(age), object: ObjectIndex(0), call }
}

fn touched(object: u32) -> Touched {
    Touched::from_iter([ObjectIndex(object)])
}

/// What is to be done by now.
fn drained(waiting: &mut Rules) -> Vec<Decision> {
    std::iter::from_fn(|| waiting.next_decision()).collect()
}

/// A call waits, and whom the store names is in its way.
fn enter_behind(waiting: &mut Rules, asker: Asker, blocker: u64) {
    waiting.enter(asker);
    assert_eq!(drained(waiting), [Decision::Ask(asker)]);
    waiting.busy(asker.number, Number(blocker));
}

/// A call waits by the gate.
fn enter_after(waiting: &mut Rules, asker: Asker, other: u64) {
    waiting.enter(asker);
    assert_eq!(waiting.edge(asker.number), by_gate(other));
    assert_eq!(drained(waiting), []);
}

fn by_gate(to: u64) -> Option<Edge> {
    Some(Edge { to: Number(to), by_gate: true })
}

fn by_store(to: u64) -> Option<Edge> {
    Some(Edge { to: Number(to), by_gate: false })
}

#[test]
fn who_may_go_is_woken_and_no_other_one() {
    let mut waiting = waiting();
    enter_behind(&mut waiting, asker(1, DOWN), 90);
    enter_after(&mut waiting, asker(2, DOWN), 10);
    enter_after(&mut waiting, asker(3, DOWN), 10);
    waiting.ended(Number(90), touched(0));
    assert_eq!(drained(&mut waiting), [Decision::Ask(asker(1, DOWN))]);
    waiting.may_go(Number(10));
    assert_eq!(drained(&mut waiting), [Decision::Wake(Number(10))]);
    waiting.leave(Number(10));
    assert_eq!(waiting.edge(Number(30)), by_gate(20));
    assert_eq!(drained(&mut waiting), [Decision::Ask(asker(2, DOWN))]);
}

#[test]
fn the_gate_puts_the_oldest_before_a_call_that_would_keep_it_out() {
    let mut waiting = waiting();
    enter_behind(&mut waiting, asker(4, DOWN), 90);
    enter_behind(&mut waiting, asker(3, DOWN), 90);
    enter_behind(&mut waiting, asker(2, UP), 90);
    let gate = |age, call| waiting.gate(asker(age, call)).map(|number| number.0);
    assert_eq!((gate(5, UP), gate(5, DOWN), gate(5, LOOK)), (Some(30), Some(20), Some(20)));
    assert_eq!((gate(2, UP), gate(1, DOWN)), (None, None)); // it is the oldest
    assert_eq!(waiting.gate(asker(9, UP)), None); // all wait for it
    assert_eq!(waiting.gate(Asker { object: ObjectIndex(1), ..asker(5, UP) }), None);
    waiting.take_gate_out();
    assert_eq!(waiting.gate(asker(5, UP)), None);
}

#[test]
fn the_youngest_of_a_circle_is_the_victim() {
    let mut waiting = waiting();
    let at = |age: u64| Asker { object: ObjectIndex(age as u32), ..asker(age, UP) };
    enter_behind(&mut waiting, at(1), 30);
    enter_behind(&mut waiting, at(3), 20);
    assert_eq!(drained(&mut waiting), []);
    enter_behind(&mut waiting, at(2), 10);
    assert_eq!(drained(&mut waiting), [Decision::Abort { number: Number(30), waited_for: Number(20) }]);
    assert_eq!([10, 20, 30].map(|number| waiting.edge(Number(number))), [by_store(30), by_store(10), None]);
    waiting.ended(Number(30), touched(1));
    assert_eq!(drained(&mut waiting), [Decision::Ask(at(1))]);
}

#[test]
fn what_ends_for_good_is_told() {
    let mut waiting = waiting();
    enter_behind(&mut waiting, asker(1, DOWN), 90);
    let id = waiting.look_on(Number(90));
    waiting.epoch_ended();
    assert_eq!(drained(&mut waiting), [Decision::End { number: Number(10), verdict: Verdict::EpochEnded }, Decision::OnlookerFree(id)]);
    assert!(waiting.is_empty() && !waiting.looks_on(id));
}

#[test]
fn what_is_answered_before_it_is_asked_for_is_not_asked_for() {
    let mut waiting = waiting();
    waiting.enter(asker(1, DOWN));
    waiting.busy(Number(10), Number(90));
    assert_eq!((waiting.edge(Number(10)), drained(&mut waiting)), (by_store(90), vec![]));
    waiting.ended(Number(90), touched(0));
    waiting.leave(Number(10));
    assert_eq!(drained(&mut waiting), []);
}

#[test]
fn who_is_asked_for_twice_before_that_is_told_is_asked_for_once() {
    let mut waiting = waiting();
    waiting.enter(asker(1, DOWN));
    waiting.again(Number(10));
    assert_eq!(drained(&mut waiting), [Decision::Ask(asker(1, DOWN))]);
}

#[test]
fn one_that_has_ended_is_not_asked_for() {
    let mut waiting = waiting();
    waiting.enter(asker(1, DOWN));
    waiting.ended(Number(10), Touched::default());
    assert_eq!(drained(&mut waiting), [Decision::End { number: Number(10), verdict: Verdict::Gone }]);
    assert!(waiting.is_empty());
}

#[test]
fn who_waits_with_another_call_waits_with_that_one_alone() {
    let mut waiting = waiting();
    enter_behind(&mut waiting, asker(1, DOWN), 90);
    enter_after(&mut waiting, asker(2, DOWN), 10);
    waiting.enter(Asker { object: ObjectIndex(1), ..asker(1, UP) });
    assert_eq!(drained(&mut waiting), [Decision::Ask(Asker { object: ObjectIndex(1), ..asker(1, UP) }), Decision::Ask(asker(2, DOWN))]);
    assert_eq!(waiting.gate(asker(3, DOWN)), Some(Number(20)));
}

#[test]
fn of_equal_ages_the_lesser_number_goes_first() {
    let mut waiting = waiting();
    enter_behind(&mut waiting, asker(2, DOWN), 90);
    let twin = Asker { number: Number(21), ..asker(2, DOWN) };
    let elder = Asker { number: Number(19), ..asker(2, DOWN) };
    assert_eq!((waiting.gate(twin), waiting.gate(elder)), (Some(Number(20)), None));
}

#[test]
fn without_the_gate_each_is_asked_for() {
    let mut waiting = waiting();
    waiting.take_gate_out();
    enter_behind(&mut waiting, asker(1, DOWN), 90);
    enter_behind(&mut waiting, asker(2, DOWN), 90);
    waiting.ended(Number(90), touched(0));
    assert_eq!(drained(&mut waiting), [Decision::Ask(asker(1, DOWN)), Decision::Ask(asker(2, DOWN))]);
}

#[test]
fn objects_that_share_a_place_are_touched_together() {
    let mut waiting = waiting();
    let at = |age, object| Asker { object: ObjectIndex(object), ..asker(age, DOWN) };
    enter_behind(&mut waiting, at(1, 3), 90);
    enter_behind(&mut waiting, at(2, 67), 90);
    enter_behind(&mut waiting, at(3, 4), 90);
    waiting.ended(Number(70), touched(3));
    assert_eq!(drained(&mut waiting), [Decision::Ask(at(1, 3)), Decision::Ask(at(2, 67))]);
}

#[test]
fn who_waits_by_the_gate_behind_its_own_lane_stays_there_when_an_older_one_of_others_leaves() {
    let mut waiting = waiting();
    enter_behind(&mut waiting, asker(1, UP), 90);
    enter_after(&mut waiting, asker(2, DOWN), 10);
    enter_after(&mut waiting, asker(3, DOWN), 20);
    assert_eq!(waiting.gate(asker(3, DOWN)), Some(Number(10)));
    waiting.leave(Number(10));
    assert_eq!(drained(&mut waiting), [Decision::Ask(asker(2, DOWN))]);
    assert_eq!(waiting.edge(Number(30)), by_gate(20));
}

#[test]
fn each_age_is_greater_than_those_before_it() {
    let mut waiting = waiting();
    let ages = [waiting.next_age(), waiting.next_age(), waiting.next_age()];
    assert!(Age(0) < ages[0] && ages[0] < ages[1] && ages[1] < ages[2]);
    waiting.lost();
    assert!(ages[2] < waiting.next_age());
}
