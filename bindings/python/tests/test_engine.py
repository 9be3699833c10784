"""The engine of waiting by the schedules of bindings/schedules, rule by rule, and how much work a hand-over is.

A schedule is a line of prose, then the calls that there are, then which ones each keeps out, then events. After `->`
are the decisions that must come of an event, or the answer to a question; none where there is no `->`. A transaction
is said with its number, its age, the object and the call.
"""
import glob
import os
import random
import sys
import unittest

from colock._decisions import Abort, Ask, Asker, End, OnlookerFree, Verdict, Wake
from colock._edges import Edge
from colock._engine import Engine

FOLDER = os.path.join(os.path.dirname(os.path.abspath(__file__)), "..", "..", "schedules")


class Schedule:
    """A schedule that is followed."""

    def __init__(self, text):
        self.prose, *self.lines = text.split("\n")
        self.calls, self.blocks, self.engine = [], set(), None

    def read(self, words):
        """Reads a line that isn't an event, and returns whether it is one."""
        if words[0] == "calls":
            self.calls += words[1:]
        elif words[0] == "blocks":
            call = self.calls.index(words[1].rstrip(":"))
            self.blocks |= {(call, self.calls.index(other)) for other in words[2:]}
        return words[0] in ("calls", "blocks")

    def asker(self, number, age, x, call):
        return Asker(int(number), int(age), int(x), self.calls.index(call))

    def told(self, what, *words):
        """Does an event, or answers a question."""
        if what == "gate":
            ahead = self.engine.gate(self.asker(*words))
            return "free" if ahead is None else f"behind {ahead}"
        if what == "edge":
            edge = self.engine.edge(int(words[0]))
            return "none" if edge is None else f"{'gate' if edge.by_gate else 'store'} {edge.to}"
        if what == "enter":
            self.engine.enter(self.asker(*words))
        elif what in ("ended", "took_back"):
            getattr(self.engine, what)(int(words[0]), set(map(int, words[1:])))
        else:
            id = getattr(self.engine, what)(*map(int, words))
            if id is not None:
                return f"onlooker {id}"
        return ", ".join(map(said, drained(self.engine)))

    def fault(self):
        """Where it comes out differently, if it does."""
        for line in self.lines:
            event, _, wanted = line.partition(" -> ")
            words = event.split()
            if self.read(words):
                continue
            self.engine = self.engine or Engine(lambda x, call, other: (call, other) in self.blocks)
            found = self.told(*words)
            if found != wanted:
                return f"{self.prose}\n  {line}\n  but: {found!r}"
        return None if self.engine else f"{self.prose}: no event"


def said(decision):
    """A decision in the words of a schedule."""
    if isinstance(decision, Ask):
        return f"ask {decision.asker.number}"
    if isinstance(decision, Abort):
        return f"abort {decision.number} for {decision.waited_for}"
    if isinstance(decision, End):
        return f"end {decision.number} {decision.verdict.value}"
    return f"wake {decision.number}" if isinstance(decision, Wake) else f"free {decision.id}"


def drained(engine):
    """What is to be done by now."""
    return list(iter(engine.next_decision, None))


class Schedules(unittest.TestCase):
    def test_they_come_out_as_written(self):
        texts = []
        for path in sorted(glob.glob(os.path.join(FOLDER, "*.txt"))):
            with open(path, encoding="utf-8") as file:
                texts += [text.strip() for text in file.read().split("\n\n") if text.strip()]
        self.assertGreaterEqual(len(texts), 30)
        faults = [fault for fault in (Schedule(text).fault() for text in texts) if fault]
        self.assertFalse(faults, "\n".join(faults))

    def test_one_that_comes_out_differently_is_told(self):
        text = "Wrong.\ncalls write\nblocks write: write\nenter 10 1 0 write -> ask 10\nbusy 10 90 -> wake 10"
        self.assertEqual(Schedule(text).fault(), "Wrong.\n  busy 10 90 -> wake 10\n  but: ''")
        self.assertEqual(Schedule("Nothing.\ncalls write").fault(), "Nothing.: no event")


UP, DOWN = 0, 1


def asker(age, call=DOWN, x=0):
    """A transaction whose number is ten times its age."""
    return Asker(age * 10, age, x, call)


class Rules(unittest.TestCase):
    """What no schedule says."""

    def setUp(self):
        # a call keeps out those of the other place, and a down another down too
        self.engine = Engine(lambda x, call, other: call != other or call == DOWN)

    def enter_behind(self, asker, blocker):
        """A call waits, and whom the store names is in its way."""
        self.engine.enter(asker)
        self.assertEqual(drained(self.engine), [Ask(asker)])
        self.engine.busy(asker.number, blocker)

    def test_what_is_answered_before_it_is_asked_for_isnt_asked_for(self):
        self.engine.enter(asker(1))
        self.engine.busy(10, 90)
        self.assertEqual((self.engine.edge(10), drained(self.engine)), (Edge(90, False), []))
        self.engine.ended(90, {0})
        self.engine.leave(10)
        self.assertEqual(drained(self.engine), [])

    def test_who_is_asked_for_twice_before_that_is_told_is_asked_for_once(self):
        self.engine.enter(asker(1))
        self.engine.again(10)
        self.assertEqual(drained(self.engine), [Ask(asker(1))])

    def test_one_that_has_ended_isnt_asked_for(self):
        self.engine.enter(asker(1))
        self.engine.ended(10, ())
        self.assertEqual((drained(self.engine), self.engine.is_empty()), ([End(10, Verdict.GONE)], True))

    def test_who_waits_with_another_call_waits_with_that_one_alone(self):
        self.enter_behind(asker(1), 90)
        self.engine.enter(asker(2))
        self.engine.enter(asker(1, UP, x=1))
        self.assertEqual(drained(self.engine), [Ask(asker(1, UP, x=1)), Ask(asker(2))])
        self.assertEqual(self.engine.gate(asker(3)), 20)

    def test_of_equal_ages_the_lesser_number_goes_first(self):
        self.enter_behind(asker(2), 90)
        self.assertEqual([self.engine.gate(Asker(number, 2, 0, DOWN)) for number in (21, 19)], [20, None])

    def test_without_the_gate_each_is_asked_for(self):
        self.engine.has_gate = False
        self.enter_behind(asker(1), 90)
        self.enter_behind(asker(2), 90)
        self.assertIsNone(self.engine.gate(asker(5)))
        self.engine.ended(90, {0})
        self.assertEqual(drained(self.engine), [Ask(asker(1)), Ask(asker(2))])

    def test_each_object_is_touched_by_itself(self):
        for age, x in ((1, 3), (2, 67), (3, 4)):
            self.enter_behind(asker(age, x=x), 90)
        self.engine.ended(70, {3, 5})
        self.assertEqual(drained(self.engine), [Ask(asker(1, x=3))])

    def test_an_end_is_no_more_work_where_many_objects_were_touched(self):
        for age, x in ((1, 3), (2, 67), (3, 4)):
            self.enter_behind(asker(age, x=x), 90)
        self.engine.took_back(70, range(4, 1 << 40))  # more than could be gone through
        self.assertEqual(drained(self.engine), [Ask(asker(2, x=67)), Ask(asker(3, x=4))])
        self.engine.ended(80, range(5, 1 << 40))
        self.assertEqual(drained(self.engine), [])

    def test_who_is_behind_its_own_lane_stays_there_when_an_older_one_of_others_leaves(self):
        self.enter_behind(asker(1, UP), 90)
        self.engine.enter(asker(2))
        self.engine.enter(asker(3))
        self.assertEqual(self.engine.gate(asker(3)), 10)
        self.engine.leave(10)
        self.assertEqual((drained(self.engine), self.engine.edge(30)), ([Ask(asker(2))], Edge(20, True)))

    def test_onlookers(self):
        for id in (self.engine.look_on(80), self.engine.look_on_any()):
            self.engine.look_away(id)
        self.assertTrue(self.engine.is_empty())
        id = self.engine.look_on(90)
        self.assertEqual((self.engine.is_empty(), self.engine.looks_on(id)), (False, True))
        self.engine.lost()
        self.assertEqual(drained(self.engine), [OnlookerFree(id)])
        self.assertEqual((self.engine.is_empty(), self.engine.looks_on(id)), (True, False))

    def test_nothing_is_left_of_those_that_waited(self):
        for age in (1, 2, 3, 5):
            self.engine.enter(asker(age, call=age % 2))
        self.engine.busy(20, 90)
        self.engine.ended(10, {0})
        for age in (2, 3, 5):
            self.engine.leave(age * 10)
        self.assertTrue(self.engine.is_empty() and self.engine.is_bare())


# A call of this place keeps out nobody, and nobody keeps it out.
FREE = 9


class Lock:
    """An object that one transaction at a time may have."""

    def __init__(self, askers):
        """A transaction has it, and others wait."""
        self.engine = Engine(lambda x, call, other: FREE not in (call, other))
        self.holder, self.asks, self.wakes = 0, 0, 0
        for one in askers:
            self.engine.enter(one)
            self.drain()

    def hand_over(self):
        """Whoever has it ends, and another one gets it."""
        gone, self.holder = self.holder, None
        self.engine.ended(gone, {0})
        self.drain()

    def drain(self):
        for decision in iter(self.engine.next_decision, None):
            if isinstance(decision, Ask):
                self.asks += 1
                self.answer(decision.asker.number)
            elif isinstance(decision, Wake) and self.holder is None:
                self.wakes += 1
                self.holder = decision.number
                self.engine.leave(decision.number)
            else:
                raise AssertionError(decision)

    def answer(self, number):
        if self.holder is None:
            self.engine.may_go(number)
        else:
            self.engine.busy(number, self.holder)

    def work(self, hand_overs):
        """How many are asked for, how many are woken, and how many functions are called in this many hand-overs."""
        self.asks = self.wakes = 0
        calls = calls_of(lambda: [self.hand_over() for _ in range(hand_overs)])
        return self.asks, self.wakes, calls


def calls_of(act):
    """How many functions something calls, those of C among them."""
    count = 0

    def note(frame, event, argument):
        nonlocal count
        count += event in ("call", "c_call")

    sys.setprofile(note)
    try:
        act()
    finally:
        sys.setprofile(None)
    return count


class Work(unittest.TestCase):
    """It isn't more where many wait."""

    def test_a_hand_over_asks_for_two_and_wakes_one(self):
        lock = Lock(asker(age) for age in range(1, 801))
        self.assertEqual((lock.asks, lock.wakes), (1, 0))  # all but the first are kept by the gate
        for _ in range(799):
            self.assertEqual(lock.work(1)[:2], (2, 1))
        self.assertEqual(lock.work(1)[0], 1)  # nobody is left to be asked for after it
        self.assertTrue(lock.engine.is_empty())

    def test_a_hand_over_is_as_much_work_where_many_wait(self):
        few, many = (Lock(asker(age) for age in range(1, count + 1)).work(8) for count in (10, 800))
        self.assertEqual(few, many)

    def test_no_hand_over_is_more_work_where_calls_are_different(self):
        draw, few = random.Random(1), self.most(10, lambda age: age % 8)
        for call in (lambda age: age % 2, lambda age: age % 8, lambda age: draw.randrange(8), lambda age: age // 16 % 8, lambda age: 1 < age < 400):
            # eight calls have eight heads, which are looked at
            self.assertLess(self.most(800, call), 1.5 * few)

    def most(self, count, call):
        """The most work that a hand-over is where this many wait with these calls, until nobody is left."""
        lock = Lock(asker(age, int(call(age))) for age in range(1, count + 1))
        works = [lock.work(1) for _ in range(count - 1)]
        self.assertEqual({work[:2] for work in works}, {(2, 1)})
        return max(work[2] for work in works)

    def test_each_that_came_out_of_order_is_put_behind_once(self):
        ages = list(range(1, 801))
        random.Random(2).shuffle(ages)
        few = Lock(map(asker, range(1, 11))).work(8)[2] / 8
        lock = Lock(map(asker, ages))
        self.assertLessEqual(lock.work(1)[0], 2)
        asks, wakes, calls = lock.work(700)
        self.assertEqual((asks, wakes), (1400, 700))
        self.assertLess(calls, 700 * 1.5 * few)
        # where each is older than those before it, all wait by the store, until the first hand-over
        lock = Lock(map(asker, range(800, 0, -1)))
        self.assertEqual((lock.asks, lock.work(1)[0]), (800, 2))
        self.assertLess(lock.work(700)[2], 700 * 1.5 * few)

    def test_what_others_ask_is_as_much_work_where_many_wait(self):
        few, many = (self.of_others(Lock(asker(age, age % 2) for age in range(1, count + 1))) for count in (10, 800))
        self.assertEqual(few, many)

    def of_others(self, lock):
        """The work for one that all wait for, who calls again, and for one that is kept by nobody."""
        again = calls_of(lambda: self.assertIsNone(lock.engine.gate(Asker(0, 900, 0, UP))))
        return again, calls_of(lambda: (lock.engine.enter(asker(900, FREE)), lock.engine.leave(9000)))


if __name__ == "__main__":
    unittest.main()
