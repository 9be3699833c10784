"""What holds of a store in memory and of one in a file: `retry` and `transact`."""
import math
import time
import unittest

from executed import Executed
import support
from support import LONG, TWO, Run, asleep

import colock
from colock import Busy, Type

TAKE, GIVE = Executed(0, "ok"), Executed(1, "ok")
COUNTER = Type.counter(2, [1])


class Retries:
    """`retry` and `transact`."""

    def test_a_value_and_a_commit(self):
        store = self.make([COUNTER])
        self.assertEqual(store.retry(lambda t: (t.call(0, "inc:1"), "value")[1]), "value")
        self.assertEqual(store.retry(lambda t: (t.call(0, "inc:1"), t.abort(), "gone")[2]), "gone")
        self.assertEqual(store.retry(lambda t: t.commit()), None)
        self.assertEqual((store.kept(0), store.open_count(), store.stats().commits, store.stats().aborts), (1, 0, 2, 1))

    def test_tries_end(self):
        store, tried = self.make([Type(TWO)]), []
        t = store.begin()
        t.call(0, "take")

        def give(u):
            tried.append(u.number)
            u.call(0, "give").executed()

        self.assertRaises(colock.BusyError, store.retry, give, 3)
        self.assertEqual((tried, store.stats().aborts, store.open_count()), ([1, 2, 3], 3, 1))
        self.assertRaises(colock.TimedOut, store.retry, lambda u: u.call(0, "give", wait=0.001), 2)
        for wrong in ({"tries": 0}, {"backoff": -1.0}, {"backoff": math.nan}):
            self.assertRaises(ValueError, store.retry, give, **wrong)
        self.assertEqual((len(tried), store.stats().aborts), (3, 5))

    def test_a_try_that_comes_through(self):
        store, tried = self.make([Type(TWO)]), []
        t = store.begin()
        t.call(0, "take")

        def give(u):
            tried.append(u.number)
            if len(tried) == 3:
                t.commit()
            return u.call(0, "give").executed()

        self.assertEqual((store.retry(give), len(tried)), (GIVE, 3))

    def test_other_exceptions_are_handed_on(self):
        store, tried = self.make([COUNTER]), []

        def fail(t):
            tried.append(t.call(0, "inc:1"))
            raise KeyError

        self.assertRaises(KeyError, store.retry, fail)
        self.assertRaises(colock.IllegalError, store.retry, lambda t: t.call(0, "dec:1").executed())
        self.assertEqual((len(tried), store.kept(0), store.open_count()), (1, 0, 0))

    def test_the_first_age_is_kept(self):
        store, tried, others = self.make([Type(TWO)] * 2), [], []

        def f(t):
            tried.append(t)
            if len(tried) == 1:
                # it begins after t, and before the second try
                others.append(store.begin())
                others[0].call(1, "take")
                raise colock.BusyError(0)
            t.call(0, "take")
            others.append(Run(others[0].call, 0, "give", LONG))
            asleep(store, 1)
            return t.call(1, "give", wait=LONG)

        self.assertEqual(store.retry(f), GIVE)
        self.assertRaises(colock.DeadlockError, others[1].result)
        self.assertEqual(len(tried), 2)

    def test_a_swallowed_deadlock_is_no_commit(self):
        store, tried = self.make([Type(TWO)] * 2), []
        older = store.begin()
        older.call(0, "take")

        def f(t):
            tried.append(t.number)
            t.call(1, "take").executed()
            if len(tried) == 1:
                waiting = Run(older.call, 1, "give", LONG)
                asleep(store, 1)
                with self.assertRaises(colock.DeadlockError):
                    t.call(0, "give", wait=LONG)
                waiting.result()
                older.commit()
            return "value"

        self.assertEqual(store.retry(f), "value")
        told = store.stats()
        self.assertEqual((len(tried), told.deadlocks, told.commits, told.aborts), (2, 1, 2, 1))

    def test_a_victim_waits_for_the_others_end(self):
        store, tried = self.make([Type(TWO)] * 2), []
        t = store.begin()
        t.call(0, "take")

        def f(u):
            tried.append(u.number)
            u.call(1, "take", wait=LONG).executed()
            return u.call(0, "give", wait=LONG)

        run = Run(store.retry, f)
        asleep(store, 1)
        self.assertEqual(t.call(1, "give", wait=LONG), GIVE)
        time.sleep(0.2)
        self.assertEqual((tried, store.stats().deadlocks), ([1], 1))
        t.commit()
        self.assertEqual((run.result(), len(tried)), (GIVE, 2))
        self.assertTrue(store._backend.sleepers.is_bare())

    def test_transact(self):
        store = self.make([COUNTER])
        self.assertEqual(store.transact(lambda t: t.call(0, "inc:1").executed().reply), "ok")
        self.assertEqual(store.transact(lambda t: t.abort()), None)
        self.assertRaises(ZeroDivisionError, store.transact, lambda t: (t.call(0, "inc:1"), 1 // 0))
        for wrong in (lambda t: t.call(0, "inc:1", wait=1), lambda t: t.call_op(0, 0, wait=0), lambda t: store.retry(lambda u: None)):
            self.assertRaises(ValueError, store.transact, wrong)
        self.assertEqual((store.kept(0), store.open_count()), (1, 0))
        self.assertEqual(store.begin().call(0, "inc:1", wait=1), Executed(0, "ok"))

    def test_a_turn_asks_nothing_else(self):
        store = self.make([COUNTER])
        for wrong in (
            lambda t: store.transact(lambda u: None), lambda t: store.retry(lambda u: None), lambda t: store.begin(), lambda t: store.close(), lambda t: store.kept(0),
            lambda t: store.open_count(), lambda t: store.events(), lambda t: store.event_count(), lambda t: store.committed(t.id),
        ):
            with self.assertRaises(ValueError) as raised:
                store.transact(wrong)
            self.assertIn("inside of `transact`", str(raised.exception))
        # what is raised there and caught there does no harm, and another thread may ask as soon as the turn is over
        self.assertEqual(store.transact(lambda t: (self.assertRaises(ValueError, store.begin), store.call_number(0, "inc:1"))[1]), 0)
        self.assertEqual((Run(store.open_count).result(), store.stats().aborts), (0, 9))

    def test_nobody_comes_between(self):
        store = self.make([Type(TWO)])

        def work():
            for _ in range(20):
                store.transact(lambda t: [t.call(0, "take").executed() for _ in range(3)])
                with store.begin() as t:
                    t.call(0, "take")

        for run in [Run(work) for _ in range(4)]:
            run.result()
        by_number = {}
        for place, event in enumerate(store.events()):
            by_number.setdefault(event.transaction, []).append(place)
        turns = [places for places in by_number.values() if len(places) == 5]
        self.assertEqual(len(turns), 80)
        for places in turns:
            self.assertEqual(places, list(range(places[0], places[0] + 5)))

    def test_a_turn_at_the_gate(self):
        store = self.make([Type(TWO)])
        t, w = store.begin(), store.begin()
        t.call(0, "take")
        waiting = Run(w.call, 0, "give", LONG)
        asleep(store, 1)
        self.assertEqual(store.transact(lambda u: u.call(0, "take")), Busy(1))
        t.commit()
        self.assertEqual(waiting.result(), GIVE)


class RetriesInMemory(support.InMemory, Retries, unittest.TestCase):
    """In memory."""


class RetriesOverAChild(support.OverChild, Retries, unittest.TestCase):
    """Over a child."""


if __name__ == "__main__":
    unittest.main()
