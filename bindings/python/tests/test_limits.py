"""Stores in memory with limits of their own: each limit on both sides, and the most that may be."""
import dataclasses
import gc
import threading
import unittest

from executed import Executed
from support import LONG, QUICK, SOON, Run, Timed, asleep, quietly, until

import colock
from colock import EventKind, Limits, Store, Type

COUNTER = Type.counter(2, [1])
# The most open transactions, and the most objects.
MOST = 65_536


class Ranges(unittest.TestCase):
    def test_the_standard(self):
        self.assertEqual(dataclasses.astuple(Limits()), (1_000_000, 1_024, 256, 1_000_000))
        self.assertEqual((Limits(9), hash(Limits(9))), (Limits(events=9), hash(Limits(events=9))))
        with self.assertRaises(dataclasses.FrozenInstanceError):
            Limits().open = 3

    def test_ranges(self):
        for limits, error in [
            (Limits(events=0), colock.BadMax), (Limits(events=1), colock.BadMax), (Limits(events=1 << 32), colock.BadMax),
            (Limits(events=(1 << 64) - 1), colock.BadMax), (Limits(open=0), colock.BadMax), (Limits(open=MOST + 1), colock.BadMax),
            (Limits(open=(1 << 32) - 1), colock.BadMax), (Limits(objects=MOST + 1), colock.BadMax),
            (Limits(objects=1), colock.TooManyObjects), (Limits(0, 0, 0), colock.TooManyObjects),  # the first that holds
            (Limits(events=1 << 64), OverflowError), (Limits(open=1 << 32), OverflowError), (Limits(objects=-1), OverflowError),
            (Limits(outcomes=-1), OverflowError), (Limits(outcomes=1 << 32), OverflowError),
            (Limits(open="1"), TypeError), (Limits(objects=2.0), TypeError), (Limits(outcomes="1"), TypeError), (Limits(outcomes=None), TypeError),
        ]:
            self.assertRaises(error, Store.with_limits, [COUNTER] * 2, limits)
        for limits in (Limits(2, 1, 2, 0), Limits((1 << 32) - 1, MOST, MOST, (1 << 32) - 1)):
            Store.with_limits([COUNTER] * 2, limits).close()
        self.assertRaises(colock.NoObjects, Store.with_limits, [], Limits(0, 0, 0))
        with self.assertRaises(colock.BadMax) as raised:
            Store.with_limits([COUNTER], Limits(open=0))
        self.assertEqual(str(raised.exception), "A limit of the store is out of its range.")


class Shop(Store):
    """A store of a class of one's own."""


class Most(unittest.TestCase):
    def make(self, count, **limits):
        """A store of this many counters."""
        quietly()
        store = Store.with_limits([COUNTER] * count, Limits(**limits))
        self.addCleanup(store.close)
        return store

    def test_a_class_of_ones_own(self):
        with Shop.with_limits([COUNTER] * 257, Limits(objects=257)) as store:
            self.assertIs(type(store), Shop)
            self.assertEqual(store.transact(lambda t: t.call(256, "inc:1")), Executed(0, "ok"))
            self.assertEqual((store.kept(256), store.stats().busy), (1, (0,) * 257))

    def test_objects(self):
        self.assertRaises(colock.TooManyObjects, self.make, MOST, objects=MOST - 1)
        self.assertRaises(colock.TooManyObjects, self.make, MOST + 1, objects=MOST)
        store = self.make(MOST, objects=MOST)
        t = store.begin()
        for x in range(MOST - 1, -1, -1):
            self.assertEqual(t.call(x, "inc:1").reply, "ok")
        self.assertRaises(colock.NoObject, t.call, MOST, "inc:1")
        self.assertRaises(colock.NoObject, t.call, MOST, "inc:1", wait=0)
        self.assertRaises(colock.BadRollback, t.rollback, MOST + 1)
        t.rollback(10_000)  # at the first objects
        t.commit()
        self.assertEqual([store.kept(x) for x in range(MOST)], [0] * 10_000 + [1] * (MOST - 10_000))
        self.assertRaises(colock.NoObject, store.kept, MOST)
        events = store.events()
        self.assertEqual((events[1].kind, events[1].object, len(events)), (EventKind.OP, MOST - 1, MOST + 3))
        other = self.make(MOST, objects=MOST)
        other.follow(events)
        self.assertEqual((other.kept(MOST - 1), other.kept(0), other.event_count()), (1, 0, MOST + 3))

    def test_open_transactions(self):
        for most in (1, 1_023, 1_025, MOST):
            store = self.make(1, open=most)
            begun = [store.begin() for _ in range(most)]
            self.assertRaises(colock.TooManyOpenError, store.begin)
            begun[most // 2].commit()
            begun.append(store.begin())
            self.assertEqual((begun[-1].number, store.open_count()), (most, most))
            self.assertRaises(colock.TooManyOpenError, store.begin)
            # what is let go together is aborted together
            with Timed() as timed:
                begun.clear()
                gc.collect()
                self.assertEqual(store.open_count(), 0)
            self.assertEqual((store.stats().aborts, store._backend.holders, timed.seconds < SOON), (most, {}, True), timed.seconds)

    def test_a_retry_waits_for_room(self):
        store = self.make(1, open=2)
        begun = [store.begin(), store.begin()]
        run = Run(store.retry, lambda t: t.call(0, "inc:1").executed().reply)
        until(lambda: len(store._backend.sleepers.bells) == 1, "who looks on")
        begun.pop().abort()
        self.assertEqual((run.result(), store.kept(0), store.open_count()), ("ok", 1, 1))

    def test_who_sleeps_elsewhere_sleeps_on(self):
        store, sleepers = self.make(MOST, objects=MOST), 20 if QUICK else 100
        holders = [store.begin() for _ in range(sleepers)]
        for x, holder in enumerate(holders, MOST - sleepers):
            holder.call(x, "inc:1").executed()
        lost, ended = store.begin(), threading.Event()

        def down(x):
            store.retry(lambda t: t.call(x, "dec:1", wait=LONG).executed(), tries=1)
            ended.set()

        runs = [Run(down, x) for x in range(MOST - sleepers, MOST)]
        asleep(store, sleepers)
        # at which objects it let go isn't known
        del lost
        self.assertEqual((store.open_count(), ended.is_set()), (2 * sleepers, False))
        for run, holder in zip(runs, holders):
            holder.commit()
            run.result()
        # nobody has slept twice
        self.assertEqual((store.stats().waits, store.open_count(), sum(map(store.kept, range(MOST)))), (sleepers, 0, 0))
        self.assertTrue(store._backend.sleepers.is_bare())


if __name__ == "__main__":
    unittest.main()
