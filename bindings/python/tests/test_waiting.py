"""What holds of a store in memory and of one in a file: calls that wait, deadlocks and the gate."""
import contextlib
import math
import threading
import time
import unittest
from unittest import mock

from executed import Executed
import support
from support import LONG, SOON, TWO, Run, Timed, asleep, behind

import colock
from colock import Busy, Illegal, Kind, Stats, Type

TAKE, GIVE = Executed(0, "ok"), Executed(1, "ok")
COUNTER = Type.counter(2, [1])


class Waits:
    """Calls that wait."""

    def test_a_wait_ends_with_the_blocker(self):
        for end in ("commit", "abort"):
            store = self.make([Type(TWO)])
            t, u = store.begin(), store.begin()
            t.call(0, "take")
            waiting = Run(u.call, 0, "give", LONG)
            asleep(store, 1)
            getattr(t, end)()
            self.assertEqual(waiting.result(), GIVE)
            # a try is no event: one busy answer, and then what was executed
            self.assertEqual([str(event) for event in store.events()[2:]], ["op 0 0 0 0", "busy 0 1 0 1 0", f"{end} 0 0", "op 0 1 0 1"])
            u.commit()

    def test_a_further_try_is_no_event(self):
        store = self.make([Type(TWO)])
        t, v, u = store.begin(), store.begin(), store.begin()
        t.call(0, "take")
        v.call(0, "take")
        waiting = Run(u.call, 0, "give", LONG)
        asleep(store, 1)
        t.commit()
        behind(store, u, v)
        v.commit()
        self.assertEqual(waiting.result(), GIVE)
        told = [str(event) for event in store.events()[5:]]
        self.assertEqual(told, ["busy 0 2 0 1 0", "commit 0 0", "commit 0 1", "op 0 2 0 1"])

    def test_a_wait_ends_with_a_rollback(self):
        store = self.make([Type(TWO)])
        t, u = store.begin(), store.begin()
        t.call(0, "take")
        waiting = Run(u.call_op, 0, 1, LONG)
        asleep(store, 1)
        t.rollback(1)
        self.assertEqual((waiting.result(), store.open_count()), (GIVE, 2))

    def test_what_is_free_or_illegal_doesnt_wait(self):
        store = self.make([COUNTER])
        t = store.begin()
        self.assertEqual((t.call(0, "dec:1", wait=LONG), t.call(0, "inc:1", wait=0)), (Illegal(), Executed(0, "ok")))
        self.assertEqual(store.stats().waits, 0)

    def test_illegal_behind_a_wait(self):
        store = self.make([COUNTER])
        t, u = store.begin(), store.begin()
        t.call(0, "inc:1")
        waiting = Run(u.call, 0, "dec:1", LONG)
        asleep(store, 1)
        t.abort()  # so there is nothing to take
        self.assertEqual(waiting.result(), Illegal())
        self.assertEqual(str(store.events()[-1]), "none 0 1 0 1")

    def test_time_out(self):
        store = self.make([Type(TWO)] * 2)
        t, u = store.begin(), store.begin()
        t.call(0, "take")
        for wait in (0, 0.05):
            with Timed() as timed:
                self.assertRaises(colock.TimedOut, u.call, 0, "give", wait)
            self.assertTrue(wait <= timed.seconds < 5, timed.seconds)
        self.assertEqual((u.call(0, "give"), u.call(1, "give")), (Busy(0), GIVE))
        u.commit()
        for wait in (-1, -0.001, math.nan):
            self.assertRaises(ValueError, t.call, 0, "take", wait)
        self.assertEqual(t.call(0, "take", wait=math.inf), TAKE)
        told = store.stats()
        self.assertEqual((told.timeouts, told.waits, told.deadlocks), (2, 1, 0))

    def test_ended_by_another_thread(self):
        store = self.make([Type(TWO)])
        t, u = store.begin(), store.begin()
        t.call(0, "take")
        waiting = Run(u.call, 0, "give", LONG)
        asleep(store, 1)
        self.assertRaises(ValueError, u.call, 0, "give", 1)  # it waits already
        u.abort()
        self.assertRaises(colock.NotOpenError, waiting.result)
        self.assertEqual(dict(store._sleepers), {})

    def test_close_wakes(self):
        store = self.make([Type(TWO)])
        t, u = store.begin(), store.begin()
        t.call(0, "take")
        waiting = Run(u.call, 0, "give", LONG)
        asleep(store, 1)
        store.close()
        self.assertRaises(colock.ClosedError, waiting.result)

    def test_stats(self):
        store = self.make([Type(TWO)] * 2)
        self.assertEqual(store.stats(), Stats(0, 0, (0, 0), 0, 0.0, 0, 0))
        t, u = store.begin(), store.begin()
        t.call(1, "take")
        u.call(1, "give")
        waiting = Run(u.call, 1, "give", LONG)
        asleep(store, 2)
        time.sleep(0.02)
        t.commit()
        waiting.result()
        u.abort()
        told = store.stats()
        self.assertEqual(told._replace(waited=0.0), Stats(1, 1, (0, 2), 1, 0.0, 0, 0))
        self.assertTrue(0 < told.waited < SOON)


class Deadlocks:
    """Circles of transactions that wait."""

    def circle(self, count):
        """A store in which each transaction, this many, has taken at an object of its own."""
        store = self.make([Type(TWO)] * count)
        begun = [store.begin() for _ in range(count)]
        for x, t in enumerate(begun):
            t.call(x, "take")
        return store, begun

    def test_of_two(self):
        for first in (0, 1):
            store, begun = self.circle(2)
            older = Run(begun[0].call, 1, "give", LONG) if first == 0 else None
            younger = Run(begun[1].call, 0, "give", LONG) if first == 1 else None
            asleep(store, 1)
            with Timed() as timed:
                older = older or Run(begun[0].call, 1, "give", LONG)
                younger = younger or Run(begun[1].call, 0, "give", LONG)
                with self.assertRaises(colock.DeadlockError) as raised:
                    younger.result()
                self.assertEqual(older.result(), GIVE)
            self.assertLess(timed.seconds, 1)
            self.assertEqual(raised.exception.blocker, 0)
            self.assertRaises(colock.NotOpenError, begun[1].call, 0, "give")
            begun[0].commit()
            told = store.stats()
            self.assertEqual((told.deadlocks, told.commits, told.aborts), (1, 1, 1))

    def test_of_three(self):
        store, begun = self.circle(3)
        runs = []
        with Timed() as timed:
            for x, t in enumerate(begun):
                runs.append(Run(t.call, (x + 1) % 3, "give", LONG))
                asleep(store, x + 1)
            with self.assertRaises(colock.DeadlockError) as raised:
                runs[2].result()
            self.assertEqual(runs[1].result(), GIVE)
        self.assertLess(timed.seconds, 1)
        self.assertEqual(raised.exception.blocker, 0)
        begun[1].commit()
        self.assertEqual(runs[0].result(), GIVE)
        self.assertEqual((store.stats().deadlocks, dict(store._sleepers)), (1, {}))

    def test_in_a_with(self):
        store, begun = self.circle(2)
        older = Run(begun[0].call, 1, "give", LONG)
        asleep(store, 1)
        with self.assertRaises(colock.DeadlockError):
            with begun[1] as t:
                t.call(0, "give", wait=LONG)
        self.assertEqual(older.result(), GIVE)
        self.assertEqual([str(event) for event in store.events() if event.kind == colock.EventKind.ABORT], ["abort 0 1"])


    def test_swallowed_in_a_with(self):
        store, begun = self.circle(2)
        older = Run(begun[0].call, 1, "give", LONG)
        asleep(store, 1)
        with self.assertRaises(colock.DeadlockError):
            with begun[1] as t:
                with contextlib.suppress(colock.DeadlockError):
                    t.call(0, "give", wait=LONG)
        self.assertEqual(older.result(), GIVE)
        self.assertEqual((store.stats().deadlocks, store.stats().aborts, store.stats().commits), (1, 1, 0))


class Gates:
    """Who goes after whom."""

    def test_the_younger_goes_behind(self):
        store = self.make([Type(TWO)])
        t, w, u = store.begin(), store.begin(), store.begin()
        t.call(0, "take")
        waiting = Run(w.call, 0, "give", LONG)
        asleep(store, 1)
        # the take of t blocks nobody but w, which is first in turn
        self.assertEqual((u.call(0, "take"), u.would(0, "take"), u.would_op(0, 0), u.call_op(0, 0)), (Busy(1), Busy(1), Busy(1), Busy(1)))
        behind = Run(u.call, 0, "take", LONG)
        asleep(store, 4)
        t.commit()
        self.assertEqual(waiting.result(), GIVE)
        self.assertTrue(behind.is_alive())
        w.commit()
        self.assertEqual(behind.result(), TAKE)

    def test_without_the_gate_it_passes(self):
        store = self.make([Type(TWO)])
        store._backend.sleepers.take_gate_out()
        t, w, u = store.begin(), store.begin(), store.begin()
        t.call(0, "take")
        waiting = Run(w.call, 0, "give", LONG)
        asleep(store, 1)
        self.assertEqual(u.call(0, "take"), TAKE)
        t.commit()
        u.commit()
        self.assertEqual(waiting.result(), GIVE)

    def test_who_gives_up_opens_the_gate(self):
        store = self.make([Type(TWO)])
        t, w, u = store.begin(), store.begin(), store.begin()
        t.call(0, "take")
        waiting = Run(w.call, 0, "give", 0.3)
        asleep(store, 1)
        self.assertEqual(u.call(0, "take", wait=LONG), TAKE)
        self.assertRaises(colock.TimedOut, waiting.result)
        self.assertEqual(t.call(0, "take"), TAKE)

    def test_others_pass(self):
        store = self.make([Type(TWO)] * 2)
        old, t, w, u = (store.begin() for _ in range(4))
        t.call(0, "take")
        waiting = Run(w.call, 0, "give", LONG)
        asleep(store, 1)
        # who is older; who holds nothing up; and who is elsewhere
        self.assertEqual((old.call(0, "take"), u.call(0, "give"), u.call(1, "take")), (TAKE, Busy(t.number), TAKE))
        t.commit()
        old.commit()
        self.assertEqual(waiting.result(), GIVE)

    def test_who_is_waited_for_passes(self):
        store = self.make([Type(TWO)] * 2)
        t, w, u = store.begin(), store.begin(), store.begin()
        t.call(0, "take")
        u.call(1, "take")
        runs = [Run(w.call, 0, "give", LONG)]
        asleep(store, 1)
        self.assertEqual(u.call(0, "take"), Busy(1))
        runs.append(Run(t.call, 1, "give", LONG))
        asleep(store, 3)
        # now w waits for t, and t for u
        self.assertEqual((u.would(0, "take"), u.call(0, "take")), (TAKE, TAKE))
        u.commit()
        self.assertEqual(runs[1].result(), GIVE)
        t.commit()
        self.assertEqual((runs[0].result(), store.stats().deadlocks), (GIVE, 0))

    def test_a_circle_through_the_gate_has_no_victim(self):
        store = self.make([Type(TWO)] * 2)
        t, w, u = store.begin(), store.begin(), store.begin()
        t.call(0, "take")
        u.call(1, "take")
        runs = [Run(w.call, 0, "give", LONG)]
        asleep(store, 1)
        behind = Run(u.call, 0, "take", LONG)
        asleep(store, 2)
        runs.append(Run(t.call, 1, "give", LONG))
        # t waits for u, which waits at the gate for w, which waits for t: so u passes
        self.assertEqual(behind.result(), TAKE)
        u.commit()
        self.assertEqual(runs[1].result(), GIVE)
        t.commit()
        self.assertEqual((runs[0].result(), store.stats().deadlocks), (GIVE, 0))

    def takes_and_a_give(self, store, gives, seconds):
        """15 threads that take again and again, and hold it for most of the time; how many gives come through."""
        over, taken, hold = threading.Event(), threading.Semaphore(0), 0.02 if self.is_child else 0.005

        def take():
            while not over.is_set():
                t = store.begin()
                t.call(0, "take", wait=LONG)
                taken.release()
                time.sleep(hold)
                t.abort()

        runs = [Run(take) for _ in range(15)]
        for _ in range(15):
            taken.acquire(timeout=SOON)
        came, end = 0, time.monotonic() + seconds
        try:
            for _ in range(gives):
                with store.begin() as t:
                    t.call(0, "give", wait=max(end - time.monotonic(), 0))
                    came += 1
        except colock.TimedOut:
            pass
        over.set()
        for run in runs:
            run.result()
        return came

    @unittest.skipIf(support.QUICK, "it takes seconds")
    def test_fifteen_takes_and_a_give(self):
        self.assertEqual(self.takes_and_a_give(self.make([Type(TWO)]), 20, SOON), 20)
        # without the gate somebody always holds a take
        store = self.make([Type(TWO)])
        store._backend.sleepers.take_gate_out()
        self.assertLess(self.takes_and_a_give(store, 20, 1.0), 20)


class HandOvers:
    """An object goes from one that waits to the next."""

    WAITING = 40

    def test_nobody_is_woken_in_vain(self):
        store = self.make([Type.counter(1000, [1], Kind.INTENTIONS)])  # an up keeps out each other one
        holder, begun = store.begin(), [store.begin() for _ in range(self.WAITING)]
        holder.call(0, "inc:1").executed()
        runs = [Run(lambda t=t: (t.call(0, "inc:1", wait=LONG).executed(), t.commit())) for t in begun]
        asleep(store, self.WAITING)
        holder.commit()
        for run in runs:
            run.result()
        self.assertEqual(store.kept(0), self.WAITING + 1)
        # each has slept once before; over a child each asks by itself, as soon as it is the oldest
        in_vain = store.stats().waits - self.WAITING
        self.assertLessEqual(in_vain, 2 * self.WAITING if self.is_child else 0)
        self.assertTrue(store._backend.sleepers.is_bare())


class Deferred:
    """Objects of deferred update wait as well."""

    def test_takes_of_intentions(self):
        store = self.make([Type.counter(5, [1], Kind.INTENTIONS)])
        t, u = store.begin(), store.begin()
        t.call(0, "inc:1")
        waiting = Run(u.call, 0, "inc:1", LONG)
        asleep(store, 1)
        t.commit()
        self.assertEqual(waiting.result(), Executed(0, "ok"))
        u.commit()
        self.assertEqual(store.kept(0), 2)


class WaitsInMemory(support.InMemory, Waits, Deadlocks, Gates, HandOvers, Deferred, unittest.TestCase):
    """In memory."""


class WaitsOverAChild(support.OverChild, Waits, Deadlocks, Gates, HandOvers, Deferred, unittest.TestCase):
    """Over a child."""


class MemoryAlone(support.InMemory, unittest.TestCase):
    """What only a store in memory does, while calls wait."""

    def test_abort_all_wakes(self):
        store = self.make([Type(TWO)])
        t, u = store.begin(3), store.begin(4)
        t.call(0, "take")
        waiting = Run(u.call, 0, "give", LONG)
        asleep(store, 1)
        store.abort_all()
        store.renew()
        self.assertRaises(colock.NotOpenError, waiting.result)
        self.assertEqual((store.stats().aborts, dict(store._sleepers)), (2, {}))
        new = store.begin()
        self.assertEqual((new.id, new.call(0, "give", wait=LONG)), ("1.0", GIVE))

    def test_who_is_woken_goes_before_who_ended(self):
        store, slept = self.make([Type(TWO)]), []
        t, u, v = store.begin(), store.begin(), store.begin()
        t.call(0, "take")
        waiting = Run(u.call, 0, "give", LONG)
        asleep(store, 1)
        with mock.patch("colock._memory.time.sleep", slept.append):
            v.commit()
            t.commit()
        self.assertEqual((waiting.result(), slept), (GIVE, [0]))

    def test_events_that_are_followed_wake(self):
        store = self.make([Type(TWO)])
        t, u = store.begin(), store.begin()
        t.call(0, "take")
        waiting = Run(u.call, 0, "give", LONG)
        asleep(store, 1)
        store.follow([colock.Event(colock.EventKind.COMMIT, 0, 0)])
        self.assertEqual(waiting.result(), GIVE)

    def test_a_type_that_is_closed(self):
        two = Type(TWO)
        store = self.make([two])
        two.close()
        t, w, u = store.begin(), store.begin(), store.begin()
        t.call(0, "take")
        waiting = Run(w.call, 0, "give", LONG)
        asleep(store, 1)
        self.assertEqual(u.call(0, "take"), Busy(1))
        t.commit()
        self.assertEqual(waiting.result(), GIVE)

    def test_outcomes_that_are_forgotten(self):
        store = self.make([COUNTER])
        store.begin().commit()
        store.begin().commit()
        self.assertEqual(store.committed("0.0"), True)
        store.forget(2)
        self.assertEqual([store.committed(id) for id in ("0.0", "0.1")], [None, True])
        store.renew()
        self.assertIsNone(store.committed("0.1"))


if __name__ == "__main__":
    unittest.main()
