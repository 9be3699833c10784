"""What holds of a store in memory and of one in a file: calls, and what isn't done."""
import unittest
from unittest import mock

from executed import Executed
import support
from support import SOON, Run

import colock
from colock import Busy, Illegal, Type, _asking, _memory

COUNTER = Type.counter(2, [1])


class Calls:
    """Calls, and what isn't done."""

    def test_calls(self):
        store = self.make([COUNTER] * 2)
        t, u = store.begin(), store.begin()
        self.assertEqual((t.number, u.number), (0, 1))
        self.assertEqual((t.would(0, "inc:1"), t.call(0, "inc:1")), (Executed(0, "ok"), Executed(0, "ok")))
        self.assertEqual((u.would_op(0, 1), u.call(0, "dec:1"), u.call_op(1, 1)), (Busy(0), Busy(0), Illegal()))
        t.rollback(1)
        self.assertEqual((store.kept(0), store.open_count(), store.event_count()), (0, 2, 6))
        t.commit()
        u.abort()
        kinds = ["begin 0 0", "begin 0 1", "op 0 0 0 0", "busy 0 1 0 1 0", "none 0 1 1 1", "rollback 0 0 1", "commit 0 0", "abort 0 1"]
        self.assertEqual(list(map(str, store.events())), kinds)
        self.assertEqual(list(map(str, store.events(6))), kinds[6:])
        self.assertEqual((store.events(8), store.events((1 << 64) - 1)), ([], []))

    def test_what_isnt_there(self):
        store = self.make([COUNTER] * 2)
        t = store.begin()
        for call in (t.call, t.would, lambda x, name: t.call(x, name, wait=1)):
            self.assertRaises(colock.NoObject, call, 2, "inc:1")
            for name in ("inc", "", "inc:1\0", "é", "\udcff", "inc:1\nx commit 1.0", "inc:1 "):
                self.assertRaises(colock.NoCall, call, 0, name)
        for call in (t.call_op, t.would_op, lambda x, c: t.call_op(x, c, wait=1)):
            self.assertRaises(colock.NoObject, call, 2, 0)
            self.assertRaises(colock.NoCall, call, 0, 2)
        self.assertEqual(store.call_number(0, "dec:1"), 1)
        self.assertRaises(colock.NoCall, store.call_number, 0, "x")
        self.assertRaises(colock.NoObject, store.call_number, 2, "dec:1")
        self.assertRaises(colock.NoObject, store.kept, 2)
        for operations in (0, 1, 1 << 32, (1 << 64) - 1):
            self.assertRaises(colock.BadRollback, t.rollback, operations)
        t.commit()
        for gone in (t.commit, t.abort, lambda: t.rollback(1), lambda: t.call(0, "inc:1"), lambda: t.would(0, "inc:1"), lambda: t.call(0, "inc:1", wait=1)):
            self.assertRaises(colock.NotOpenError, gone)

    def test_numbers_are_not_cut(self):
        store = self.make([COUNTER] * 2)
        t = store.begin()
        self.assertRaises(OverflowError, store.begin, 256)
        for act in (lambda n: t.call_op(0, n), lambda n: t.would_op(0, n), lambda n: t.call_op(0, n, wait=1)):
            for number in (256, (1 << 40) + 256, (1 << 64) - 1):
                self.assertRaises(colock.NoCall, act, number)
            self.assertRaises(OverflowError, act, 1 << 64)
            self.assertRaises(OverflowError, act, -1)
        for act in (store.kept, lambda n: store.call_number(n, "inc:1"), lambda n: t.call(n, "inc:1"), lambda n: t.would(n, "inc:1"), lambda n: t.call(n, "inc:1", wait=1)):
            self.assertRaises(OverflowError, act, 1 << 32)
            self.assertRaises(OverflowError, act, -1)
            self.assertRaises(TypeError, act, 1.0)
        for act in (t.rollback, store.events):
            self.assertRaises(OverflowError, act, 1 << 64)
        self.assertEqual(store.event_count(), 1)

    def test_with(self):
        store = self.make([COUNTER])
        with store.begin() as t:
            t.call(0, "inc:1")
        self.assertEqual(str(store.events()[-1]), "commit 0 0")
        with self.assertRaises(ZeroDivisionError):
            with store.begin() as t:
                t.call(0, "inc:1")
                raise ZeroDivisionError
        self.assertEqual((str(store.events()[-1]), store.kept(0)), ("abort 0 1", 1))
        with store.begin() as t:
            t.abort()
        with store.begin() as t:
            t.commit()
        self.assertEqual([str(event) for event in store.events()[-2:]], ["begin 0 3", "commit 0 3"])

    def test_events_are_read_outside_the_lock(self):
        store, asked = self.make([COUNTER]), []
        store.begin().commit()
        where, name = (_asking, "read_event") if self.is_child else (_memory, "event_of")
        read = getattr(where, name)

        def slowly(words, *more):
            """Reads an event while another thread asks the store."""
            asked.append(Run(store.kept, 0).result())
            return read(words, *more)

        with mock.patch.object(where, name, slowly):
            self.assertEqual([str(event) for event in store.events()], ["begin 0 0", "commit 0 0"])
        self.assertEqual(asked, [0, 0])

    def test_use_after_close(self):
        with self.make([COUNTER]) as store:
            t = store.begin()
        store.close()
        for act in (
            store.begin, store.open_count, store.events, store.event_count, t.commit, t.abort, lambda: store.kept(0),
            lambda: store.call_number(0, "inc:1"), lambda: t.call(0, "inc:1"), lambda: t.call_op(0, 0), lambda: t.would(0, "inc:1"),
            lambda: t.would_op(0, 0), lambda: t.rollback(1), lambda: t.call(0, "inc:1", wait=1), lambda: store.committed("0.0"),
            lambda: store.retry(lambda t: None), lambda: store.transact(lambda t: None),
        ):
            self.assertRaises(colock.ClosedError, act)
        self.assertEqual(store.stats().commits, 0)

    def test_replies_that_were_executed(self):
        store = self.make([COUNTER])
        t, u = store.begin(), store.begin()
        self.assertRaises(colock.IllegalError, t.call(0, "dec:1").executed)
        self.assertEqual(t.call(0, "inc:1").executed(), Executed(0, "ok"))
        with self.assertRaises(colock.BusyError) as raised:
            u.call(0, "dec:1").executed()
        self.assertEqual(raised.exception.blocker, 0)

    def test_outcomes(self):
        store = self.make([COUNTER])
        t, u, v = store.begin(), store.begin(), store.begin()
        t.commit()
        u.abort()
        life = t.id.split(".")[0]
        self.assertEqual([t.id, u.id], [f"{life}.0", f"{life}.1"])
        self.assertEqual([store.committed(x.id) for x in (t, u, v)], [True, False, None])
        self.assertIsNone(store.committed(f"{life}.3"))
        self.assertIsNone(store.committed(f"{int(life) + 1}.0"))
        for text in ("", "1", "1.", ".1", "1.1.1", "-1.0", "a.b", "1.²"):
            self.assertRaises(ValueError, store.committed, text)

    def test_threads(self):
        store, told = self.make([Type.counter(1000, [1])] * 4), []

        def work(worker):
            for turn in range(25):
                x = (worker + turn) % 4
                store.retry(lambda t: [t.call(x, "inc:1", wait=SOON).executed() for _ in range(2)])
            told.append(worker)

        for run in [Run(work, worker) for worker in range(8)]:
            run.result()
        self.assertEqual((len(told), sum(store.kept(x) for x in range(4)), store.open_count()), (8, 8 * 25 * 2, 0))


class CallsInMemory(support.InMemory, Calls, unittest.TestCase):
    """In memory."""


class CallsOverAChild(support.OverChild, Calls, unittest.TestCase):
    """Over a child."""


if __name__ == "__main__":
    unittest.main()
