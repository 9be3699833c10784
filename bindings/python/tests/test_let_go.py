"""What is let go before its end is warned of."""
import gc
import os
import subprocess
import sys
import unittest
import warnings

from support import LONG, InMemory, OverChild, Run, asleep, folder_of, is_running, pid_of, program, until

import colock
from colock import Type
from colock._backend import Holder


class Warned:
    """The texts of the warnings that come in a `with`."""

    def __enter__(self):
        self._caught = warnings.catch_warnings(record=True)
        self._all = self._caught.__enter__()
        warnings.simplefilter("always")
        self.texts = []
        return self

    def __exit__(self, *raised):
        gc.collect()
        self.texts = [str(one.message) for one in self._all if one.category is ResourceWarning and "let go" in str(one.message)]
        self._all.clear()
        self._caught.__exit__(*raised)


class Transactions:
    """At stores of both backends. Who has the store next aborts what was let go, and warns."""

    def test_open(self):
        store = self.make([Type.counter(5, [1])])
        with Warned() as warned:
            t = store.begin()
            t.call(0, "inc:1").executed()
            id = t.id
            del t
            self.assertEqual(store.open_count(), 0)
        self.assertEqual(warned.texts, [f"transaction {id} is let go before its end, and is aborted"])

    def test_whom_it_keeps_waiting(self):
        store = self.make([Type.counter(5, [1])])
        t = store.begin()
        t.call(0, "inc:1").executed()
        waiting = Run(lambda: store.retry(lambda other: other.call(0, "dec:1", wait=LONG), tries=1))
        asleep(store, 1)
        with Warned() as warned:
            del t
            # nobody else uses the store
            self.assertIsInstance(waiting.result(), colock.Illegal)
        self.assertEqual(len(warned.texts), 1)

    def test_ended(self):
        store = self.make([Type.counter(5, [1])])
        with Warned() as warned:
            for end in (colock.Transaction.commit, colock.Transaction.abort):
                end(store.begin())
            with store.begin():
                pass
            store.transact(lambda t: None)
            store.retry(lambda t: t.abort())
            with self.assertRaises(RuntimeError), store.begin():
                raise RuntimeError
            store.open_count()
        self.assertEqual(warned.texts, [])

    def test_of_a_closed_store(self):
        store = self.make([Type.counter(5, [1])])
        t = store.begin()
        store.close()
        with Warned() as warned:
            del t
            self.assertRaises(colock.ClosedError, store.open_count)
        self.assertEqual(warned.texts, [])

    def test_one_that_has_gone_before(self):
        # its number may be that of another one by now, or it wasn't noted yet
        store = self.make([Type.counter(5, [1])])
        t = store.begin()
        former, unknown = Holder(t, print), Holder(t, print)
        former.known = store._backend.known(0, t.number)
        store._backend.gone.extend([former, unknown])
        self.assertEqual((store.open_count(), len(store._backend.gone)), (1, 0))
        t.commit()

    def test_within_a_turn(self):
        # the thread has the lock of the store then
        store = self.make([Type.counter(5, [1])])
        kept = [store.begin()]
        with Warned() as warned:
            store.transact(lambda t: kept.clear())
            store.open_count()
        self.assertEqual(len(warned.texts), 1)


class TransactionsInMemory(InMemory, Transactions, unittest.TestCase):
    def test_ended_by_others(self):
        store, other = self.make([Type.counter(5, [1])]), self.make([Type.counter(5, [1])])
        with Warned() as warned:
            t = store.begin()
            store.abort_all()
            del t
            store.open_count()
            ended = other.begin()
            store.follow([colock.Event(colock.EventKind.BEGIN, 0, 1), colock.Event(colock.EventKind.COMMIT, 0, 1)])
            other.follow([colock.Event(colock.EventKind.ABORT, 0, 0)])
            other.renew()
            del ended
            other.begin().commit()
        self.assertEqual(warned.texts, [])

    def test_a_store(self):
        with Warned() as warned:
            colock.Store([Type.counter(5, [1])], 100)
        self.assertEqual(warned.texts, [])


class TransactionsOverAChild(OverChild, Transactions, unittest.TestCase):
    def test_a_store(self):
        path = os.path.join(folder_of(self), "test.db")
        with Warned() as warned:
            store = colock.Store.open(path, [Type.counter(5, [1])], create=True, program=program())
            pid = pid_of(store)
            del store
        self.assertEqual(len(warned.texts), 1)
        self.assertRegex(warned.texts[0], r"^<colock\._store\.Store object .*> is let go, and not closed$")
        until(lambda: not is_running(pid), "its end")

    def test_a_closed_store(self):
        path = os.path.join(folder_of(self), "test.db")
        with Warned() as warned:
            colock.Store.open(path, [Type.counter(5, [1])], create=True, program=program()).close()
            self.assertRaises(colock.CannotOpen, colock.Store.open, path + "-gone", program=program())
        self.assertEqual(warned.texts, [])


class Python(unittest.TestCase):
    # the last line is written also where warnings are errors
    text = "import colock\nstore = colock.Store([colock.Type.counter(5, [1])], 100)\nstore.begin()\nprint(store.open_count())\n"

    def test_who_hears_it(self):
        for options, is_heard in (([], False), (["-X", "dev"], True), (["-W", "error"], True)):
            done = subprocess.run([sys.executable, *options, "-c", self.text], capture_output=True, text=True, check=False)
            self.assertEqual((done.stdout, "ResourceWarning: transaction 0.0 is let go" in done.stderr), ("0\n", is_heard), done.stderr)


if __name__ == "__main__":
    unittest.main()
