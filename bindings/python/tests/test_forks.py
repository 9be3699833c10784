"""In a fork a store is closed, whatever other threads did as the process forked."""
import os
import signal
import sys
import threading
import traceback
import unittest

import support
from support import SOON, Run

import colock
from colock import Type

COUNTER = Type.counter(5, [1])
# A fork that stands still is ended after this many seconds.
FORK_LIMIT = 5


def in_fork(act):
    """The status of a fork that does this: 0, 1 where it raised something, or -14 where it stood still."""
    pid = os.fork()
    if pid == 0:
        signal.alarm(FORK_LIMIT)
        status = 1
        try:
            act()
            status = 0
        except BaseException:
            traceback.print_exc(file=sys.stderr)
        finally:
            os._exit(status)
    return os.waitstatus_to_exitcode(os.waitpid(pid, 0)[1])


@unittest.skipUnless(hasattr(os, "fork"), "it needs fork")
class Forks:
    """Forks of a process that has a store open."""

    def refused(self, store, t):
        """Each call is refused here, and `close` does nothing."""
        for act in (
            store.begin, store.open_count, store.events, store.event_count, t.commit, t.abort, lambda: store.kept(0), lambda: store.retry(lambda t: None),
            lambda: t.call(0, "inc:1"), lambda: t.call(0, "inc:1", wait=60), lambda: t.would(0, "inc:1"), lambda: store.transact(lambda t: None),
            lambda: store.extend([COUNTER]),
        ):
            self.assertRaises(colock.ClosedError, act)
        store.close()

    def test_it_is_closed(self):
        store = self.make([COUNTER])
        t = store.begin()
        t.call(0, "inc:1")
        self.assertEqual(in_fork(lambda: self.refused(store, t)), 0)
        t.commit()
        self.assertEqual((store.kept(0), store.open_count()), (1, 0))

    def test_while_another_thread_has_the_lock(self):
        store = self.make([COUNTER])
        t, is_inside, may_end = store.begin(), threading.Event(), threading.Event()
        turn = Run(store.transact, lambda u: (is_inside.set(), may_end.wait(SOON)))
        self.assertTrue(is_inside.wait(SOON))
        try:
            self.assertEqual(in_fork(lambda: self.refused(store, t)), 0)
        finally:
            may_end.set()
        turn.result()
        t.commit()

    def test_inside_of_a_turn(self):
        store = self.make([COUNTER])
        told = []

        def forking(t):
            told.append(in_fork(lambda: self.assertRaises(colock.ClosedError, t.call, 0, "inc:1")))
            return t.call(0, "inc:1")

        store.transact(forking)
        self.assertEqual((told, store.kept(0)), ([0], 1))

    def test_a_type_while_another_thread_asks_it(self):
        counter = Type.counter(5, [1])

        def used():
            colock.Store([counter], 100).close()
            counter.conflicts(0, 1)

        with counter._lock:
            self.assertEqual(in_fork(used), 0)


class ForksInMemory(support.InMemory, Forks, unittest.TestCase):
    """In memory."""


class ForksOverAChild(support.OverChild, Forks, unittest.TestCase):
    """Over a child."""


if __name__ == "__main__":
    unittest.main()
