"""Waits in a circle and behind the gate, in which a signal handler raises anywhere: whoever else waits goes on."""
import contextlib
import threading
import unittest

import support
from executed import Executed
from support import LONG, TWO, Run, until
from test_signals import STEP, Handler

import colock
from colock import Type

TAKE, GIVE = Executed(0, "ok"), Executed(1, "ok")


class Cuts:
    def setUp(self):
        self.store = self.make([Type(TWO)] * 2, **({"fast": True} if self.is_child else {}))

    def at_each(self, turn):
        """Does turns, each with the handler of a later bytecode, of which some are left out, until it isn't there any more."""
        n, step = 1, (13 if self.is_child else 5) * STEP
        while turn(Handler(n)):
            self.assertTrue(self.store._backend.sleepers.is_bare(), n)
            self.assertEqual(self.store.open_count(), 0, n)
            n += step
        self.assertGreater(n, 300)

    def asleep(self, *those):
        until(lambda: all(map(self.sleeps, those)), "the sleep")

    def sleeps(self, t):
        return self.store._backend.known(t._life, t.number) in self.store._sleepers

    def ended(self, t):
        """Aborts a transaction that may have been a victim."""
        with contextlib.suppress(colock.NotOpenError):
            t.abort()

    def test_a_victim(self):
        def waits(t):
            with contextlib.suppress(colock.DeadlockError):
                t.call(0, "give", wait=LONG)

        def turn(handler):
            older, t = self.store.begin(), self.store.begin()
            older.call(0, "take").executed()
            t.call(1, "take").executed()
            waiting = Run(older.call, 1, "give", LONG)
            self.asleep(older)
            was_raised = handler.during(lambda: waits(t))
            self.ended(t)
            self.assertEqual(waiting.result(), GIVE)
            older.abort()
            return was_raised

        self.at_each(turn)

    def test_one_for_whom_another_is_the_victim(self):
        def turn(handler):
            t, younger = self.store.begin(), self.store.begin()
            t.call(0, "take").executed()
            younger.call(1, "take").executed()
            waiting = Run(younger.call, 0, "give", LONG)
            self.asleep(younger)
            was_raised = handler.during(lambda: t.call(1, "give", wait=LONG))
            t.abort()
            with contextlib.suppress(colock.DeadlockError):
                self.assertEqual(waiting.result(), GIVE)
            self.ended(younger)
            return was_raised

        self.at_each(turn)

    def test_behind_the_gate(self):
        def ends(holder, t, is_over):
            until(lambda: self.sleeps(t) or is_over.is_set(), "the sleep")
            holder.commit()

        def turn(handler):
            holder, first, t = (self.store.begin() for _ in range(3))
            holder.call(0, "take").executed()
            waiting = Run(lambda: (first.call(0, "give", wait=LONG).executed(), first.commit()))
            self.asleep(first)
            is_over = threading.Event()
            ending = Run(ends, holder, t, is_over)
            was_raised = handler.during(lambda: t.call(0, "take", wait=LONG).executed())
            is_over.set()
            ending.result()
            waiting.result()
            self.assertEqual(t.call(0, "take", wait=LONG), TAKE)
            t.abort()
            return was_raised

        self.at_each(turn)


class CutsInMemory(support.InMemory, Cuts, unittest.TestCase):
    """In memory."""


class CutsOverAChild(support.OverChild, Cuts, unittest.TestCase):
    """Over a child."""


if __name__ == "__main__":
    unittest.main()
