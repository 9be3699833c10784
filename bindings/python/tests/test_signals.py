"""A signal handler that raises anywhere in a call: the call ends, and the store and all others go on.

A trace function stands for the handler. It raises at the n-th bytecode inside of the package, for each n until the call
passes without it.
"""
import os
import random
import signal
import sys
import threading
import time
import unittest

import support
from support import LONG, QUICK, SOON, Run, is_running, pid_of, until

import colock
from colock import Kind, Type

INSIDE = os.path.dirname(os.path.abspath(colock.__file__)) + os.sep
STEP = 7 if QUICK else 1
# A trace function of Python 3.13 doesn't see each bytecode.
MONITORING = getattr(sys, "monitoring", None)
# Each has a number of its own in the middle, so that an answer to another question is seen.
MIDDLE = (500, 600, 700)
COUNTER = Type.counter(1_000, [1, 100])
# the places of inc:1 and dec:1
UP, DOWN = (next(place for place, (call, _) in enumerate(COUNTER.operations) if call == name) for name in ("inc:1", "dec:1"))


class Raised(BaseException):
    """What the handler raises."""


class Handler:
    """Raises at the n-th bytecode inside of the package."""

    def __init__(self, n):
        self.left, self.thread = n, threading.get_ident()

    def __call__(self, frame, event, argument):
        if not frame.f_code.co_filename.startswith(INSIDE):
            return None
        # what is raised in `__del__` of a store Python drops
        if "__del__" in (frame.f_code.co_name, frame.f_back.f_code.co_name):
            return None
        frame.f_trace_opcodes, frame.f_trace_lines = True, False
        return self.at

    def at(self, frame, event, argument):
        if event == "opcode":
            self.left -= 1
            if self.left == 0:
                raise Raised
        return self.at

    def instruction(self, code, offset):
        """The same as Python 3.12 and later tell it, of all threads."""
        if threading.get_ident() == self.thread and code.co_filename.startswith(INSIDE) and code.co_name != "__del__":
            self.at(None, "opcode", None)

    def during(self, act):
        """Whether it raised in what is done."""
        self.begin()
        try:
            act()
        except Raised:
            pass
        finally:
            self.end()
        return self.left <= 0

    def begin(self):
        if MONITORING is None:
            sys.settrace(self)
        else:
            MONITORING.use_tool_id(MONITORING.DEBUGGER_ID, "handler")
            MONITORING.register_callback(MONITORING.DEBUGGER_ID, MONITORING.events.INSTRUCTION, self.instruction)
            MONITORING.set_events(MONITORING.DEBUGGER_ID, MONITORING.events.INSTRUCTION)

    def end(self):
        if MONITORING is None:
            sys.settrace(None)
        else:
            MONITORING.set_events(MONITORING.DEBUGGER_ID, 0)
            MONITORING.free_tool_id(MONITORING.DEBUGGER_ID)


class Calls:
    """Each call at a store, of which nothing is left open by the one that is interrupted."""

    def made(self, types):
        """A store of these types. In memory a history is as long as some seconds make it."""
        return self.make(types, **({"fast": True} if self.is_child else {"max_events": 1_000_000_000}))

    def setUp(self):
        self.store = self.made([COUNTER] * 3)
        with self.store.begin() as t:
            for x, middle in enumerate(MIDDLE):
                for _ in range(middle // 100):
                    t.call(x, "inc:100").executed()

    def at_each(self, turn, step=STEP):
        """Does turns, each with the handler of a later bytecode, until it isn't there any more."""
        n = 1
        while turn(Handler(n)):
            n += step
        self.assertGreater(n, 20)
        self.assertEqual(self.store._backend.sleepers.calls, {})
        self.assertEqual(self.store.open_count(), 0)

    def holds(self):
        """Nothing is open, another transaction goes on, and each question has its own answer."""
        self.assertEqual(self.store.open_count(), 0)
        with self.store.begin() as t:
            self.assertEqual(t.call(2, "inc:1").executed().place, UP)
            self.assertEqual(self.store.kept(2), MIDDLE[2] + 1)
            self.assertEqual(t.call(2, "dec:1").executed().place, DOWN)
        self.assertEqual([self.store.kept(x) for x in (1, 2)], [*MIDDLE[1:]])
        # what was free of the lock is so for all threads
        self.assertEqual(Run(self.store.open_count).result(), 0)

    def back(self):
        """Object 0 is as it was before. By how much it had been counted up."""
        done = self.store.kept(0) - MIDDLE[0]
        if done:
            with self.store.begin() as t:
                for _ in range(abs(done)):
                    t.call(0, "dec:1" if done > 0 else "inc:1").executed()
        return done

    def alone(self, act):
        """A call that leaves nothing open, beside a transaction of another."""
        def turn(handler):
            other = self.store.begin()
            other.call(1, "inc:1").executed()
            was_raised = handler.during(act)
            self.assertEqual(other.call(1, "dec:1").executed().place, DOWN)
            other.commit()
            self.holds()
            return was_raised

        self.at_each(turn)

    # ---- calls that end nothing

    def test_begin(self):
        self.alone(lambda: self.store.begin().abort())

    def test_with(self):
        def act():
            with self.store.begin() as t:
                t.call(0, "inc:1").executed()

        self.alone(act)
        self.assertGreater(self.back(), 0)

    def test_questions(self):
        for act in (
            lambda: self.store.kept(0), lambda: self.store.events(self.store.event_count() - 2), self.store.stats, self.store.event_count, self.store.open_count,
            lambda: self.store.call_number(0, "inc:1"), lambda: self.store.committed("99.0"), self.store.moment, self.store.snapshot,
            lambda: self.store.committed_states([0, 1, 2]), lambda: self.store.peek([]),
        ):
            self.alone(act)

    def test_peek(self):
        store = self.made([Type(support.PURSE, Kind.ESCROW)])
        with store.begin() as t:
            t.call(0, "give:17").executed()

            def turn(handler):
                was_raised = handler.during(lambda: store.peek([(0, "value")] * 70))
                self.assertEqual([of.amount for of in store.peek([(0, "value")] * 2).replies], [500, 500])
                self.assertEqual((t.call(0, "value").executed().amount, store.open_count(), store.moment().commits), (517, 1, 0))
                return was_raised

            # so many calls have thousands of bytecodes
            self.at_each(turn, 41)

    def test_attempt(self):
        self.alone(lambda: self.store.attempt([(0, "inc:1"), (0, "inc:1")]))
        self.assertGreater(self.back(), 1)

    def test_attempt_that_is_ended(self):
        self.alone(lambda: self.store.attempt([(0, "inc:1"), (1, "dec:1")]))
        self.assertEqual(self.store.kept(0), MIDDLE[0])

    def test_retry(self):
        self.alone(lambda: self.store.retry(lambda t: t.call(0, "inc:1").executed()))
        self.assertGreater(self.back(), 0)

    def test_transact(self):
        self.alone(lambda: self.store.transact(lambda t: t.call(0, "inc:1").executed()))
        self.assertGreater(self.back(), 0)

    def test_transact_that_goes_on(self):
        def f(t):
            try:
                t.call(0, "inc:1")
            except Raised:
                pass

        self.alone(lambda: self.store.transact(f))
        self.assertGreater(self.back(), 0)

    def within(self, act):
        """A call of a transaction, which is open behind it and is aborted."""
        def turn(handler):
            t, other = self.store.begin(), self.store.begin()
            was_raised = handler.during(lambda: act(t))
            other.call(1, "inc:1").executed()
            t.call(2, "inc:1").executed()
            t.abort()
            other.abort()
            self.assertEqual(self.store.kept(0), MIDDLE[0])
            self.holds()
            return was_raised

        self.at_each(turn)

    def test_call(self):
        for act in (
            lambda t: t.call(0, "inc:1"), lambda t: t.call_op(0, 0), lambda t: t.would(0, "inc:1"), lambda t: t.would_op(0, 0),
            lambda t: t.call(0, "inc:1", wait=LONG),
        ):
            self.within(act)

    # ---- waits

    def ends_when_asleep(self, t, other, is_over):
        """Ends a transaction when another one sleeps, or will not any more."""
        until(lambda: other in self.store._backend.sleepers.calls or is_over.is_set(), "the sleep")
        t.abort()

    def test_a_call_that_waits(self):
        def turn(handler):
            holder, t, is_over = self.store.begin(), self.store.begin(), threading.Event()
            holder.call(0, "dec:1").executed()
            ending = Run(self.ends_when_asleep, holder, support.known(self.store, t), is_over)
            was_raised = handler.during(lambda: t.call(0, "inc:1", wait=LONG).executed())
            is_over.set()
            ending.result()
            self.assertEqual(self.store._backend.sleepers.calls, {})
            t.call(0, "inc:1", wait=SOON).executed()
            t.abort()
            self.holds()
            return was_raised

        self.at_each(turn)

    def test_a_wait_that_is_over(self):
        def timed_out(t):
            try:
                t.call(0, "inc:1", wait=0.001)
            except colock.TimedOut:
                pass

        def turn(handler):
            holder, t = self.store.begin(), self.store.begin()
            holder.call(0, "dec:1").executed()
            was_raised = handler.during(lambda: timed_out(t))
            holder.abort()
            t.call(0, "inc:1", wait=SOON).executed()
            t.abort()
            self.holds()
            return was_raised

        self.at_each(turn)

    def test_an_attempt_that_waits(self):
        def turn(handler):
            holder, is_over = self.store.begin(), threading.Event()
            holder.call(0, "dec:1").executed()
            watches, busy = self.store._backend.sleepers.bells, self.store.stats().busy[0]

            def ends():
                until(lambda: watches or is_over.is_set() or self.store.stats().busy[0] > busy, "the sleep")
                holder.abort()

            ending = Run(ends)
            was_raised = handler.during(lambda: self.store.attempt([(0, "inc:1")], wait=LONG).executed())
            is_over.set()
            ending.result()
            self.assertEqual(watches, {})
            self.store.attempt([(0, "inc:1")], wait=0).executed()
            self.assertIn(self.back(), (1, 2))
            self.holds()
            return was_raised

        self.at_each(turn)

    def test_an_attempt_that_frees_one_who_sleeps(self):
        """It lets who sleeps behind another transaction go where it commits, wherever it is interrupted."""
        store = self.made([Type.counter(9, [1, 2], Kind.ESCROW)])

        def turn(handler):
            low = store.kept(0)
            store.retry(lambda t: [t.call(0, "dec:1") for _ in range(low - 1)])
            if low == 0:
                store.attempt([(0, "inc:1")])
            holder, t = store.begin(), store.begin()
            holder.call(0, "dec:1").executed()
            sleeping = Run(t.call, 0, "dec:1", LONG)
            until(lambda: store._backend.sleepers.calls, "the sleep")
            was_raised = handler.during(lambda: store.attempt([(0, "inc:2")]))
            is_done = store.kept(0) > 1
            self.assertTrue(is_done or was_raised)
            if not is_done:
                holder.abort()
            self.assertEqual(sleeping.result().executed().reply, "ok")
            t.abort()
            if is_done:
                holder.abort()
            return was_raised

        self.at_each(turn)
        self.assertEqual(store.open_count(), 0)

    # ---- ends, and who sleeps behind them

    def behind(self, act):
        """An end, or a rollback, with two that sleep behind it: each goes on. By how much object 0 was counted up."""
        def turn(handler):
            t, first, second = (self.store.begin() for _ in range(3))
            t.call(0, "inc:1").executed()
            waiting = [Run(u.call, 0, "dec:1", LONG) for u in (first, second)]
            until(lambda: len(self.store._backend.sleepers.calls) == 2, "the sleep")
            was_raised = handler.during(lambda: act(t))
            is_open = self.is_open(t)
            if is_open:
                t.abort()
            for call in waiting:
                self.assertEqual(call.result().executed().place, DOWN)
            first.abort()
            second.abort()
            ups.append((self.back(), is_open))
            self.holds()
            return was_raised

        ups = []
        self.at_each(turn)
        return ups

    def is_open(self, t):
        try:
            t.would(1, "inc:1")
        except colock.NotOpenError:
            return False
        return True

    def test_commit(self):
        ups = self.behind(lambda t: t.commit())
        self.assertEqual(set(ups), {(0, True), (1, False)})

    def test_abort(self):
        ups = self.behind(lambda t: t.abort())
        self.assertEqual(set(ups), {(0, True), (0, False)})

    def test_rollback(self):
        ups = self.behind(lambda t: t.rollback(1))
        self.assertEqual(set(ups), {(0, True)})

    # ---- signals

    def signals(self, work, behind):
        """Does work, again and again, until a signal comes at any time; and then what follows."""
        was_raised, drawn = threading.Event(), random.Random(1)

        def handler(number, frame):
            was_raised.set()
            raise Raised

        self.addCleanup(signal.signal, signal.SIGALRM, signal.signal(signal.SIGALRM, handler))
        self.addCleanup(signal.setitimer, signal.ITIMER_REAL, 0)
        end = time.monotonic() + (0.5 if QUICK else 5.0)
        while time.monotonic() < end:
            was_raised.clear()
            try:
                signal.setitimer(signal.ITIMER_REAL, drawn.uniform(0.0002, 0.003))
                while not was_raised.is_set():
                    work()
            except Raised:
                pass
            behind()

    def test_signals_at_any_time(self):
        def work():
            with self.store.begin() as t:
                t.call(0, "inc:1").executed()
                t.rollback(1)
            self.store.transact(lambda t: t.would(1, "inc:1"))

        self.signals(work, self.holds)

    def test_others_beside_signals(self):
        def work(call="dec:1"):
            with self.store.begin() as t:
                t.call(0, call, wait=SOON).executed()
                t.rollback(1)

        def others():
            turns = 0
            while not is_over.is_set():
                work("inc:1")
                turns += 1
            return turns

        is_over = threading.Event()
        self.addCleanup(sys.setswitchinterval, sys.getswitchinterval())
        sys.setswitchinterval(1e-5)
        threads = [Run(others) for _ in range(2)]
        self.signals(work, lambda: None)
        is_over.set()
        self.assertGreater(min(thread.result() for thread in threads), 3)
        self.holds()
        self.assertEqual(self.store.kept(0), MIDDLE[0])


class CallsInMemory(support.InMemory, Calls, unittest.TestCase):
    """In memory."""

    def test_the_store_itself(self):
        """What is for stores in memory alone."""
        self.alone(lambda: self.store.forget(1))

        def turn(handler):
            t = self.store.begin()
            t.call(0, "inc:1")
            was_raised = handler.during(self.store.abort_all)
            self.store.abort_all()
            self.holds()
            return was_raised

        self.at_each(turn)

    def test_renew(self):
        def turn(handler):
            with self.store.begin() as t:
                t.call(1, "inc:1").executed()
                t.call(1, "dec:1").executed()
            was_raised = handler.during(self.store.renew)
            # numbers count from 0 again in another life, and in no other case
            was_renewed = self.store.event_count() == 0
            with self.store.begin() as u:
                self.assertEqual((u.id.partition(".")[0] != t.id.partition(".")[0], u.number == 0), (was_renewed, was_renewed))
            self.assertRaises(colock.NotOpenError, t.call, 0, "inc:1")
            return was_raised

        self.at_each(turn)

    def test_extend(self):
        """Nothing of an extension is seen, or all of it: the objects, their names, what is counted of them, and the new life."""
        limits = colock.Limits(events=1_000_000, objects=65_536)
        store = colock.Store.with_limits([COUNTER], limits)
        self.addCleanup(store.close)
        count = 1

        def turn(handler):
            nonlocal count
            with store.begin() as t:
                t.call(0, "inc:1").executed()
                t.call(0, "dec:1").executed()
            names = [f"{count}-{handler.left}-{x}" for x in range(2)]
            was_raised = handler.during(lambda: store.extend([(names[0], COUNTER), COUNTER, (names[1], COUNTER)]))
            was_extended = store.event_count() == 0
            self.assertTrue(was_extended or was_raised)
            count += 3 * was_extended
            self.assertEqual(len(store.stats().busy), count)
            with store.begin() as u:
                self.assertEqual((u.id.partition(".")[0] != t.id.partition(".")[0], u.number == 0), (was_extended, was_extended))
                u.call(count - 1, "inc:1").executed()
                u.call(count - 1, "dec:1").executed()
                self.assertRaises(colock.NoObject, u.call, count, "inc:1")
                self.assertEqual(store.name_of(count - 1) == names[1], was_extended)
                for name, x in zip(names, (count - 3, count - 1)):
                    if was_extended:
                        self.assertEqual((store.find(name), u.call(name, "inc:1").executed().reply), (x, "ok"))
                    else:
                        self.assertRaises(colock.NoObject, store.find, name)
            self.assertRaises(colock.NotOpenError, t.call, 0, "inc:1")
            return was_raised

        self.at_each(turn)
        self.assertEqual(store.open_count(), 0)

    def test_close(self):
        def turn(handler):
            store = colock.Store([COUNTER], 100)
            t, u = store.begin(), store.begin()
            t.call(0, "inc:1")
            waiting = Run(u.call, 0, "dec:1", LONG)
            until(lambda: store._backend.sleepers.calls, "the sleep")
            was_raised = handler.during(store.close)
            store.close()
            self.assertRaises(colock.ClosedError, waiting.result)
            return was_raised

        self.at_each(turn)


class CallsOverAChild(support.OverChild, Calls, unittest.TestCase):
    """Over a child."""

    def test_extend(self):
        """It goes on by itself where it was asked for, and otherwise nothing is added."""
        store, of, added = self.make([COUNTER], fast=True), Type(support.TWO), []

        def turn(handler):
            count, name = len(added) + 1, f"x{handler.left}"
            was_raised = handler.during(lambda: store.extend([(name, of)]))
            until(lambda: not any(each.name == "colock extension" and each.is_alive() for each in threading.enumerate()), "the end")
            if store.name_of(count) is None:
                self.assertTrue(was_raised)
                self.assertRaises(colock.NoObject, store.kept, count)
            else:
                added.append(name)
                store.transact(lambda t: t.expect(name, "take", "ok"))
                self.assertEqual((store.find(name), store.name_of(count)), (count, name))
            self.assertEqual((store.open_count(), store.kept(0)), (0, 0))
            return was_raised

        self.at_each(turn)
        self.assertGreater(STEP * len(added), 5)
        self.assertEqual([store.name_of(x) for x in range(len(added) + 1)], [None, *added])

    def test_close(self):
        def turn(handler):
            store = self.make([COUNTER], fast=True)
            t, u = store.begin(), store.begin()
            t.call(0, "inc:1")
            waiting = Run(u.call, 0, "dec:1", LONG)
            until(lambda: store._backend.sleepers.calls, "the sleep")
            was_raised = handler.during(store.close)
            store.close()
            self.assertRaises((colock.ClosedError, colock.NotOpenError, colock.ConnectionLost), waiting.result)
            self.assertFalse(is_running(pid_of(store)))
            return was_raised

        # each turn is a process of its own
        self.at_each(turn, 41)


if __name__ == "__main__":
    unittest.main()
