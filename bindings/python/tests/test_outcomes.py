"""Outcomes of keys, of which at least so many stay: in memory and over a child, by the cases of bindings/cases/outcomes.txt.

A case is a line of prose, how many outcomes stay at least, and steps at a store of an account and a counter. Behind `->` is what a step
is told. `attempt`, `commit` and `retry` deposit 1. `prepare` counts 1, and so does each of `attempts`. `illegal` is an attempt that
isn't done. `epoch` ends an epoch, in memory by beginning anew.
"""
import os
import signal
import unittest

import support
from support import folder_of, pid_of, program, until

import colock
from colock import Committed, Decision, Done, Ended, Illegal, Limits, Prepared, Store, Type, Unknown

CASES = os.path.join(os.path.dirname(os.path.abspath(__file__)), "..", "..", "cases", "outcomes.txt")
ACCOUNT, COUNTER = Type.account(9, [1]), Type.counter(50, [1])
# The words of errors, as the cases have them.
WORDS = {colock.KeyAborted: "KeyAborted", colock.KeyCommitted: "KeyCommitted", colock.KeyDecided: "Decided", colock.KeyPrepared: "KeyPrepared", colock.KeyUnknown: "KeyUnknown"}
# What is done or asked under many keys, each of which has a number.
OF_MANY = ("attempts", "known", "unknown")


def deposit(t):
    t.expect(0, "deposit:1", "ok")


class Steps:
    """What the steps of a case do at a store."""

    def __init__(self, store, end_epoch):
        self.store, self.epoch = store, end_epoch

    def told(self, verb, *words):
        """What a step is told."""
        try:
            return getattr(self, verb)(*words) or ""
        except tuple(WORDS) as error:
            return f"refused {WORDS[type(error)]}"

    def attempt(self, key):
        return self.attempted(self.store.attempt([(0, "deposit:1"), (0, "balance")], key=key))

    def count(self, key):
        return self.attempted(self.store.attempt([(1, "inc:1")], key=key))

    def illegal(self, key):
        return self.attempted(self.store.attempt([(1, "dec:1")], key=key))

    def attempted(self, told):
        if isinstance(told, Done):
            return " ".join(["committed", *(operation.reply for operation in told.replies)])
        assert isinstance(told, Ended) and told.how == Illegal(), told
        return "illegal"

    def commit(self, key):
        t = self.store.begin()
        deposit(t)
        return self.ended(t, lambda: t.commit(key=key)) or "committed"

    def prepare(self, key):
        t = self.store.begin()
        t.expect(1, "inc:1", "ok")
        return self.ended(t, lambda: t.prepare(key)) or "prepared"

    def ended(self, t, act):
        """Ends or prepares a transaction, which is aborted where that is refused."""
        try:
            act()
        except colock.Error:
            t.abort()
            raise

    def retry(self, key):
        told = self.store.retry(deposit, key=key)
        return "done" if told is None else " ".join(["known", *told.replies])

    def decide(self, key, decision):
        self.store.decide(key, Decision(decision))
        return {"commit": "committed", "abort": "aborted"}[decision]

    def outcome(self, key):
        told = self.store.outcome(key)
        return " ".join([type(told).__name__.lower(), *(told.replies if isinstance(told, Committed) else ())])

    def listed(self):
        return " ".join(one.key for one in self.store.prepared())

    def balance(self):
        return str(self.store.committed_states([0]).states[0])

    def counted(self):
        return str(self.store.committed_states([1]).states[0])


class Outcomes:
    """At stores of both backends."""

    def test_cases_come_out(self):
        with open(CASES, encoding="ascii") as file:
            cases = file.read().split("\n\n")
        self.assertGreaterEqual(len(cases), 12)
        for case in cases:
            prose, first, *lines = case.strip().split("\n")
            verb, least = first.split()
            self.assertEqual(verb, "store")
            steps = self.steps(int(least))
            for at, line in enumerate(lines):
                asked, _, wanted = line.partition("->")
                with self.subTest(prose, step=at, line=line):
                    self.come_out(steps, asked.split(), wanted.strip())

    def come_out(self, steps, words, wanted):
        """A step is told what it has to be, or each of many keys is."""
        if words[0] not in OF_MANY:
            self.assertEqual(steps.told(*words), wanted)
            return
        what, key, first, last = words
        for number in range(int(first), int(last) + 1):
            told = steps.told("count" if what == "attempts" else "outcome", f"{key}:{number}")
            self.assertEqual(told, "unknown" if what == "unknown" else "committed ok", number)

    def steps(self, least):
        store = self.make([ACCOUNT, COUNTER], outcomes=least)
        return Steps(store, (lambda: self.end_epoch(store)) if self.is_child else store.renew)

    def end_epoch(self, store):
        """Ends an epoch of a file, by one object more."""
        store.extend([COUNTER])


class OutcomesInMemory(support.InMemory, Outcomes, unittest.TestCase):
    def test_where_it_begins_anew_by_itself(self):
        """They outlive the events, and what is prepared outlives both."""
        support.quietly()
        store = Store.with_limits([ACCOUNT, COUNTER], Limits(events=100, outcomes=5))
        store.forget_when_full()
        self.assertEqual(Steps(store, None).prepare("p"), "prepared")
        for number in range(300):
            store.attempt([(0, "deposit:1"), (0, "withdraw:1")], key=f"k:{number}").executed()
            known = [other for other in range(number + 1) if store.outcome(f"k:{other}") != Unknown()]
            self.assertEqual((known, len(store._backend._keys._kept)), ([*range(max(number - 4, 0), number + 1)], len(known)))
        self.assertGreater(store.forgotten_count(), 500)
        self.assertEqual((store.outcome("p"), store.open_count()), (Prepared(), 1))
        store.decide("p", Decision.COMMIT)
        self.assertEqual((store.kept(0), store.kept(1)), (0, 1))


class OutcomesOverAChild(support.OverChild, Outcomes, unittest.TestCase):
    def setUp(self):
        self.path = os.path.join(folder_of(self), "kept.db")

    def open(self, **options):
        """The store in the file of this test."""
        support.quietly()
        is_new = not os.path.exists(self.path)
        store = Store.open(self.path, [ACCOUNT, COUNTER] if is_new else None, create=is_new, program=program(), **options)
        self.addCleanup(support.closed, store)
        return store

    def done_under(self, store, keys):
        """Counts up under each of these letters."""
        for key in keys:
            self.assertEqual(Steps(store, None).count(key), "committed ok")

    def known(self, store):
        """The letters that are keys of an outcome."""
        return "".join(key for key in "abcdefghijkl" if store.outcome(key) != Unknown())

    def test_another_number(self):
        """Each opening says anew how many stay. What went doesn't come back."""
        with self.open(outcomes=2) as store:
            self.done_under(store, "abc")
        # the end of that ended the epoch
        with self.open(outcomes=1) as store:
            self.assertEqual(self.known(store), "bc")
            self.end_epoch(store)
            self.assertEqual(self.known(store), "c")
        with self.open(outcomes=3) as store:
            self.done_under(store, "defg")
            self.end_epoch(store)
            self.assertEqual(self.known(store), "efg")
        with self.open() as store:
            self.done_under(store, "hijk")
            self.end_epoch(store)
            self.assertEqual(self.known(store), "efghijk")

    def test_a_program_that_is_killed(self):
        """Nothing goes by that, and the epoch goes on."""
        store = self.open(outcomes=1)
        self.done_under(store, "abc")
        os.kill(pid_of(store), signal.SIGKILL)
        until(lambda: store._backend._connection.lost is not None, "the loss")
        support.closed(store)
        with self.open(outcomes=1) as store:
            self.assertEqual(self.known(store), "abc")
            self.done_under(store, "a")
            self.assertEqual(store.kept(1), 3)
            self.end_epoch(store)
            self.assertEqual(self.known(store), "c")


if __name__ == "__main__":
    unittest.main()
