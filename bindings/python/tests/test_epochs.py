"""Epochs of a file that end while transactions are open: where each yes of the checker is strong, what is open goes on under its name.

Where one is one-way, it is aborted.
"""
import os
import signal
import unittest

import support
from support import LONG, SOON, OverChild, Run, asleep, behind, folder_of, known, pid_of, program, until

import colock
from colock import Busy, Decision, Done, Ended, Operation, Prepared, Store, Type, Unknown

COUNTER = Type.counter(20, [1, 5])
DOWN = Operation("dec:1", "ok", 1)
# More attempts of 64 calls than an epoch has room for, and as many seconds as they may take.
MOST_ATTEMPTS, LONGEST_EPOCH = 20_000, 600.0


class Epochs(OverChild):
    def open(self, types, **options):
        """A store of these types in a file, in which what is open may go on for a second where an epoch has to end."""
        support.quietly()
        self.path = os.path.join(folder_of(self), "test.db")
        store = Store.open(self.path, types, create=True, program=program(), drain=1, **options)
        self.addCleanup(support.closed, store)
        return store

    def again(self, **options):
        """The store in the file once more."""
        store = Store.open(self.path, program=program(), **options)
        self.addCleanup(support.closed, store)
        return store

    def up(self, store, x=0, call="inc:5"):
        """A transaction that has counted an object up."""
        t = store.begin()
        t.expect(x, call, "ok")
        return t

    def told(self, store, ids):
        """What is said of each."""
        return [store.committed(id) for id in ids]

    def end_epoch(self, store):
        """Ends the epoch, by one object more."""
        store.extend([COUNTER])

    def kill(self, store):
        os.kill(pid_of(store), signal.SIGKILL)
        until(lambda: store._backend._connection.lost is not None, "the loss")


class Strong(Epochs, unittest.TestCase):
    """Stores of which each yes is strong."""

    def test_what_is_open_goes_on(self):
        """It keeps its operations and its locks in each of the lives."""
        store = self.open([COUNTER, COUNTER])
        store.begin().commit()
        t = self.up(store)
        for life in 2, 3, 4:
            self.end_epoch(store)
            with store.begin() as other:
                self.assertEqual(other.id.split(".")[0], str(life))
                self.assertEqual((other.call(0, "dec:5"), other.would(0, "dec:1")), (Busy(1, 1), Busy(1, 1)))
                told = store.attempt([(1, "inc:1"), (0, "dec:1")])
                self.assertEqual(told, Ended(1, Busy(1, 1)))
                other.expect(1, "inc:1", "ok")
            for _ in range(2):
                t.expect(0, "inc:1", "ok")
            t.rollback(1)
            self.assertEqual(t.would(0, "dec:5").executed().reply, "ok")
            self.assertEqual(store.committed_states([0, 1]).states, (0, life - 1))
        t.commit()
        self.assertEqual((t.id, store.kept(0), store.kept(1), store.open_count()), ("1.1", 8, 3, 0))
        self.assertEqual((store.stats().commits, store.stats().aborts), (5, 3))
        store.close()
        self.assertEqual(self.again().snapshot().states, (8, 3, 0, 0, 0))

    @unittest.skipIf(support.QUICK, "it takes seconds")
    def test_a_full_epoch(self):
        """What is open keeps others out all the time."""
        store = self.open([COUNTER, COUNTER])
        t, calls = self.up(store), [(1, "inc:1"), (1, "dec:1")] * 32

        def fill():
            for _ in range(MOST_ATTEMPTS):
                self.assertIsInstance(store.attempt(calls), Done)
                told = store.attempt([(0, "dec:5")])
                self.assertEqual((told.index, told.how.blocker), (0, 0))
                if store.moment().epoch > 1:
                    return True
            return False

        self.assertTrue(Run(fill).result(LONGEST_EPOCH))
        u = store.begin()
        self.assertEqual(u.call(0, "dec:5"), Busy(0, 1))
        t.expect(0, "inc:1", "ok")
        t.commit()
        self.assertEqual(u.call(0, "dec:5").executed().reply, "ok")
        u.abort()
        self.assertEqual(store.kept(0), 6)

    def decided(self, store, t):
        t.prepare("a")
        store.decide("a", Decision.COMMIT)

    def test_who_waits_is_woken_in_a_later_life(self):
        """By a commit, by an abort, by a decision, and where nobody has it any more, all of a later life."""
        ends = [(lambda store, kept: kept[0].commit(), 7), (lambda store, kept: kept[0].abort(), 2), (lambda store, kept: self.decided(store, kept[0]), 7), (lambda store, kept: kept.clear(), 2)]
        for end, count in ends:
            store = self.open([COUNTER])
            store.attempt([(0, "inc:5")])
            kept, u = [self.up(store)], store.begin()
            earlier = Run(u.call, 0, "dec:1", LONG)
            asleep(store, 1)
            self.end_epoch(store)
            asleep(store, 2)  # it has asked once more
            behind(store, u, kept[0])
            v = store.begin()
            later = Run(v.call, 0, "dec:1", LONG)
            asleep(store, 3)
            attempt = Run(store.attempt, [(0, "dec:1")], LONG)
            asleep(store, 4)
            self.assertTrue(earlier.is_alive() and later.is_alive() and attempt.is_alive())
            end(store, kept)
            self.assertEqual((earlier.result(), later.result(), attempt.result()), (DOWN, DOWN, Done((DOWN,))))
            u.commit()
            v.commit()
            self.assertEqual((store.kept(0), store.open_count(), store.stats().deadlocks), (count, 0, 0))
            self.assertTrue(store._backend.sleepers.is_bare())
            store.close()

    def test_two_have_one_number(self):
        """Each keeps out others, and only its own end wakes them."""
        store = self.open([COUNTER, COUNTER])
        store.attempt([(0, "inc:5"), (1, "inc:5")])
        first = self.up(store, 0, "inc:1")
        self.end_epoch(store)
        second = self.up(store, 1, "inc:1")
        self.assertEqual((first.id, second.id, known(store, first) == known(store, second)), ("1.1", "2.1", False))
        self.assertEqual((second.call(0, "dec:1"), first.call(1, "dec:1")), (Busy(1, 1), Busy(1, 2)))
        of_first, of_second = (Run(store.retry, lambda t, x=x: t.call(x, "dec:1", wait=LONG)) for x in (0, 1))
        asleep(store, 4)
        second.commit()
        self.assertEqual((of_second.result(), of_first.is_alive()), (DOWN, True))
        first.commit()
        self.assertEqual((of_first.result(), store.kept(0), store.kept(1)), (DOWN, 5, 5))

    def test_a_circle_of_two_lives(self):
        store = self.open([COUNTER, COUNTER])
        store.attempt([(0, "inc:5"), (1, "inc:5")])
        first = self.up(store, 0, "inc:1")
        self.end_epoch(store)
        second = self.up(store, 1, "inc:1")
        older = Run(first.call, 1, "dec:1", LONG)
        asleep(store, 1)
        with self.assertRaises(colock.DeadlockError) as raised:
            second.call(0, "dec:1", LONG)
        self.assertEqual((raised.exception.blocker, raised.exception.life, older.result()), (1, 1, DOWN))
        first.commit()
        self.assertEqual((store.kept(0), store.kept(1), store.stats().deadlocks), (6, 4, 1))

    def test_a_retry_goes_on(self):
        store, tried = self.open([COUNTER]), []

        def f(t):
            tried.append(t.id)
            t.expect(0, "inc:1", "ok")
            self.end_epoch(store)
            return t.expect(0, "inc:1", "ok").reply

        self.assertEqual((store.retry(f), tried, store.kept(0)), ("ok", ["1.0"], 2))

    def test_it_is_prepared_in_a_later_life(self):
        store = self.open([COUNTER])
        t = self.up(store)
        self.end_epoch(store)
        t.prepare("a", until=7)
        self.end_epoch(store)
        self.assertRaises(colock.PreparedError, t.call, 0, "inc:1")
        self.assertEqual(store.begin().call(0, "dec:5"), Busy(0, 1))
        self.kill(store)
        with self.again() as store:
            self.assertEqual(([one.id for one in store.prepared()], store.outcome("a")), (["1.0"], Prepared()))
            store.decide("a", Decision.COMMIT)
            self.assertEqual(store.kept(0), 5)

    def test_what_went_over_is_told_by_later_epochs(self):
        """Of five of one life one ends in its epoch, and the others in the three epochs after it and in the present one, by the archive."""
        archive = folder_of(self)
        store = self.open([COUNTER], archive=archive)
        all_open = [self.up(store, call="inc:1") for _ in range(5)]
        ids = [t.id for t in all_open]
        first, second, third, fourth, fifth = all_open
        first.commit()
        self.end_epoch(store)
        third.commit()
        self.assertEqual(self.told(store, ids), [True, None, True, None, None])
        self.end_epoch(store)
        second.abort()
        fourth.prepare("a")
        fifth.prepare("b")
        self.end_epoch(store)
        self.assertEqual(self.told(store, ids), [True, False, True, None, None])
        self.kill(store)
        for key, decision, wanted in [("a", Decision.COMMIT, [True, None]), ("b", Decision.ABORT, [True, False])]:
            with self.again(archive=archive) as store:
                store.decide(key, decision)
                self.assertEqual(self.told(store, ids), [True, False, True, *wanted])
        with self.again(archive=archive) as store:
            self.assertEqual(self.told(store, ids), [True, False, True, True, False])
        with self.again() as store:
            self.assertEqual(self.told(store, ids), [None] * 5)

    def test_a_kill_in_a_later_life(self):
        """With its program what is open is lost, of whatever life, and who waits is told so."""
        store = self.open([COUNTER])
        self.up(store, 0, "inc:1").commit()
        t = self.up(store)
        self.end_epoch(store)
        waiting = Run(store.begin().call, 0, "dec:1", LONG)
        asleep(store, 1)
        self.kill(store)
        for act in (waiting.result, lambda: t.call(0, "inc:1"), t.commit):
            self.assertRaises(colock.ConnectionLost, act)
        with self.again() as store:
            self.assertEqual((store.kept(0), store.open_count(), store.committed("1.1")), (1, 0, None))
            store.retry(lambda t: t.expect(0, "dec:1", "ok"))


class OneWay(Epochs, unittest.TestCase):
    """A store of which a yes is one-way."""

    def test_what_is_open_is_aborted(self):
        """Those who wait for it are woken: a transaction, which was aborted too, and an attempt, which goes on."""
        store = self.open([COUNTER, support.one_way()])
        store.attempt([(0, "inc:1")])
        t, idle, u = self.up(store), self.up(store, 1, "q"), store.begin()
        waiting = Run(u.call, 0, "dec:1", LONG)
        asleep(store, 1)
        attempt = Run(store.attempt, [(0, "dec:1")], LONG)
        asleep(store, 2)
        self.end_epoch(store)
        self.assertRaises(colock.EpochEndedError, waiting.result)
        self.assertEqual(attempt.result(SOON), Done((DOWN,)))
        for act in (lambda: t.call(0, "inc:1"), lambda: t.rollback(1), t.commit, u.abort, lambda: idle.prepare("a"), idle.commit):
            self.assertRaises(colock.EpochEndedError, act)
        with store.begin() as later:
            self.assertEqual(later.id.split(".")[0], "2")
        self.assertEqual((store.kept(0), store.open_count(), store.outcome("a")), (0, 0, Unknown()))
        self.assertEqual(store._backend._open, {})

    def test_what_was_prepared_is_told(self):
        """It goes over, in the place of one that was aborted."""
        store = self.open([COUNTER, support.one_way()], archive=folder_of(self))
        first, second = self.up(store), self.up(store)
        ids = [first.id, second.id]
        second.prepare("a")
        self.end_epoch(store)
        self.assertEqual(self.told(store, ids), [False, None])
        self.up(store).abort()
        store.decide("a", Decision.COMMIT)
        self.assertEqual(self.told(store, ids), [False, True])
        self.assertRaises(colock.EpochEndedError, first.commit)

    def test_a_retry_begins_anew(self):
        store, tried = self.open([COUNTER, support.one_way()]), []

        def f(t):
            tried.append(t.id)
            t.expect(0, "inc:1", "ok")
            if len(tried) == 1:
                self.end_epoch(store)
            return t.expect(0, "inc:1", "ok").reply

        self.assertEqual((store.retry(f), tried, store.kept(0)), ("ok", ["1.0", "2.0"], 2))
        self.assertEqual((store.stats().commits, store.stats().aborts), (1, 1))


if __name__ == "__main__":
    unittest.main()
