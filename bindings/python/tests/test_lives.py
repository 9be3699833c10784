"""What is asked of a program of transactions of earlier lives, line by line: they are open until their ends or refusals say otherwise."""
import unittest

from support import LONG, Fakes, Run, asleep, behind, quietly

import colock
from colock import Busy, Done, Moment, Operation, _outcomes

TAKEN, GIVEN = Operation("take", "ok", 0), Operation("give", "ok", 1)
# A transaction 5.0 that has taken, and a read in the next life.
HELD = ("begin", "ok 5.0"), ("call 5.0 0 take", "reply ok")
LATER = "committed 0", "seen 6.0 0"


class Lives(Fakes):
    def setUp(self):
        quietly()

    def held(self, *lines):
        """A store whose program is asked these lines, and answers so, behind what a transaction asked that has taken."""
        store = self.asked(*HELD, *lines)
        t = store.begin()
        t.call(0, "take").executed()
        return store, t

    def test_it_goes_on(self):
        store, t = self.held(
            LATER, ("call 5.0 0 take", "reply ok"), ("would 5.0 0 give", "reply ok"), ("rollback 5.0 1", "ok"), ("begin", "ok 6.1"), ("commit 6.1", "ok"),
            ("prepare 5.0 a 7", "ok"), ("decide a commit", "ok"),
        )
        self.assertEqual(store.moment(), Moment(6, 0))
        self.assertEqual((t.call(0, "take"), t.would(0, "give")), (TAKEN, GIVEN))
        t.rollback(1)
        store.begin().commit()
        t.prepare("a", until=7)
        store.decide("a", colock.Decision.COMMIT)
        self.assertEqual((t.id, store.stats().commits, store.stats().aborts, store._backend._open), ("5.0", 2, 0, {}))

    def test_one_of_a_later_life_waits_for_its_number(self):
        """It isn't taken for the one for which it waits."""
        store, t = self.held(
            LATER, ("begin", "ok 6.0"), ("call 6.0 0 give", "busy 5.0"), ("call 6.0 0 give", "busy 5.0"), ("call 5.0 0 take", "reply ok"), ("commit 5.0", "ok"),
            ("would 6.0 0 give", "reply ok"), ("call 6.0 0 give", "reply ok"), ("commit 6.0", "ok"),
        )
        store.moment()
        u = store.begin()
        self.assertEqual(u.call(0, "give"), Busy(0, 5))
        giving = Run(u.call, 0, "give", LONG)
        behind(store, u, t)
        self.assertEqual((t.call(0, "take"), giving.is_alive()), (TAKEN, True))
        t.commit()
        self.assertEqual((giving.result(), store.stats().deadlocks, store.stats().waits), (GIVEN, 0, 1))
        u.commit()
        self.assertTrue(store._backend.sleepers.is_bare())

    def test_the_gate_of_two_lives(self):
        """Who waits keeps out a younger one, which is told its life."""
        store, t = self.held(
            ("begin", "ok 5.1"), ("call 5.1 0 give", "busy 5.0"), LATER, ("would 5.1 0 give", "busy 5.0"), ("begin", "ok 6.0"), ("commit 5.0", "ok"),
            ("would 5.1 0 give", "reply ok"), ("call 5.1 0 give", "reply ok"),
        )
        u = store.begin()
        giving = Run(u.call, 0, "give", LONG)
        asleep(store, 1)
        store.moment()
        asleep(store, 2)
        v = store.begin()
        self.assertEqual(v.call(0, "take"), Busy(1, 5))
        with self.assertRaises(colock.BusyError) as raised:
            v.expect(0, "take", "ok")
        self.assertEqual(str(raised.exception), "transaction 5.1 is in the way")
        t.commit()
        self.assertEqual(giving.result(), GIVEN)

    def test_a_circle_of_two_lives(self):
        """The youngest is the victim, and is told for whom it waited."""
        store, t = self.held(
            LATER, ("begin", "ok 6.0"), ("call 6.0 0 give", "reply ok"), ("call 5.0 0 take", "busy 6.0"), ("call 6.0 0 give", "busy 5.0"), ("abort 6.0", "ok"),
            ("would 5.0 0 take", "reply ok"), ("call 5.0 0 take", "reply ok"), ("commit 5.0", "ok"),
        )
        store.moment()
        u = store.begin()
        u.call(0, "give").executed()
        taking = Run(t.call, 0, "take", LONG)
        asleep(store, 1)
        with self.assertRaises(colock.DeadlockError) as raised:
            u.call(0, "give", LONG)
        self.assertEqual((raised.exception.blocker, raised.exception.life, taking.result()), (0, 5, TAKEN))
        self.assertEqual(str(raised.exception), "it waited for transaction 5.0 in a circle, and was aborted as the youngest")
        t.commit()

    def test_who_waits_asks_once_more(self):
        store, t = self.held(
            ("begin", "ok 5.1"), ("call 5.1 0 give", "busy 5.0"), LATER, ("would 5.1 0 give", "busy 5.0"), ("commit 5.0", "ok"), ("would 5.1 0 give", "reply ok"),
            ("call 5.1 0 give", "reply ok"), ("commit 5.1", "ok"),
        )
        u = store.begin()
        giving = Run(u.call, 0, "give", LONG)
        asleep(store, 1)
        store.moment()
        asleep(store, 2)
        t.commit()
        self.assertEqual(giving.result(), GIVEN)
        u.commit()
        self.assertEqual((store.stats().commits, store.stats().aborts), (2, 0))

    def test_who_was_aborted_finds_it(self):
        """Each of those that are asked of, once."""
        store, t = self.held(("begin", "ok 5.1"), ("call 5.1 0 give", "busy 5.0"), ("begin", "ok 6.0"), ("would 5.1 0 give", "refused NotOpen"), ("call 5.0 0 take", "refused NotOpen"))
        u = store.begin()
        giving = Run(u.call, 0, "give", LONG)
        asleep(store, 1)
        v = store.begin()
        self.assertRaises(colock.EpochEndedError, giving.result)
        for act in (lambda: t.call(0, "take"), lambda: t.call(0, "take"), lambda: u.call(0, "give", LONG), t.commit, u.abort, lambda: t.prepare("a")):
            self.assertRaises(colock.EpochEndedError, act)
        self.assertEqual((v.id, store.stats().aborts, list(store._backend._open)), ("6.0", 2, [store._backend.known(6, 0)]))

    def test_a_refusal_wakes_who_waits(self):
        """It says that an epoch has ended, before a later life is told."""
        store, t = self.held(
            ("begin", "ok 5.1"), ("call 5.1 0 give", "busy 5.0"), ("begin", "ok 5.2"), ("rollback 5.2 1", "refused NotOpen"), ("would 5.1 0 give", "refused NotOpen"),
            ("abort 5.0", "refused NotOpen"),
        )
        giving = Run(store.begin().call, 0, "give", LONG)
        asleep(store, 1)
        self.assertRaises(colock.EpochEndedError, store.begin().rollback, 1)
        self.assertRaises(colock.EpochEndedError, giving.result)
        self.assertRaises(colock.EpochEndedError, t.abort)
        self.assertEqual(store.stats().aborts, 3)

    def test_an_attempt_is_made_again(self):
        store, t = self.held(("do 0 give", "busy 0 5.0"), LATER, ("do 0 give", "busy 0 5.0"), ("commit 5.0", "ok"), ("do 0 give", "done ok"))
        giving = Run(store.attempt, [(0, "give")], LONG)
        asleep(store, 1)
        store.moment()
        asleep(store, 2)
        t.commit()
        self.assertEqual(giving.result(), Done((GIVEN,)))

    def test_what_became_of_one_isnt_told_by_another_life(self):
        """The events of another epoch tell other transactions by the same numbers."""
        for lines in ((("committed 0", "seen 5.0 0"), ("events 0 65536", "begin 0 0\ncommit 0 0\nok"), LATER), (LATER,)):
            with self.asked(*HELD[:1], ("abort 5.0", "ok"), *lines) as store:
                store._backend._found = _outcomes.Opened(0, 0)
                t = store.begin()
                t.abort()
                self.assertIsNone(store.committed(t.id))

    def test_what_an_epoch_aborted_is_counted_once(self):
        for act, line in [
            (lambda t: t.commit(), "commit 5.0"), (lambda t: t.abort(), "abort 5.0"), (lambda t: t.commit(key="a"), "commit 5.0 a"), (lambda t: t.rollback(1), "rollback 5.0 1"),
            (lambda t: t.prepare("a"), "prepare 5.0 a 0"),
        ]:
            store, t = self.held(LATER, (line, "refused NotOpen"))
            store.moment()
            self.assertRaises(colock.EpochEndedError, act, t)
            del t
            self.assertEqual((store.stats().commits, store.stats().aborts, store._backend._open, store._backend.holders), (0, 1, {}, {}))

    def test_nobody_has_it_any_more(self):
        store, t = self.held(LATER, ("abort 5.0", "ok"), ("kept 0", "ok 0"))
        store.moment()
        with self.assertWarns(ResourceWarning) as warned:
            del t
            store.kept(0)
        self.assertIn("transaction 5.0 is let go", str(warned.warning))
        self.assertEqual(store.stats().aborts, 1)


if __name__ == "__main__":
    unittest.main()
