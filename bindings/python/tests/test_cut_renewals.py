"""A signal handler that raises anywhere in a call in which a store in memory begins anew, while transactions are open."""
import unittest

import support
from test_signals import COUNTER, DOWN, STEP, UP, Handler

import colock


class CutRenewals(support.InMemory, unittest.TestCase):
    def at_each(self, turn):
        """Does turns, each with the handler of a later bytecode, until it isn't there any more."""
        n = 1
        while turn(Handler(n)):
            n += STEP
        self.assertGreater(n, 20)

    def go_on(self, store, number):
        """A transaction whose number is greater goes on, at object 2, which is at 0 before and after it."""
        with store.begin() as t:
            self.assertGreater(t.number, number)
            self.assertEqual([t.call(2, name).executed().place for name in ("inc:1", "dec:1")], [UP, DOWN])
        self.assertEqual(store.kept(2), 0)

    def test_a_begin_behind_what_is_prepared(self):
        """What is prepared is nobody's, and isn't taken for what began and nobody has."""
        store = self.make([COUNTER] * 3)

        def turn(handler):
            key = f"k{handler.left}"
            prepared = store.begin()
            prepared.call(0, "inc:1").executed()
            prepared.prepare(key)
            was_raised = handler.during(lambda: store.begin().abort())
            self.assertEqual((store.open_count(), store.outcome(key), store.kept(0)), (1, colock.Prepared(), 1))
            store.decide(key, colock.Decision.ABORT)
            self.go_on(store, prepared.number)
            return was_raised

        self.at_each(turn)
        self.assertEqual((store.open_count(), store.kept(0)), (0, 0))

    def test_renew_while_some_are_open(self):
        """They go on, whether it was done or not, and numbers count on. What is forgotten is all or nothing."""
        store, seen = self.make([COUNTER] * 3), set()
        held = store.begin()
        held.call(1, "inc:1").executed()

        def turn(handler):
            key = f"k{handler.left}"
            store.begin().commit()
            prepared = store.begin()
            prepared.call(0, "inc:1").executed()
            prepared.prepare(key)
            count, moment = store.event_count(), store.moment()
            was_raised = handler.during(store.renew)
            self.assertEqual((store.event_count(), store.moment()), (count, moment))
            seen.add((was_raised, store.forgotten_count() == count))
            with store.begin() as u:
                self.assertEqual((u.call(0, "dec:1").blocker, u.id), (prepared.number, f"0.{prepared.number + 1}"))
            store.decide(key, colock.Decision.ABORT)
            self.assertEqual((held.call(1, "inc:1").executed().place, held.number), (UP, 0))
            held.rollback(1)
            self.go_on(store, prepared.number + 1)
            self.assertEqual((store.open_count(), store.kept(1)), (1, 1))
            return was_raised

        self.at_each(turn)
        held.commit()
        self.assertEqual((seen, store.kept(1)), ({(True, False), (True, True), (False, True)}, 1))

    def each_that_finds_it_full(self, act):
        """A call that finds the history full, so that the store begins anew in it, beside a transaction that stays open."""
        store = self.make([COUNTER] * 3, 60)
        store.forget_when_full()
        held = store.begin()
        held.call(1, "inc:1").executed()

        def turn(handler):
            t = store.begin()
            t.call(0, "inc:1").executed()
            while store.event_count() - store._backend.epoch.events + store.open_count() < 60:
                t.call(2, "dec:1")  # which is illegal, and an event
            forgotten = store.forgotten_count()
            was_raised = handler.during(lambda: act(store, t))
            self.assertTrue(was_raised or store.forgotten_count() > forgotten)
            t._abort_quietly()
            self.go_on(store, t.number)
            self.assertEqual((held.call(1, "inc:1").executed().place, held.number), (UP, 0))
            held.rollback(1)
            self.assertEqual((store.open_count(), [store.kept(x) for x in range(2)]), (1, [0, 1]))
            return was_raised

        self.at_each(turn)
        held.commit()
        self.assertEqual((store.open_count(), store.kept(1), store._backend.sleepers.is_bare()), (0, 1, True))

    def test_a_begin_that_finds_it_full(self):
        self.each_that_finds_it_full(lambda store, t: store.begin().abort())

    def test_a_call_that_finds_it_full(self):
        self.each_that_finds_it_full(lambda store, t: t.call(0, "inc:1"))

    def test_a_rollback_that_finds_it_full(self):
        self.each_that_finds_it_full(lambda store, t: t.rollback(1))

    def test_an_attempt_that_finds_it_full(self):
        self.each_that_finds_it_full(lambda store, t: store.attempt([(2, "inc:1"), (2, "dec:1")]))

    def test_a_forgetting_that_makes_room(self):
        """All are forgotten at once where it begins anew, and it goes on where not."""
        self.each_that_finds_it_full(lambda store, t: store.forget((1 << 64) - 1))


if __name__ == "__main__":
    unittest.main()
