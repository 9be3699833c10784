"""Transactions that are prepared, at stores of both backends: nothing but a decision ends them."""
import gc
import os
import random
import signal
import threading
import unittest

import support
from support import LONG, PURSE, QUICK, SOON, TWO, Run, asleep, pid_of, until
from test_keys import NO_KEYS
from test_signals import STEP, Handler

import colock
from colock import Aborted, Busy, Committed, Decision, Kind, Operation, Prepared, PreparedTransaction, Store, Type, Unknown, _outcomes
from colock._events import read_event

COUNTER = Type.counter(1_000, [1])
UP, GIVEN = Operation("inc:1", "ok", 0), Operation("give", "ok", 1)
COMMIT, ABORT = Decision.COMMIT, Decision.ABORT


class Words(unittest.TestCase):
    """What needs no store."""

    def test_words(self):
        self.assertEqual((Decision("commit"), Decision("abort"), [one.value for one in Decision]), (COMMIT, ABORT, ["commit", "abort"]))
        one = PreparedTransaction("a", "5.0", 7, (0, "seats"))
        self.assertEqual((eval(repr(one)), one.key, one.objects), (one, "a", (0, "seats")))
        self.assertEqual(str(colock.PreparedError("a")), "the transaction is prepared, under the key a")
        self.assertEqual(str(colock.KeyPrepared("a")), "a transaction is prepared under the key a")
        self.assertEqual(str(colock.KeyCommitted("a")), "a transaction committed under the key a")
        self.assertEqual(str(colock.KeyDecided("a")), "the transaction of the key a ended otherwise")
        self.assertEqual(str(colock.KeyUnknown("a")), "no transaction has the key a")

    def test_what_a_decision_refuses(self):
        for outcome, committing, aborting in [
            (Committed(("ok",)), None, colock.KeyDecided), (Aborted(), colock.KeyDecided, None), (Prepared(), None, None), (Unknown(), colock.KeyUnknown, None),
        ]:
            for decision, error in (COMMIT, committing), (ABORT, aborting):
                if error is None:
                    decision.refuse("a", outcome)
                else:
                    self.assertRaises(error, decision.refuse, "a", outcome)

    def test_where_operations_are_held(self):
        events = [read_event(line.split()) for line in (
            "begin 0 0", "begin 3 1", "op 0 0 2 0", "op 3 1 4 0", "op 3 1 2 1", "busy 3 1 7 0 0", "op 3 1 9 1 17", "rollback 3 1 2", "op 3 1 0 0", "rollback 0 0 1",
        )]
        for first, number, held in (0, 0, set()), (0, 1, {0, 4}), (1, 0, None), (1, 1, {0, 4}), (2, 1, None), (0, 2, None):
            self.assertEqual(_outcomes.held_at(events[first:], number), held)


class Preparing:
    """At stores of both backends."""

    def ready(self, store, key="a", until=0, x=0):
        """A transaction that has counted an object up and is prepared."""
        t = store.begin()
        t.call(x, "inc:1").executed()
        t.prepare(key, until=until)
        return t

    def test_it_is_held_and_decided(self):
        store = self.make([COUNTER, COUNTER])
        for decision, end, states in (COMMIT, Committed(()), (1, 0)), (ABORT, Aborted(), (1, 0)):
            key = decision.value
            with store.begin() as t:
                t.call(0, "inc:1").executed()
                t.prepare(key, until=1_800_000_000)
            t.prepare(key, until=7)
            self.assertEqual(store.prepared(), [PreparedTransaction(key, t.id, 1_800_000_000, (0,))])
            self.assertEqual((store.outcome(key), store.open_count(), store.committed(t.id)), (Prepared(), 1, None))
            with store.begin() as u:
                self.assertEqual((u.call(0, "dec:1"), u.call(0, "inc:1")), (Busy(t.number), UP))
                u.abort()
            for _ in range(2):
                store.decide(key, decision)
                self.assertEqual((store.outcome(key), store.prepared(), store.open_count(), store.snapshot().states), (end, [], 0, states))
            self.assertEqual(store.committed(t.id), decision is COMMIT)
        self.assertEqual((store.stats().commits, store.stats().aborts), (2, 4))

    def test_what_is_refused(self):
        store = self.make([COUNTER, COUNTER])
        t, events = self.ready(store), store.event_count()
        for act in (
            lambda: t.call(0, "inc:1"), lambda: t.call(0, "inc:1", wait=LONG), lambda: t.call_op(0, 0), lambda: t.would(0, "inc:1"), lambda: t.would_op(0, 0), lambda: t.rollback(1),
            t.commit, t.abort, lambda: t.commit(key="a"), lambda: t.commit(key="b"), lambda: t.prepare("b"),
        ):
            with self.assertRaises(colock.PreparedError) as raised:
                act()
            self.assertEqual(raised.exception.key, "a")
        self.assertEqual((store.event_count(), store.open_count(), store.outcome("b")), (events, 1, Unknown()))
        store.decide("a", COMMIT)
        for act in (lambda: t.call(0, "inc:1"), t.commit, t.abort, lambda: t.rollback(1), lambda: t.prepare("a"), lambda: t.prepare("c")):
            self.assertRaises(colock.NotOpenError, act)
        t.commit(key="a")
        self.assertEqual(store.kept(0), 1)

    def test_the_first_reason(self):
        """A transaction that isn't open is that first; and each refusal leaves an open one as it was."""
        store = self.make([COUNTER])
        gone, t, one = store.begin(), store.begin(), self.ready(store, "prepared")
        gone.abort()
        self.ready(store, "aborted")
        store.decide("aborted", ABORT)
        store.begin().commit(key="committed")
        for key, error in ("prepared", colock.KeyPrepared), ("committed", colock.KeyCommitted), ("aborted", colock.KeyAborted):
            self.assertRaises(colock.NotOpenError, gone.prepare, key)
            if key != "prepared":
                self.assertRaises(colock.PreparedError, one.prepare, key)
            with self.assertRaises(error) as raised:
                t.prepare(key)
            self.assertEqual((raised.exception.key, t.call(0, "inc:1")), (key, UP))
        t.prepare("free")
        self.assertEqual([each.key for each in store.prepared()], ["prepared", "free"])

    def test_decisions(self):
        store = self.make([COUNTER])
        for key in "ca":
            self.ready(store, key)
        store.decide("c", COMMIT)
        store.decide("a", ABORT)
        self.assertRaises(colock.KeyDecided, store.decide, "c", ABORT)
        self.assertRaises(colock.KeyDecided, store.decide, "a", COMMIT)
        self.assertRaises(colock.KeyUnknown, store.decide, "free", COMMIT)
        self.assertEqual(store.outcome("free"), Unknown())
        # of a key that nobody has it is kept, so nothing comes of it later
        store.decide("ghost", ABORT)
        self.assertEqual(store.outcome("ghost"), Aborted())
        t = store.begin()
        for act in (lambda: t.prepare("ghost"), lambda: t.commit(key="ghost"), lambda: store.attempt([(0, "inc:1")], key="ghost"), lambda: store.retry(lambda t: 1 // 0, key="ghost")):
            self.assertRaises(colock.KeyAborted, act)
        t.commit()
        # what an attempt did under a key is decided
        store.attempt([(0, "inc:1")], key="do")
        store.decide("do", COMMIT)
        self.assertRaises(colock.KeyDecided, store.decide, "do", ABORT)
        self.assertEqual((store.outcome("do"), store.kept(0)), (Committed(("ok",)), 2))

    def test_work_under_its_key(self):
        store = self.make([COUNTER])
        one, t, ended = self.ready(store), store.begin(), store.begin()
        ended.abort()
        for act in (
            lambda: t.prepare("a"), lambda: t.commit(key="a"), lambda: ended.commit(key="a"), lambda: store.attempt([(0, "inc:1")], key="a"), lambda: store.attempt([(0, "x")], key="a"), lambda: store.attempt([], key="a"),
            lambda: store.retry(lambda t: 1 // 0, key="a"),
        ):
            with self.assertRaises(colock.KeyPrepared) as raised:
                act()
            self.assertEqual(raised.exception.key, "a")
        self.assertEqual((t.call(0, "inc:1"), store.open_count()), (UP, 2))
        t.commit()
        store.decide("a", COMMIT)
        self.assertRaises(colock.NotOpenError, one.abort)
        self.assertEqual((store.retry(lambda t: 1 // 0, key="a"), store.kept(0)), (Committed(()), 2))

    def test_what_is_no_key_and_no_number(self):
        store = self.make([COUNTER])
        t = store.begin()
        for key in NO_KEYS:
            for act in (lambda: t.prepare(key), lambda: store.decide(key, ABORT)):
                self.assertRaises(colock.BadKey, act)
        for number, error in (-1, OverflowError), (1 << 32, OverflowError), ("7", TypeError), (None, TypeError):
            self.assertRaises(error, t.prepare, "a", until=number)
        self.assertRaises(TypeError, t.prepare, "a", 7)
        for decision in ("both", None, True, Prepared()):
            self.assertRaises(ValueError, store.decide, "a", decision)
        store.decide("b", "abort")
        self.assertEqual((store.outcome("a"), store.outcome("b")), (Unknown(), Aborted()))
        t.prepare("a", until=(1 << 32) - 1)
        self.assertEqual(store.prepared()[0].until, (1 << 32) - 1)

    def test_functions_that_prepare(self):
        store, ran = self.make([COUNTER]), []

        def work(t):
            ran.append(t.number)
            t.call(0, "inc:1").executed()
            t.prepare("retry")
            return "value"

        self.assertEqual(store.retry(work, key="retry"), "value")
        self.assertRaises(colock.KeyPrepared, store.retry, work, key="retry")
        self.assertRaises(colock.KeyPrepared, store.retry, work)
        store.transact(lambda t: (t.call(0, "inc:1"), t.prepare("turn")))
        self.assertEqual(([one.key for one in store.prepared()], len(ran), store.open_count()), (["retry", "turn"], 2, 2))
        with self.assertRaises(ZeroDivisionError), store.begin() as t:
            t.prepare("with")
            1 // 0
        for key in ("retry", "turn", "with"):
            store.decide(key, COMMIT)
        self.assertEqual((store.kept(0), store.retry(work, key="retry"), store.open_count()), (2, Committed(()), 0))

    def test_nobody_has_it_any_more(self):
        store = self.make([COUNTER])
        t = self.ready(store)
        id = t.id
        del t
        gc.collect()
        self.assertEqual((store.open_count(), store.prepared()), (1, [PreparedTransaction("a", id, 0, (0,))]))
        store.decide("a", COMMIT)
        self.assertEqual((store.kept(0), store.open_count()), (1, 0))

    def test_who_sleeps_behind_it(self):
        store = self.make([Type(TWO)])
        for key, decision in ("a", COMMIT), ("b", ABORT):
            t, u = store.begin(), store.begin()
            t.call(0, "take").executed()
            t.prepare(key)
            before = sum(store.stats().busy)
            giving, attempt = Run(u.call, 0, "give", LONG), Run(store.attempt, [(0, "give")], LONG)
            asleep(store, before + 2)
            store.decide(key, decision)
            self.assertEqual((giving.result(), attempt.result().executed()), (GIVEN, (GIVEN,)))
            u.commit()
        self.assertTrue(store._backend.sleepers.is_bare())

    def test_a_call_of_its_own_that_sleeps(self):
        store = self.make([Type(TWO)])
        t, u = store.begin(), store.begin()
        t.call(0, "take").executed()
        giving = Run(u.call, 0, "give", LONG)
        asleep(store, 1)
        u.prepare("a")
        self.assertRaises(colock.PreparedError, giving.result)
        t.commit()
        self.assertEqual(store.prepared()[0].objects, ())
        store.decide("a", ABORT)
        self.assertTrue(store._backend.sleepers.is_bare())

    def test_objects(self):
        """Those at which it holds operations: no more those where it rolled all of them back."""
        store = self.make([("seats", COUNTER), COUNTER, ("till", Type(PURSE, Kind.ESCROW)), COUNTER])
        t = store.begin()
        for call in (2, "give:7"), ("seats", "inc:1"), (3, "inc:1"), (3, "inc:1"), (1, "inc:1"):
            t.call(*call).executed()
        t.rollback(2)
        t.prepare("a")
        store.begin().prepare("nothing")
        self.assertEqual([one.objects for one in store.prepared()], [("seats", "till", 3), ()])

    def test_inside_of_a_turn(self):
        store = self.make([COUNTER])
        for wrong in (lambda t: store.decide("a", ABORT), lambda t: store.prepared()):
            with self.assertRaises(ValueError) as raised:
                store.transact(wrong)
            self.assertIn("inside of `transact`", str(raised.exception))

    def test_a_store_that_is_closed(self):
        store = self.make([COUNTER])
        t, u = self.ready(store), store.begin()
        store.close()
        for act in (t.commit, lambda: t.call(0, "inc:1"), lambda: t.prepare("a"), lambda: t.prepare("b"), lambda: u.prepare("b"), lambda: store.decide("a", ABORT), store.prepared):
            self.assertRaises(colock.ClosedError, act)

    def test_threads_that_decide_otherwise(self):
        """The first decision stands, and the other one is told so."""
        store, line = self.make([COUNTER]), threading.Barrier(2)
        won = []

        def decide(decision):
            for key in range(10):
                line.wait(SOON)
                if decision is COMMIT:
                    self.ready(store, f"{key}")
                line.wait(SOON)
                try:
                    store.decide(f"{key}", decision)
                    won.append(decision)
                except colock.KeyDecided:
                    pass

        for run in [Run(decide, decision) for decision in Decision]:
            run.result(4 * SOON)
        self.assertEqual((len(won), store.kept(0), store.open_count()), (10, won.count(COMMIT), 0))

    def test_an_interrupted_prepare(self):
        """It is prepared or it isn't, which its outcome says, and nothing else is left."""
        support.quietly()
        store, n, raised = self.make([COUNTER], **({"fast": True} if self.is_child else {})), 1, True
        while raised:
            key, t = f"{n}", store.begin()
            t.call(0, "inc:1").executed()
            raised = Handler(n).during(lambda: t.prepare(key))
            t._abort_quietly()
            is_prepared = store.outcome(key) == Prepared()
            self.assertEqual(([one.key for one in store.prepared()], store.open_count()), ([key] if is_prepared else [], int(is_prepared)))
            store.decide(key, ABORT)
            self.assertEqual((store.open_count(), store.kept(0)), (0, 0))
            n += STEP
        self.assertGreater(n, 20)

    def test_an_interrupted_decision(self):
        """Asked again it is the same."""
        support.quietly()
        store, n, raised = self.make([COUNTER], **({"fast": True} if self.is_child else {})), 1, True
        while raised:
            key, decision = f"{n}", COMMIT if n % 2 else ABORT
            t = self.ready(store, key)
            before = store.committed_states([0]).states[0]
            raised = Handler(n).during(lambda: store.decide(key, decision))
            store.decide(key, decision)
            self.assertEqual((store.kept(0) - before, store.open_count(), store.prepared()), (int(decision is COMMIT), 0, []))
            self.assertRaises(colock.NotOpenError, t.abort)
            n += STEP
        self.assertGreater(n, 20)


class PreparingInMemory(support.InMemory, Preparing, unittest.TestCase):
    def test_it_is_lost_with_the_store(self):
        store = self.make([COUNTER])
        self.ready(store)
        self.assertEqual(self.make([COUNTER]).outcome("a"), Unknown())

    def test_it_goes_on_where_the_store_begins_anew(self):
        store = self.make([COUNTER])
        self.ready(store)
        store.renew()
        self.assertRaises(colock.StillOpenError, store.extend, [COUNTER])
        self.assertEqual((store.outcome("a"), store.open_count(), store.event_count(), store.forgotten_count()), (Prepared(), 1, 2, 2))
        store.decide("a", COMMIT)
        store.renew()
        self.assertEqual((store.kept(0), store.outcome("a"), store.extend([COUNTER])), (1, Committed(()), 1))
        self.assertRaises(colock.KeyCommitted, store.begin().prepare, "a")

    def test_all_others_are_aborted(self):
        store = self.make([COUNTER])
        ones = [self.ready(store), store.begin(3), self.ready(store, "b"), store.begin()]
        store.follow([colock.Event(colock.EventKind.BEGIN, 7, 4)])
        store.abort_all()
        self.assertEqual([str(event) for event in store.events()[-3:]], ["abort 3 1", "abort 0 3", "abort 0 4"])
        self.assertEqual((store.open_count(), [one.key for one in store.prepared()], store.stats().aborts), (2, ["a", "b"], 3))
        self.assertRaises(colock.NotOpenError, ones[1].commit)

    def test_events_dont_end_it(self):
        store = self.make([COUNTER])
        t = self.ready(store)
        events = store.event_count()
        with self.assertRaises(colock.PreparedError) as raised:
            store.follow([colock.Event(colock.EventKind.BEGIN, 0, 1), colock.Event(colock.EventKind.COMMIT, 0, t.number)])
        self.assertEqual((raised.exception.key, store.event_count(), store.open_count()), ("a", events, 1))

    def test_the_worker_is_its_own(self):
        store = self.make([COUNTER])
        for key, decision in ("a", COMMIT), ("b", ABORT):
            store.begin(9).prepare(key)
            gc.collect()
            store.decide(key, decision)
        self.assertEqual([str(event) for event in store.events()], ["begin 9 0", "commit 9 0", "begin 9 1", "abort 9 1"])

    def test_objects_where_events_are_forgotten(self):
        store = self.make([COUNTER, COUNTER])
        t = store.begin()
        for x in (0, 1):
            t.call(x, "inc:1").executed()
        t.rollback(1)
        store.forget(1)
        t.prepare("a")
        self.assertEqual(store.prepared()[0].objects, (0, 1))

    def test_what_is_prepared_is_never_forgotten(self):
        store = self.make([COUNTER], outcomes=2)
        self.ready(store)
        for key in "bcd":
            store.decide(key, ABORT)
        self.assertEqual([store.outcome(key) for key in "abcd"], [Prepared(), Unknown(), Aborted(), Aborted()])
        store.decide("a", COMMIT)
        self.assertEqual([store.outcome(key) for key in "abcd"], [Committed(()), Unknown(), Unknown(), Aborted()])


class PreparingOverAChild(support.OverChild, Preparing, unittest.TestCase):
    def setUp(self):
        self.path = os.path.join(support.folder_of(self), "kept.db")

    def open(self, *types, **options):
        """The store in the file of this test."""
        support.quietly()
        store = Store.open(self.path, [*types] or None, create=bool(types), program=support.program(), **options)
        self.addCleanup(support.closed, store)
        return store

    def killed(self, store):
        """The program is killed, and the store closed."""
        os.kill(pid_of(store), signal.SIGKILL)
        until(lambda: store._backend._connection.lost is not None, "the loss")
        support.closed(store)

    def test_later_lives(self):
        """It outlives a program that is killed, and one that ends, and is decided later."""
        store = self.open(("seats", COUNTER), COUNTER)
        for x, key in enumerate("ab"):
            self.ready(store, key, 7 + x, x)
        store.begin().call(0, "inc:1")
        told = store.prepared()
        self.assertEqual([(one.key, one.until, one.objects) for one in told], [("a", 7, ("seats",)), ("b", 8, (1,))])
        self.killed(store)
        for end in (self.killed, Store.close, self.killed):
            store = self.open()
            self.assertEqual((store.prepared(), store.outcome("a"), store.open_count()), (told, Prepared(), 2))
            end(store)
        store = self.open()
        self.assertRaises(colock.KeyPrepared, store.begin().prepare, "a")
        store.decide("a", COMMIT)
        store.decide("b", ABORT)
        self.killed(store)
        store = self.open()
        self.assertEqual((store.prepared(), store.snapshot().states, store.outcome("a"), store.outcome("b")), ([], (1, 0), Committed(()), Aborted()))

    def test_a_retry_over_a_lost_program(self):
        """Its work is done once, whoever asks it again."""
        store, ran = self.open(COUNTER), []

        def work(t):
            ran.append(t.id)
            t.call(0, "inc:1").executed()
            t.prepare("a", until=7)

        store.retry(work, key="a")
        self.killed(store)
        store = self.open()
        self.assertRaises(colock.KeyPrepared, store.retry, work, key="a")
        store.decide("a", COMMIT)
        self.killed(store)
        store = self.open()
        self.assertEqual((store.retry(work, key="a"), len(ran), store.kept(0)), (Committed(()), 1, 1))

    def test_what_became_of_one_of_the_life_before(self):
        store = self.open(COUNTER)
        ids = [self.ready(store, key).id for key in "ab"]
        self.killed(store)
        store = self.open()
        self.assertEqual([store.committed(id) for id in ids], [None, None])
        store.decide("a", COMMIT)
        store.decide("b", ABORT)
        self.assertEqual([store.committed(id) for id in ids], [True, False])

    def test_it_is_in_the_way_in_a_later_life(self):
        store = self.open(Type(TWO))
        t = store.begin()
        t.call(0, "take").executed()
        t.prepare("a")
        life = int(t.id.split(".")[0])
        self.killed(store)
        store = self.open()
        u = store.begin()
        self.assertEqual((u.call(0, "give"), store.attempt([(0, "give")]).how), (Busy(t.number, life),) * 2)
        giving, attempt = Run(u.call, 0, "give", LONG), Run(store.attempt, [(0, "give")], LONG)
        asleep(store, 4)
        store.decide("a", COMMIT)
        self.assertEqual((giving.result(), attempt.result().executed()), (GIVEN, (GIVEN,)))
        u.commit()

    def test_another_epoch(self):
        """Objects are added, for which the epoch ends: it goes on."""
        store = self.open(Type(TWO))
        t = store.begin()
        t.call(0, "take").executed()
        t.prepare("a")
        self.assertEqual(store.extend([("more", Type(TWO))]), 1)
        life, u = int(t.id.split(".")[0]), store.begin()
        self.assertEqual((store.prepared(), u.call(0, "give")), ([PreparedTransaction("a", t.id, 0, (0,))], Busy(t.number, life)))
        self.assertRaises(colock.PreparedError, t.commit)
        store.decide("a", COMMIT)
        self.assertRaises(colock.NotOpenError, t.commit)
        self.assertEqual((u.call(0, "give"), store.stats().aborts, store.prepared()), (GIVEN, 0, []))

    @unittest.skipIf(QUICK, "it takes seconds")
    def test_killed_at_any_moment(self):
        """After each loss the outcome says whether it is prepared, and what is known is decided once."""
        store, ups, lost, n = self.open(COUNTER), 0, 0, 0
        # a fast machine has decided before most of the kills
        while n < 40 or lost == 0 and n < 1_000:
            n += 1
            killer = threading.Timer(random.uniform(0, random.choice((0.001, 0.02))), os.kill, (pid_of(store), signal.SIGKILL))
            key = f"{n}"
            killer.start()
            try:
                self.ready(store, key)
                store.decide(key, COMMIT)
            except (colock.OutcomeUnknown, colock.ConnectionLost):
                lost += 1
            killer.join()
            until(lambda: store._backend._connection.lost is not None, "the loss")
            support.closed(store)
            store = self.open()
            outcome = store.outcome(key)
            self.assertEqual([one.key for one in store.prepared()], [key] if outcome == Prepared() else [])
            self.assertIn(outcome, (Prepared(), Committed(()), Unknown()))
            store.decide(key, ABORT if outcome == Unknown() else COMMIT)
            ups += outcome != Unknown()
            self.assertEqual((store.kept(0), store.open_count()), (ups, 0))
        self.assertGreater(lost, 0)


if __name__ == "__main__":
    unittest.main()
