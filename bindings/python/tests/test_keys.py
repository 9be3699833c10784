"""What is done under a key, at stores of both backends: once, also where it is asked again."""
import os
import signal
import sys
import threading
import typing
import unittest

import support
from support import LONG, PURSE, QUICK, SOON, TWO, Run, asleep, pid_of, until
from test_signals import STEP, Handler

import colock
from colock import Aborted, Busy, Committed, Done, Ended, Illegal, Kind, Operation, Prepared, Store, Type, Unknown, _keys

COUNTER = Type.counter(1_000, [1])
# it is full behind no number of commits that a test makes
UPS = Type("number ups\nmax 4294967295\ninitial 0\ngive 1\nend\n", Kind.ESCROW)
UP = Operation("inc:1", "ok", 0)
LONGEST = "aZ0_:-." + "x" * 57
NO_KEYS = ("", " ", "a/b", "a b", "a\n", "\n", "=a", "@a", "ä", "\0", "a" * 65, LONGEST + "/")

MATCHED = """
def told(outcome):
    match outcome:
        case Committed((first, *rest)):
            return f"{first} and {len(rest)} more"
        case Committed(()):
            return "committed"
        case Aborted():
            return "aborted"
        case Prepared():
            return "prepared"
        case Unknown():
            return "unknown"
"""


class Words(unittest.TestCase):
    ALL = [Committed(("ok", "483")), Committed(()), Aborted(), Prepared(), Unknown()]

    def test_words(self):
        self.assertEqual([eval(repr(one)) for one in self.ALL], self.ALL)
        self.assertEqual(repr(self.ALL[0]), "Committed(replies=('ok', '483'))")
        self.assertEqual([kind.__match_args__ for kind in (Committed, Aborted, Prepared, Unknown)], [("replies",), (), (), ()])
        self.assertEqual(typing.get_type_hints(Store.outcome)["return"], typing.Union[Committed, Aborted, Prepared, Unknown])
        self.assertEqual(str(colock.BadKey("a/b")), "'a/b' is no key of a transaction")
        self.assertEqual(str(colock.KeyAborted("a")), "the transaction of the key a was aborted")
        self.assertEqual(str(colock.KeyTaken("a")), "the file has another key in the place of a")
        self.assertEqual(str(colock.OtherCalls("a")), "other work than these calls committed under the key a")

    @unittest.skipIf(sys.version_info < (3, 10), "`match` is of Python 3.10")
    def test_match(self):
        names = {"Committed": Committed, "Aborted": Aborted, "Prepared": Prepared, "Unknown": Unknown}
        exec(MATCHED, names)
        self.assertEqual([*map(names["told"], self.ALL)], ["ok and 1 more", "committed", "aborted", "prepared", "unknown"])

    def test_what_is_a_key(self):
        for key in ("a", "0", "-", ".", "order:1", LONGEST):
            _keys.check_key(key)
        for key in NO_KEYS:
            with self.assertRaises(colock.BadKey) as raised:
                _keys.check_key(key)
            self.assertEqual(raised.exception.key, key)
        for key in (None, 7, b"a"):
            self.assertRaises(TypeError, _keys.check_key, key)

    def test_the_oldest_go_first(self):
        keys, one = _keys.Keys(3), Committed(("ok",))
        for key in "abcab":
            keys.keep(key, one)
        self.assertEqual([keys.outcome(key) for key in "abcd"], [one, one, one, Unknown()])
        keys.keep("d", Committed(()))
        keys.keep("d", Committed(()))
        self.assertEqual([keys.outcome(key) for key in "abcd"], [Unknown(), one, one, Committed(())])


class Keys:
    """At stores of both backends."""

    def up(self, store, key=None):
        """Counts object 0 up by a transaction, which is committed under a key."""
        t = store.begin()
        t.call(0, "inc:1").executed()
        t.commit(key=key)
        return t

    def test_a_commit_is_done_once(self):
        store = self.make([COUNTER])
        self.assertEqual(store.outcome("order:1"), Unknown())
        self.up(store, "order:1")
        self.assertEqual((store.kept(0), store.outcome("order:1")), (1, Committed(())))
        again = self.up(store, "order:1")
        self.assertEqual((store.kept(0), store.open_count(), store.committed(again.id)), (1, 0, False))
        self.assertRaises(colock.NotOpenError, again.call, 0, "inc:1")
        # a commit that was done before counts as one
        self.assertEqual((store.stats().commits, store.stats().aborts, store.moment().commits), (2, 0, 1))
        for key in (None, LONGEST, "Order:1", "order:10"):
            self.up(store, key)
        self.assertEqual((store.kept(0), store.outcome("order")), (5, Unknown()))

    def test_one_that_has_ended(self):
        store = self.make([COUNTER])
        ends = [self.up(store, "k"), store.begin(), store.begin()]
        ends[1].abort()
        ends[2].commit()
        for t in ends:
            self.assertRaises(colock.NotOpenError, t.commit)
            self.assertRaises(colock.NotOpenError, t.commit, key="free")
            t.commit(key="k")
        self.assertEqual((store.kept(0), store.outcome("free"), store.outcome("k")), (1, Unknown(), Committed(())))
        # what is open isn't touched by that
        with store.begin() as t:
            self.assertRaises(colock.NotOpenError, ends[0].commit, key="free")
            t.call(0, "inc:1").executed()
        self.assertEqual((store.kept(0), store.stats().aborts), (2, 1))

    def test_who_sleeps_behind_one_that_was_done_before(self):
        store = self.make([Type(TWO)])
        store.begin().commit(key="k")
        t, u = store.begin(), store.begin()
        t.call(0, "take").executed()
        giving = Run(u.call, 0, "give", LONG)
        asleep(store, 1)
        t.commit(key="k")
        self.assertEqual(giving.result(), Operation("give", "ok", 1))
        u.commit()
        self.assertTrue(store._backend.sleepers.is_bare())

    def test_a_with_commits_without_a_key(self):
        store = self.make([COUNTER])
        with store.begin() as t:
            t.call(0, "inc:1")
            t.commit(key="k")
        with store.begin() as t:
            t.call(0, "inc:1")
        self.assertEqual((store.kept(0), store.outcome("k")), (2, Committed(())))

    def test_an_attempt_is_done_once(self):
        store = self.make({"a": COUNTER, "b": Type(PURSE, Kind.ESCROW)})
        calls = [("b", "value"), ("a", "inc:1"), ("b", "take:17"), ("b", "value")]
        first = store.attempt(calls, key="pay:7")
        self.assertEqual([of.reply for of in first.executed()], ["500", "ok", "ok", "483"])
        store.attempt([("b", "give:1000")])
        self.assertEqual((store.attempt(calls, key="pay:7"), store.attempt(iter(calls), SOON, key="pay:7")), (first, first))
        self.assertEqual((store.outcome("pay:7"), store.snapshot().states), (Committed(("500", "ok", "ok", "483")), (1, 1483)))
        self.assertEqual((store.moment().commits, store.stats().commits, store.stats().aborts), (2, 4, 0))
        # without its key it is another one, and a key of a commit has no replies
        self.assertIsInstance(store.attempt(calls[1:2]), Done)
        self.up(store, "pay:7")
        self.assertEqual((store.kept(0), store.outcome("pay:7")), (2, Committed(("500", "ok", "ok", "483"))))

    def test_what_isnt_done_leaves_it_free(self):
        store = self.make([COUNTER, COUNTER])
        t = store.begin()
        t.call(0, "inc:1").executed()
        for calls, told in ([(1, "inc:1"), (0, "dec:1")], Ended(1, Busy(t.number))), ([(1, "dec:1")], Ended(0, Illegal())):
            self.assertEqual((store.attempt(calls, key="k"), store.outcome("k")), (told, Unknown()))
        for calls, index, error in ([(1, "inc:1"), (1, "x")], 1, colock.NoCall), ([(7, "inc:1")], 0, colock.NoObject):
            told = store.attempt(calls, key="k")
            self.assertEqual((told.index, type(told.how), store.outcome("k")), (index, error, Unknown()))
        self.assertRaises(colock.TimedOut, store.attempt, [(0, "dec:1")], 0.01, key="k")
        t.abort()
        self.assertRaises(colock.NotOpenError, t.commit, key="k")
        self.assertEqual((store.outcome("k"), store.snapshot().states), (Unknown(), (0, 0)))
        self.assertEqual(store.attempt([(1, "inc:1"), (0, "inc:1")], key="k"), Done((UP, UP)))
        self.assertEqual(store.attempt([(1, "inc:1"), (0, "inc:1")], key="k"), Done((UP, UP)))
        self.assertEqual(store.snapshot().states, (1, 1))

    def test_it_waits(self):
        store = self.make([COUNTER])
        t = store.begin()
        t.call(0, "inc:1").executed()
        downs = [Run(lambda: store.attempt([(0, "dec:1")], LONG, key="down")) for _ in range(2)]
        asleep(store, 2)
        t.commit()
        self.assertEqual([run.result() for run in downs], [Done((Operation("dec:1", "ok", 1),))] * 2)
        self.assertEqual((store.kept(0), store.outcome("down")), (0, Committed(("ok",))))

    def test_other_calls(self):
        account = Type.account(2, [1])
        store = self.make([account, Type(PURSE, Kind.ESCROW)])
        store.attempt([(0, "deposit:1"), (0, "balance")], key="k")
        store.attempt([(1, "value")], key="v")
        store.begin().commit(key="nothing")
        others = [
            ("k", [(0, "deposit:1")]), ("k", [(0, "deposit:1")] * 3), ("k", [(0, "balance"), (0, "deposit:1")]), ("k", [(0, "balance")] * 2), ("k", []),
            ("k", [(0, "deposit:1"), (1, "take:1")]), ("k", [(0, "deposit:1"), (0, "x")]), ("k", [(0, "deposit:1"), (7, "balance")]),
            ("v", [(1, "take:1")]), ("v", [(0, "balance")]), ("v", []), ("nothing", [(0, "balance")]), ("nothing", [(0, "x")]),
        ]
        before, commits = store.snapshot().states, store.stats().commits
        for key, calls in others:
            with self.subTest(key=key, calls=calls), self.assertRaises(colock.OtherCalls) as raised:
                store.attempt(calls, key=key)
            self.assertEqual(raised.exception.key, key)
        self.assertEqual((store.snapshot().states, store.open_count(), store.stats().commits), (before, 0, commits))
        # other calls that may have these replies aren't told from those of the first time
        told = store.attempt([(1, "give:5"), (1, "value")], key="k")
        self.assertEqual([of.call for of in told.executed()], ["give:5", "value"])
        self.assertEqual(store.snapshot().states, before)

    def test_no_calls(self):
        store = self.make([COUNTER])
        for _ in range(2):
            self.assertEqual((store.attempt([], key="k"), store.outcome("k"), store.open_count()), (Done(()), Committed(()), 0))
        self.assertEqual((store.moment().commits, store.snapshot().states), (1, (0,)))
        self.assertRaises(ValueError, store.attempt, [])
        # it is as one that was committed
        self.up(store, "k")
        self.assertEqual(store.kept(0), 0)

    def test_no_key(self):
        store, asked = self.make([COUNTER]), []
        t = store.begin()
        t.call(0, "inc:1").executed()
        events = store.event_count()
        for key in NO_KEYS:
            for act in (
                lambda: t.commit(key=key), lambda: store.attempt([(0, "inc:1")], key=key), lambda: store.attempt([], key=key), lambda: store.outcome(key),
                lambda: store.retry(asked.append, key=key),
            ):
                self.assertRaises(colock.BadKey, act)
        for act in (lambda: t.commit(key=5), lambda: t.commit("k"), lambda: store.outcome(None), lambda: store.outcome(b"a")):
            self.assertRaises(TypeError, act)
        self.assertEqual((store.event_count(), store.open_count(), asked), (events, 1, []))
        t.commit()

    def test_retry(self):
        store, ran = self.make([COUNTER]), []

        def work(t):
            ran.append(t.number)
            return t.call(0, "inc:1").executed()

        self.assertEqual(store.retry(work, key="k"), UP)
        self.assertEqual((store.retry(work, key="k"), store.retry(work, 1, worker=0, key="k")), (Committed(()), Committed(())))
        self.assertEqual((len(ran), store.kept(0)), (1, 1))
        store.attempt([(0, "inc:1")], key="attempt")
        self.assertEqual(store.retry(work, key="attempt"), Committed(("ok",)))
        self.assertEqual((store.retry(work), store.retry(work, key=None), store.kept(0)), (UP, UP, 4))
        # who ends it does that without the key
        self.assertEqual((store.retry(lambda t: t.abort(), key="free"), store.outcome("free")), (None, Unknown()))
        self.assertRaises(ZeroDivisionError, store.retry, lambda t: 1 // 0, key="free")
        self.assertEqual((store.outcome("free"), store.open_count()), (Unknown(), 0))

    def test_retry_that_is_tried_again(self):
        store, ran = self.make([Type(TWO)]), []
        t = store.begin()
        t.call(0, "take")

        def give(u):
            ran.append(u.number)
            if len(ran) == 3:
                t.commit()
            return u.call(0, "give").executed().reply

        self.assertEqual((store.retry(give, key="k"), len(ran), store.retry(give, key="k"), len(ran)), ("ok", 3, Committed(()), 3))

    def test_threads_with_one_key(self):
        """Each key is done once, whichever of the threads did it."""
        store, count = self.make([COUNTER, COUNTER, COUNTER]), 5 if QUICK else 20
        ways = [
            lambda key: self.up(store, f"commit:{key}"),
            lambda key: store.attempt([(1, "inc:1")], SOON, key=f"do:{key}").executed(),
            lambda key: store.retry(lambda t: t.call(2, "inc:1", wait=SOON).executed(), key=f"retry:{key}"),
        ]
        line = threading.Barrier(6)

        def work(way):
            for key in range(count):
                line.wait(SOON)
                way(key)

        self.addCleanup(sys.setswitchinterval, sys.getswitchinterval())
        sys.setswitchinterval(1e-5)
        for run in [Run(work, way) for way in ways * 2]:
            run.result(4 * SOON)
        self.assertEqual((store.snapshot().states, store.open_count()), ((count,) * 3, 0))
        self.assertEqual(store.outcome("do:0"), Committed(("ok",)))

    def test_another_epoch(self):
        store = self.make([COUNTER])
        t = self.up(store, "a")
        store.attempt([(0, "inc:1")], key="b")
        store.extend([COUNTER])
        t.commit(key="a")
        self.assertRaises(colock.NotOpenError, t.commit, key="free")
        self.up(store, "a")
        self.assertEqual(store.attempt([(0, "inc:1")], key="b"), Done((UP,)))
        self.assertEqual((store.snapshot().states, store.outcome("a"), store.outcome("b")), ((2, 0), Committed(()), Committed(("ok",))))

    def test_inside_of_a_turn(self):
        store = self.make([COUNTER])
        for wrong in (lambda t: store.outcome("k"), lambda t: store.attempt([], key="k"), lambda t: store.retry(lambda u: None, key="k")):
            with self.assertRaises(ValueError) as raised:
                store.transact(wrong)
            self.assertIn("inside of `transact`", str(raised.exception))
        # its own transaction may commit under a key there
        store.transact(lambda t: (t.call(0, "inc:1"), t.commit(key="k")))
        store.transact(lambda t: (t.call(0, "inc:1"), t.commit(key="k")))
        self.assertEqual((store.kept(0), store.outcome("k"), store.open_count()), (1, Committed(()), 0))

    def test_a_store_that_is_closed(self):
        store = self.make([COUNTER])
        t, u = self.up(store, "k"), store.begin()
        store.close()
        for act in (
            lambda: store.outcome("k"), lambda: store.attempt([(0, "inc:1")], key="k"), lambda: store.attempt([], key="k"), lambda: store.attempt([(0, "x")], key="k"),
            lambda: t.commit(key="k"), lambda: u.commit(key="k"), lambda: u.commit(key="free"), lambda: store.retry(lambda t: None, key="k"),
        ):
            self.assertRaises(colock.ClosedError, act)

    def interrupted(self, act, begin):
        """What is done under a key, interrupted at each bytecode and then asked again: it is done once, though no other key stays."""
        store = self.make([COUNTER], **({"fast": True} if self.is_child else {}), outcomes=1)
        n, raised = 1, True
        while raised:
            key, before = f"{n}", store.kept(0)
            first = begin(store)
            raised = Handler(n).during(lambda: act(store, first, key))
            # it is open where nothing was asked, and then the key is free
            if first is not None:
                first._abort_quietly()
            act(store, begin(store), key)
            self.assertEqual((store.kept(0), store.open_count()), (before + 1, 0))
            self.assertIsInstance(store.outcome(key), Committed)
            store.attempt([(0, "dec:1")]).executed()
            n += STEP
        self.assertGreater(n, 20)

    def test_an_interrupted_commit(self):
        def begin(store):
            t = store.begin()
            t.call(0, "inc:1").executed()
            return t

        self.interrupted(lambda store, t, key: t.commit(key=key), begin)

    def test_an_interrupted_attempt(self):
        self.interrupted(lambda store, _, key: store.attempt([(0, "inc:1")], key=key), lambda store: None)

    def test_an_interrupted_retry(self):
        self.interrupted(lambda store, _, key: store.retry(lambda t: t.call(0, "inc:1").executed(), key=key), lambda store: None)


class KeysInMemory(support.InMemory, Keys, unittest.TestCase):
    def test_the_store_keeps_the_last(self):
        store = self.make([COUNTER], outcomes=2)
        for key in "abc":
            store.attempt([(0, "inc:1")], key=key)
        self.assertEqual([store.outcome(key) for key in "abc"], [Unknown(), Committed(("ok",)), Committed(("ok",))])
        # what isn't known any more is done again
        store.attempt([(0, "inc:1")], key="a")
        self.assertEqual(store.kept(0), 4)

    def test_it_is_lost_with_the_store(self):
        store = self.make([COUNTER])
        self.up(store, "k")
        self.assertEqual(self.make([COUNTER]).outcome("k"), Unknown())

    def test_it_outlives_the_history(self):
        store = self.make([COUNTER])
        self.up(store, "k")
        store.forget(9)
        store.renew()
        self.up(store, "k")
        self.assertEqual((store.kept(0), store.outcome("k")), (1, Committed(())))

    def test_one_that_is_no_more(self):
        """What ended it otherwise doesn't give it the key, wherever it is interrupted."""
        store, n, raised = self.make([COUNTER]), 1, True
        while raised:
            t = store.begin()
            store.abort_all()
            raised = Handler(n).during(lambda: self.assertRaises(colock.NotOpenError, t.commit, key="k"))
            self.assertEqual(store.outcome("k"), Unknown())
            n += STEP
        self.assertGreater(n, 20)

    def test_an_attempt_that_isnt_begun(self):
        store = self.make([COUNTER], 6)
        self.assertRaises(colock.HistoryFullError, store.attempt, [(0, "inc:1")] * 5, key="k")
        self.assertEqual(store.outcome("k"), Unknown())
        self.assertIsInstance(store.attempt([(0, "inc:1")], key="k"), Done)


class KeysOverAChild(support.OverChild, Keys, unittest.TestCase):
    def setUp(self):
        self.path = os.path.join(support.folder_of(self), "kept.db")

    def open(self, *types):
        """The store in the file of this test."""
        support.quietly()
        store = Store.open(self.path, [*types] or None, create=bool(types), program=support.program())
        self.addCleanup(support.closed, store)
        return store

    def killed(self, store):
        """The program is killed, and the store closed."""
        os.kill(pid_of(store), signal.SIGKILL)
        until(lambda: store._backend._connection.lost is not None, "the loss")
        support.closed(store)

    def test_asked_again_in_a_later_life(self):
        with self.open(COUNTER) as store:
            t = self.up(store, "a")
            done = store.attempt([(0, "inc:1")], key="b")
        self.assertRaises(colock.ClosedError, t.commit, key="a")
        for is_killed in (False, True, True):
            store = self.open()
            self.assertEqual([store.outcome(key) for key in "abc"], [Committed(()), Committed(("ok",)), Unknown()])
            self.up(store, "a")
            self.assertEqual((store.attempt([(0, "inc:1")], key="b"), store.retry(lambda t: t.call(0, "inc:1"), key="a")), (done, Committed(())))
            self.assertEqual((store.kept(0), store.open_count()), (2, 0))
            if is_killed:
                self.killed(store)
            else:
                store.close()

    def test_a_program_that_is_lost(self):
        """What was in flight is asked again, and is done once, whether it was done or not."""
        store = self.open(COUNTER)
        self.up(store, "done")
        again, begun = store.begin(), store.begin()
        for t in again, begun:
            t.call(0, "inc:1").executed()
        os.kill(pid_of(store), signal.SIGSTOP)
        runs = [Run(lambda: again.commit(key="done")), Run(lambda: begun.commit(key="a")), Run(lambda: store.attempt([(0, "inc:1")], key="b"))]
        runs.append(Run(store.outcome, "a"))
        until(lambda: len(store._backend._connection._requests) == 4, "the requests")
        os.kill(pid_of(store), signal.SIGKILL)
        for run, id in zip(runs, (again.id, begun.id, "")):
            with self.assertRaises(colock.OutcomeUnknown) as raised:
                run.result()
            self.assertEqual(raised.exception.id, id)
        self.assertRaises(colock.ConnectionLost, runs[3].result)
        for act in (lambda: begun.commit(key="a"), lambda: store.outcome("a"), lambda: store.attempt([], key="a"), lambda: store.retry(lambda t: None, key="a")):
            self.assertRaises(colock.ConnectionLost, act)
        with self.open() as store:
            # the program was stopped before it could read them
            self.assertEqual([store.outcome(key) for key in ("done", "a", "b")], [Committed(()), Unknown(), Unknown()])
            for _ in range(2):
                for key in ("done", "a"):
                    self.up(store, key)
                store.attempt([(0, "inc:1")], key="b").executed()
            self.assertEqual((store.kept(0), store.open_count()), (3, 0))

    def once(self, key, types=()):
        """Counts the object up under a key, in as many lives as that takes. How often the program was lost."""
        for lost in range(100):
            store = self.open(*types) if self.store is None else self.store
            self.store, types = store, ()
            try:
                if key % 2:
                    store.attempt([(0, "give:1")], key=f"{key}").executed()
                else:
                    store.retry(lambda t: t.call(0, "give:1").executed(), key=f"{key}")
                return lost
            except (colock.OutcomeUnknown, colock.ConnectionLost):
                support.closed(store)
                self.store = None
        raise AssertionError("it is lost again and again")

    @unittest.skipIf(QUICK, "it takes seconds")
    def test_killed_at_any_moment(self):
        self.store, lost, is_over = None, 0, threading.Event()
        self.once(0, [UPS])

        def kill():
            while not is_over.wait(0.05):
                store = self.store
                if store is not None:
                    try:
                        os.kill(pid_of(store), signal.SIGKILL)
                    except ProcessLookupError:
                        pass  # it is gone

        killing = Run(kill)
        try:
            key = 0
            while lost < 10:
                key += 1
                lost += self.once(key)
        finally:
            is_over.set()
            killing.result()
        # the last program may be lost too
        support.closed(self.store)
        with self.open() as store:
            self.assertEqual(store.kept(0), key + 1)
            self.assertEqual([store.outcome(f"{each}") for each in (0, 1)], [Committed(()), Committed(("ok",))])

    def test_the_most_calls_of_a_request(self):
        purse = Type(PURSE, Kind.ESCROW)
        store = self.make([(f"{x:064}", purse) for x in range(64)])
        calls = [(x, "take:9999") for x in range(64)]
        for _ in range(2):
            self.assertEqual([of.reply for of in store.attempt(calls, key=LONGEST).executed()], ["short"] * 64)
        self.assertRaises(ValueError, store.attempt, [*calls, calls[0]], key="k")
        self.assertRaises(colock.InMemoryOnly, store.attempt, calls, worker=1, key="k")
        self.assertRaises(colock.InMemoryOnly, store.attempt, [], worker=1, key="k")
        self.assertEqual((store.moment().commits, store.outcome(LONGEST)), (1, Committed(("short",) * 64)))


if __name__ == "__main__":
    unittest.main()
