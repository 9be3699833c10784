"""What is asked of a program about prepared transactions, line by line, and what is made of its answers."""
import gc
import unittest
import warnings

from support import LONG, Fakes, Run, asleep, quietly, until
from test_signals import STEP, Handler

import colock
from colock import Busy, Committed, Decision, Ended, Operation, Prepared, PreparedTransaction, _outcomes, _prepared

TAKEN, GIVEN = Operation("take", "ok", 0), Operation("give", "ok", 1)
BEGUN = ("begin", "ok 5.0")
READY = ("prepare 5.0 a 0", "ok")

# It prepares nothing, and leaves a transaction open whose prepare it refuses.
REFUSING = """
begun, open_ones = 0, set()
for tag, words in opened():
    answer = "ok"
    if words[0] == "begin":
        open_ones.add(f"5.{begun}")
        answer, begun = f"ok 5.{begun}", begun + 1
    elif words[0] == "prepare":
        answer = "refused KeyTaken"
    elif words[0] == "abort":
        answer = "ok" if words[1] in open_ones else "refused NotOpen"
        open_ones.discard(words[1])
    elif words[0] == "stats":
        answer = f"ok events 0 begun {begun} open {len(open_ones)} prepared 0"
    say(f"{tag} {answer}\\n")
    if words[0] == "end":
        break
"""


class Told(unittest.TestCase):
    """What lines say, without a program."""

    def test_a_line(self):
        for line, told in [
            (b"a 5.1 0", ("a", "5.1", 0, ())),
            (b"aZ0_:-. 17.4294967295 1800000000 0 7 65535", ("aZ0_:-.", "17.4294967295", 1_800_000_000, (0, 7, 65_535))),
        ]:
            self.assertEqual(_prepared.told_in(line), told)
        for line in (b"", b"a", b"a 5.1", b"a 5 0", b"a 5.1 0 ", b"a 5.1  0", b"a 5.1 0 x", b"a/b 5.1 0", b"a 5.1.2 0", b"a 5.1 -1", b"\xe4 5.1 0", b"a" * 65 + b" 5.1 0"):
            self.assertIsNone(_prepared.told_in(line))

    def test_the_life_before(self):
        """What was found and is open ends later, as what was prepared. What wasn't found is gone, and its number is another's."""
        opened = _outcomes.Opened(5, 1)
        lines = [b"begin 0 0", b"begin 0 1", b"begin 0 2", b"commit 0 2", b"begin 0 3", b"abort 0 1"]
        ended = [*lines, b"commit 0 0", b"abort 0 3", b"begin 0 4", b"commit 0 4"]
        for of in (lines, ended):
            self.assertEqual([opened.has(of, number) for number in range(5)], [True, True, True, True, False])
        self.assertEqual([_outcomes.outcome_in(lines, number) for number in range(5)], [None, False, True, None, None])
        self.assertEqual([_outcomes.outcome_in(ended, number) for number in range(5)], [True, False, True, False, True])


class Lines(Fakes):
    """Programs that are asked these lines, one after another, and answer so."""

    def ready(self, *lines):
        """A store, and a transaction of it that is prepared under the key a."""
        store = self.asked(BEGUN, READY, *lines)
        t = store.begin()
        t.prepare("a")
        return store, t

    def test_prepared_and_decided(self):
        store = self.asked(
            BEGUN, ("call 5.0 0 take", "reply ok"), ("prepare 5.0 order:1 1800000000", "ok"), ("prepare 5.0 order:1 7", "ok"), ("outcome order:1", "prepared"),
            ("prepared", "order:1 5.0 1800000000 0\nok"), ("stats", "ok events 2 begun 1 open 1 prepared 1"), ("decide order:1 commit", "ok"), ("decide order:1 commit", "ok"), ("decide b abort", "ok"),
            ("outcome order:1", "committed"), ("prepared", "ok"),
        )
        with store.begin() as t:
            t.call(0, "take").executed()
            t.prepare("order:1", until=1_800_000_000)
            t.prepare("order:1", until=7)
        self.assertEqual((store.outcome("order:1"), store.prepared()), (Prepared(), [PreparedTransaction("order:1", "5.0", 1_800_000_000, (0,))]))
        self.assertEqual(store.open_count(), 1)
        for _ in range(2):
            store.decide("order:1", Decision.COMMIT)
        store.decide("b", Decision.ABORT)
        self.assertEqual((store.outcome("order:1"), store.prepared()), (Committed(()), []))
        self.assertEqual((store.stats().commits, store.stats().aborts), (2, 1))
        for act in (lambda: t.call(0, "take"), t.commit, t.abort, lambda: t.rollback(1), lambda: t.prepare("order:1"), lambda: t.prepare("b")):
            self.assertRaises(colock.NotOpenError, act)

    def test_nothing_is_asked_of_one_that_is_prepared(self):
        store, t = self.ready(("decide a abort", "ok"))
        requests = store._backend._connection.count
        for act in (
            lambda: t.call(0, "take"), lambda: t.call(0, "take", wait=LONG), lambda: t.call_op(0, 0), lambda: t.would(0, "take"), lambda: t.would_op(0, 0), lambda: t.rollback(1),
            t.commit, lambda: t.commit(key="a"), lambda: t.commit(key="b"), t.abort, lambda: t.prepare("b"),
        ):
            with self.assertRaises(colock.PreparedError) as raised:
                act()
            self.assertEqual(raised.exception.key, "a")
        with t:
            pass
        with self.assertRaises(ZeroDivisionError), t:
            1 // 0
        self.assertEqual(store._backend._connection.count, requests)
        store.decide("a", Decision.ABORT)

    def test_nobody_has_it_any_more(self):
        store, t = self.ready(("decide a commit", "ok"), ("outcome a", "committed"))
        with warnings.catch_warnings():
            warnings.simplefilter("error")
            del t
            gc.collect()
            store.decide("a", Decision.COMMIT)
            self.assertEqual(store.outcome("a"), Committed(()))

    def test_a_prepare_that_is_refused(self):
        for answer, error in [
            ("KeyPrepared", colock.KeyPrepared), ("Committed", colock.KeyCommitted), ("Aborted", colock.KeyAborted), ("KeyTaken", colock.KeyTaken), ("Prepared", colock.PreparedError),
        ]:
            store = self.asked(BEGUN, ("prepare 5.0 a 0", f"refused {answer}"), ("call 5.0 0 take", "reply ok"), ("commit 5.0", "ok"))
            with store.begin() as t:
                with self.assertRaises(error) as raised:
                    t.prepare("a")
                self.assertEqual(raised.exception.key, "a")
                self.assertEqual(t.call(0, "take"), TAKEN)
            self.assertEqual((store.stats().commits, store.stats().aborts, store._backend.undecided), (1, 0, {}))

    def test_two_under_one_key(self):
        """Whoever has the key keeps it, also where the other one is told so."""
        store, t = self.ready(("begin", "ok 5.1"), ("prepare 5.1 a 7", "refused KeyPrepared"), ("call 5.1 0 give", "busy 5.0"), ("decide a commit", "ok"), ("call 5.1 0 give", "reply ok"), ("commit 5.1", "ok"))
        u = store.begin()
        self.assertRaises(colock.KeyPrepared, u.prepare, "a", until=7)
        self.assertEqual(u.call(0, "give"), Busy(0))
        self.assertRaises(colock.PreparedError, t.abort)
        store.decide("a", Decision.COMMIT)
        self.assertRaises(colock.NotOpenError, t.abort)
        self.assertEqual(u.call(0, "give"), GIVEN)
        u.commit()
        self.assertEqual((store.stats().commits, store.stats().aborts, store._backend._open), (2, 0, {}))

    def test_a_key_that_is_free_after_all(self):
        """The other one's prepare was refused, which isn't seen yet."""
        store, _ = self.ready(("begin", "ok 5.1"), ("prepare 5.1 a 7", "ok"), ("decide a commit", "ok"))
        u = store.begin()
        u.prepare("a", until=7)
        self.assertRaises(colock.PreparedError, u.abort)
        self.assertEqual(store._backend.undecided["a"].number, 1)
        store.decide("a", Decision.COMMIT)
        self.assertRaises(colock.NotOpenError, u.abort)

    def test_a_prepare_behind_the_end_of_the_epoch(self):
        store = self.asked(BEGUN, ("begin", "ok 5.1"), ("prepare 5.0 a 0", "refused NotOpen"), ("prepare 5.1 a 0", "refused NotOpen"))
        for t in store.begin(), store.begin():
            for act in (lambda: t.prepare("a"), lambda: t.prepare("a"), lambda: t.call(0, "take")):
                self.assertRaises(colock.EpochEndedError, act)
        self.assertEqual((store.stats().aborts, store._backend.undecided), (2, {}))

    def test_a_decision_that_is_refused(self):
        store = self.asked(*((f"decide a {how}", f"refused {why}") for how, why in [("abort", "Decided"), ("commit", "Unknown"), ("commit", "KeyTaken")]))
        for how, error in (Decision.ABORT, colock.KeyDecided), (Decision.COMMIT, colock.KeyUnknown), (Decision.COMMIT, colock.KeyTaken):
            with self.assertRaises(error) as raised:
                store.decide("a", how)
            self.assertEqual(raised.exception.key, "a")
        self.assertEqual((store.stats().commits, store.stats().aborts), (0, 0))

    def test_work_under_a_key_that_is_prepared(self):
        store, t = self.ready(
            ("outcome a", "prepared"), ("outcome a", "prepared"), ("outcome a", "prepared"), ("do =a 0 take", "refused KeyPrepared"), ("begin", "ok 5.1"), ("commit 5.1 a", "refused KeyPrepared"), ("abort 5.1", "ok"),
        )
        for act in (lambda: store.retry(lambda t: 1 // 0, key="a"), lambda: store.attempt([], key="a"), lambda: store.attempt([(0, "x")], key="a"), lambda: store.attempt([(0, "take")], key="a")):
            self.assertRaises(colock.KeyPrepared, act)
        u = store.begin()
        self.assertRaises(colock.KeyPrepared, u.commit, key="a")
        u.abort()

    def test_functions_that_prepare(self):
        store = self.asked(BEGUN, READY, ("outcome b", "unknown"), ("begin", "ok 5.1"), ("prepare 5.1 b 3", "ok"), ("begin", "ok 5.2"), ("prepare 5.2 c 0", "ok"))
        store.retry(lambda t: t.prepare("a"))
        store.retry(lambda t: t.prepare("b", until=3), key="b")
        store.transact(lambda t: t.prepare("c"))
        self.assertEqual((list(store._backend.undecided), store.stats().commits), (["a", "b", "c"], 0))

    def test_what_is_no_answer(self):
        for answer in ("done", "committed", "prepared", "busy drain", "refused", "refused Gone", "refused Decided", "refused Unknown", "fault BadWords"):
            store = self.asked(BEGUN, ("prepare 5.0 a 0", answer))
            self.assertRaises(colock.OutcomeUnknown, store.begin().prepare, "a")
        for answer in ("done", "committed", "refused", "refused Prepared", "refused KeyPrepared", "refused Aborted", "fault BadWords"):
            store = self.asked(("decide a commit", answer))
            self.assertRaises(colock.OutcomeUnknown, store.decide, "a", Decision.COMMIT)
        for answer in ("a\nok", "a 5.0\nok", "a 5.0 0 x\nok", "refused Gone", "fault UnknownVerb"):
            self.assertRaises(colock.ConnectionLost, self.asked(("prepared", answer)).prepared)

    def test_keys_that_are_words_of_answers(self):
        store = self.asked(("prepared", "ok 3.0 0\nrefused 3.1 0 0\nfault 4.7 9 0 1\nok"))
        self.assertEqual([one.key for one in store.prepared()], ["ok", "refused", "fault"])

    def test_a_line_as_long_as_may_be(self):
        numbers = " ".join(map(str, range(65_536)))
        store = self.open(f"numbers = {numbers!r}\nfor tag, words in opened():\n    say(f'{{tag}} {'a' * 64} 4294967295.4294967295 4294967295 {{numbers}}\\n{{tag}} ok\\n')\n")
        self.assertEqual(store.prepared()[0].objects, tuple(range(65_536)))

    def test_the_program_is_lost(self):
        store = self.asked(BEGUN, ("prepare 5.0 a 0", "die"))
        t = store.begin()
        with self.assertRaises(colock.OutcomeUnknown) as raised:
            t.prepare("a")
        self.assertEqual((raised.exception.id, raised.exception.key), ("5.0", "a"))
        self.assertEqual(str(raised.exception), "whether transaction 5.0 is prepared isn't known")
        for act in (lambda: t.prepare("a"), t.abort, lambda: store.decide("a", Decision.ABORT), store.prepared, lambda: store.outcome("a")):
            self.assertRaises(colock.ConnectionLost, act)
        store, t = self.ready(("decide a commit", "die"))
        with self.assertRaises(colock.OutcomeUnknown) as raised:
            store.decide("a", Decision.COMMIT)
        self.assertEqual((raised.exception.id, raised.exception.key), ("", "a"))
        self.assertEqual(str(raised.exception), "whether the transaction of the key a is decided isn't known")
        self.assertRaises(colock.ConnectionLost, self.asked(("prepared", "die")).prepared)

    def test_an_epoch_that_ends(self):
        """It isn't aborted by that, and goes on under its name."""
        store, t = self.ready(("begin", "ok 5.1"), ("begin", "ok 6.0"), ("abort 5.1", "refused NotOpen"), ("call 6.0 0 give", "busy 5.0"), ("prepare 5.0 a 0", "ok"), ("decide a commit", "ok"), ("call 6.0 0 give", "reply ok"), ("abort 6.0", "ok"))
        u, v = store.begin(), store.begin()
        self.assertRaises(colock.EpochEndedError, u.abort)
        self.assertRaises(colock.PreparedError, t.abort)
        self.assertEqual((v.call(0, "give"), store.stats().aborts), (Busy(0, 5), 1))
        t.prepare("a")
        store.decide("a", Decision.COMMIT)
        self.assertEqual(v.call(0, "give"), GIVEN)
        self.assertRaises(colock.NotOpenError, t.abort)
        v.abort()


class InTheWay(Fakes):
    """Prepared transactions for whose decision others wait."""

    def test_one_of_an_earlier_life(self):
        store = self.asked(BEGUN, ("call 5.0 0 give", "busy 3.0"), ("would 5.0 0 give", "busy 3.7"), ("do 0 take 0 give", "busy 1 3.0"), ("abort 5.0", "ok"))
        t = store.begin()
        self.assertEqual((t.call(0, "give"), t.would(0, "give")), (Busy(0, 3), Busy(7, 3)))
        self.assertEqual(repr(Busy(0, 3)), "Busy(blocker=0, life=3)")
        with self.assertRaises(colock.BusyError) as raised:
            store.attempt([(0, "take"), (0, "give")]).executed()
        self.assertEqual((raised.exception.blocker, raised.exception.life), (0, 3))
        self.assertEqual(str(raised.exception), "transaction 3.0 is in the way")
        t.abort()

    def test_a_call_that_sleeps_behind_it(self):
        # its own number is that of the blocker, of an earlier life
        store = self.asked(BEGUN, ("call 5.0 0 give", "busy 3.0"), ("decide old commit", "ok"), ("would 5.0 0 give", "reply ok"), ("call 5.0 0 give", "reply ok"), ("commit 5.0", "ok"))
        t = store.begin()
        giving = Run(t.call, 0, "give", LONG)
        asleep(store, 1)
        store.decide("old", Decision.COMMIT)
        self.assertEqual((giving.result(), store.stats().waits), (GIVEN, 1))
        t.commit()
        self.assertTrue(store._backend.sleepers.is_bare())

    def test_a_decision_that_overtakes_an_answer(self):
        # the decision is sent while the busy answer is on its way, so the answer is of before it
        store = self.open("""
held = None
for tag, words in opened():
    if words[0] == "call" and held is None:
        held = tag
    elif words[0] == "decide":
        say(f"{held} busy 3.0\\n{tag} ok\\n")
    else:
        say(f"{tag} " + {"begin": "ok 5.0", "would": "reply ok", "call": "reply ok"}.get(words[0], "ok") + "\\n")
""")
        t = store.begin()
        giving = Run(t.call, 0, "give", LONG)
        until(lambda: len(store._backend._connection._requests) == 1, "the call")
        store.decide("old", Decision.ABORT)
        self.assertEqual((giving.result(), store.stats().waits), (GIVEN, 0))
        t.commit()

    def test_an_attempt_that_waits(self):
        store = self.asked(("do 0 give", "busy 0 3.0"), ("decide old abort", "ok"), ("do 0 give", "done ok"))
        giving = Run(store.attempt, [(0, "give")], LONG)
        until(lambda: store._backend.sleepers.bells, "the sleep")
        store.decide("old", Decision.ABORT)
        self.assertEqual((giving.result().executed(), store.stats().busy), ((GIVEN,), (1,)))

    def test_an_attempt_whose_time_is_over(self):
        store = self.open("for tag, words in opened():\n    say(f'{tag} busy 0 3.0\\n' if words[0] == 'do' else f'{tag} ok\\n')\n")
        self.assertEqual(store.attempt([(0, "give")]), Ended(0, Busy(0, 3)))
        self.assertRaises(colock.TimedOut, store.attempt, [(0, "give")], 0.05)

    def test_a_call_of_its_own_that_sleeps(self):
        store = self.asked(BEGUN, ("begin", "ok 5.1"), ("call 5.1 0 give", "busy 5.0"), ("prepare 5.1 a 0", "ok"), ("abort 5.0", "ok"))
        t, u = store.begin(), store.begin()
        giving = Run(u.call, 0, "give", LONG)
        asleep(store, 1)
        u.prepare("a")
        self.assertRaises(colock.PreparedError, giving.result)
        t.abort()
        self.assertTrue(store._backend.sleepers.is_bare())


class Interrupted(Fakes):
    def test_a_prepare_that_is_refused(self):
        """Nobody hears that it was refused, and nothing stays open."""
        quietly()
        store, n, raised = self.open(REFUSING), 1, True

        def prepare(t):
            try:
                t.prepare("a")
            except colock.KeyTaken:
                pass

        while raised:
            t = store.begin()
            raised = Handler(n).during(lambda: prepare(t))
            t._abort_quietly()
            self.assertEqual(store.open_count(), 0)
            store._backend.undecided.clear()
            n += STEP
        self.assertGreater(n, 20)


if __name__ == "__main__":
    unittest.main()
