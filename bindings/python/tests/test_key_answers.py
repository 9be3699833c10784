"""What is asked of a program under keys, line by line, and what is made of its answers."""
import unittest

from support import LONG, Fakes, Run, asleep, quietly
from test_signals import STEP, Handler

import colock
from colock import Aborted, Busy, Committed, Done, Ended, Operation, Prepared, Unknown

TAKEN, GIVEN = Operation("take", "ok", 0), Operation("give", "ok", 1)
CALLS = [(0, "take"), (0, "give")]

# It commits nothing under a key, and leaves a transaction open whose commit it refuses.
REFUSING = """
begun, open_ones = 0, set()
for tag, words in opened():
    answer = "ok"
    if words[0] == "begin":
        open_ones.add(f"5.{{begun}}")
        answer, begun = f"ok 5.{{begun}}", begun + 1
    elif words[0] == "commit" and len(words) == 3:
        answer = "refused {kind}"
    elif words[0] in ("commit", "abort"):
        answer = "ok" if words[1] in open_ones else "refused NotOpen"
        open_ones.discard(words[1])
    elif words[0] == "call":
        answer = "reply ok"
    elif words[0] == "stats":
        answer = f"ok events 0 begun {{begun}} open {{len(open_ones)}} prepared 0"
    say(f"{{tag}} {{answer}}\\n")
    if words[0] == "end":
        break
"""


class Lines(Fakes):
    """Programs that are asked these lines, one after another, and answer so."""

    def test_a_commit(self):
        store = self.asked(("begin", "ok 5.0"), ("commit 5.0 order:1", "ok"), ("begin", "ok 5.1"), ("commit 5.1", "ok"), ("commit 5.1 order:1", "ok"), ("stats", "ok events 4 begun 2 open 0 prepared 0"))
        t = store.begin()
        t.commit(key="order:1")
        with store.begin() as t:
            pass
        t.commit(key="order:1")
        self.assertEqual((store.open_count(), store.stats().commits), (0, 3))

    def test_an_attempt(self):
        store = self.asked(
            ("do =a 0 take 0 give", "busy drain"), ("do =a 0 take 0 give", "busy 1 5.9"), ("do =a 0 take 0 give", "done ok ok"), ("do 0 take", "done ok"),
            ("do =a 0 take 0 give", "none 0"),
        )
        self.assertEqual([store.attempt(CALLS, key="a") for _ in range(2)], [Ended(1, Busy(9)), Done((TAKEN, GIVEN))])
        self.assertEqual(store.attempt(CALLS[:1]), Done((TAKEN,)))
        self.assertEqual(store.attempt(CALLS, key="a"), Ended(0, colock.Illegal()))

    def test_other_calls(self):
        for answer in "done", "done ok", "done ok ok ok", "done ok gone":
            store = self.asked(("do =a 0 take 0 give", answer), ("outcome a", "unknown"))
            with self.assertRaises(colock.OtherCalls):
                store.attempt(CALLS, key="a")
            self.assertEqual((store.outcome("a"), store.stats().commits, store.stats().aborts), (Unknown(), 0, 0))

    def test_a_call_that_isnt_there(self):
        """The key may be of other work, so its outcome is asked for, and the calls aren't."""
        store = self.asked(("outcome a", "unknown"), ("outcome a", "committed ok ok"), ("outcome a", "committed"), ("outcome a", "aborted"))
        calls = [(0, "take"), (0, "x")]
        told = store.attempt(calls, key="a")
        self.assertEqual((told.index, type(told.how)), (1, colock.NoCall))
        for error in colock.OtherCalls, colock.OtherCalls, colock.KeyAborted:
            self.assertRaises(error, store.attempt, calls, key="a")
        self.assertIsInstance(store.attempt(calls), Ended)

    def test_no_calls(self):
        store = self.asked(
            ("outcome a", "unknown"), ("begin", "busy drain"), ("begin", "ok 5.0"), ("commit 5.0 a", "ok"), ("outcome a", "committed"), ("outcome a", "committed"), ("outcome a", "committed ok"),
            ("outcome a", "aborted"), ("outcome a", "unknown"), ("begin", "ok 5.1"), ("commit 5.1 a", "refused KeyTaken"), ("abort 5.1", "ok"),
            # other work, by another thread meanwhile; and an epoch that ends
            ("outcome a", "unknown"), ("begin", "ok 5.2"), ("commit 5.2 a", "refused NotOpen"), ("begin", "ok 6.0"), ("commit 6.0 a", "ok"), ("outcome a", "committed ok"),
            ("outcome a", "unknown"), ("begin", "ok 6.1"), ("commit 6.1 a", "ok"), ("outcome a", "die"),
        )
        self.assertEqual([store.attempt([], key="a") for _ in range(2)], [Done(())] * 2)
        for error in colock.OtherCalls, colock.KeyAborted, colock.KeyTaken, colock.OtherCalls:
            self.assertRaises(error, store.attempt, [], key="a")
        with self.assertRaises(colock.OutcomeUnknown) as raised:
            store.attempt([], key="a")
        self.assertEqual(raised.exception.id, "")

    def test_outcomes(self):
        store = self.asked(*(("outcome a", answer) for answer in ("committed", "committed ok", "committed ok 483 a:b_c-d", "aborted", "prepared", "unknown")))
        wanted = [Committed(()), Committed(("ok",)), Committed(("ok", "483", "a:b_c-d")), Aborted(), Prepared(), Unknown()]
        self.assertEqual([store.outcome("a") for _ in range(6)], wanted)

    def test_what_is_no_outcome(self):
        for answer in ("ok", "prepared ", "prepared ok", "committed ", "committed  ok", "committed OK", "commit", "aborted ok", "unknown ", "none", "refused", "refused Gone", "refused KeyTaken", "fault UnknownVerb", "done ok"):
            store = self.asked(("outcome a", answer))
            self.assertRaises(colock.ConnectionLost, store.outcome, "a")

    def test_what_is_no_answer(self):
        for answer in ("done ", "done  ok ok", "done OK OK", "ok", "committed", "none", "refused", "refused Gone", "aborted", "fault BadWords"):
            store = self.asked(("do =a 0 take 0 give", answer))
            self.assertRaises(colock.ConnectionLost, store.attempt, CALLS, key="a")
        for answer in ("done", "committed", "busy drain", "refused", "refused Gone", "refused Committed", "refused Decided", "refused Unknown", "aborted", "fault BadWords"):
            store = self.asked(("begin", "ok 5.0"), ("commit 5.0 a", answer))
            # from when it was written it may be done
            self.assertRaises(colock.OutcomeUnknown, store.begin().commit, key="a")
        for answer in "refused Aborted", "refused KeyPrepared", "refused KeyTaken":
            store = self.asked(("do 0 take 0 give", answer))
            self.assertRaises(colock.ConnectionLost, store.attempt, CALLS)
            store = self.asked(("begin", "ok 5.0"), ("commit 5.0", answer))
            self.assertRaises(colock.OutcomeUnknown, store.begin().commit)

    def test_an_attempt_whose_key_is_refused(self):
        refusals = ["refused Aborted", "refused KeyPrepared", "refused KeyTaken", "refused NoMemory"]
        store = self.asked(*(("do =a 0 take 0 give", answer) for answer in [*refusals, "done ok ok"]))
        for error in colock.KeyAborted, colock.KeyPrepared, colock.KeyTaken, colock.NoMemory:
            self.assertRaises(error, store.attempt, CALLS, LONG, key="a")
        self.assertEqual((store.stats().commits, store.stats().aborts), (0, 0))
        self.assertEqual(store.attempt(CALLS, key="a"), Done((TAKEN, GIVEN)))

    def test_a_retry(self):
        store, ran = self.asked(
            ("outcome a", "unknown"), ("begin", "ok 5.0"), ("commit 5.0 a", "ok"), ("outcome a", "committed"), ("outcome a", "committed ok"), ("outcome a", "aborted"), ("begin", "ok 5.1"),
            ("commit 5.1", "ok"), ("outcome a", "unknown"), ("begin", "ok 5.2"), ("commit 5.2 a", "refused Aborted"), ("abort 5.2", "ok"),
        ), []
        self.assertEqual([store.retry(lambda t: ran.append(t.id) or "value", key="a") for _ in range(3)], ["value", Committed(()), Committed(("ok",))])
        self.assertRaises(colock.KeyAborted, store.retry, lambda t: ran.append(t.id), key="a")
        store.retry(lambda t: ran.append(t.id))
        self.assertRaises(colock.KeyAborted, store.retry, lambda t: ran.append(t.id), key="a")
        self.assertEqual(ran, ["5.0", "5.1", "5.2"])

    def test_the_program_is_lost(self):
        store = self.asked(("begin", "ok 5.0"), ("commit 5.0 a", "die"))
        t = store.begin()
        with self.assertRaises(colock.OutcomeUnknown) as raised:
            t.commit(key="a")
        self.assertEqual(raised.exception.id, "5.0")
        self.assertRaises(colock.ConnectionLost, t.commit, key="a")
        store = self.asked(("do =a 0 take 0 give", "die"))
        with self.assertRaises(colock.OutcomeUnknown) as raised:
            store.attempt(CALLS, key="a")
        self.assertEqual(raised.exception.id, "")
        self.assertRaises(colock.ConnectionLost, self.asked(("outcome a", "die")).outcome, "a")


class Refused(Fakes):
    """Commits whose keys are refused: each leaves its transaction as it was."""

    def setUp(self):
        quietly()

    def refusing(self, kind):
        return self.open(REFUSING.format(kind=kind))

    def test_it_is_open_as_before(self):
        for kind, error in ("KeyTaken", colock.KeyTaken), ("Aborted", colock.KeyAborted), ("KeyPrepared", colock.KeyPrepared):
            store = self.refusing(kind)
            t = store.begin()
            for _ in range(2):
                with self.assertRaises(error) as raised:
                    t.commit(key="a")
                self.assertEqual((raised.exception.key, store.open_count(), store._backend.is_open(5, 0)), ("a", 1, True))
            self.assertEqual(t.call(0, "take"), TAKEN)
            t.commit()
            self.assertEqual((store.open_count(), store.stats().commits, store.stats().aborts), (0, 1, 0))
            # one that had ended stays so
            self.assertRaises(error, t.commit, key="a")
            self.assertRaises(colock.NotOpenError, t.call, 0, "take")

    def test_a_with_aborts_it(self):
        store = self.refusing("Aborted")
        with self.assertRaises(colock.KeyAborted), store.begin() as t:
            t.commit(key="a")
        self.assertEqual((store.open_count(), store.stats().aborts), (0, 1))

    def test_nobody_has_it_any_more(self):
        store = self.refusing("KeyTaken")
        t = store.begin()
        self.assertRaises(colock.KeyTaken, t.commit, key="a")
        with self.assertWarns(ResourceWarning):
            del t
            self.assertEqual(store.open_count(), 0)

    def test_one_of_an_epoch_that_is_over(self):
        store = self.refusing("NotOpen")
        t, u = store.begin(), store.begin()
        for one in (t, u):
            self.assertRaises(colock.EpochEndedError, one.commit, key="a")
        for one in (t, u):
            self.assertRaises(colock.NotOpenError, one.commit, key="a")
        self.assertEqual((store.stats().commits, store.stats().aborts), (0, 2))

    def test_interrupted_at_each_place(self):
        """Nobody hears that it was refused, and nothing stays open."""
        store, n, raised = self.refusing("KeyTaken"), 1, True

        def commit(t):
            try:
                t.commit(key="a")
            except colock.KeyTaken:
                pass

        while raised:
            t = store.begin()
            raised = Handler(n).during(lambda: commit(t))
            t._abort_quietly()
            self.assertEqual((store.open_count(), store._backend._open, store._backend.holders), (0, {}, {}))
            n += STEP
        self.assertGreater(n, 20)

    def test_who_sleeps_behind_it(self):
        """It is in the way as before."""
        store = self.open("""
answers = {"take": "reply ok", "give": "busy 5.0"}
begun = 0
for tag, words in opened():
    answer = {"commit": "refused KeyTaken", "end": "ok"}.get(words[0])
    if words[0] == "begin":
        answer, begun = f"ok 5.{begun}", begun + 1
    elif words[0] in ("call", "would"):
        answer = answers[words[-1]]
    elif words[0] == "abort":
        answer, answers["give"] = "ok", "reply ok"
    say(f"{tag} {answer}\\n")
    if words[0] == "end":
        break
""")
        t, u = store.begin(), store.begin()
        t.call(0, "take").executed()
        giving = Run(u.call, 0, "give", LONG)
        asleep(store, 1)
        self.assertRaises(colock.KeyTaken, t.commit, key="a")
        asleep(store, 2)
        t.abort()
        self.assertEqual(giving.result(), GIVEN)


if __name__ == "__main__":
    unittest.main()
