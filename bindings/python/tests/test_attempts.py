"""Whole transactions in one call, at stores of both backends."""
import math
import random
import sys
import time
import typing
import unittest

import support
from support import LONG, PURSE, QUICK, SOON, TWO, Fakes, InMemory, OverChild, Run, Timed, asleep, until

import colock
from colock import Busy, Done, Ended, Illegal, Kind, Limits, Operation, Store, Type

COUNTER = Type.counter(2, [1])
STOCK = Type.counter(5, [1, 2], Kind.ESCROW)
UP = Operation("inc:1", "ok", 0)

MATCHED = """
def told(attempt):
    match attempt:
        case Done((first, *rest)):
            return f"{first.reply} and {len(rest)} more"
        case Ended(index, Busy(blocker)):
            return f"call {index} is behind {blocker}"
        case Ended(index, Illegal()):
            return f"call {index} is illegal"
        case Ended(index, colock.NoMemory()):
            return f"no memory for call {index}"
"""


def lines(store):
    """The events of a store."""
    return list(map(str, store.events()))


class Words(unittest.TestCase):
    ALL = [Done((UP, UP)), Ended(1, Busy(4)), Ended(0, Illegal()), Ended(2, colock.NoMemory("none"))]

    def test_words(self):
        done, busy, illegal, refused = self.ALL
        self.assertEqual(done.executed(), (UP, UP))
        self.assertRaises(colock.BusyError, busy.executed)
        self.assertRaises(colock.IllegalError, illegal.executed)
        self.assertRaises(colock.NoMemory, refused.executed)
        self.assertEqual([eval(repr(one)) for one in (done, busy, illegal)], [done, busy, illegal])
        self.assertEqual(repr(busy), "Ended(index=1, how=Busy(blocker=4))")
        self.assertEqual((typing.get_args(colock.Attempt), Done.__match_args__, Ended.__match_args__), ((Done, Ended), ("replies",), ("index", "how")))
        self.assertEqual(str(colock.OutcomeUnknown("")), "whether the attempt is committed isn't known")

    @unittest.skipIf(sys.version_info < (3, 10), "`match` is of Python 3.10")
    def test_match(self):
        names = {"Done": Done, "Ended": Ended, "Busy": Busy, "Illegal": Illegal, "colock": colock}
        exec(MATCHED, names)
        self.assertEqual([*map(names["told"], self.ALL)], ["ok and 1 more", "call 1 is behind 4", "call 0 is illegal", "no memory for call 2"])


class Attempts:
    """At stores of both backends."""

    def test_it_is_done(self):
        store = self.make({"a": COUNTER, "b": Type(PURSE, Kind.ESCROW)})
        taken, read = Operation("take:17", "ok", 2, 17), Operation("value", "483", 6, 483)
        self.assertEqual(store.attempt([("a", "inc:1"), (1, "take:17"), ("b", "value"), (0, "inc:1")]), Done((UP, taken, read, UP)))
        self.assertEqual((store.snapshot().states, store.moment().commits, store.open_count()), ((2, 483), 1, 0))
        self.assertEqual((store.stats().commits, store.stats().aborts, store.stats().busy), (1, 0, (0, 0)))
        # a refusal that is a reply ends nothing
        self.assertEqual(store.attempt(iter([("b", "take:9999")])).executed()[0].reply, "short")
        self.assertEqual(store.moment().commits, 2)

    def test_it_is_ended_at_each_place(self):
        store = self.make([COUNTER, COUNTER])
        t = store.begin()
        t.call(1, "inc:1").executed()
        for index in range(4):
            ups = [(0, "inc:1")] * min(index, 2) + [(0, "dec:1")] * max(index - 2, 0)
            self.assertEqual(store.attempt([*ups, (1, "dec:1"), (0, "inc:1")]), Ended(index, Busy(t.number)))
        for index in range(3):
            self.assertEqual(store.attempt([(0, "inc:1")] * index + [(0, "dec:1")] * (index + 1)), Ended(2 * index, Illegal()))
        self.assertEqual((store.kept(0), store.snapshot().states, store.open_count()), (0, (0, 0), 1))
        self.assertEqual((store.stats().commits, store.stats().aborts, store.stats().busy), (0, 7, (0, 4)))
        # the open one goes on
        t.commit()
        self.assertEqual(store.attempt([(1, "dec:1")]), Done((Operation("dec:1", "ok", 1),)))

    def test_what_isnt_there(self):
        store = self.make({"a": COUNTER, "b": COUNTER})
        for wrong in ("c", ""):
            with self.assertRaises(colock.NoObject) as raised:
                store.attempt([("a", "inc:1"), (wrong, "inc:1")])
            self.assertEqual(raised.exception.name, wrong)
        self.assertRaises(ValueError, store.attempt, [])
        for wait in (-1.0, math.nan):
            self.assertRaises(ValueError, store.attempt, [("a", "inc:1")], wait)
        self.assertRaises(OverflowError, store.attempt, [("a", "inc:1")], worker=256)
        self.assertRaises(TypeError, store.attempt, [(None, "inc:1")])
        self.assertEqual((store.event_count(), store.stats().aborts), (0, 0))

    def ended(self, store, calls, wait=None):
        """At which call an attempt ended, and by which error."""
        told = store.attempt(calls, wait)
        self.assertIsInstance(told, Ended)
        self.assertRaises(type(told.how), told.executed)
        self.assertEqual(str(told.how), type(told.how).__doc__)
        return told.index, type(told.how)

    def test_a_call_that_isnt_there_ends_it(self):
        store, up = self.make({"a": COUNTER, "b": Type(PURSE, Kind.ESCROW)}), ("a", "inc:1")
        for index in range(3):
            for x in (2, 7, 65_536, 2**32 - 1):
                self.assertEqual(self.ended(store, [up] * index + [(x, "inc:1"), up]), (index, colock.NoObject))
            for name in ("", " ", "none", "inc:1 ", "inc:1 inc:1", "inc:1\n", "ä", "\ud800", "inc", "x" * 5_000):
                self.assertEqual(self.ended(store, [up] * index + [("a", name), up]), (index, colock.NoCall))
            for name in ("take:0", "take:any", "take:10001", "take:007", "value:0", "value 1"):
                self.assertEqual(self.ended(store, [up] * index + [("b", name)], LONG), (index, colock.NoCall))
        # the first of two
        self.assertEqual(self.ended(store, [up, ("a", "x"), (2, "x")]), (1, colock.NoCall))
        self.assertEqual(self.ended(store, [up, (2, "x"), ("a", "x")]), (1, colock.NoObject))
        self.assertEqual((store.snapshot().states, store.open_count(), store.stats().commits), ((0, 500), 0, 0))
        self.assertEqual(store.attempt([up]), Done((UP,)))

    def drawn(self, source, types):
        """Calls at some of the objects."""
        names = {x: of._calls.names for x, of in enumerate(types)}
        return [(x, source.choice(names[x])) for x in (source.randrange(len(types)) for _ in range(source.randint(1, 5)))]

    def one_by_one(self, store, calls):
        """The same as an attempt, by a call after the other."""
        t, replies = store.begin(), []
        for index, (x, name) in enumerate(calls):
            reply = t.call(x, name)
            if not isinstance(reply, Operation):
                t.abort()
                return Ended(index, reply)
            replies.append(reply)
        t.commit()
        return Done(tuple(replies))

    def test_beside_the_same_calls_one_by_one(self):
        types = [COUNTER, STOCK, Type.counter(2, [1], Kind.INTENTIONS), Type(TWO)]
        for seed in range(2 if QUICK else 6):
            source, stores = random.Random(seed), [self.make(types), self.make(types)]
            holders, came = [], []
            for _ in range(60):
                if source.random() < 0.2:
                    # others hold something meanwhile
                    call = self.drawn(source, types)[0]
                    holders.append([store.begin() for store in stores])
                    self.assertEqual(*(t.call(*call) for t in holders[-1]))
                elif holders and source.random() < 0.2:
                    how = source.choice(["commit", "abort"])
                    for t in holders.pop(source.randrange(len(holders))):
                        getattr(t, how)()
                calls = self.drawn(source, types)
                came.append(stores[0].attempt(calls))
                self.assertEqual(came[-1], self.one_by_one(stores[1], calls))
            self.assertEqual(*map(lines, stores))
            self.assertEqual(*[(store.stats().commits, store.stats().aborts, store.stats().busy, store.snapshot()) for store in stores])
            self.assertGreater(min(sum(isinstance(one, kind) for one in came) for kind in (Done, Ended)), 5)

    def test_who_sleeps_is_woken(self):
        """What an attempt commits may let somebody go who sleeps behind another transaction."""
        store = self.make([STOCK])
        store.attempt([(0, "inc:1")])
        holder, t = store.begin(), store.begin()
        holder.call(0, "dec:1").executed()
        sleeping = Run(t.call, 0, "dec:1", LONG)
        asleep(store, 1)
        # it doesn't go behind who sleeps, and where it aborts nobody can go
        self.assertEqual(store.attempt([(0, "inc:1"), (0, "dec:2")]), Ended(1, Busy(holder.number)))
        self.assertEqual(store._backend.sleepers.calls.keys(), {support.known(store, t)})
        self.assertIsInstance(store.attempt([(0, "inc:2")]), Done)
        self.assertEqual(sleeping.result().executed().reply, "ok")
        holder.abort()
        t.commit()
        self.assertEqual((store.kept(0), store._backend.sleepers.is_bare()), (2, True))

    def test_it_waits(self):
        store = self.make({"seat": Type.seats(1), "sold": COUNTER})
        t = store.begin()
        t.call("seat", "hold:1").executed()
        buying = Run(store.attempt, [("sold", "inc:1"), ("seat", "hold:1")], LONG)
        asleep(store, 1)
        self.assertEqual((store.kept("sold"), store.open_count(), store.stats().commits), (0, 1, 0))
        t.abort()
        self.assertEqual([of.reply for of in buying.result().executed()], ["ok", "ok"])
        self.assertEqual((store.snapshot().states, store.stats().busy), ((1, 1), (1, 0)))
        self.assertTrue(store._backend.sleepers.is_bare())
        self.assertGreater(store.stats().waits, 0)

    def test_it_waits_for_whoever_is_next(self):
        store = self.make([Type(TWO)] * 2)
        holders = [store.begin(), store.begin()]
        for x, t in enumerate(holders):
            t.call(x, "take").executed()
        giving = Run(store.attempt, [(0, "give"), (1, "give")], LONG)
        asleep(store, 1)
        holders[0].commit()
        until(lambda: store.stats().busy[1] > 0, "the second wait")
        self.assertEqual(store.moment().commits, 1)
        holders[1].commit()
        self.assertEqual(giving.result(), Done((Operation("give", "ok", 1),) * 2))

    def test_it_goes_on_behind_a_rollback(self):
        store = self.make([Type(TWO)])
        t = store.begin()
        t.call(0, "take").executed()
        giving = Run(store.attempt, [(0, "give")], LONG)
        asleep(store, 1)
        t.rollback(1)
        self.assertIsInstance(giving.result(), Done)
        t.abort()

    def test_the_time_is_over(self):
        store = self.make([Type(TWO)])
        t = store.begin()
        t.call(0, "take").executed()
        for wait in (0, 0.05):
            with Timed() as timed, self.assertRaises(colock.TimedOut):
                store.attempt([(0, "give")], wait=wait)
            self.assertGreaterEqual(timed.seconds, wait)
        self.assertEqual((store.stats().timeouts, store.open_count(), store.moment().commits), (2, 1, 0))
        # what isn't in anybody's way needn't wait
        self.assertIsInstance(store.attempt([(0, "take")], wait=0), Done)
        self.assertTrue(store._backend.sleepers.is_bare())

    def test_inside_of_a_turn(self):
        store = self.make([COUNTER])
        for wrong in (lambda t: store.attempt([(0, "inc:1")]), lambda t: store.peek([]), lambda t: store.committed_states([0]), lambda t: store.snapshot(), lambda t: store.moment()):
            with self.assertRaises(ValueError) as raised:
                store.transact(wrong)
            self.assertIn("inside of `transact`", str(raised.exception))
        self.assertEqual((store.kept(0), store.open_count()), (0, 0))

    def test_many_threads(self):
        store, each = self.make([Type(TWO), Type(PURSE, Kind.ESCROW)]), 5 if QUICK else 40

        def work(calls):
            return [store.attempt(calls, wait=SOON) for _ in range(each)]

        def hold():
            for _ in range(each):
                with store.begin() as t:
                    t.call(0, "take", wait=SOON).executed()

        runs = [Run(work, [(1, "give:1"), (0, "take")]) for _ in range(16)]
        holding = Run(hold)
        for run in runs:
            self.assertEqual([len(told.executed()) for told in run.result(4 * SOON)], [2] * each)
        holding.result(4 * SOON)
        self.assertEqual(store.snapshot().states, (0, 500 + 16 * each))
        self.assertEqual((store.moment().commits, store.stats().commits), (17 * each, 17 * each))

    def test_a_store_that_is_closed(self):
        store = self.make([Type(TWO)])
        t = store.begin()
        t.call(0, "take").executed()
        giving = Run(store.attempt, [(0, "give")], LONG)
        asleep(store, 1)
        store.close()
        self.assertRaises(colock.ClosedError, giving.result)
        self.assertRaises(colock.ClosedError, store.attempt, [(0, "give")])


class AttemptsInMemory(InMemory, Attempts, unittest.TestCase):
    def test_a_call_that_isnt_there_is_refused_in_its_transaction(self):
        """So what comes before it is made, and may end it first."""
        store = self.make([COUNTER, COUNTER])
        self.assertEqual(self.ended(store, [(0, "inc:1"), (0, "x")]), (1, colock.NoCall))
        self.assertEqual(lines(store), ["begin 0 0", "op 0 0 0 0", "abort 0 0"])
        t = store.begin()
        t.call(1, "inc:1").executed()
        self.assertEqual(store.attempt([(1, "dec:1"), (0, "x")]), Ended(0, Busy(t.number)))
        self.assertEqual(store.attempt([(0, "dec:1"), (2, "inc:1")]), Ended(0, Illegal()))
        self.assertEqual(self.ended(store, [(2, "inc:1"), (1, "dec:1")]), (0, colock.NoObject))
        self.assertEqual((store.stats().aborts, store.stats().busy, store.open_count()), (4, (0, 1), 1))
        t.commit()

    def test_a_call_that_isnt_there_of_a_closed_store(self):
        store = self.make([COUNTER])
        store.close()
        for call in (0, "inc:1"), (0, "x"), (1, "inc:1"):
            self.assertRaises(colock.ClosedError, store.attempt, [call])

    def test_it_isnt_begun(self):
        store = Store.with_limits([COUNTER], Limits(events=100, open=1))
        self.addCleanup(store.close)
        with store.begin():
            self.assertRaises(colock.TooManyOpenError, store.attempt, [(0, "inc:1")], 0)
        store = self.make([COUNTER], 6)
        self.assertRaises(colock.HistoryFullError, store.attempt, [(0, "inc:1")] * 5)
        self.assertEqual((store.events(), store.stats().aborts, store.stats().commits), ([], 0, 0))
        self.assertIsInstance(store.attempt([(0, "inc:1")] * 2), Done)

    def test_a_worker(self):
        store = self.make([COUNTER])
        store.attempt([(0, "inc:1")], worker=7)
        self.assertEqual(lines(store), ["begin 7 0", "op 7 0 0 0", "commit 7 0"])

    def test_more_calls_than_a_request_has(self):
        store = self.make([Type(TWO)])
        self.assertEqual(len(store.attempt([(0, "take")] * 1_000).executed()), 1_000)


class AttemptsOverAChild(OverChild, Attempts, unittest.TestCase):
    def test_a_call_that_isnt_there_isnt_asked_for(self):
        store = self.make([COUNTER, COUNTER])
        t = store.begin()
        t.call(1, "inc:1").executed()
        self.assertEqual(self.ended(store, [(1, "dec:1"), (0, "x")]), (1, colock.NoCall))
        self.assertEqual((store.stats().aborts, store.stats().busy, store.event_count()), (0, (0, 0), 2))
        t.commit()
        store.close()
        for call in (0, "inc:1"), (0, "x"), (2, "inc:1"):
            self.assertRaises(colock.ClosedError, store.attempt, [call])

    def test_the_most_calls_of_a_request(self):
        purse = Type(PURSE, Kind.ESCROW)
        store = self.make([(f"{x:064}", purse) for x in range(100)])
        calls = [(f"{x:064}", "take:9999") for x in range(36, 100)]
        self.assertEqual([of.reply for of in store.attempt(calls).executed()], ["short"] * 64)
        self.assertRaises(ValueError, store.attempt, [*calls, calls[0]])
        self.assertRaises(colock.InMemoryOnly, store.attempt, calls, worker=1)
        self.assertEqual(store.moment().commits, 1)

    def test_it_waits_for_the_next_epoch(self):
        store = self.make([COUNTER, support.one_way()], drain=600)
        t = store.begin()
        t.call(0, "inc:1").executed()
        # until that has ended no transaction begins
        extending = Run(store.extend, [COUNTER])
        until(lambda: store._backend._connection._late, "the wait")
        attempting = Run(store.attempt, [(0, "inc:1")])
        time.sleep(0.1)
        self.assertTrue(attempting.is_alive())
        t.commit()
        self.assertEqual((extending.result(), attempting.result()), (2, Done((UP,))))
        self.assertEqual((store.snapshot().states, store.moment().commits), ((2, 0, 0), 1))


ANSWERS = """
answers = {answers!r}
for tag, words in opened():
    if words[0] == "begin":
        say(f"{{tag}} ok 5.7\\n")
    elif words[0] == "call":
        say(f"{{tag}} refused NotOpen\\n")
    elif words[0] == "do":
        answer = answers.pop(0)
        if answer == "die":
            sys.exit(3)
        say(f"{{tag}} {{answer}}\\n")
    elif words[0] == "end":
        say(f"{{tag}} ok\\n")
        break
"""


class Answers(Fakes):
    """Programs that answer as they like."""

    CALLS = [(0, "take"), (0, "give")]

    def answering(self, *answers):
        return self.open(ANSWERS.format(answers=list(answers)))

    def test_answers(self):
        taken, given = Operation("take", "ok", 0), Operation("give", "ok", 1)
        store = self.answering("busy drain", "busy drain", "done ok ok", "busy 1 5.9", "none 0", "busy 0 6.2", "done ok ok")
        self.assertEqual([store.attempt(self.CALLS) for _ in range(5)], [Done((taken, given)), Ended(1, Busy(9)), Ended(0, Illegal()), Ended(0, Busy(2)), Done((taken, given))])
        self.assertEqual((store.stats().commits, store.stats().aborts, store.stats().busy, store._backend.life), (2, 3, (2,), 6))

    def test_refusals(self):
        store = self.answering("refused TooManyOpen", "refused HistoryFull", "refused NoMemory", "refused 1 NoMemory", "refused 0 NoCall")
        for error in colock.TooManyOpenError, colock.HistoryFullError, colock.NoMemory:
            self.assertRaises(error, store.attempt, self.CALLS, 0)
        for index, error in (1, colock.NoMemory), (0, colock.NoCall):
            told = store.attempt(self.CALLS)
            self.assertEqual((told.index, type(told.how)), (index, error))
            self.assertRaises(error, told.executed)

    def test_what_is_no_answer(self):
        for answer in (
            "done", "done ok", "done ok ok ok", "done ok gone", "ok", "ok 5.1", "busy 5.1", "busy 2 5.1", "busy x 5.1", "busy 1 5", "none", "none 2", "none 0 0", "none x",
            "refused", "refused Gone", "refused 0 Gone", "refused 2 NoCall", "refused x NoCall", "reply ok", "seen 5.1 ok ok",
        ):
            self.assertRaises(colock.ConnectionLost, self.answering(answer).attempt, self.CALLS)

    def test_a_blocker_that_isnt_open_here(self):
        """Its end was asked for meanwhile: the attempt is made again at once."""
        store = self.answering(*["busy 0 5.3"] * 3, "done ok ok")
        with Timed() as timed:
            self.assertIsInstance(store.attempt(self.CALLS, wait=LONG), Done)
        self.assertLess(timed.seconds, 0.9)

    def test_a_blocker_of_another_epoch(self):
        """What was open before it may be no more."""
        store = self.answering("busy 0 6.7", "done ok ok")
        t = store.begin()
        self.assertIsInstance(store.attempt(self.CALLS, wait=LONG), Done)
        self.assertRaises(colock.EpochEndedError, t.call, 0, "take")

    def test_the_program_is_lost(self):
        store = self.answering("die")
        with self.assertRaises(colock.OutcomeUnknown) as raised:
            store.attempt(self.CALLS)
        self.assertEqual(raised.exception.id, "")
        self.assertRaises(colock.ConnectionLost, store.attempt, self.CALLS)


if __name__ == "__main__":
    unittest.main()
