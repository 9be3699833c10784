"""What is committed, read while others work: peeks, committed states and snapshots of stores of both backends."""
import threading
import time
import unittest

import support
from support import PURSE, QUICK, SOON, TWO, Fakes, Run

import colock
from colock import Kind, Moment, Operation, Store, Type

READS = [("read", "zero"), ("read", "one"), ("read", "two"), ("only", "one")]


def cell(kind=Kind.UNDO):
    """A number from 0 to 2, which is counted up and read, and where it is 1 a call `only` is legal."""
    def step(state, operation):
        if operation == ("inc", "ok"):
            return state + 1 if state < 2 else None
        return state if ("zero", "one", "two")[state] == operation[1] else None

    return Type.from_steps("cell", 0, [("inc", "ok"), *READS], step, kind)


KINDS = [Kind.UNDO, Kind.INTENTIONS, Kind.ESCROW]
CELLS = [cell(kind) for kind in KINDS]
BOTH = [(0, "value"), (1, "value")]


def told(seen):
    """The replies of a peek."""
    return [operation.reply for operation in seen.replies]


class Reads:
    """At stores of both backends."""

    def test_a_peek_waits_for_nobody(self):
        store = self.make(CELLS)
        calls = [(x, "read") for x in range(3)]
        t = store.begin()
        for x in range(3):
            t.call(x, "inc").executed()
        events, before = store.event_count(), store.peek(calls)
        self.assertEqual(before.replies, tuple(Operation("read", "zero", 1) for _ in range(3)))
        self.assertEqual((store.event_count(), store.open_count(), store.stats().busy), (events, 1, (0, 0, 0)))
        t.commit()
        behind = store.peek(calls)
        self.assertEqual(told(behind), ["one"] * 3)
        self.assertEqual((behind.at.epoch, behind.at.commits), (before.at.epoch, before.at.commits + 1))
        self.assertTrue(before.at < behind.at == store.moment())
        # who has read by a peek is in nobody's way
        with store.begin() as u:
            self.assertEqual(u.call(0, "inc").executed().reply, "ok")

    def test_what_is_no_read(self):
        store = self.make({"a": CELLS[0], "b": CELLS[1]})
        self.assertEqual(told(store.peek([("b", "read"), (0, "read"), ("a", "read")])), ["zero"] * 3)
        self.assertRaises(colock.Changes, store.peek, [("a", "inc")])
        self.assertRaises(ValueError, store.peek, [(0, "read"), (1, "inc"), (1, "only")])
        for calls, index in ([("a", "only")], 0), ([(0, "read"), ("b", "only"), (1, "inc")], 1):
            with self.assertRaises(colock.IllegalError) as raised:
                store.peek(calls)
            self.assertEqual((raised.exception.index, str(raised.exception)), (index, f"no operation of call {index} is legal"))
        for name in ("", "none", "read ", "read x", "ä", "x" * 5_000, "inc\n"):
            self.assertRaises(colock.NoCall, store.peek, [(0, "read"), (1, name)])
        for wrong, name in (2, None), ("c", "c"), ("", ""):
            for ask in (lambda: store.peek([(0, "read"), (wrong, "read")]), lambda: store.committed_states(["a", wrong])):
                with self.assertRaises(colock.NoObject) as raised:
                    ask()
                self.assertEqual(raised.exception.name, name)
        self.assertEqual((store.event_count(), store.moment().commits), (0, 0))
        self.assertEqual(store.stats().busy, (0, 0))

    def test_committed_states(self):
        store = self.make(dict(zip("uie", CELLS)))
        store.transact(lambda t: t.call("i", "inc"))
        t = store.begin()
        for x in range(3):
            t.call(x, "inc").executed()
        self.assertEqual([store.kept(x) for x in range(3)], [1, 1, 0])
        for _ in range(2):
            self.assertEqual(store.snapshot().states, (0, 1, 0))
            self.assertEqual(store.committed_states(["e", 1, "u", 0]).states, (0, 1, 0, 0))
        t.rollback(1)
        self.assertEqual(store.snapshot(), store.committed_states(range(3)))
        t.commit()
        at, states = store.snapshot()
        self.assertEqual((states, [store.kept(x) for x in range(3)], at.commits), ((1, 2, 0), [1, 2, 0], 2))

    def test_nothing_is_asked(self):
        store = self.make([CELLS[0]])
        at = store.moment()
        self.assertEqual((store.peek([]), store.committed_states([])), (colock.Seen(at, ()), colock.States(at, ())))

    def test_moments(self):
        store = self.make([CELLS[0]])
        first = store.moment()
        store.begin().abort()
        self.assertEqual((store.moment(), first.commits), (first, 0))
        with store.begin() as t:
            t.call(0, "inc")
            self.assertEqual(store.moment(), first)
        self.assertEqual(store.moment(), Moment(first.epoch, 1))
        self.assertEqual(sorted([Moment(1, 0), Moment(0, 9), Moment(0, 2)]), [Moment(0, 2), Moment(0, 9), Moment(1, 0)])
        # another epoch begins
        store.extend([CELLS[1]])
        self.assertGreater(store.moment(), Moment(first.epoch, 1))
        self.assertEqual((store.moment().commits, store.snapshot().states), (0, (1, 0)))

    def test_more_than_a_request_has(self):
        """Over a child they go over in parts."""
        store = self.make([CELLS[0]] * 200)
        store.transact(lambda t: [t.call(x, "inc") for x in range(0, 200, 3)])
        wanted = tuple(int(x % 3 == 0) for x in range(200))
        seen = store.peek([(x, "read") for x in range(200)])
        self.assertEqual([("zero", "one")[state] for state in wanted], told(seen))
        self.assertEqual((store.snapshot(), seen.at), (colock.States(store.moment(), wanted), store.moment()))
        self.assertEqual(store.committed_states([199, 198] * 64).states, (0, 1) * 64)
        with self.assertRaises(colock.IllegalError) as raised:
            store.peek([(0, "only")] * 130 + [(1, "only")])
        self.assertEqual(raised.exception.index, 130)

    def test_one_moment(self):
        """Threads move an amount from one number to the other. Nobody sees it in between."""
        purse = Type(PURSE, Kind.ESCROW)
        # one may be ahead by all its turns: what it takes in all is less than is there
        store, turns = self.make([purse, purse]), 40 if QUICK else 120
        is_over = threading.Event()

        def move(x):
            for amount in range(1, turns):
                with store.begin() as t:
                    t.expect(x, f"take:{amount % 7 + 1}", "ok", wait=SOON)
                    t.expect(1 - x, f"give:{amount % 7 + 1}", "ok", wait=SOON)

        def look():
            last, looks = store.moment(), 0
            while not is_over.is_set() or looks < 5:
                seen, states, all_of_them = store.peek(BOTH), store.committed_states([1, 0]), store.snapshot()
                self.assertEqual([sum(of.amount for of in seen.replies), sum(states.states), sum(all_of_them.states)], [1_000] * 3)
                self.assertLessEqual([last, seen.at, states.at], [seen.at, states.at, all_of_them.at])
                last, looks = all_of_them.at, looks + 1
                time.sleep(0.001)
            return looks

        movers, lookers = [Run(move, x) for x in (0, 1)], [Run(look) for _ in range(2)]
        for run in movers:
            run.result(4 * SOON)
        is_over.set()
        self.assertGreaterEqual(min(run.result() for run in lookers), 5)
        self.assertEqual(store.moment().commits, 2 * (turns - 1))
        self.assertEqual(sum(store.stats().busy), store.stats().waits)

    def test_a_store_that_is_closed(self):
        store = self.make([CELLS[0]])
        store.close()
        for ask in (store.moment, store.snapshot, lambda: store.peek([(0, "read")]), lambda: store.committed_states([0]), lambda: store.peek([])):
            self.assertRaises(colock.ClosedError, ask)


class ReadsInMemory(support.InMemory, Reads, unittest.TestCase):
    def test_the_epoch(self):
        store = self.make([CELLS[0]])
        store.transact(lambda t: t.call(0, "inc"))
        self.assertEqual(store.moment(), Moment(0, 1))
        # what was forgotten is counted
        store.forget(9)
        self.assertEqual(store.moment(), Moment(0, 1))
        store.renew()
        self.assertEqual((store.moment(), store.snapshot()), (Moment(1, 0), colock.States(Moment(1, 0), (1,))))

    def test_events_that_are_made_again(self):
        one, other = self.make([CELLS[0]]), self.make([CELLS[0]])
        one.transact(lambda t: t.call(0, "inc"))
        other.follow(one.events())
        self.assertEqual((other.moment(), other.snapshot()), (one.moment(), one.snapshot()))


class ReadsOverAChild(support.OverChild, Reads, unittest.TestCase):
    def test_the_epoch_is_the_life(self):
        store = self.make([CELLS[0]])
        with store.begin() as t:
            t.call(0, "inc")
        self.assertEqual(f"{store.moment().epoch}.0", t.id)
        path = store._backend._connection._process.args[-1]
        before = store.moment()
        store.close()
        with Store.open(path, program=support.program()) as again:
            self.assertGreater(again.moment(), before)
            self.assertEqual((again.moment().commits, again.snapshot().states), (0, (1,)))


ANSWERS = """
answers = {answers!r}
for tag, words in opened():
    if words[0] in ("peek", "committed"):
        answer = answers.pop(0) if len(answers) > 1 else answers[0]
        say(f"{{tag}} {{answer}}\\n" if answer else "")
    elif words[0] == "end":
        say(f"{{tag}} ok\\n")
        break
"""


class Answers(Fakes):
    """Programs that answer otherwise than they should, or that begin another epoch."""

    type = TWO

    def answering(self, *answers):
        """A store whose reads are answered so, from the last one on always the same."""
        return self.open(ANSWERS.format(answers=list(answers)))

    def test_what_is_no_answer(self):
        for answer in (
            "seen 5.1", "seen 5.1 ok ok", "seen 5 ok", "seen 5.x ok", "ok", "seen 5.1 gone", "seen 5.1  ok", "none", "none 1", "none x", "refused", "refused Gone",
            "refused 0 NoCall", "busy 5.1", "done ok",
        ):
            self.assertRaises(colock.ConnectionLost, self.answering(answer).peek, [(0, "take")])
        for answer in ("seen 5.1", "seen 5.1 ok", "seen 5.1 0 0", "none 0 0"):
            self.assertRaises(colock.ConnectionLost, self.answering(answer).committed_states, [0])

    def test_refusals(self):
        for answer, error in ("refused NoObject", colock.NoObject), ("refused NoCall", colock.NoCall), ("refused Changes", colock.Changes), ("none 0", colock.IllegalError):
            store = self.answering(answer, "seen 5.1 ok")
            self.assertRaises(error, store.peek, [(0, "take")])
            self.assertEqual(told(store.peek([(0, "take")])), ["ok"])

    def test_an_epoch_that_ends_between_two_parts(self):
        calls = [(0, "take")] * 65
        parts = [" ok" * 64, " ok"]
        store = self.answering("seen 5.9" + parts[0], "seen 6.0" + parts[1], "seen 6.1" + parts[0], "seen 6.1" + parts[1])
        self.assertEqual(store.peek(calls), colock.Seen(Moment(6, 1), (Operation("take", "ok", 0),) * 65))
        store = self.answering(*(f"seen {life}.0{parts[life % 2]}" for life in range(100)))
        self.assertRaises(colock.TimedOut, store.peek, calls)


if __name__ == "__main__":
    unittest.main()
