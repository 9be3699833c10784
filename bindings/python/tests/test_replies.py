"""What a call is answered, in words and by its class."""
import sys
import typing
import unittest

from support import PURSE, InMemory, OverChild

import colock
from colock import Busy, Illegal, Kind, Operation, Type
from colock._calls import MOST_KEPT

MATCHED = """
def told(reply):
    match reply:
        case Operation("value", _, _, amount):
            return f"it is {amount}"
        case Operation(_, "ok"):
            return "done"
        case Operation(call=call, reply=said):
            return f"{call} {said}"
        case Busy(blocker):
            return f"behind {blocker}"
        case Illegal():
            return "not now"
"""


class Words(unittest.TestCase):
    def test_operations(self):
        done, taken = Operation("inc:1", "ok", 0), Operation("take:17", "short", 3, 17)
        self.assertEqual((done.call, done.reply, done.place, done.amount), ("inc:1", "ok", 0, None))
        for operation in (done, taken):
            self.assertEqual(eval(repr(operation)), operation)
            self.assertEqual(hash(eval(repr(operation))), hash(operation))
        self.assertEqual((repr(done), repr(taken)), ("Operation('inc:1', 'ok', place=0)", "Operation('take:17', 'short', place=3, amount=17)"))
        self.assertNotEqual(done, Operation("inc:2", "ok", 0))
        self.assertEqual((repr(Busy(4)), repr(Illegal()), Illegal() == Illegal()), ("Busy(blocker=4)", "Illegal()", True))

    def test_expected(self):
        done = Operation("take:1", "short", 2)
        self.assertIs(done.expected("short"), done)
        with self.assertRaises(colock.UnexpectedError) as raised:
            done.expected("ok")
        self.assertEqual((raised.exception.call, raised.exception.reply), ("take:1", "short"))
        with self.assertRaises(colock.BusyError) as raised:
            Busy(4).expected("ok")
        self.assertEqual(raised.exception.blocker, 4)
        self.assertRaises(colock.IllegalError, Illegal().expected, "ok")

    def test_the_union(self):
        self.assertEqual(typing.get_args(colock.Reply), (Operation, Busy, Illegal))
        self.assertEqual((Operation.__match_args__, Busy.__match_args__, Illegal.__match_args__), (("call", "reply", "place", "amount"), ("blocker", "life"), ()))

    @unittest.skipIf(sys.version_info < (3, 10), "`match` is of Python 3.10")
    def test_match(self):
        names = {"Operation": Operation, "Busy": Busy, "Illegal": Illegal}
        exec(MATCHED, names)
        replies = [Operation("value", "483", 4, 483), Operation("inc:1", "ok", 0), Operation("take:1", "short", 2), Busy(7), Illegal()]
        self.assertEqual([*map(names["told"], replies)], ["it is 483", "done", "take:1 short", "behind 7", "not now"])


class Calls:
    """At stores of both backends."""

    def test_words_of_calls(self):
        store = self.make([Type(PURSE, Kind.ESCROW), Type.counter(5, [1, 2])])
        with store.begin() as t:
            told = [t.call(0, name) for name in ("take:100", "take:17", "take:9999", "give:10000", "give:3", "value")]
            self.assertEqual([(of.call, of.reply, of.amount) for of in told], [
                ("take:100", "ok", None), ("take:17", "ok", 17), ("take:9999", "short", 9999), ("give:10000", "full", 10000), ("give:3", "ok", 3), ("value", "386", 386),
            ])
            self.assertEqual([t.would(0, "take:17"), t.call_op(0, store.call_number(0, "take:17"))], 2 * [told[1]])
            self.assertEqual((t.call(1, "inc:2"), t.call(1, "inc:2", wait=1.0)), 2 * (Operation("inc:2", "ok", 2),))

    def test_expect(self):
        store = self.make([Type.stock(5, [1])])
        with store.begin() as t:
            self.assertEqual(t.expect(0, "give:1", "ok"), Operation("give:1", "ok", 0))
            self.assertEqual(t.expect(0, "take:1", "ok", wait=1.0).reply, "ok")
            with self.assertRaises(colock.UnexpectedError) as raised:
                t.expect(0, "take:1", "ok")
            self.assertEqual(str(raised.exception), "take:1 was answered short")
            # it was executed, so that another one has to wait
            with store.begin() as other:
                with self.assertRaises(colock.BusyError) as raised:
                    other.expect(0, "give:1", "ok")
                self.assertEqual(raised.exception.blocker, t.number)
                self.assertRaises(colock.TimedOut, other.expect, 0, "give:1", "ok", wait=0.01)

    def test_nothing_legal(self):
        store = self.make([Type.counter(5, [1])])
        with store.begin() as t:
            self.assertRaises(colock.IllegalError, t.expect, 0, "dec:1", "ok")


class CallsInMemory(InMemory, Calls, unittest.TestCase):
    def test_not_all_operations_are_kept(self):
        purse = Type("number purse\nmax 1000000\ninitial 0\ngive any\nend\n", Kind.ESCROW)
        store = self.make([purse])
        with store.begin() as t:
            for amount in (*range(1, 5000), 1, 4999):
                self.assertEqual(t.call(0, f"give:{amount}"), Operation(f"give:{amount}", "ok", 0, amount))
                t.rollback(1)
        self.assertEqual(len(purse._calls.replies), MOST_KEPT)


class CallsOverAChild(OverChild, Calls, unittest.TestCase):
    pass


if __name__ == "__main__":
    unittest.main()
