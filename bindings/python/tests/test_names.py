"""Objects that are named."""
import enum
import unittest

import support
from support import LONG, Run

import colock
from colock import Limits, Store, Type

COUNTER, SEAT = Type.counter(2, [1]), Type.seats(1)


class Shapes(support.InMemory, unittest.TestCase):
    def test_names(self):
        for name in ("a", "A12", "row_1/seat-2", "a:b.c", ".", "/", "-", "0", "x" * 64):
            self.assertEqual(self.make([(name, COUNTER)]).find(name), 0)
        for name in ("", " ", "A 1", "a\n", "a\0", "ä", "a,b", "@a", "a+b", "x\u0301", "\uff11", "x" * 65):
            with self.assertRaises(colock.BadName) as raised:
                Store([(name, COUNTER)], 9)
            self.assertEqual(raised.exception.name, name)
        self.assertEqual(str(colock.BadName("A 1")), "'A 1' is no name of an object")

    def test_no_name_is_there_twice(self):
        store = self.make({"a": COUNTER, "A": COUNTER})
        for given in ([("a", COUNTER), ("b", COUNTER), ("a", COUNTER)], [("c", COUNTER), ("a", COUNTER)]):
            with self.assertRaises(colock.NameTaken) as raised:
                store.extend(given)
            self.assertEqual((raised.exception.name, str(raised.exception)), ("a", "two objects have the name a"))
        self.assertRaises(colock.NameTaken, Store, [("a", COUNTER), ("a", COUNTER)], 9)
        self.assertRaises(colock.NoObject, store.find, "b")
        self.assertEqual((store.extend({"b": COUNTER}), store.find("b")), (2, 2))
        self.assertRaises(colock.NameTaken, store.extend, {"b": COUNTER})

    def test_names_stay_free(self):
        """An extension that is refused takes no name."""
        store = Store.with_limits({"a": COUNTER}, Limits(objects=2))
        self.addCleanup(store.close)
        t = store.begin()
        self.assertRaises(colock.StillOpenError, store.extend, {"b": COUNTER})
        t.abort()
        self.assertRaises(colock.TooManyObjects, store.extend, {"b": COUNTER, "c": COUNTER})
        for name in ("b", "c"):
            self.assertRaises(colock.NoObject, store.find, name)
        self.assertEqual((store.extend({"b": COUNTER}), store.find("b"), store.name_of(1)), (1, 1, "b"))

    def test_lists_are_mixed(self):
        store = self.make([COUNTER, ("a", SEAT), (None, COUNTER), ("b", SEAT)])
        self.assertEqual([store.name_of(x) for x in range(5)], [None, "a", None, "b", None])
        self.assertEqual((store.extend(iter([("c", SEAT), COUNTER])), store.find("c"), store.name_of(5)), (4, 4, None))
        store.transact(lambda t: (t.expect(0, "inc:1", "ok"), t.expect("c", "hold:1", "ok")))
        self.assertEqual((store.kept(0), store.kept("c"), store.kept(1)), (1, 1, 0))


class Row(str, enum.Enum):
    """Names that are an enumeration's."""

    FIRST = "A1"


class Calls(support.InMemory, unittest.TestCase):
    def test_each_call_takes_a_name(self):
        store = self.make({"a": COUNTER, "b": COUNTER})
        inc = store.call_number("b", "inc:1")
        with store.begin() as t:
            self.assertEqual(t.call("b", "inc:1").executed().reply, "ok")
            self.assertEqual(t.call("a", "inc:1", wait=LONG).executed().reply, "ok")
            self.assertEqual(t.call_op("a", inc).executed().reply, "ok")
            self.assertEqual(t.call_op("b", inc, wait=LONG).executed().reply, "ok")
            self.assertEqual((t.would("a", "dec:1").expected("ok").reply, t.would_op("a", 1).expected("ok").reply), ("ok", "ok"))
            self.assertEqual(t.expect("b", "dec:1", "ok").call, "dec:1")
        self.assertEqual((store.kept("a"), store.kept("b"), store.events(1)[0].object), (2, 1, 1))

    def test_who_isnt_there(self):
        store = self.make({"a": COUNTER, "b": COUNTER})
        with store.begin() as t:
            asks = [
                (t.call, "inc:1"), (t.call, "inc:1", 0), (t.call_op, 0), (t.call_op, 0, 0), (t.would, "inc:1"), (t.would_op, 0),
                (t.expect, "inc:1", "ok"), (store.kept,), (store.call_number, "inc:1"), (store.find,),
            ]
            for ask, *words in asks:
                for name in ("c", "A", "0", "", "ä"):
                    with self.assertRaises(colock.NoObject) as raised:
                        ask(name, *words)
                    self.assertEqual((raised.exception.name, str(raised.exception)), (name, f"The store has no object {name!r}."))
        with self.assertRaises(colock.NoObject) as raised:
            store.kept(2)
        self.assertEqual((raised.exception.name, str(raised.exception)), (None, "The store has no object of this number."))
        self.assertRaises(LookupError, store.find, "c")

    def test_what_is_no_object(self):
        store = self.make({"a": COUNTER})
        for wrong in (None, 1.0, b"a", ("a",)):
            self.assertRaises(TypeError, store.kept, wrong)
            self.assertRaises(TypeError, store.find, wrong)
        for wrong in (-1, 1 << 32):
            self.assertRaises(OverflowError, store.kept, wrong)
            self.assertRaises(OverflowError, store.name_of, wrong)
        self.assertRaises(TypeError, store.find, 0)

    def test_names_of_an_enumeration(self):
        store = self.make({Row.FIRST: COUNTER})
        store.transact(lambda t: t.expect(Row.FIRST, "inc:1", "ok"))
        self.assertEqual((store.kept("A1"), store.find(Row.FIRST), store.name_of(0)), (1, 0, "A1"))

    def test_a_store_that_is_closed(self):
        store = self.make({"a": COUNTER})
        store.close()
        self.assertRaises(colock.ClosedError, store.kept, "a")
        self.assertRaises(colock.NoObject, store.kept, "b")


class Hall(unittest.TestCase):
    """A hall of 40 rows of 75 seats, and a balcony that is added."""

    def test_a_hall(self):
        hall = [f"R{row}-{seat}" for row in range(1, 41) for seat in range(1, 76)]
        with Store.with_limits(dict.fromkeys(hall, SEAT), Limits(objects=4_000)) as store:
            def hold(names):
                for name in names:
                    store.retry(lambda t: t.expect(name, "hold:1", "ok", wait=LONG))

            runs = [Run(hold, hall[start::4]) for start in range(4)]
            for run in runs:
                run.result()
            self.assertEqual([store.kept(name) for name in hall], [1] * 3_000)
            self.assertEqual([(store.find(name), store.name_of(x)) for x, name in enumerate(hall)], [(x, name) for x, name in enumerate(hall)])
            balcony = [f"B{seat}" for seat in range(1, 1_001)]
            self.assertEqual(store.extend((name, SEAT) for name in balcony), 3_000)
            self.assertEqual([(store.find(name), store.kept(name)) for name in balcony], [(x, 0) for x in range(3_000, 4_000)])
            hold(["B1000"])
            self.assertEqual((store.kept(3_999), store.kept("R1-1"), store.name_of(3_000)), (1, 1, "B1"))
            self.assertRaises(colock.TooManyObjects, store.extend, {"B1001": SEAT})


if __name__ == "__main__":
    unittest.main()
