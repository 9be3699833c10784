"""Objects that are added while a store in memory lives."""
import threading
import unittest

import support
from support import FIVE, LONG, Run, asleep, quietly

import colock
from colock import Kind, Limits, Store, Type

COUNTER = Type.counter(2, [1])
# From 0 to 5, at 3.
STOCK = Type(FIVE, Kind.ESCROW)
# The most objects.
MOST = 65_536


def up(store, x, name="inc:1"):
    store.transact(lambda t: t.expect(x, name, "ok"))


def keeps(store, count):
    return [store.kept(x) for x in range(count)]


class Extended(support.InMemory, unittest.TestCase):
    def test_old_objects_keep_their_states_and_new_ones_begin(self):
        store = self.make([COUNTER, STOCK], 100)
        up(store, 0)
        up(store, 1, "take:2")
        store.forget(2)
        self.assertEqual(store.extend([STOCK, COUNTER]), 2)
        self.assertEqual((keeps(store, 4), store.event_count(), store.forgotten_count()), ([1, 1, 3, 0], 0, 0))
        self.assertEqual((store.stats().busy, store.stats().commits), ((0, 0, 0, 0), 2))
        with store.begin(7) as t:
            self.assertEqual(t.id, "1.0")
            t.expect(2, "give:1", "ok")
            t.expect(3, "inc:1", "ok")
            for ask in (t.call, t.would, store.call_number):
                self.assertRaises(colock.NoObject, *((ask, 4, "inc:1")))
        self.assertEqual((keeps(store, 4), store.events(2)[0].object), ([1, 1, 4, 1], 3))
        # without an object it begins anew
        self.assertEqual((store.extend([]), store.event_count(), keeps(store, 4), store.begin().id), (4, 0, [1, 1, 4, 1], "2.0"))

    def test_who_is_open_keeps_a_store_as_it_is(self):
        store = self.make([COUNTER], 100)
        t = store.begin()
        self.assertRaises(colock.StillOpenError, store.extend, [COUNTER])
        self.assertRaises(colock.NoObject, store.kept, 1)
        self.assertEqual((t.call(0, "inc:1").executed().reply, store.stats().busy), ("ok", (0,)))
        t.commit()
        self.assertEqual(store.extend([COUNTER]), 1)
        self.assertRaises(colock.NotOpenError, t.call, 0, "inc:1")
        # one that nobody has any more doesn't count
        store.begin().call(0, "inc:1")
        self.assertEqual((store.extend([COUNTER]), keeps(store, 3)), (2, [1, 0, 0]))

    def test_up_to_the_limit(self):
        for first, most in ((1, 1), (2, 5), (255, 256), (1, MOST), (MOST - 1, MOST)):
            with Store.with_limits([COUNTER] * first, Limits(objects=most)) as store:
                for too_many in (most - first + 1, MOST):
                    self.assertRaises(colock.TooManyObjects, store.extend, [COUNTER] * too_many)
                self.assertRaises(colock.NoObject, store.kept, first)
                self.assertEqual(store.extend([COUNTER] * (most - first)), first)
                self.assertRaises(colock.TooManyObjects, store.extend, [COUNTER])
                up(store, most - 1)
                self.assertEqual((store.extend([]), store.kept(most - 1), len(store.stats().busy)), (most, 1, most))

    def test_one_by_one(self):
        store = self.make([COUNTER], 1_000)
        for x in range(1, 256):
            self.assertEqual(store.extend([STOCK if x % 2 else COUNTER]), x)
            up(store, x, "give:1" if x % 2 else "inc:1")
        self.assertEqual(keeps(store, 256)[1:], [4 if x % 2 else 1 for x in range(1, 256)])
        self.assertRaises(colock.TooManyObjects, store.extend, [COUNTER])

    def test_calls_wait_at_new_objects(self):
        """There the conflicts of its own type are those that count."""
        store = self.make([STOCK], 100)
        store.extend([COUNTER, COUNTER])
        first, third = store.begin(), None
        first.expect(2, "inc:1", "ok")
        waiting = Run(lambda: store.retry(lambda t: t.call(2, "dec:1", wait=LONG).executed().reply, tries=1))
        asleep(store, 1)
        third = store.begin()
        self.assertIsInstance(third.call(2, "inc:1"), colock.Busy)
        third.expect(1, "inc:1", "ok")
        third.commit()
        first.commit()
        self.assertEqual((waiting.result(), keeps(store, 3), store.stats().busy), ("ok", [3, 1, 0], (0, 0, 2)))

    def test_types_that_are_closed(self):
        store, closed = self.make([COUNTER], 100), Type.counter(2, [1])
        closed.close()
        self.assertRaises(colock.ClosedError, store.extend, [COUNTER, closed])
        self.assertRaises(colock.NoObject, store.kept, 1)
        self.assertEqual(store.extend([COUNTER]), 1)
        store.close()
        self.assertRaises(colock.ClosedError, store.extend, [COUNTER])

    def test_what_is_no_object(self):
        store = self.make([COUNTER], 100)
        for wrong in (["a"], [None], [("a",)], [(COUNTER, "a")], [(1, COUNTER)], ["ab"], {"a": "b"}, [["a", COUNTER]]):
            self.assertRaises(TypeError, store.extend, wrong)
            self.assertRaises(TypeError, Store, wrong, 100)
        self.assertEqual(store.extend([COUNTER]), 1)

    def test_inside_of_transact(self):
        store = self.make([COUNTER], 100)
        self.assertRaises(ValueError, store.transact, lambda t: store.extend([COUNTER]))

    def test_what_gives_the_objects_asks_the_store(self):
        store = self.make([COUNTER], 100)
        is_there = threading.Event()

        def objects():
            # another thread has the lock meanwhile
            Run(lambda: (store.kept(0), is_there.set())).result()
            yield COUNTER

        self.assertEqual((store.extend(objects()), is_there.is_set()), (1, True))

    def test_others_go_on_meanwhile(self):
        wide, objects = Type.counter(100, [1]), 100
        quietly()
        store = self.make({"0": wide}, 1_000_000)

        def use():
            for x in range(objects):
                while True:
                    try:
                        number = store.find(str(x))
                        break
                    except colock.NoObject:
                        pass
                up(store, number)
                self.assertEqual((number, store.name_of(x)), (x, str(x)))

        runs = [Run(use) for _ in range(3)]
        for x in range(1, objects):
            self.assertEqual(store.extend({str(x): wide}), x)
        for run in runs:
            run.result()
        self.assertEqual(keeps(store, objects), [3] * objects)


if __name__ == "__main__":
    unittest.main()
