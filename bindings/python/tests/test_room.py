"""Where as many transactions are open as may be, a retry waits for the end of one; in memory and over a child."""
import threading
import time
import unittest
from unittest import mock

import support
from support import SOON, Run, Timed, until
from test_signals import STEP, Handler

import colock
from colock import Type

TALLY = Type.counter(1000, [1])
MOST_OPEN = 1024


class Rooms:
    def crowd(self, store):
        """As many transactions as may be open."""
        return [store.begin() for _ in range(MOST_OPEN)]

    def up(self, store):
        return store.retry(lambda t: t.call(0, "inc:1").executed().reply, tries=1)

    def looking_on(self, store, count):
        """Waits until this many look on."""
        until(lambda: len(store._backend.sleepers.bells) == count, "who looks on")

    def test_a_retry_waits_for_room(self):
        store = self.make([TALLY])
        begun = self.crowd(store)
        self.assertRaises(colock.TooManyOpenError, store.begin)
        runs = [Run(self.up, store) for _ in range(8)]
        self.looking_on(store, 8)
        # the end of each makes room for the next
        begun.pop().commit()
        self.assertEqual([run.result() for run in runs], ["ok"] * 8)
        self.assertEqual((store.open_count(), store.kept(0)), (MOST_OPEN - 1, 8))
        self.assertTrue(store._backend.sleepers.is_bare())

    def test_an_end_makes_room_for_one(self):
        store, inside, may_end = self.make([TALLY]), [], threading.Event()
        begun = self.crowd(store)

        def stay(t):
            inside.append(t.number)
            may_end.wait(SOON)

        runs = [Run(store.retry, stay) for _ in range(4)]
        self.looking_on(store, 4)
        for count in range(1, 4):
            begun.pop().abort()
            until(lambda: len(inside) >= count, "the next one")
            time.sleep(0.02)
            self.assertEqual(len(inside), count)
        may_end.set()
        for run in runs:
            run.result()
        self.assertEqual(store.open_count(), MOST_OPEN - 3)

    def test_a_limit(self):
        store = self.make([TALLY])
        begun = self.crowd(store)
        with mock.patch("colock._store.SECONDS_FOR_ROOM", 0.05), Timed() as timed:
            self.assertRaises(colock.TooManyOpenError, self.up, store)
        self.assertTrue(0.05 <= timed.seconds < 5, timed.seconds)
        self.assertTrue(store._backend.sleepers.is_bare())
        begun.pop().abort()
        self.assertEqual(self.up(store), "ok")

    def test_a_close_ends_the_wait(self):
        store = self.make([TALLY])
        begun = self.crowd(store)
        run = Run(self.up, store)
        self.looking_on(store, 1)
        store.close()
        self.assertRaises(colock.ClosedError, run.result)
        del begun

    def test_an_end_between_the_refusal_and_the_wait(self):
        store = self.make([TALLY])
        begun = self.crowd(store)
        watch = store._waiting._watch

        def late(*words):
            begun.pop().abort()
            watch(*words)

        with mock.patch.object(store._waiting, "_watch", late), Timed() as timed:
            self.assertEqual(self.up(store), "ok")
        self.assertLess(timed.seconds, 5)


    def test_who_is_interrupted_anywhere_waits_no_more(self):
        store = self.make([TALLY])
        begun = self.crowd(store)

        def up():
            try:
                self.up(store)
            except colock.TooManyOpenError:
                pass

        with mock.patch("colock._store.SECONDS_FOR_ROOM", 0.001):
            n = 1
            while Handler(n).during(up):
                self.assertTrue(store._backend.sleepers.is_bare(), n)
                n += STEP
        self.assertGreater(n, 200)
        begun.pop().abort()
        self.assertEqual(self.up(store), "ok")


class RoomInMemory(support.InMemory, Rooms, unittest.TestCase):
    """In memory."""


class RoomOverAChild(support.OverChild, Rooms, unittest.TestCase):
    """Over a child."""


if __name__ == "__main__":
    unittest.main()
