"""Who sleeps at a store and is woken, without threads."""
import unittest

from support import QUICK
from test_signals import Handler, Raised

from colock._bell import Bell
from colock._decisions import Asker
from colock._sleepers import Sleeper, Sleepers, Watch

TAKE, GIVE = 0, 1


class Two:
    """The type of two calls, each of which is in the way of the other."""

    @staticmethod
    def _blocks():
        return {(TAKE, GIVE), (GIVE, TAKE)}


class Bells(unittest.TestCase):
    def test_one_is_rung_once(self):
        bell = Bell()
        bell.ring()
        bell.ring()
        self.assertEqual([bell.sleep(0), bell.sleep(0)], [True, False])


class OverChild(unittest.TestCase):
    """Nobody is asked here: each is woken, and asks by itself."""

    def setUp(self):
        self.sleepers = Sleepers([Two] * 4, None)

    def asleep(self, number, blocker, x=0, call=GIVE, by_gate=False):
        """A call that sleeps behind another one, as old as its number."""
        sleeper = Sleeper(number, number, x, call)
        self.sleepers.lie_down(sleeper, blocker, by_gate)
        return sleeper

    def watch(self, number):
        """Somebody who looks on."""
        watch = Watch()
        self.sleepers.look_on(watch, number)
        return watch

    def rung(self, *sleepers):
        """Which of them were woken since this was asked last."""
        return [sleeper.asker.number for sleeper in sleepers if sleeper.bell.sleep(0)]

    def test_who_waits_for_one_is_woken_by_its_end(self):
        first, second, third = self.asleep(1, 9), self.asleep(2, 8, x=1), self.asleep(3, 8, x=2)
        self.assertEqual([one.is_asleep for one in (first, second, third)], [True] * 3)
        self.sleepers.ended(9, {2})
        self.assertEqual(self.rung(first, second, third), [1, 3])
        self.assertEqual([one.is_asleep for one in (first, second, third)], [False, True, False])
        self.sleepers.took_back(8, ())
        self.assertEqual(self.rung(first, second, third), [2])  # the third looks again already

    def test_a_victim_is_told_for_whom_it_waited(self):
        first, second = self.asleep(1, 2), self.asleep(2, 1, x=1)
        self.assertEqual((self.rung(first, second), first.waited_for, second.waited_for), ([2], None, 1))
        self.sleepers.ended(2, {0})
        self.assertEqual((self.rung(first, second), list(self.sleepers.calls)), ([1, 2], [1]))

    def test_who_is_awake_isnt_asked_for(self):
        first = Sleeper(1, 1, 0, GIVE)
        self.sleepers.look_again(first)
        self.assertEqual(self.rung(first), [])
        # but younger ones go after it
        self.assertEqual(self.sleepers.at_gate(Asker(2, 2, 0, TAKE)), 1)
        second = self.asleep(2, 1, call=TAKE, by_gate=True)
        self.sleepers.look_again(first)
        self.assertEqual(self.rung(first, second), [])
        self.sleepers.leave(first)
        self.assertEqual(self.rung(first, second), [2])

    def test_the_number_of_one_that_left_may_be_anothers(self):
        first = self.asleep(1, 9)
        self.sleepers.all_ended()
        self.assertEqual((self.rung(first), self.sleepers.is_empty()), ([1], True))
        other = self.asleep(1, 9)
        self.sleepers.leave(first)
        self.sleepers.leave(first)
        self.assertIs(self.sleepers.calls[1], other)
        self.sleepers.leave(other)
        self.assertTrue(self.sleepers.is_empty())

    def test_who_looks_on(self):
        one, any, other = self.watch(9), self.watch(None), self.watch(None)
        self.assertFalse(self.sleepers.is_empty())
        self.sleepers.ended(9, ())
        self.assertEqual([watch.bell.sleep(0) for watch in (one, any, other)], [True, True, False])
        for watch in (one, any, other):
            self.sleepers.look_away(watch)
        self.assertTrue(self.sleepers.is_bare())
        self.sleepers.ended(9, ())
        self.assertFalse(other.bell.sleep(0))

    def test_all_are_rung(self):
        first, watch = self.asleep(1, 9), self.watch(9)
        self.sleepers.ring_all()
        self.assertEqual((self.rung(first), watch.bell.sleep(0), first.is_asleep), ([1], True, False))

    def test_without_the_gate(self):
        self.asleep(1, 9)
        self.sleepers.take_gate_out()
        self.assertIsNone(self.sleepers.at_gate(Asker(2, 2, 0, TAKE)))
        self.sleepers.begin_anew()
        self.asleep(1, 9)
        self.assertIsNone(self.sleepers.at_gate(Asker(2, 2, 0, TAKE)))


class Lock:
    """An object in memory that one transaction at a time may have, and threads that do what they are woken for."""

    def __init__(self, count):
        """A transaction has it, and others wait, this many."""
        self.holder, self.asks = 0, 0
        self.sleepers = Sleepers([self], self.blocker)
        self.waiting = [Sleeper(number, number, 0, GIVE) for number in range(1, count + 1)]
        self.had_it = []
        self.go_on()

    @staticmethod
    def _blocks():
        return {(GIVE, GIVE)}

    def blocker(self, sleeper):
        self.asks += 1
        return self.holder

    def go_on(self):
        """Each that doesn't sleep goes on, until all do."""
        awake = [one for one in self.waiting if not one.is_asleep]
        while awake:
            for one in awake:
                self.look(one)
            awake = [one for one in self.waiting if not one.is_asleep]

    def look(self, sleeper):
        ahead = self.sleepers.at_gate(sleeper.asker)
        if ahead is not None or self.holder is not None:
            self.sleepers.lie_down(sleeper, self.holder if ahead is None else ahead, ahead is not None)
            return
        self.holder = sleeper.asker.number
        self.had_it.append(self.holder)
        self.waiting.remove(sleeper)
        self.sleepers.leave(sleeper)

    def end(self):
        """Whoever has it ends."""
        number, self.holder = self.holder, None
        self.sleepers.ended(number, {0})

    def finish(self):
        """All get it, one after the other."""
        while self.holder is not None:
            self.end()
            self.go_on()


class Calling(Handler):
    """Calls something at the n-th bytecode inside of the package."""

    def __init__(self, n, act):
        super().__init__(n)
        self.act = act

    def at(self, frame, event, argument):
        if event == "opcode":
            self.left -= 1
            if self.left == 0:
                self.act()
        return self.at


class InMemory(unittest.TestCase):
    """Whoever ends asks the store for those that sleep."""

    def test_who_can_go_is_woken_and_no_other(self):
        lock = Lock(20)
        lock.asks = 0
        lock.end()
        self.assertEqual(([one.asker.number for one in lock.waiting if not one.is_asleep], lock.asks), ([1], 1))
        lock.go_on()
        self.assertEqual((lock.holder, lock.asks), (1, 2))
        lock.finish()
        self.assertEqual((lock.had_it, lock.sleepers.is_empty()), (list(range(1, 21)), True))

    def finishes(self, lock, *those):
        """Those that wait come through."""
        lock.go_on()
        lock.finish()
        self.assertEqual((sorted(lock.had_it), lock.waiting, lock.sleepers.is_empty()), (list(those), [], True))
        self.assertTrue(lock.sleepers.is_bare())

    def at_each(self, act, handler, finish, waiting=3):
        """A handler comes at each opcode of something, or in a quick test at one of a few."""
        count, step = 1, 7 if QUICK else 3
        while True:
            lock = Lock(waiting)
            is_reached = Calling(count, lambda: handler(lock)).during(lambda: act(lock))
            if lock.sleepers.is_torn:
                lock.sleepers.begin_anew()
            with self.subTest(opcode=count):
                finish(lock)
            if not is_reached:
                break
            count += step
        self.assertGreater(count, 100)

    @staticmethod
    def raises(lock):
        raise Raised

    def ends_again(self, lock):
        lock.holder = None if lock.holder == 0 else lock.holder
        lock.sleepers.ended(0, {0})
        self.finishes(lock, 1, 2, 3)

    def test_an_end_that_is_interrupted_anywhere(self):
        self.at_each(Lock.end, self.raises, self.ends_again)

    def test_an_end_in_which_a_handler_uses_the_store(self):
        self.at_each(Lock.end, lambda lock: lock.sleepers.took_back(0, {0}), self.ends_again)

    def test_who_lies_down_as_a_handler_ends_the_one_in_the_way(self):
        def lies_down(lock):
            lock.waiting.append(Sleeper(1, 1, 0, GIVE))
            lock.sleepers.lie_down(lock.waiting[-1], 0, False)

        def ends(lock):
            if lock.sleepers.is_torn:  # in the middle of the event
                lock.end()

        def finishes(lock):
            if lock.holder == 0:
                lock.end()
            self.finishes(lock, 1)

        self.at_each(lies_down, ends, finishes, 0)

    def test_who_gives_up_and_is_interrupted_anywhere(self):
        def has_left(lock):
            lock.sleepers.leave(lock.waiting.pop(0))
            self.finishes(lock, 2, 3)

        self.at_each(lambda lock: lock.sleepers.leave(lock.waiting[0]), self.raises, has_left)


if __name__ == "__main__":
    unittest.main()
