"""Calls with any amount, and a value that is read, at a number in escrow; in memory and in a file."""
import random
import unittest

import enemy
import support
import test_escrow
from support import LONG, PURSE, SOON, Run, asleep

import colock
from colock import Busy, Event, EventKind, Kind, Operation, Type
from colock._operations import number_of, parts_of

TAKE_100 = Operation("take:100", "ok", 0)


def take(amount):
    return Operation(f"take:{amount}", "ok", 2, amount)


def short(amount):
    return Operation(f"take:{amount}", "short", 3, amount)


def give(amount):
    return Operation(f"give:{amount}", "ok", 4, amount)


def full(amount):
    return Operation(f"give:{amount}", "full", 5, amount)


def value(amount):
    return Operation("value", str(amount), 6, amount)


NO_CALLS = ("take:0", "take:007", "take:10001", "take:4294967313", "take:any", "take:", "take", "take:+7", "take:\u0661", "give:any", "value:500", "500", "")


class Amounts:
    """Calls."""

    def purse(self, transactions=0):
        """A store of a purse, in which there is 500, with this many open transactions."""
        store = self.make([Type(PURSE, Kind.ESCROW)])
        return (store, *(store.begin() for _ in range(transactions)))

    def told(self, t, name):
        """What a call is answered, and would have been, by its name and by its number."""
        number = t._store.call_number(0, name)
        would = t.would(0, name)
        self.assertEqual((t.would_op(0, number), t.call_op(0, number) if t.number % 2 else t.call(0, name)), (would, would))
        return would

    def test_any_amount_is_taken_and_given(self):
        """500 - 17 + 3 = 486, and without the 100 that are taken by a line of their own 386."""
        store, t = self.purse(1)
        self.assertEqual((self.told(t, "take:17"), self.told(t, "give:3"), self.told(t, "value")), (take(17), give(3), value(486)))
        self.assertEqual((self.told(t, "take:100"), self.told(t, "value")), (TAKE_100, value(386)))
        self.assertEqual((self.told(t, "take:387"), self.told(t, "give:9615")), (short(387), full(9615)))
        self.assertEqual(store.kept(0), 500)
        t.commit()
        self.assertEqual(store.kept(0), 386)
        wanted = ["begin 0 0", "op 0 0 0 2 17", "op 0 0 0 4 3", "op 0 0 0 6 486", "op 0 0 0 0", "op 0 0 0 6 386", "op 0 0 0 3 387", "op 0 0 0 5 9615", "commit 0 0"]
        self.assertEqual(list(map(str, store.events())), wanted)
        self.assertEqual(store.events(1)[0], Event(EventKind.OP, 0, 0, 0, 2, 0, 17))
        self.assertEqual((store.events()[1].amount, store.events()[4].amount), (17, None))

    def test_these_are_no_calls(self):
        store, t = self.purse(1)
        for name in NO_CALLS:
            for call in (t.call, t.would, lambda x, name: t.call(x, name, wait=1)):
                self.assertRaises(colock.NoCall, call, 0, name)
            self.assertRaises(colock.NoCall, store.call_number, 0, name)
        # the place alone, an amount that is listed, a second operation, a value that isn't 0, and more than there may be
        parts = [(2, None), (6, None), (7, None), (255, None), (2, 100), (3, 17), (6, 1), (2, 10001), (2, 0), (0, 100), (255, (1 << 32) - 1)]
        for number in [*(number_of(*words) for words in parts), (1 << 64) - 1]:
            for call in (t.call_op, t.would_op, lambda x, c: t.call_op(x, c, wait=1)):
                self.assertRaises(colock.NoCall, call, 0, number)
                self.assertRaises(colock.NoObject, call, 1, number)
        self.assertEqual(store.event_count(), 1)

    def test_numbers_of_calls(self):
        store, t = self.purse(1)
        numbers = [store.call_number(0, name) for name in ("take:17", "take:100", "give:10000", "value")]
        self.assertEqual(numbers, [2 + 256 * 18, 0, 4 + 256 * 10001, 6 + 256])
        self.assertEqual([t.call_op(0, number) for number in numbers], [take(17), TAKE_100, full(10000), value(383)])
        self.assertEqual((t.call_op(0, numbers[0], wait=LONG), t.call(0, "value", wait=LONG)), (take(17), value(366)))

    def test_a_value_waits_for_an_open_give(self):
        """It is read where nobody else may move the number. A take is done beside the give."""
        store, t, u = self.purse(2)
        self.assertEqual((self.told(t, "give:3"), self.told(u, "value"), self.told(u, "take:17")), (give(3), Busy(0), take(17)))
        busy = sum(store.stats().busy)
        waiting = Run(lambda: u.call(0, "value", wait=LONG))
        asleep(store, busy + 1)
        t.commit()
        self.assertEqual(waiting.result(), value(486))
        u.commit()
        self.assertEqual(store.kept(0), 486)
        self.assertIn("busy 0 1 0 6 0", list(map(str, store.events())))

    def test_a_give_waits_for_who_has_read_the_value(self):
        """Who comes later doesn't overtake an older give that waits."""
        store, t, u, v = self.purse(3)
        self.assertEqual((self.told(t, "value"), self.told(u, "give:1"), self.told(v, "value")), (value(500), Busy(0), value(500)))
        v.rollback(1)
        busy = sum(store.stats().busy)
        waiting = Run(lambda: u.call(0, "give:1", wait=LONG))
        asleep(store, busy + 1)
        # another value would be read beside the first, and keep the give out longer
        self.assertEqual((v.call(0, "value"), v.would(0, "take:501"), v.call(0, "take:501")), (Busy(1), Busy(1), Busy(1)))
        t.commit()
        self.assertEqual(waiting.result(), give(1))
        u.commit()
        self.assertEqual((self.told(v, "take:501"), self.told(v, "value")), (take(501), value(0)))

    def test_threads_give(self):
        store, told = self.make([Type(PURSE, Kind.ESCROW)]), []

        def work(worker):
            for _ in range(10):
                told.append(store.retry(lambda t: t.call(0, f"give:{worker}", wait=SOON).executed()).amount)

        for run in [Run(work, worker) for worker in range(1, 9)]:
            run.result()
        # ten times 1 + 2 + .. + 8
        self.assertEqual((sum(told), store.kept(0)), (360, 860))


class AmountsInMemory(support.InMemory, Amounts, unittest.TestCase):
    """In memory."""

    def test_events_are_followed(self):
        """What was done with its amounts another purse does again; and not what isn't legal, nor an operation without its amount."""
        (store, t), (other,) = self.purse(1), self.purse()
        self.assertEqual((t.call(0, "take:17"), t.call(0, "give:3"), t.call(0, "value")), (take(17), give(3), value(486)))
        t.commit()
        other.follow(store.events())
        self.assertEqual((other.events(), other.kept(0)), (store.events(), 486))
        held = other.begin()
        illegal = [(2, 487), (6, 487), (2, 100), (2, 0), (2, None), (6, None), (0, 100)]
        for place, amount in illegal:
            with self.assertRaises(colock.NotFollowedError) as raised:
                other.follow([Event(EventKind.OP, 0, 1, 0, place, 0, amount)])
            self.assertEqual(raised.exception.made, 0)
        # a call without a reply is told by its place alone
        self.assertRaises(colock.NotFollowedError, other.follow, [Event(EventKind.BUSY, 0, 1, 0, 6, 0, 0)])
        other.follow([Event(EventKind.OP, 0, 1, 0, 2, 0, 486)])
        self.assertEqual(other.event_count(), 7)
        event = store.events()[1]
        for wrong in (event._replace(op=256), event._replace(amount=1 << 32), event._replace(amount=-1), event._replace(op=-1)):
            self.assertRaises(OverflowError, other.follow, [wrong])
        held.abort()

    def test_it_is_exact(self):
        """A call is busy exactly where something that may still happen would make illegal what is open."""
        source, told = random.Random(1), []
        for _ in range(60):
            pair = test_escrow.Pair(self, source, enemy.drawn_purse(source))
            told += [pair.act() for _ in range(80)]
        # what isn't met isn't tested
        self.assertGreater(min(told.count(word) for word in ("Operation", "Busy")), 200)


class AmountsOverAChild(support.OverChild, Amounts, unittest.TestCase):
    """Over a child."""


class Types(unittest.TestCase):
    """What is read of a type."""

    def test_operations_have_names_and_steps(self):
        purse = Type(PURSE, Kind.ESCROW)
        self.assertEqual((purse.states, purse.initial, len(purse.operations)), (10001, 500, 7))
        self.assertEqual((purse.operations[1], purse.operations[2], purse.operations[6]), (("take:100", "short"), ("take:any", "ok"), ("value", "n")))
        steps = [(500, take(17)), (17, take(17)), (16, take(17)), (16, short(17)), (9998, give(3)), (9998, full(3)), (486, value(486)), (485, value(486)), (500, take(100))]
        self.assertEqual([purse.step(state, of.number) for state, of in steps], [483, 0, None, 16, None, 9998, 486, None, None])
        self.assertEqual((purse.step(500, ("take:17", "ok")), purse.step(500, ("take:100", "ok")), purse.step(7, ("value", "7"))), (483, 400, 7))
        for none in (2, 6, 7, take(0).number, take(10001).number, number_of(6, 10001), number_of(7, 1), (1 << 64) - 1):
            self.assertRaises(colock.NoOperation, purse.step, 500, none)
        for call, reply in [("take:any", "ok"), ("take:0", "ok"), ("take:007", "ok"), ("take:17", "full"), ("value", "n"), ("value", "10001"), ("value", "07"), ("", "")]:
            self.assertRaises(colock.NoOperation, purse.step, 500, (call, reply))
        self.assertEqual((purse.conflicts(2, 6), purse.conflicts(("take:100", "ok"), 4)), (False, False))
        self.assertRaises(colock.NoOperation, purse.conflicts, ("take:17", "ok"), 0)

    def test_what_the_package_says_is_what_the_library_does(self):
        """Of each operation, with each amount and without one: the names, the calls and the replies."""
        for lines in ("take 3\ntake any\ngive any\natleast 9\nvalue", "take any\nvalue", "give 1\ngive 2\ngive any", "value"):
            of = Type(f"number purse\nmax 40\ninitial 7\n{lines}\nend\n", Kind.ESCROW)
            for number in [number_of(place, amount) for place in range(12) for amount in (None, *range(50))]:
                try:
                    to = of.step(7, number)
                except colock.NoOperation:
                    self.assertIsNone(of._calls.name(number))
                    continue
                call, reply = of._operation(number)
                first = of._calls.number(call)
                self.assertEqual((of._operation(first).call, of._calls.name(first)), (call, call))
                done = of._calls.replied(first, reply)
                self.assertEqual((of._calls.answered(first, f"reply {reply}".encode()), of._number_of((call, reply))), (done, done.number))
                if done.number == number:
                    self.assertEqual(of._calls.replies[number], done)
                else:  # an amount that another line lists is that line's
                    self.assertEqual((done.amount, to), (None, None))

    def test_what_may_be_in_the_way(self):
        """A take and a give are done side by side, and so are two that only look. A value blocks what moves the number."""
        lines = "take 3\ntake any\ngive any\natleast 9\nvalue"
        of = Type(f"number purse\nmax 40\ninitial 7\n{lines}\nend\n", Kind.ESCROW)
        three, some, given, least, read = 0, 2, 4, 6, 8
        moving = {(held, asked) for held in (three, some, given) for asked in (three, some, given)}
        # a refused give is in the way of a take, and the other way round
        looking = {(held, asked) for held in (least, read) for asked in (three, some, given)}
        self.assertEqual(of._blocks(), moving | looking | {(asked, held) for held, asked in looking})
        # where each amount is listed, none is left for `any`
        all_of_them = "".join(f"take {amount}\n" for amount in range(1, 32))
        small = Type(f"number small\nmax 31\ninitial 0\n{all_of_them}take any\nend\n", Kind.ESCROW)
        self.assertEqual((small._calls.number("take:31"), small._calls.number("take:32")), (60, None))
        self.assertIn((0, 60), small._blocks())
        self.assertFalse(any(62 in pair for pair in small._blocks()))

    def test_types_are_compared(self):
        of = lambda lines: Type(f"number purse\nmax 100\ninitial 7\n{lines}\nend\n", Kind.ESCROW)._compared()
        self.assertEqual(of("take any\nvalue"), of("take any\nvalue"))
        for one, other in [("take any", "give any"), ("take 5\ntake any", "take 6\ntake any"), ("value", "take any"), ("take any", "take any\nvalue")]:
            self.assertNotEqual(of(one), of(other))


class Words(unittest.TestCase):
    """Numbers and texts."""

    def test_numbers(self):
        rows = [((0, None), 0), ((255, None), 255), ((0, 0), 256), ((255, 0), 511), ((0, 1), 512), ((2, 17), 4610), ((255, (1 << 32) - 1), (1 << 40) + 255)]
        for parts, number in rows:
            self.assertEqual((number_of(*parts), parts_of(number)), (number, parts))

    def test_operations(self):
        self.assertEqual((str(TAKE_100), TAKE_100.number, TAKE_100.amount), ("Operation('take:100', 'ok', place=0)", 0, None))
        self.assertEqual((str(take(17)), take(17).number), ("Operation('take:17', 'ok', place=2, amount=17)", 4610))
        self.assertEqual((value(0).number, hash(take(17)) == hash(take(17)), take(17) == take(18)), (262, True, False))


if __name__ == "__main__":
    unittest.main()
