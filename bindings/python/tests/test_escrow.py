"""Numbers in escrow, in memory and in a file: who gives and takes beside whom, who waits, and what is kept."""
import os
import random
import time
import unittest

import enemy
from executed import Executed
import support
from support import FIVE, LONG, SOON, Run, asleep, folder_of, program

import colock
from colock import Busy, Illegal, Kind, Operation, Type

GIVE, TAKE, SHORT = Executed(0, "ok"), Executed(1, "ok"), Executed(2, "short")
UP, DOWN = Executed(0, "ok"), Executed(1, "ok")


class Numbers:
    """Calls."""

    def number(self, transactions):
        """A store of the number of FIVE, which is 3, with this many open transactions."""
        store = self.make([Type(FIVE, Kind.ESCROW)])
        return (store, *(store.begin() for _ in range(transactions)))

    def told(self, t, name):
        """What a call is answered, and would have been."""
        would = t.would(0, name)
        self.assertEqual(t.call(0, name), would)
        return would

    def test_a_give_and_a_take_are_side_by_side(self):
        store, t, u, v = self.number(3)
        self.assertEqual((self.told(t, "take:2"), self.told(u, "give:1"), store.kept(0)), (TAKE, GIVE, 3))
        # there may be one left for a second take
        self.assertEqual(self.told(v, "take:2"), Busy(t.number))
        t.abort()
        self.assertEqual((self.told(v, "take:2"), store.kept(0)), (TAKE, 3))
        u.commit()
        self.assertEqual(store.kept(0), 4)
        v.commit()
        self.assertEqual(store.kept(0), 2)

    def test_that_there_isnt_enough_is_a_reply(self):
        store, t, u, v, w = self.number(4)
        self.assertEqual(self.told(t, "take:2"), TAKE)
        t.commit()
        self.assertEqual((self.told(u, "take:2"), self.told(v, "give:1")), (SHORT, Busy(u.number)))
        u.commit()
        # it sees one, and there may be two
        self.assertEqual((self.told(v, "give:1"), self.told(w, "take:2")), (GIVE, Busy(v.number)))
        # what it gave is there for itself
        self.assertEqual(self.told(v, "take:2"), TAKE)
        v.commit()
        self.assertEqual((self.told(w, "take:2"), store.kept(0)), (SHORT, 0))

    def test_what_was_given_before_covers_what_is_taken(self):
        store, t, u, v = self.number(3)
        self.assertEqual((self.told(t, "give:1"), self.told(t, "take:2"), self.told(u, "take:2")), (GIVE, TAKE, TAKE))
        # beside t alone there are two, and beside u alone there is one
        self.assertEqual(self.told(v, "take:2"), Busy(u.number))
        t.rollback(1)
        # of t there is a give alone, which blocks no take
        self.assertEqual((self.told(v, "take:2"), self.told(t, "take:2")), (Busy(u.number), TAKE))
        t.commit()
        self.assertEqual(store.kept(0), 2)
        u.commit()
        self.assertEqual((store.kept(0), self.told(v, "take:2")), (0, SHORT))

    def test_there_is_room_for_so_many(self):
        store, t, u, v, w = self.number(4)
        self.assertEqual((self.told(t, "give:1"), self.told(u, "give:1"), self.told(v, "give:1")), (GIVE, GIVE, Busy(t.number)))
        # in the place of what it took
        self.assertEqual((self.told(v, "take:2"), self.told(v, "give:1"), self.told(w, "give:1")), (TAKE, GIVE, Busy(t.number)))
        t.commit()
        u.commit()
        self.assertEqual((store.kept(0), self.told(w, "give:1")), (5, Illegal()))
        v.commit()
        self.assertEqual((store.kept(0), self.told(w, "give:1")), (4, GIVE))

    def test_a_balance_waits_for_whatever_moves(self):
        store = self.make([Type.account(5, [1], Kind.ESCROW)])
        t, u, v = store.begin(), store.begin(), store.begin()
        self.assertEqual(t.call(0, "deposit:1").executed().reply, "ok")
        self.assertEqual(u.call(0, "balance"), Busy(t.number))
        t.commit()
        self.assertEqual((u.call(0, "balance").executed().reply, v.call(0, "balance").executed().reply), ("1", "1"))
        # which v read, and u too
        self.assertEqual(v.call(0, "deposit:1"), Busy(u.number))
        u.commit()
        # its own reading isn't in its way
        self.assertEqual((v.call(0, "deposit:1").executed().reply, v.call(0, "balance").executed().reply, store.kept(0)), ("ok", "2", 1))

    def test_threads(self):
        store = self.make([Type.counter(40, [1, 20], Kind.ESCROW)] * 2)
        for x in range(2):
            store.retry(lambda t, x=x: t.call(x, "inc:20").executed())

        def work(worker):
            for turn in range(25):
                x = (worker + turn) % 2
                store.retry(lambda t, x=x: [t.call(x, "dec:1", wait=SOON).executed(), t.call(1 - x, "inc:1", wait=SOON).executed()], tries=100)

        for run in [Run(work, worker) for worker in range(8)]:
            run.result()
        # each of the 200 moved a piece, half of them from each side
        self.assertEqual(([store.kept(x) for x in range(2)], store.open_count(), store.stats().commits), ([20, 20], 0, 202))


class Waits:
    """Calls that wait."""

    def counter(self, pieces, objects=1):
        """A store of counters up to 5 in escrow, with this many pieces each."""
        store = self.make([Type.counter(5, [1], Kind.ESCROW)] * objects)
        with store.begin() as t:
            for x in range(objects):
                for _ in range(pieces):
                    t.call(x, "inc:1").executed()
        return store

    def test_a_take_waits_for_a_take(self):
        for end, told in (("abort", TAKE), ("commit", SHORT)):
            store = self.make([Type(FIVE, Kind.ESCROW)])
            t, u = store.begin(), store.begin()
            t.call(0, "take:2")
            waiting = Run(u.call, 0, "take:2", LONG)
            asleep(store, 1)
            getattr(t, end)()
            self.assertEqual(waiting.result(), told)
            # a try is no event: one busy answer, and then what was executed
            wanted = ["op 0 0 0 1", "busy 0 1 0 1 0", f"{end} 0 0", f"op 0 1 0 {told.number}"]
            self.assertEqual([str(event) for event in store.events(2)], wanted)

    def test_a_wait_ends_with_a_rollback(self):
        store = self.counter(1)
        t, u = store.begin(), store.begin()
        t.call(0, "dec:1")
        waiting = Run(u.call, 0, "dec:1", LONG)
        asleep(store, 1)
        t.rollback(1)
        self.assertEqual((waiting.result(), store.open_count(), store.kept(0)), (DOWN, 2, 1))

    def test_the_younger_goes_behind(self):
        store = self.counter(2)
        t, w, u = store.begin(), store.begin(), store.begin()
        self.assertEqual([t.call(0, "dec:1") for _ in range(2)], [DOWN, DOWN])
        waiting = Run(w.call, 0, "dec:1", LONG)
        asleep(store, 1)
        # a take goes after the one that waits; a give blocks no take
        self.assertEqual((u.call(0, "dec:1"), u.would(0, "dec:1"), u.call(0, "inc:1")), (Busy(w.number), Busy(w.number), UP))
        behind = Run(u.call, 0, "dec:1", LONG)
        asleep(store, 3)
        t.abort()
        self.assertEqual((waiting.result(), behind.result()), (DOWN, DOWN))

    def test_a_deadlock(self):
        store = self.counter(1, objects=2)
        t, u = store.begin(), store.begin()
        self.assertEqual((t.call(0, "dec:1"), u.call(1, "dec:1")), (DOWN, DOWN))
        older = Run(t.call, 1, "dec:1", LONG)
        asleep(store, 1)
        with self.assertRaises(colock.DeadlockError) as raised:
            u.call(0, "dec:1", wait=LONG)
        self.assertEqual((raised.exception.blocker, older.result()), (t.number, DOWN))
        t.commit()
        self.assertEqual([store.kept(x) for x in range(2)], [0, 0])


class LetsGo:
    """Calls that are let go by another one than whom they wait for."""

    def tens(self, objects=1):
        """A store of counters up to 20 in escrow, each at 10."""
        store = self.make([Type.counter(20, [3, 5, 8, 10], Kind.ESCROW)] * objects)
        with store.begin() as t:
            for x in range(objects):
                t.call(x, "inc:10").executed()
        return store

    def caller(self, store, name):
        """A transaction that has made a call at object 0."""
        t = store.begin()
        t.call(0, name).executed()
        return t

    def is_let_go(self, store, first, end):
        """That a take of 5, which waits for the first, is let go by what `end` does, while that one stays open."""
        u = store.begin()
        self.assertEqual(u.would(0, "dec:5"), Busy(first.number))
        waiting = Run(u.call, 0, "dec:5", LONG)
        asleep(store, 1)
        time.sleep(0.03)
        self.assertTrue(waiting.is_alive())
        end()
        waiting.result().executed()
        u.commit()
        self.assertEqual(store.stats().waits, 1)

    def test_a_give_that_commits(self):
        for is_turn in (True, False):
            store = self.tens()
            first = self.caller(store, "dec:8")
            give = (lambda store=store: store.transact(lambda t: t.call(0, "inc:10").executed())) if is_turn else self.caller(store, "inc:10").commit
            self.is_let_go(store, first, give)
            first.commit()
            self.assertEqual(store.kept(0), 7)

    def test_the_second_of_two_takes(self):
        for end in (lambda t: t.abort(), lambda t: t.rollback(1)):
            store = self.tens()
            # together they keep out who takes 5 of 10, and neither does so alone
            first, second = self.caller(store, "dec:3"), self.caller(store, "dec:3")
            self.is_let_go(store, first, lambda end=end, second=second: end(second))
            first.commit()
            self.assertEqual(store.kept(0), 2)

    def test_what_lets_go_elsewhere_wakes_nobody(self):
        store = self.tens(2)
        first = self.caller(store, "dec:8")

        def end():
            store.transact(lambda t: t.call(1, "inc:10").executed())
            other = store.begin()
            other.call(1, "dec:3").executed()
            other.rollback(1)
            other.commit()
            # at the object, but nothing is executed
            busy = store.begin()
            self.assertEqual(busy.call(0, "dec:10"), Busy(first.number + 1))
            busy.abort()
            time.sleep(0.03)
            self.assertEqual(store.stats().waits, 1)
            self.caller(store, "inc:10").commit()

        self.is_let_go(store, first, end)
        first.commit()
        self.assertEqual([store.kept(x) for x in range(2)], [7, 20])

    def test_a_give_at_any_moment(self):
        """A take and a give at the same moment, again and again. The give lets the take go, whichever is asked first."""
        store = self.tens()
        first = self.caller(store, "dec:8")
        for turn in range(60):
            u, give = store.begin(), self.caller(store, "inc:5")
            waiting = Run(u.call, 0, "dec:5", LONG)
            time.sleep(turn * 2e-5)
            give.commit()
            waiting.result().executed()
            u.abort()
            self.caller(store, "dec:5").commit()
        first.commit()
        self.assertEqual(store.kept(0), 2)

    def test_a_give_that_another_thread_commits(self):
        """The commit is asked while the answer to the give is awaited."""
        store = self.tens()
        first = self.caller(store, "dec:8")
        for turn in range(60):
            u, give = store.begin(), store.begin()
            waiting = Run(u.call, 0, "dec:5", LONG)
            giving = Run(give.call, 0, "inc:5")
            time.sleep(turn * 2e-5)
            give.commit()
            try:
                giving.result().executed()
            except colock.NotOpenError:  # the commit was first
                self.caller(store, "inc:5").commit()
            waiting.result().executed()
            u.abort()
            self.caller(store, "dec:5").commit()
        first.commit()
        self.assertEqual(store.kept(0), 2)


class Model:
    """A number by its definition: an operation is admitted where all that is open stays legal, whatever becomes of it."""

    def __init__(self, of):
        self.calls, self.number, self.open = enemy.operations_of(of), of.initial, {}
        self.steps = {(s, k): of.step(s, k) for s in range(of.states) for numbers in self.calls.values() for k in numbers}

    def end(self, number, operations):
        """Where operations lead from a number; None where one of them isn't legal."""
        for k in operations:
            number = None if number is None else self.steps[number, k]
        return number

    def is_safe(self, number, left, seen):
        """Whether all is legal, whoever of those that are left comes next, with all that it did or with the first of it."""
        if (number, tuple(left)) in seen:
            return True
        seen.add((number, tuple(left)))
        for t, operations in left.items():
            rest = {u: others for u, others in left.items() if u != t}
            ends = [self.end(number, operations[:count]) for count in range(len(operations) + 1)]
            if not all(to is not None and self.is_safe(to, rest, seen) for to in ends):
                return False
        return True

    def call(self, t, name):
        """The operation that is executed, True where the call is busy, or None where it is illegal."""
        view = self.end(self.number, self.open[t])
        legal = [k for k in self.calls[name] if self.steps[view, k] is not None]
        for k in legal:
            more = {**self.open, t: [*self.open[t], k]}
            if self.is_safe(self.number, more, set()):
                self.open = more
                return k
        return True if legal else None


class Pair:
    """A store of a number, and the model of it, to which the same is done."""

    def __init__(self, test, source, of):
        self.test, self.source, self.model, self.store = test, source, Model(of), test.make([of])
        self.begun, self.names = {}, sorted(self.model.calls)

    def act(self):
        """Does something that is drawn, and returns what came of a call."""
        draw = self.source.random()
        if len(self.begun) < 3 and (draw < 0.2 or not self.begun):
            t = self.store.begin()
            self.begun[t.number], self.model.open[t.number] = t, []
            return ""
        number = self.source.choice(list(self.begun))
        if draw < 0.8:
            return self.call(number, self.source.choice(self.names))
        return self.roll_back(number) if draw < 0.9 else self.finish(number, self.source.choice(["commit", "abort"]))

    def call(self, number, name):
        reply, told = self.begun[number].call(0, name), self.model.call(number, name)
        if isinstance(reply, Busy):
            self.test.assertTrue(told is True and reply.blocker != number and self.model.open[reply.blocker])
        else:
            self.test.assertEqual(reply.number if isinstance(reply, Operation) else None, told)
        return type(reply).__name__

    def roll_back(self, number):
        done = self.model.open[number]
        if done:
            count = self.source.randint(1, len(done))
            self.begun[number].rollback(count)
            del done[len(done) - count :]
        return ""

    def finish(self, number, end):
        getattr(self.begun.pop(number), end)()
        done = self.model.open.pop(number)
        self.model.number = self.model.end(self.model.number, done if end == "commit" else [])
        self.test.assertEqual(self.store.kept(0), self.model.number)
        return ""


class EscrowInMemory(support.InMemory, Numbers, Waits, LetsGo, unittest.TestCase):
    """In memory."""

    def test_it_begins_anew(self):
        store, t = self.number(1)
        t.call(0, "give:1")
        t.commit()
        events = store.events()
        store.renew()
        self.assertEqual((store.kept(0), store.begin().call(0, "take:2")), (4, TAKE))
        other, = self.number(0)
        other.follow(events)
        self.assertEqual(other.kept(0), 4)

    def test_it_is_exact(self):
        """A call is busy exactly where something that may still happen would make illegal what is open."""
        source, told = random.Random(1), []
        for _ in range(60):
            pair = Pair(self, source, enemy.drawn_number(source))
            told += [pair.act() for _ in range(80)]
        # what isn't met isn't tested
        self.assertGreater(min(told.count(word) for word in ("Operation", "Busy", "Illegal")), 200)


class EscrowOverAChild(support.OverChild, Numbers, Waits, LetsGo, unittest.TestCase):
    """Over a child."""

    def test_it_is_opened_again(self):
        path, five = os.path.join(folder_of(self), "five.db"), Type(FIVE, Kind.ESCROW)
        with colock.Store.open(path, [five], create=True, program=program()) as store:
            t, u = store.begin(), store.begin()
            self.assertEqual((t.call(0, "give:1"), u.call(0, "take:2")), (GIVE, TAKE))
            t.commit()
            self.assertEqual(store.kept(0), 4)
        # what was open is aborted
        with colock.Store.open(path, [five], program=program()) as store, store.begin() as t:
            self.assertEqual((store.kept(0), store._backend.types[0].kind, t.call(0, "take:2")), (4, Kind.ESCROW, TAKE))


if __name__ == "__main__":
    unittest.main()
