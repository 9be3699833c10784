"""Stores in memory that begin anew by themselves, or are told to, while transactions are open: at small limits, and beside stores
that never do."""
import random
import unittest

import support
from support import LONG, QUICK, TWO, Run, until

import colock
from colock import Busy, Decision, Done, Ended, Event, EventKind, Kind, Type

# The limit of events of most of these stores.
FEW = 40
KINDS = (Kind.UNDO, Kind.INTENTIONS, Kind.ESCROW)

# A type whose yes is one-way in place: its checker says so.
ONE_WAY = """type oneway
states 5
initial 0
op p ok
op q ok
op r ok
step 0 0 2
step 0 1 1
step 1 0 3
step 2 1 4
step 4 2 4
equi 1 0
equi 3 0
equi 3 1
equi 3 2
equi 3 4
conflict undo 1 0
conflict undo 2 1
conflict intentions 0 0
conflict intentions 0 1
conflict intentions 1 0
conflict intentions 1 1
end
"""


def counter(kind=Kind.UNDO):
    return Type.counter(1_000, [1, 500], kind)


def up_or_down(number):
    """What is called the next time, so that a counter is at 0 or 1."""
    return ("inc:1", "dec:1")[number % 2]


def count(store, x, times):
    """Whole transactions, which count an object up and down in turn: three events each."""
    for time in range(times):
        assert isinstance(store.attempt([(x, up_or_down(time))]), Done)


def replies(told):
    return [(one.call, one.reply) for one in told.replies]


class Endless(support.InMemory):
    def endless(self, types, limit=FEW):
        """A store that has no end."""
        store = self.make(types, limit)
        store.forget_when_full()
        return store


class Renewals(Endless, unittest.TestCase):
    # ---- no end

    def test_a_transaction_stays_open_while_thousands_come_and_go(self):
        for kind in KINDS:
            store = self.endless([counter(kind)] * 2)
            long = store.begin(7)
            long.expect(1, "inc:1", "ok")
            for number in range(1, 3_001):
                t = store.begin()
                self.assertEqual((t.number, t.id), (number, f"0.{number}"))
                t.expect(0, up_or_down(number - 1), "ok")
                t.commit()
                self.assertEqual((store.event_count(), store.moment()), (2 + 3 * number, (0, number)))
            self.assertEqual((long.number, long.id, store.open_count(), store.committed_states([0, 1]).states), (0, "0.0", 1, (0, 0)))
            # all but the last events are forgotten, and no event is there twice
            last = store.event_count()
            self.assertEqual(store.events(last - 1), [Event(EventKind.COMMIT, 0, 3_000)])
            self.assertLessEqual(last - store.forgotten_count(), FEW)
            self.assertRaises(colock.Forgotten, store.events, store.forgotten_count() - 1)
            long.expect(1, "inc:1", "ok")
            long.commit()
            self.assertEqual((store.kept(0), store.kept(1), store.snapshot()), (0, 2, ((0, 3_001), (0, 2))))
            self.assertEqual((store.events(9_003), store.committed("0.0")), ([Event(EventKind.COMMIT, 7, 0)], True))
            for gone in (long.commit, long.abort, lambda: long.rollback(1), lambda: long.call(0, "inc:1"), lambda: t.would(0, "inc:1")):
                self.assertRaises(colock.NotOpenError, gone)

    def test_what_is_prepared_stays_so(self):
        for kind in KINDS:
            store = self.endless([counter(kind)] * 3)
            first, second = store.begin(), store.begin()
            first.expect(1, "inc:1", "ok")
            second.expect(2, "inc:1", "ok")
            second.prepare("a", until=9)
            count(store, 0, 1_000)
            self.assertEqual(store.prepared(), [("a", "0.1", 9, (2,))])
            self.assertRaises(colock.PreparedError, second.call, 2, "inc:1")
            self.assertEqual((store.open_count(), second.id), (2, "0.1"))
            first.commit()
            store.decide("a", Decision.COMMIT)
            self.assertEqual((store.kept(1), store.kept(2), store.committed("0.1")), (1, 1, True))
            count(store, 0, 100)
            self.assertRaises(colock.NotOpenError, second.commit)

    def test_rollbacks_go_on(self):
        for kind in KINDS:
            store = self.endless([counter(kind)] * 3)
            long = store.begin()
            for x in (1, 2, 1, 2):
                long.expect(x, "inc:1", "ok")
            count(store, 0, 100)
            self.assertRaises(colock.BadRollback, long.rollback, 5)
            long.rollback(1)
            count(store, 0, 100)
            long.rollback(2)
            count(store, 0, 100)
            self.assertRaises(colock.BadRollback, long.rollback, 2)
            long.commit()
            self.assertEqual([store.kept(x) for x in range(3)], [0, 1, 0])

    def test_each_call_that_needs_room_finds_some(self):
        for calls in range(40):
            store = self.endless([counter()])
            long, up = store.begin(), store.call_number(0, "inc:1")
            for _ in range(calls):
                self.assertEqual(long.would(0, "inc:1").executed().reply, "ok")
                long.expect(0, "inc:1", "ok")
                long.rollback(1)
            with store.begin() as other:
                self.assertEqual(other.number, 1)
            self.assertEqual(replies(store.attempt([(0, "inc:1")])), [("inc:1", "ok")])
            self.assertEqual(store.transact(lambda t: (t.number, t.expect(0, "inc:1", "ok").reply)), (3, "ok"))
            self.assertEqual([act(0, up).executed().reply for act in (long.call_op, long.would_op)], ["ok", "ok"])
            self.assertEqual(long.call(0, "inc:1", wait=LONG).executed().reply, "ok")
            long.commit()
            self.assertEqual((store.kept(0), store.begin().number), (4, 4))

    def test_attempts_are_whole(self):
        store = self.endless([counter(Kind.ESCROW)])
        for time in range(50):
            self.assertEqual(len(store.attempt([(0, up_or_down(time))] * 38).replies), 38)
            self.assertRaises(colock.HistoryFullError, store.attempt, [(0, "inc:1")] * 39)
            self.assertEqual(store.kept(0), 38 * ((time + 1) % 2))
        # what is busy tells the number that its blocker has
        store = self.endless([counter(), Type.seats(1)])
        count(store, 0, 50)
        holder = store.begin()
        holder.expect(1, "hold:1", "ok")
        count(store, 0, 50)
        self.assertEqual((holder.number, store.attempt([(1, "hold:1")]), store.begin().call(1, "hold:1")), (50, Ended(0, Busy(50)), Busy(50)))
        # an end under a key, which is kept over it
        holder.commit(key="k")
        count(store, 0, 50)
        self.assertEqual(store.outcome("k"), colock.Committed(()))
        again = store.begin()
        again.commit(key="k")
        self.assertEqual((store.stats().commits, store.open_count(), replies(store.attempt([(0, "inc:1")], key="l"))), (152, 0, [("inc:1", "ok")]))

    def test_what_is_open_counts(self):
        store = self.endless([counter()], 8)
        long = store.begin()
        for _ in range(6):
            long.expect(0, "inc:1", "ok")
        for _ in range(3):
            for full in (store.begin, lambda: long.call(0, "inc:1"), lambda: long.rollback(1), lambda: store.attempt([(0, "inc:1")])):
                self.assertRaises(colock.HistoryFullError, full)
            self.assertEqual((store.event_count(), store.open_count()), (7, 1))
        long.commit()
        self.assertEqual((store.kept(0), store.begin().number), (6, 1))
        # nobody was carried
        self.assertRaises(colock.Forgotten, store.events, 7)
        self.assertEqual(list(map(str, store.events(8))), ["begin 0 1", "abort 0 1"])

    def test_a_history_that_is_kept_isnt_lost(self):
        """Who doesn't forget it doesn't lose it; who forgets all of it now and then never finds it full."""
        store = self.make([counter()] * 2, FEW)
        count(store, 0, 13)
        self.assertRaises(colock.HistoryFullError, store.attempt, [(0, "inc:1")])
        self.assertEqual((store.forgotten_count(), len(store.events())), (0, 39))
        store.forget(38)
        self.assertRaises(colock.HistoryFullError, store.begin)
        self.assertEqual(store.events(38), [Event(EventKind.COMMIT, 0, 12)])
        store.forget(1)
        long = store.begin()
        long.expect(1, "inc:1", "ok")
        for time in range(1, 501):
            count(store, 0, 5)
            last = store.event_count()
            told = store.events(store.forgotten_count())
            self.assertEqual((last, len(told)), (41 + 15 * time, 17 if time == 1 else 15))
            self.assertEqual((store.take_events(), store.take_events()), (told, []))
        long.commit()
        self.assertEqual((store.kept(0), store.kept(1), store.begin().id), (501, 1, "0.2514"))

    def test_a_fixed_store_is_no_place_for_it(self):
        store = self.make([counter()])
        store.close()
        self.assertRaises(colock.ClosedError, store.forget_when_full)
        self.assertRaises(ValueError, lambda: self.make([counter()]).transact(lambda t: t._store.forget_when_full()))

    # ---- one-way types

    def test_a_one_way_type_waits_until_nobody_is_open(self):
        store = self.endless([Type(ONE_WAY), counter()])
        long = store.begin()
        count(store, 1, 12)
        self.assertRaises(colock.HistoryFullError, store.attempt, [(1, "inc:1")])
        self.assertEqual((store.event_count(), store.forgotten_count()), (37, 0))  # as where it keeps its history
        long.expect(0, "q", "ok")
        long.expect(1, "inc:1", "ok")
        self.assertRaises(colock.HistoryFullError, long.call, 1, "inc:1")
        self.assertRaises(colock.StillOpenError, store.renew)
        long.commit()
        for number in range(13, 1_000):
            with store.begin() as t:
                self.assertEqual(t.number, number)
                t.expect(1, up_or_down(number), "ok")
        self.assertEqual((store.kept(0), store.kept(1)), (1, 0))
        # deferred its yes is strong
        store = self.endless([Type(ONE_WAY, Kind.INTENTIONS), counter(Kind.INTENTIONS)])
        with store.begin() as long:
            long.expect(0, "q", "ok")
            count(store, 1, 500)
        self.assertEqual((store.kept(0), store.kept(1)), (1, 0))

    # ---- told to

    def test_a_store_that_is_told_to_goes_on_with_what_is_open(self):
        store = self.make([counter(Kind.ESCROW)])
        first = store.begin(3)
        first.expect(0, "inc:1", "ok")
        count(store, 0, 2)
        second = store.begin()
        second.expect(0, "inc:1", "ok")
        second.prepare("a")
        for _ in range(3):
            store.renew()
            self.assertEqual((store.event_count(), store.forgotten_count(), store.moment()), (10, 10, (0, 2)))
        self.assertEqual((first.id, store.prepared()[0].id, store.begin().id), ("0.0", "0.3", "0.4"))
        first.rollback(1)
        first.commit()
        store.decide("a", Decision.COMMIT)
        self.assertEqual((store.kept(0), store.committed("0.0")), (1, True))
        store.open_count()  # what nobody has is aborted
        # a life ends where nobody is open
        store.renew()
        self.assertEqual((store.committed("0.0"), store.event_count(), store.moment(), store.begin().id), (None, 0, (1, 0), "1.0"))
        self.assertRaises(colock.NotOpenError, first.commit)

    def test_all_that_is_carried_is_aborted(self):
        store = self.endless([counter()])
        first, second, third = (store.begin(worker) for worker in (3, 4, 5))
        second.prepare("a")
        count(store, 0, 100)
        fourth = store.begin()
        store.abort_all()
        self.assertEqual((store.open_count(), store.stats().aborts), (1, 3))
        for t in (first, third, fourth):
            self.assertRaises(colock.NotOpenError, t.commit)
        store.decide("a", Decision.ABORT)
        a, b = store.begin(), store.begin()
        store.abort_all()
        count(store, 0, 100)
        for t in (a, b):
            self.assertRaises(colock.NotOpenError, t.call, 0, "inc:1")
        self.assertEqual((store.kept(0), store.open_count()), (0, 0))

    def test_what_nobody_has_is_aborted(self):
        store = self.endless([counter()] * 2)
        forsaken, held = store.begin(), store.begin()
        forsaken.expect(1, "inc:1", "ok")
        held.expect(1, "inc:1", "ok")
        count(store, 0, 100)
        del forsaken
        count(store, 0, 100)
        self.assertEqual((store.open_count(), store.kept(1)), (1, 1))
        held.commit()

    # ---- those that wait

    def test_a_wait_goes_on(self):
        for kind in (Kind.UNDO, Kind.INTENTIONS):
            store = self.endless([Type(TWO, kind), counter(kind)])
            t, u = store.begin(), store.begin()
            t.expect(0, "take", "ok")
            waiting = Run(u.call, 0, "give", LONG)
            until(lambda: store.stats().waits == 1)
            count(store, 1, 300)
            store.renew()
            self.assertTrue(waiting.is_alive())
            t.commit()
            self.assertEqual(waiting.result().executed().reply, "ok")
            u.commit()
            self.assertEqual((store.stats().waits, store.open_count()), (1, 0))  # it wasn't woken in vain

    def test_a_circle_is_found(self):
        for kind in (Kind.UNDO, Kind.INTENTIONS):
            store = self.endless([Type.seats(1, kind)] * 2 + [counter(kind)])
            older, younger = store.begin(), store.begin()
            older.expect(0, "hold:1", "ok")
            younger.expect(1, "hold:1", "ok")
            count(store, 2, 100)
            waiting = Run(older.call, 1, "hold:1", LONG)
            until(lambda: store.stats().waits == 1)
            count(store, 2, 100)
            with self.assertRaises(colock.DeadlockError) as raised:
                younger.call(0, "hold:1", LONG)
            self.assertEqual((raised.exception.blocker, waiting.result().executed().reply), (0, "ok"))
            older.commit()
            self.assertEqual((store.stats().deadlocks, store.stats().timeouts, store.open_count()), (1, 0, 0))

    def test_a_gift_lets_who_waits_go(self):
        store = self.endless([Type.stock(20, [2, 3, 5], Kind.ESCROW), counter(Kind.ESCROW)])
        self.assertIsInstance(store.attempt([(0, "give:3")]), Done)
        giver, taker = store.begin(), store.begin()
        giver.expect(0, "give:2", "ok")
        waiting = Run(taker.call, 0, "take:5", LONG)
        until(lambda: store.stats().waits == 1)
        attempting = Run(store.attempt, [(0, "take:5")], LONG)
        count(store, 1, 300)
        giver.commit()
        # one of the two takes it, and the other one finds nothing
        taken = waiting.result().executed().reply
        taker.commit()
        self.assertEqual(({taken, attempting.result().replies[0].reply}, store.kept(0)), ({"ok", "short"}, 0))

    def test_threads_go_on(self):
        store = self.endless([counter()] * 3, 100)
        self.assertIsInstance(store.attempt([(x, "inc:500") for x in range(3)]), Done)
        rounds = 20 if QUICK else 100

        def work(thread):
            for time in range(rounds):
                first, second = (thread + time) % 3, (thread + 2 * time) % 3
                store.retry(lambda t: (t.expect(first, "inc:1", "ok", LONG), t.expect(second, "dec:1", "ok", LONG)), tries=1_000)

        for running in [Run(work, thread) for thread in range(6)]:
            running.result(LONG)
        stats = store.stats()
        self.assertEqual((stats.commits, store.moment().commits, store.open_count(), stats.timeouts), (6 * rounds + 1, 6 * rounds + 1, 0, 0))
        self.assertEqual(sum(store.snapshot().states), 1_500)
        self.assertGreater(store.event_count(), 4 * 6 * rounds)

    # ---- those that follow

    def test_events_are_followed_over_renewals(self):
        types = [counter(), Type(support.PURSE, Kind.ESCROW)]
        store, short, long = self.make(types, FEW), self.endless(types), self.make(types)
        open_one, place = store.begin(5), 0
        open_one.expect(0, "inc:1", "ok")
        for number in range(1, 500):
            t = store.begin()
            told = t.call(0, "dec:1"), t.call(1, "value").executed().amount, t.call(1, "take:1").executed().reply
            self.assertEqual((t.number, told), (number, (Busy(0), 500, "ok")))
            if number % 2:
                t.rollback(1)
            t.abort()
            events = store.take_events()
            place += len(events)
            for each in (short, long):
                each.follow(events)
        # what was made again is held by nobody
        short.renew()
        self.assertEqual((short.open_count(), short.event_count()), (1, place))
        open_one.commit()
        for each in (short, long):
            each.follow(store.events(place))
        for each in (store, short, long):
            self.assertEqual((each.kept(0), each.event_count(), each.moment(), each.open_count()), (1, place + 1, (0, 1), 0))
        events = long.events()
        self.endless(types).follow(events)  # all at once
        begin = next(at for at in range(500, len(events)) if events[at].kind is EventKind.BEGIN)
        # without a begin the next event is a stray
        with self.assertRaises(colock.NotFollowedError) as raised:
            self.endless(types).follow(events[:begin] + events[begin + 1 :])
        self.assertEqual(raised.exception.made, begin)


class Pair:
    """A store of few events that begins anew by itself, one that never does, and what is open in both."""

    def __init__(self, test, types, drawn):
        self.test, self.objects, self.drawn, self.open = test, len(types), drawn, []
        self.few, self.many = test.endless(types, 70), test.make(types)

    def both(self, act):
        """What both are told, which is the same."""
        told = [act(0, self.few), act(1, self.many)]
        self.test.assertEqual(told[0], told[1])
        return told[0]

    def each(self, at, act):
        return self.both(lambda which, _: act(self.open[at][which]))

    def call(self, at):
        x, place = self.drawn.randrange(self.objects), self.drawn.randrange(10)
        call = place % 8 + 256 * (self.drawn.randrange(9) + 1) if self.drawn.random() < 0.3 else place

        def told(t):
            try:
                return t.would_op(x, call), t.call_op(x, call)
            except colock.NoCall:
                return None, None

        return isinstance(self.each(at, told)[1], Busy)

    def attempt(self):
        names = ["inc:1", "dec:1", "deposit:2", "withdraw:1", "enq:a", "deq", "take:100", "give:7", "value", "balance"]
        pairs = [(self.drawn.randrange(self.objects), self.drawn.choice(names)) for _ in range(2)]
        self.both(lambda _, store: self.seen(store.attempt(pairs)))

    def seen(self, told):
        """What came of an attempt, where an error is as good as another one of its class."""
        return (told.index, type(told.how) if isinstance(told.how, colock.Error) else told.how) if isinstance(told, Ended) else told

    def rollback(self, at):
        operations = self.drawn.randrange(1, 4)

        def told(t):
            try:
                return t.rollback(operations)
            except colock.BadRollback:
                return "bad"

        self.each(at, told)

    def begin(self):
        self.open.append([self.few.begin(), self.many.begin()])
        self.each(-1, lambda t: (t.id, t.number))

    def end(self, at):
        commits, ending = self.drawn.random() < 0.7, self.open.pop(at)
        for t in ending:
            t.commit() if commits else t.abort()

    def step(self):
        """A step, and whether a call was busy."""
        what = self.drawn.randrange(24)
        if not self.open or (what < 5 and len(self.open) < 6):
            self.begin()
            return False
        at = self.drawn.randrange(len(self.open))
        if 5 <= what < 9:
            self.end(at)
        elif 9 <= what < 11:
            self.rollback(at)
        elif 11 <= what < 13:
            self.attempt()
        else:
            return self.call(at)
        return False

    def are_alike(self):
        self.both(lambda _, store: (store.snapshot(), store.moment(), store.open_count(), store.event_count()))
        self.both(lambda _, store: [store.kept(x) for x in range(self.objects)])
        first = self.few.forgotten_count()
        self.both(lambda _, store: store.events(first))


class BesideAStoreWithoutRenewals(Endless, unittest.TestCase):
    """Random calls, of which nobody can tell that the store began anew."""

    def types(self):
        types = [Type(support.PURSE, Kind.ESCROW)]
        for kind in KINDS:
            types += [Type.account(5, [1, 2], kind), Type.counter(4, [1], kind)]
            if kind is not Kind.ESCROW:
                types.append(Type.semiqueue(["a", "b", "c"], 2, kind))
        return types

    def test_nobody_can_tell(self):
        types, epochs, busy, runs = self.types(), 0, 0, 4 if QUICK else 30
        for seed in range(runs):
            pair = Pair(self, types, random.Random(seed))
            for _ in range(400):
                forgotten = pair.few.forgotten_count()
                busy += pair.step()
                epochs += pair.few.forgotten_count() != forgotten
                pair.are_alike()
        self.assertGreater(epochs, 3 * runs)
        self.assertGreater(busy, 3 * runs)


if __name__ == "__main__":
    unittest.main()
