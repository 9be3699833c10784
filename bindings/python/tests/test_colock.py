"""What a caller can meet, and what goes over to the library."""
import doctest
import gc
import os
import random
import subprocess
import sys
import threading
import unittest

from executed import Executed
from support import FIVE

import colock
from colock import Busy, EventKind, FaultKind, Illegal, Kind, Operation, Store, Type

CTR2 = """type counter
states 3
initial 0
op inc:1 ok
op dec:1 ok
step 0 0 1
step 1 0 2
step 1 1 0
step 2 1 1
conflict undo 0 1
conflict undo 1 0
conflict intentions 0 0
conflict intentions 1 1
end
"""


def counters(objects=1, max_events=100):
    """A store of objects of the type of CTR2, updated in place."""
    return Store([Type(CTR2)] * objects, max_events)


class Types(unittest.TestCase):
    def test_faults_of_texts(self):
        for text, line, kind in [
            ("type \t\n", 1, FaultKind.NotAscii),
            ("#" + 200 * "x" + "\n", 1, FaultKind.LineTooLong),
            ("type counter", 1, FaultKind.Unterminated),
            ("tipe counter\n", 1, FaultKind.UnknownWord),
            ("type counter\nstates x\n", 2, FaultKind.BadNumber),
            ("type counter\nstates 1025\n", 2, FaultKind.OutOfRange),
            ("type counter\ntype counter\n", 2, FaultKind.OutOfOrder),
            ("", 1, FaultKind.Missing),
            ("type c\nstates 1\ninitial 0\nop a b\nend\nend\n", 6, FaultKind.AfterEnd),
            ("type c\nstates 1\ninitial 0\nop a b\nop a b\n", 5, FaultKind.TwiceOp),
            ("type é\n", 1, FaultKind.NotAscii),
            ("type \0\n", 1, FaultKind.NotAscii),
            ("type \udcff\n", 1, FaultKind.NotAscii),
        ]:
            for make in (Type, Type.with_made_tables):
                with self.assertRaises(colock.BadText) as raised:
                    make(text)
                self.assertEqual((raised.exception.line, raised.exception.kind), (line, kind), text)
        self.assertEqual(str(raised.exception), "line 1: NotAscii")
        self.assertIsInstance(raised.exception, ValueError)

    def test_refusals(self):
        four = "type c\nstates 4\ninitial 0\nop a b\nop c d\n"
        for rest, told in [
            ("reach 1\nend\n", "InitialOutside"),
            ("step 0 1 1\nreach 0\nend\n", "NotClosed 0 1"),
            ("step 0 1 0\nequi 0 2\nend\n", "NotSimulation 0 2 1"),
            ("step 2 0 3\nstep 3 1 0\nend\n", "NotCommuting 1 0 2"),
        ]:
            with self.assertRaises(colock.Refused) as raised:
                Type(four + rest)
            self.assertEqual(str(raised.exception), told)
        for make, numbers in [
            # put in, an element moves the empty set by one, and a set that has it by nothing
            (lambda: Type.set(["a"], Kind.ESCROW), (0, 1)),
            # with two of b there is no room for a, and with none, and with one of a, there is
            (lambda: Type.semiqueue(["a", "b"], 2, Kind.ESCROW), (0, 2)),
            (lambda: Type(four + "step 0 0 0\nstep 0 1 0\nstep 2 1 2\nend\n", Kind.ESCROW), (1, 1)),
        ]:
            with self.assertRaises(colock.Refused) as raised:
                make()
            self.assertEqual((raised.exception.reason, raised.exception.numbers), ("NotNumeric", numbers))
        self.assertEqual(str(raised.exception), "NotNumeric 1 1")

    def test_a_number_needs_escrow(self):
        text = "number cents\nmax 100000\ninitial 0\ntake 250\ngive 250\nend\n"
        for kind in Kind.UNDO, Kind.INTENTIONS:
            with self.assertRaises(colock.NeedsEscrow) as raised:
                Type(text, kind)
            self.assertIsInstance(raised.exception, ValueError)
        # the fault of a text is told first, and tables are made of type files alone
        with self.assertRaises(colock.BadText) as raised:
            Type("number cents\nmax 0\n")
        self.assertEqual((raised.exception.line, raised.exception.kind), (2, colock.FaultKind.OutOfRange))
        with self.assertRaises(colock.BadText) as raised:
            Type.with_made_tables(text, Kind.ESCROW)
        self.assertEqual((raised.exception.line, raised.exception.kind), (1, colock.FaultKind.UnknownWord))
        cents = Type(text, Kind.ESCROW)
        self.assertEqual((cents.name, cents.states, len(cents.operations)), ("cents", 100001, 4))

    def test_families(self):
        for make in [
            lambda: Type.account(5, [2, 1]),
            lambda: Type.account(5, []),
            lambda: Type.account(0, [1]),
            lambda: Type.counter(1 << 40, [1]),
            lambda: Type.counter(5, [1 << 40]),
            lambda: Type.set(["a", "a"]),
            lambda: Type.set(["a b"]),
            lambda: Type.set(["a", ""]),
            lambda: Type.set(["A"]),
            lambda: Type.set([]),
            lambda: Type.semiqueue(["a"], 0),
            lambda: Type.semiqueue(["a"], (1 << 64) - 1),
            lambda: Type.stock(5, [2, 1]),
            lambda: Type.stock(1 << 40, [1]),
            lambda: Type.queue(["a", "a"], 2),
            lambda: Type.queue(["a"], (1 << 64) - 1),
            lambda: Type.seats(0),
            lambda: Type.seats((1 << 64) - 1),
            lambda: Type.number(5, [2, 1]),
            lambda: Type.number(5, [6]),
            lambda: Type.number(0, [1]),
            lambda: Type.number(5, []),
        ]:
            self.assertRaises(colock.BadParameter, make)
        self.assertRaises(colock.TooLarge, Type.account, 1000, [1])
        self.assertRaises(colock.TooLarge, Type.counter, 1023, range(1, 41))
        self.assertRaises(colock.TooLarge, Type.semiqueue, ["a", "b", "c"], 100)
        self.assertRaises(colock.TooLarge, Type.stock, 1023, range(1, 41))
        self.assertRaises(colock.TooLarge, Type.queue, ["a", "b"], 10)
        self.assertRaises(colock.TooLarge, Type.seats, 7)
        self.assertRaises(colock.TooLarge, Type.number, (1 << 32) - 1, range(1, 18))
        self.assertRaises(OverflowError, Type.number, 1 << 32, [1])
        self.assertRaises(OverflowError, Type.number, 5, [1 << 32])
        self.assertEqual(Type.set(["mon", "tue"]).operations[0], ("insert:mon", "ok"))
        self.assertEqual(Type.semiqueue(["a"], 2, Kind.INTENTIONS).kind, Kind.INTENTIONS)
        self.assertEqual(Type.stock(1000, [1, 10]).operations[3], ("take:1", "short"))
        self.assertEqual((Type.queue(["a", "b"], 2).states, Type.queue(["a", "b"], 2).operations[3]), (7, ("deq", "b")))
        cents = Type.number((1 << 32) - 1, [250, 1000])
        self.assertEqual((cents.kind, cents.states, cents.initial), (Kind.ESCROW, 1 << 32, 0))
        self.assertEqual((cents.operations[1], cents.operations[6], cents.step(5, 6)), (("take:250", "short"), ("give:1000", "ok"), 1005))
        self.assertEqual((Type.seats(3).states, Type.seats(3).operations[1]), (27, ("hold:1", "taken")))

    def test_what_is_read(self):
        account = Type.account(5, [1, 2], Kind.INTENTIONS)
        self.assertEqual((account.name, account.kind, account.states, account.initial), ("account", Kind.INTENTIONS, 6, 0))
        self.assertEqual((len(account.operations), account.operations[3]), (14, ("withdraw:1", "short")))
        self.assertEqual((account.step(1, 4), account.step(0, 2)), (3, None))
        self.assertRaises(colock.NoState, account.step, 6, 0)
        self.assertRaises(colock.NoOperation, account.step, 0, 14)
        self.assertEqual((account.conflicts(2, 2), account.conflicts(3, 3)), (True, False))
        self.assertRaises(colock.NoOperation, account.conflicts, 14, 0)
        self.assertRaises(colock.NoOperation, account.conflicts, 0, 14)
        self.assertEqual(repr(account), "<colock.Type 'account', INTENTIONS, 6 states, 14 operations>")

    def test_made_tables(self):
        bare = "".join(line + "\n" for line in CTR2.splitlines() if not line.startswith("conflict"))
        self.assertRaises(colock.Refused, Type, bare)
        made, read = Type.with_made_tables(bare), Type(CTR2)
        pairs = [(p, q) for p in range(2) for q in range(2)]
        self.assertEqual([made.conflicts(*pair) for pair in pairs], [read.conflicts(*pair) for pair in pairs])

    def test_kinds(self):
        self.assertRaises(ValueError, Type, CTR2, 3)
        self.assertRaises(ValueError, Type, CTR2, 1 << 32)
        self.assertRaises(ValueError, Type, CTR2, "undo")
        self.assertEqual([Type(CTR2.encode(), number).kind for number in range(3)], [Kind.UNDO, Kind.INTENTIONS, Kind.ESCROW])

    def test_numeric_types(self):
        for of in [
            Type.counter(5, [1, 2], Kind.ESCROW), Type.account(5, [1, 2], Kind.ESCROW), Type.semiqueue(["a"], 9, Kind.ESCROW),
            Type.semiqueue(["a", "b"], 1, Kind.ESCROW), Type(FIVE, Kind.ESCROW), Type.with_made_tables(FIVE, Kind.ESCROW),
        ]:
            numbers = range(len(of.operations))
            self.assertEqual((of.kind, {of.conflicts(p, q) for p in numbers for q in numbers}), (Kind.ESCROW, {False}))
            self.assertRaises(colock.NoOperation, of.conflicts, 0, len(numbers))
        five = Type(FIVE, Kind.ESCROW)
        self.assertEqual((five.initial, five.step(3, 1), five.step(1, 1), repr(five)), (3, 1, None, "<colock.Type 'five', ESCROW, 6 states, 3 operations>"))
        for kind in (Kind.UNDO, Kind.INTENTIONS):
            with self.assertRaises(colock.Refused) as raised:
                Type(FIVE, kind)
            self.assertEqual(str(raised.exception), "InitialOutside")


class Stores(unittest.TestCase):
    def test_making(self):
        counter = Type(CTR2)
        self.assertRaises(colock.NoObjects, Store, [], 9)
        for limit in (0, 1, 1 << 32, (1 << 64) - 1):
            self.assertRaises(colock.BadMax, Store, [counter], limit)
        self.assertRaises(colock.TooManyObjects, Store, [counter] * 257, 9)
        with Store([counter] * 256, 9) as store, store.begin() as t:
            self.assertEqual(t.call(255, "inc:1"), Executed(0, "ok"))
            self.assertRaises(colock.NoObject, t.call, 256, "inc:1")

    def test_calls(self):
        store = counters(2)
        t, u = store.begin(3), store.begin(4)
        self.assertEqual((t.number, u.number), (0, 1))
        self.assertEqual((t.would(0, "inc:1"), t.call(0, "inc:1")), (Executed(0, "ok"), Executed(0, "ok")))
        self.assertEqual((u.would_op(0, 1), u.call(0, "dec:1"), u.call_op(1, 1)), (Busy(0), Busy(0), Illegal()))
        for call in (t.call, t.would):
            self.assertRaises(colock.NoObject, call, 2, "inc:1")
            for name in ("inc", "", "inc:1\0", "é", "\udcff"):
                self.assertRaises(colock.NoCall, call, 0, name)
        for call in (t.call_op, t.would_op):
            self.assertRaises(colock.NoObject, call, 2, 0)
            self.assertRaises(colock.NoCall, call, 0, 2)
        self.assertEqual(store.call_number(0, "dec:1"), 1)
        self.assertRaises(colock.NoCall, store.call_number, 0, "x")
        self.assertRaises(colock.NoObject, store.call_number, 2, "dec:1")
        for operations in (0, 2, (1 << 64) - 1):
            self.assertRaises(colock.BadRollback, t.rollback, operations)
        t.rollback(1)
        self.assertEqual((store.kept(0), store.open_count()), (0, 2))
        self.assertRaises(colock.NoObject, store.kept, 2)
        t.commit()
        u.abort()
        wanted = ["begin 3 0", "begin 4 1", "op 3 0 0 0", "busy 4 1 0 1 0", "none 4 1 1 1", "rollback 3 0 1", "commit 3 0", "abort 4 1"]
        self.assertEqual(list(map(str, store.events())), wanted)
        for gone in (t.commit, t.abort, lambda: t.rollback(1), lambda: t.call(0, "inc:1"), lambda: t.would(0, "inc:1")):
            self.assertRaises(colock.NotOpenError, gone)

    def test_with(self):
        store = counters()
        with store.begin() as t:
            t.call(0, "inc:1")
        self.assertEqual(str(store.events()[-1]), "commit 0 0")
        with self.assertRaises(ZeroDivisionError):
            with store.begin() as t:
                t.call(0, "inc:1")
                raise ZeroDivisionError
        self.assertEqual((str(store.events()[-1]), store.kept(0)), ("abort 0 1", 1))
        with store.begin() as t:
            t.abort()
        with store.begin() as t:
            t.commit()
        self.assertEqual([str(event) for event in store.events()[-2:]], ["begin 0 3", "commit 0 3"])
        with self.assertRaises(KeyError):
            with store.begin():
                store.abort_all()
                raise KeyError
        with self.assertRaises(colock.NotOpenError):
            with store.begin():
                store.abort_all()

    def test_use_after_close(self):
        counter = Type(CTR2)
        store = Store([counter], 100)
        t = store.begin()
        counter.close()
        counter.close()
        self.assertRaises(colock.ClosedError, counter.step, 0, 0)
        self.assertRaises(colock.ClosedError, counter.conflicts, 0, 0)
        self.assertRaises(colock.ClosedError, Store, [counter], 100)
        self.assertEqual(t.call(0, "inc:1"), Executed(0, "ok"))
        store.close()
        store.close()
        for act in (
            store.begin, store.open_count, store.abort_all, store.events, store.event_count, store.forgotten_count, store.renew,
            t.commit, t.abort, lambda: store.kept(0), lambda: store.call_number(0, "inc:1"), lambda: store.forget(1),
            lambda: store.follow([]), lambda: t.call(0, "inc:1"), lambda: t.call_op(0, 0), lambda: t.would(0, "inc:1"),
            lambda: t.would_op(0, 0), lambda: t.rollback(1),
        ):
            self.assertRaises(colock.ClosedError, act)

    def test_numbers_are_not_cut(self):
        store = counters(2)
        t = store.begin(255)
        event = store.events()[0]
        for act in (store.begin, lambda n: store.follow([event._replace(op=n)])):
            self.assertRaises(OverflowError, act, 256)
        for act in (lambda n: t.call_op(0, n), lambda n: t.would_op(0, n)):
            self.assertRaises(colock.NoCall, act, 256)
            self.assertRaises(OverflowError, act, 1 << 64)
        for act in (
            store.kept, lambda n: store.call_number(n, "inc:1"), lambda n: t.call(n, "inc:1"), lambda n: t.call_op(n, 0),
            lambda n: t.would(n, "inc:1"), lambda n: t.would_op(n, 0), lambda n: store.follow([event._replace(object=n)]),
            lambda n: store.follow([event._replace(worker=n)]), lambda n: store.follow([event._replace(op=n)]),
            lambda n: store.follow([event._replace(amount=n)]),
        ):
            self.assertRaises(OverflowError, act, 1 << 32)
            self.assertRaises(OverflowError, act, -1)
            self.assertRaises(TypeError, act, 1.0)
        for act in (
            t.rollback, store.forget, store.events, lambda n: Store([Type(CTR2)], n), lambda n: Type.counter(n, [1]),
            lambda n: Type.counter(5, [n]), lambda n: Type.account(5, [n]), lambda n: Type.semiqueue(["a"], n),
            lambda n: store.follow([event._replace(transaction=n)]), lambda n: store.follow([event._replace(other=n)]),
            lambda n: Type(CTR2).step(n, 0), lambda n: Type(CTR2).step(0, n), lambda n: Type(CTR2).conflicts(n, 0),
            lambda n: Type(CTR2).conflicts(0, n),
        ):
            self.assertRaises(OverflowError, act, 1 << 64)
            self.assertRaises(OverflowError, act, -1)
            self.assertRaises(TypeError, act, "1")
        self.assertEqual(store.event_count(), 1)

    def test_limits(self):
        store = counters(1, 1_000_000)
        begun = [store.begin() for _ in range(1024)]
        self.assertRaises(colock.TooManyOpenError, store.begin)
        begun[500].abort()
        self.assertEqual(store.begin().number, 1024)
        store.abort_all()
        self.assertEqual((store.open_count(), store.event_count()), (0, 2050))
        full = counters(1, 4)
        t = full.begin()
        t.call(0, "inc:1")
        t.call(0, "inc:1")
        self.assertRaises(colock.HistoryFullError, t.call, 0, "dec:1")
        self.assertRaises(colock.HistoryFullError, t.rollback, 1)
        self.assertRaises(colock.HistoryFullError, full.begin)
        t.commit()

    def test_events(self):
        store = counters()
        with store.begin(), store.begin() as t:
            t.call(0, "inc:1")
        events = store.events()
        self.assertEqual([event.kind for event in events], [EventKind.BEGIN, EventKind.BEGIN, EventKind.OP, EventKind.COMMIT, EventKind.COMMIT])
        self.assertEqual((store.events(3), store.events(5), store.events((1 << 64) - 1)), (events[3:], [], []))
        store.forget(2)
        self.assertRaises(colock.Forgotten, store.events, 1)
        self.assertEqual((store.events(2), store.event_count(), store.forgotten_count()), (events[2:], 5, 2))
        other = counters()
        other.follow(events)
        self.assertEqual((other.kept(0), other.events()), (1, events))
        with self.assertRaises(colock.NotFollowedError) as raised:
            counters().follow([events[0], events[1], events[4], events[4]])
        self.assertEqual(raised.exception.made, 3)
        self.assertIsInstance(raised.exception.__cause__, colock.NotMadeError)

    def test_a_new_life(self):
        store = counters()
        with store.begin() as t:
            t.call(0, "inc:1")
        store.renew()
        self.assertEqual((store.kept(0), store.events()), (1, []))
        new = store.begin()
        self.assertEqual(new.number, 0)
        for act in (t.commit, t.abort, lambda: t.call(0, "inc:1"), lambda: t.would_op(0, 0)):
            self.assertRaises(colock.NotOpenError, act)
        new.commit()

    def test_memory_comes_back(self):
        gc.collect()
        for _ in range(200):
            store = Store([Type.account(20, range(1, 6))] * 50, 1_000_000)
            store.begin().call(0, "deposit:1")
        with open("/proc/self/statm", encoding="ascii") as file:
            before = int(file.read().split()[1])
        for _ in range(500):
            store = Store([Type.account(20, range(1, 6))] * 50, 1_000_000)
            store.begin().call(0, "deposit:1")
        with open("/proc/self/statm", encoding="ascii") as file:
            self.assertLess(int(file.read().split()[1]) - before, 1000)


class Threads(unittest.TestCase):
    ROUNDS = 100

    def work(self, store, worker, told):
        drawn, net = random.Random(worker), 0
        for _ in range(self.ROUNDS):
            while True:
                t = store.begin(worker)
                names = [drawn.choice(["inc:1", "dec:1"]) for _ in range(2)]
                if all(isinstance(t.call(drawn.randrange(4), name), Operation) for name in names):
                    t.commit()
                    break
                t.abort()
            net += sum(1 if name == "inc:1" else -1 for name in names)
        told.append(net)

    def test_sixteen(self):
        store, told = Store([Type.counter(1000, [1])] * 4, 4_000_000), []
        threads = [threading.Thread(target=self.work, args=(store, worker, told)) for worker in range(16)]
        for thread in threads:
            thread.start()
        for thread in threads:
            thread.join()
        commits = sum(event.kind == EventKind.COMMIT for event in store.events())
        self.assertEqual((len(told), commits, store.open_count()), (16, 16 * self.ROUNDS, 0))
        self.assertEqual(sum(told), sum(store.kept(x) for x in range(4)))

    def test_closed_beside_calls(self):
        store, closed = counters(1, 4_000_000), []

        def work():
            try:
                while True:
                    with store.begin() as t:
                        t.would(0, "inc:1")
            except colock.ClosedError:
                closed.append(True)

        threads = [threading.Thread(target=work) for _ in range(4)]
        for thread in threads:
            thread.start()
        threading.Event().wait(0.1)
        store.close()
        for thread in threads:
            thread.join()
        self.assertEqual(len(closed), 4)


class Package(unittest.TestCase):
    def test_examples_of_the_documentation(self):
        self.assertEqual(doctest.testmod(colock).failed, 0)

    def test_without_the_library(self):
        environment = {**os.environ, "COLOCK_LIBRARY": os.path.join("no", "libcolock.so")}
        package = os.path.dirname(os.path.dirname(os.path.abspath(colock.__file__)))
        done = subprocess.run([sys.executable, "-c", "import colock"], env={**environment, "PYTHONPATH": package}, capture_output=True, text=True, check=False)
        self.assertIn("run `make library` in bindings/c and then `pip install .` in bindings/python", done.stderr)

    def test_a_program_that_ends(self):
        code = "import colock; s = colock.Store([colock.Type.counter(5, [1])], 9); t = s.begin(); c = [s]; c.append(c)"
        package = os.path.dirname(os.path.dirname(os.path.abspath(colock.__file__)))
        done = subprocess.run([sys.executable, "-c", code], env={**os.environ, "PYTHONPATH": package}, capture_output=True, text=True, check=False)
        self.assertEqual((done.returncode, done.stderr), (0, ""))


if __name__ == "__main__":
    unittest.main()
