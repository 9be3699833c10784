"""Types of functions, conflicts by names, and the grid."""
import unittest

from executed import Executed

import colock
from colock import Kind, Type

UP_AND_DOWN = [("inc:1", "ok"), ("dec:1", "ok")]


def counted(cap):
    """The steps of a counter of 0 to a cap."""

    def step(state, operation):
        to = state + (1 if operation[0] == "inc:1" else -1)
        return to if 0 <= to <= cap else None

    return step


def matrix(of):
    """Whether each operation, requested, conflicts with each that is held."""
    numbers = range(len(of.operations))
    return [[of.conflicts(p, q) for q in numbers] for p in numbers]


class FromSteps(unittest.TestCase):
    def test_a_counter_is_one_of_its_family(self):
        for kind in Kind:
            made, family = Type.from_steps("counter", 0, UP_AND_DOWN, counted(5), kind), Type.counter(5, [1], kind)
            self.assertEqual((made.operations, made.states, made.initial, made.kind), (family.operations, 6, 0, kind))
            self.assertEqual(matrix(made), matrix(family))
            # by reasoning: in place an up and a down don't commute at the ends; deferred, two ups may take the one place
            wanted = {Kind.UNDO: [[False, True], [True, False]], Kind.INTENTIONS: [[True, False], [False, True]], Kind.ESCROW: [[False] * 2] * 2}
            self.assertEqual(matrix(made), wanted[kind])
            self.assertEqual((made.labels, family.labels), (tuple(range(6)), None))

    def test_states_are_numbered_as_they_are_found(self):
        def step(state, operation):
            seats = dict(state)
            seat, wanted = operation[0].split(":")[1], operation[1]
            if wanted == "ok" and not seats[seat]:
                return tuple(sorted({**seats, seat: True}.items()))
            return state if wanted == "no" and seats[seat] else None

        operations = [(f"book:{seat}", reply) for seat in "ab" for reply in ("ok", "no")]
        free = (("a", False), ("b", False))
        hall = Type.from_steps("hall", free, operations, step)
        taken = [free, (("a", True), ("b", False)), (("a", False), ("b", True)), (("a", True), ("b", True))]
        self.assertEqual((hall.labels, hall.states), (tuple(taken), 4))
        self.assertEqual([hall.step(0, k) for k in range(4)], [1, None, 2, None])
        self.assertEqual([hall.step(3, k) for k in range(4)], [None, 3, None, 3])
        with colock.Store([hall], 100) as store, store.begin() as t:
            self.assertEqual([t.call(0, "book:a").executed().reply for _ in range(2)], ["ok", "no"])
            self.assertEqual(hall.labels[store.kept(0)], taken[1])

    def test_too_many_states(self):
        def step(state, operation):
            return (state[0] + 1, state[1]) if operation[0] == "up" else (state[0], min(state[1] + 1, 2))

        with self.assertRaises(colock.TooManyStates) as raised:
            Type.from_steps("endless", (0, 0), [("aside", "ok"), ("up", "ok")], step)
        self.assertEqual((raised.exception.call, raised.exception.reply), ("up", "ok"))
        self.assertIn("up ok", str(raised.exception))

        def aside_at_the_end(state, operation):
            if operation[0] == "up":
                return state + 1 if state < 1023 else None
            return "one too many" if state == 1023 else None

        with self.assertRaises(colock.TooManyStates) as raised:
            Type.from_steps("endless", 0, [("up", "ok"), ("aside", "ok")], aside_at_the_end)
        self.assertEqual(raised.exception.call, "up")
        self.assertEqual(Type.from_steps("full", 0, UP_AND_DOWN, counted(1023)).states, 1024)
        self.assertRaises(colock.TooManyStates, Type.from_steps, "full", 0, UP_AND_DOWN, counted(1024))

    def test_wrong_operations(self):
        for name, operations in [
            ("Counter", UP_AND_DOWN), ("a b", UP_AND_DOWN), ("", UP_AND_DOWN), ("c", [("inc\n", "ok")]), ("c", [("inc", "OK")]), ("c", [("x" * 33, "ok")]), ("c", [(1, "ok")]),
        ]:
            self.assertRaises(colock.BadParameter, Type.from_steps, name, 0, operations, lambda state, operation: None)
        many = [(f"call{k}", "ok") for k in range(65)]
        for operations in ([], many, [("a", "ok"), ("a", "ok")]):
            self.assertRaises(colock.BadText, Type.from_steps, "c", 0, operations, lambda state, operation: None)
        self.assertEqual(len(Type.from_steps("c", 0, many[:64], lambda state, operation: None).operations), 64)

    def test_a_step_that_fails(self):
        self.assertRaises(ZeroDivisionError, Type.from_steps, "c", 0, UP_AND_DOWN, lambda state, operation: 1 // 0)
        self.assertRaises(TypeError, Type.from_steps, "c", [], UP_AND_DOWN, lambda state, operation: None)


class Numbers(unittest.TestCase):
    """Types for escrow."""

    def test_a_number_begins_in_the_middle(self):
        def step(pieces, operation):
            to = pieces + (1 if operation[0] == "inc:1" else -1)
            return to if 5 <= to <= 9 else None

        stock = Type.from_steps("stock", 7, UP_AND_DOWN, step, Kind.ESCROW)
        self.assertEqual((stock.labels, stock.initial, stock.states), ((5, 6, 7, 8, 9), 2, 5))
        self.assertEqual([stock.step(s, 0) for s in range(5)], [1, 2, 3, 4, None])
        with colock.Store([stock], 100) as store, store.begin() as t:
            self.assertEqual((stock.labels[store.kept(0)], t.call(0, "dec:1")), (7, Executed(1, "ok")))
        # as they are found an up moves 7 by one, and 8 by two, from place 1 to 3
        found = Type.from_steps("stock", 7, UP_AND_DOWN, step)
        self.assertEqual((found.labels, found.initial), ((7, 8, 6, 9, 5), 0))
        with self.assertRaises(colock.Refused) as raised:
            Type(found._source.text, Kind.ESCROW)
        self.assertEqual(str(raised.exception), "NotNumeric 0 1")

    def test_states_without_an_order(self):
        steps = {(0, "inc:1"): "one", ("one", "dec:1"): 0}
        self.assertEqual(Type.from_steps("mixed", 0, UP_AND_DOWN, lambda s, pair: steps.get((s, pair[0]))).states, 2)
        self.assertRaises(TypeError, Type.from_steps, "mixed", 0, UP_AND_DOWN, lambda s, pair: steps.get((s, pair[0])), Kind.ESCROW)

    def test_bounds(self):
        account = Type.account(5, [1, 2], Kind.ESCROW)
        bounds = [account._bounds(k) for k in range(14)]
        # of each amount a deposit, its refusal, a withdrawal and its refusal; and the balances 0 and 5
        self.assertEqual(bounds[:4], [(0, 4, 1), (5, 5, 0), (1, 5, -1), (0, 0, 0)])
        self.assertEqual(bounds[4:8], [(0, 3, 2), (4, 5, 0), (2, 5, -2), (0, 1, 0)])
        self.assertEqual((bounds[8], bounds[13]), ((0, 0, 0), (5, 5, 0)))
        never = Type("type never\nstates 2\ninitial 0\nop a b\nop c d\nstep 0 1 1\nend\n", Kind.ESCROW)
        self.assertEqual([never._bounds(k) for k in range(2)], [None, (0, 0, 1)])
        self.assertEqual(never._blocks(), {(1, 1)})
        steps = "".join(f"step {s} 0 {s - 2}\n" for s in (3, 4, 5))
        middle = Type(f"type middle\nstates 9\ninitial 0\nop a b\n{steps}end\n", Kind.ESCROW)
        self.assertEqual(middle._bounds(0), (3, 5, -2))

    def test_a_number_of_32_bits(self):
        most = (1 << 32) - 1
        text = f"number large\nmax {most}\ninitial 7\ntake 1\ntake {most}\ngive 5\natleast 1000000\nend\n"
        large = Type(text, Kind.ESCROW)
        self.assertEqual((large.name, large.states, large.initial, len(large.operations)), ("large", most + 1, 7, 8))
        self.assertEqual((large.operations[3], large.operations[4]), ((f"take:{most}", "short"), ("give:5", "ok")))
        self.assertEqual((large.step(most, 2), large.step(most - 1, 2), large.step(most - 5, 4)), (0, None, most))
        bounds = [large._bounds(k) for k in range(8)]
        self.assertEqual(bounds[:4], [(1, most, -1), (0, 0, 0), (most, most, -most), (0, most - 1, 0)])
        self.assertEqual(bounds[4:], [(0, most - 5, 5), (most - 4, most, 0), (1_000_000, most, 0), (0, 999_999, 0)])
        self.assertEqual(Type(text, Kind.ESCROW)._compared(), large._compared())
        self.assertNotEqual(Type(text.replace("give 5", "give 6"), Kind.ESCROW)._compared(), large._compared())
        with colock.Store([large], 100) as store:
            with store.begin() as t:
                self.assertEqual((t.call(0, f"take:{most}").reply, t.call(0, "give:5").reply), ("short", "ok"))
            self.assertEqual(store.kept(0), 12)

    def test_what_may_be_in_the_way(self):
        # two ups may take the last place, and two downs the last piece; an up and a down never block one another
        self.assertEqual(Type.counter(5, [1], Kind.ESCROW)._blocks(), {(0, 0), (1, 1)})
        # deposit 0, withdraw 2, balance 4: all but two balances, since a withdrawal makes room where there was none
        pairs = {(held, asked) for held in (0, 2, 4) for asked in (0, 2, 4)}
        self.assertEqual(Type.account(5, [1], Kind.ESCROW)._blocks(), pairs - {(4, 4)})

    def test_it_is_what_conflicts_in_deferred_update(self):
        """Of numbers, two operations that can't be done one after the other are those that don't commute."""
        for make in [
            lambda kind: Type.counter(7, [1, 2, 5], kind), lambda kind: Type.account(6, [1, 4], kind), lambda kind: Type.semiqueue(["a"], 3, kind),
            lambda kind: Type.semiqueue(["a", "b", "c"], 1, kind),
        ]:
            self.assertEqual(make(Kind.ESCROW)._blocks(), make(Kind.INTENTIONS)._blocks())


class Names(unittest.TestCase):
    def test_conflicts_by_names(self):
        account = Type.account(5, [1, 2])
        for p, requested in enumerate(account.operations):
            for q, held in enumerate(account.operations):
                told = account.conflicts(p, q)
                self.assertEqual([account.conflicts(requested, held), account.conflicts(tuple(requested), q), account.conflicts(p, tuple(held))], [told] * 3)
        # at 0 a withdrawal is legal only after the deposit
        self.assertTrue(account.conflicts(("withdraw:1", "ok"), ("deposit:1", "ok")))
        self.assertFalse(account.conflicts(("withdraw:1", "short"), ("withdraw:1", "short")))
        for unknown in (("withdraw:1", "full"), ("withdraw:3", "ok"), ("", ""), ("withdraw:1",)):
            self.assertRaises(colock.NoOperation, account.conflicts, unknown, 0)
            self.assertRaises(colock.NoOperation, account.conflicts, 0, unknown)

    def test_the_grid(self):
        self.assertEqual(
            str(Type.counter(5, [1])),
            "counter, undo, 6 states\n"
            "           0 1\n"
            "0 inc:1 ok . x\n"
            "1 dec:1 ok x .",
        )
        self.assertEqual(
            str(Type.counter(5, [1], Kind.INTENTIONS)),
            "counter, intentions, 6 states\n"
            "           0 1\n"
            "0 inc:1 ok x .\n"
            "1 dec:1 ok . x",
        )
        lines = str(Type.account(5, [1, 2])).split("\n")
        self.assertEqual((len(lines), lines[1].split()), (16, [str(k) for k in range(14)]))
        self.assertEqual({len(line) for line in lines[1:]}, {len(lines[1])})
        self.assertEqual(lines[5].split()[:3], ["3", "withdraw:1", "short"])
        self.assertEqual(lines[5].split()[3 + 3], ".")
        self.assertEqual(str(Type.counter(5, [1], Kind.ESCROW)), "counter, escrow, 6 states, no conflict table")
        for kind in Kind:
            closed = Type.counter(5, [1], kind)
            closed.close()
            self.assertRaises(colock.ClosedError, str, closed)


if __name__ == "__main__":
    unittest.main()
