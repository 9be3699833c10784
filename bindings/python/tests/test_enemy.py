"""The scheduler's enemy, for a few seconds. `enemy.py` does it at length."""
import unittest

import enemy
import support


@unittest.skipIf(support.QUICK, "it takes seconds")
class Enemy(unittest.TestCase):
    def test_in_memory(self):
        waits = deadlocks = timeouts = 0
        for seed in range(1, 7):
            told = enemy.in_memory(1_000, seed, support.program())
            waits, deadlocks, timeouts = waits + told.waits, deadlocks + told.deadlocks, timeouts + told.timeouts
        # what isn't met isn't tested
        self.assertTrue(waits > 100 and deadlocks > 0 and timeouts > 0, (waits, deadlocks, timeouts))

    def test_over_a_child(self):
        waits = 0
        for seed in range(1, 3):
            waits += enemy.over_a_child(500, seed, support.program()).waits
        self.assertGreater(waits, 10)

    def test_a_history_that_differs(self):
        """The comparison sees a transaction that was answered otherwise."""
        event = enemy.colock.Event
        kind = enemy.EventKind
        events = [event(kind.BEGIN, 0, 0), event(kind.OP, 0, 0, 1, 2), event(kind.OP, 0, 0, 1, 3), event(kind.ROLLBACK, 0, 0, 0, 0, 1), event(kind.COMMIT, 0, 0)]
        self.assertEqual(enemy.found(events), {0: [(1, 2, None)]})
        with support.colock.Store([support.colock.Type(support.TWO)], 9) as store:
            work = enemy.Work(store, 0, 1, False)
            work.committed["0.0"] = [(1, 2, None)]
            enemy.check(work, events)
            work.committed["0.0"] = [(1, 3)]
            self.assertRaises(enemy.Stuck, enemy.check, work, events)


if __name__ == "__main__":
    unittest.main()
