"""Prepared transactions, anything in any order, beside a model of what is said of keys: of which stay, too."""
import random
import unittest

import support
from support import QUICK

import colock
from colock import Aborted, Committed, Decision, Prepared, PreparedTransaction, Type, Unknown

COUNTER = Type.counter(200, [1])
KEYS = "abcdefgh"


class Begun:
    """A transaction, with its key, which is empty where it has none and None where it has ended."""

    def __init__(self, itself):
        self.itself, self.key = itself, ""
        # where it did something that it hasn't taken back, and where it did anything
        self.held, self.touched = [], set()
        # whether it is in memory, and the events are forgotten that say what it took back
        self.is_old = False


class Compared:
    """A store and a model. At least so many outcomes stay: over a child older ones go where an epoch ends, in memory at once."""

    def __init__(self, store, source, least, is_child):
        self.store, self.source, self.least, self.is_child = store, source, least, is_child
        self.ts = []
        # how the last keys ended; those that are prepared, with their numbers, transactions and objects; what is committed
        self.of_keys, self.listed, self.states = {}, [], [0, 0]

    def run(self, steps):
        twice = [self.call, self.prepare, self.decide]
        acts = [self.begin, self.commit, self.attempt, self.abort, self.rollback, self.epoch, *twice, *twice]
        for _ in range(steps):
            self.source.choice(acts if self.ts else [self.begin])()
            self.compare()

    def compare(self):
        listed = [PreparedTransaction(key, t.itself.id, until, objects) for key, until, t, objects in self.listed]
        assert self.store.prepared() == listed, (self.store.prepared(), listed)
        wanted = [Prepared() if any(key == one[0] for one in self.listed) else self.of_keys.get(key, Unknown()) for key in KEYS]
        assert [self.store.outcome(key) for key in KEYS] == wanted
        assert self.store.open_count() == sum(t.key is not None for t in self.ts)
        assert list(self.store.snapshot().states) == self.states

    def told(self, act):
        """The name of what it raises, if anything."""
        try:
            act()
            return None
        except colock.Error as error:
            return type(error).__name__

    def any(self):
        """One of the last transactions."""
        return self.source.choice(self.ts[-6:])

    def key(self):
        return self.source.choice(KEYS)

    def keep(self, key, end):
        self.of_keys[key] = end
        if not self.is_child:
            self.let_go()

    def let_go(self):
        while len(self.of_keys) > self.least:
            del self.of_keys[next(iter(self.of_keys))]

    def epoch(self):
        """Another epoch begins, into which all that is open goes over."""
        if self.is_child:
            self.store.extend([COUNTER])
            self.states.append(0)
            self.let_go()
        else:
            self.store.renew()
            for t in self.ts:
                t.is_old = True

    def gate(self, t):
        """Why nothing is done with a transaction."""
        return "NotOpenError" if t.key is None else "PreparedError" if t.key else None

    def under(self, key):
        """Why no work is done under a key."""
        if any(key == one[0] for one in self.listed):
            return "KeyPrepared"
        return "KeyAborted" if isinstance(self.of_keys.get(key), Aborted) else None

    def end(self, t, end):
        t.key = None
        if isinstance(end, Committed):
            for x in t.held:
                self.states[x] += 1

    def begin(self):
        self.ts.append(Begun(self.store.begin()))

    def call(self):
        t, x = self.any(), self.source.randrange(2)
        assert self.told(lambda: t.itself.call(x, "inc:1").executed()) == self.gate(t)
        if t.key == "":
            t.held.append(x)
            t.touched.add(x)

    def rollback(self):
        t, count = self.any(), self.source.choice([1, 2])
        refused = self.gate(t) or ("BadRollback" if count > len(t.held) else None)
        assert self.told(lambda: t.itself.rollback(count)) == refused
        if refused is None:
            del t.held[-count:]

    def abort(self):
        t = self.any()
        assert self.told(t.itself.abort) == self.gate(t)
        if t.key == "":
            self.end(t, Aborted())

    def prepare(self):
        t, key, until = self.any(), self.key(), self.source.randrange(9)
        is_again = t.key == key
        refused = self.gate(t) or self.under(key) or ("KeyCommitted" if key in self.of_keys else None)
        assert self.told(lambda: t.itself.prepare(key, until=until)) == (None if is_again else refused)
        if refused is None:
            t.key = key
            self.listed.append((key, until, t, tuple(sorted(t.touched if t.is_old else set(t.held)))))

    def commit(self):
        t, key = self.any(), self.key()
        was_done = isinstance(self.of_keys.get(key), Committed)
        refused = "PreparedError" if t.key else self.under(key) or (None if was_done or t.key == "" else "NotOpenError")
        assert self.told(lambda: t.itself.commit(key=key)) == refused
        if refused is None and t.key == "":
            self.end(t, Aborted() if was_done else Committed(()))
        if refused is None and not was_done:
            self.keep(key, Committed(()))

    def attempt(self):
        key, known = self.key(), self.of_keys
        was_done = isinstance(known.get(key), Committed)
        refused = self.under(key) or ("OtherCalls" if was_done and known[key] != Committed(("ok",)) else None)
        assert self.told(lambda: self.store.attempt([(0, "inc:1")], key=key)) == refused
        if refused is None and not was_done:
            self.states[0] += 1
            self.keep(key, Committed(("ok",)))

    def decide(self):
        key, decision = self.key(), self.source.choice(list(Decision))
        end = Committed(()) if decision is Decision.COMMIT else Aborted()
        one = next((one for one in self.listed if one[0] == key), None)
        known = self.of_keys.get(key)
        refused = None if one or (known is None and decision is Decision.ABORT) else "KeyUnknown" if known is None else None if type(known) is type(end) else "KeyDecided"
        assert self.told(lambda: self.store.decide(key, decision)) == refused
        if one:
            self.listed.remove(one)
            self.end(one[2], end)
        if one or known is None and refused is None:
            self.keep(key, end)


class Modelled:
    """At stores of both backends."""

    def test_as_a_model_does(self):
        for seed in range(3 if QUICK else self.seeds):
            least = (6, 0, 1, 3)[seed % 4]
            Compared(self.make([COUNTER, COUNTER], outcomes=least), random.Random(seed), least, self.is_child).run(150)


class ModelledInMemory(support.InMemory, Modelled, unittest.TestCase):
    seeds = 40


class ModelledOverAChild(support.OverChild, Modelled, unittest.TestCase):
    seeds = 4


if __name__ == "__main__":
    unittest.main()
