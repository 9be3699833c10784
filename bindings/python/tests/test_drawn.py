"""The engine of waiting by schedules that a seed draws, against a model of a store. COLOCK_SEEDS may say how many."""
import enum
import os
import random
import unittest
from collections import Counter, deque
from typing import NamedTuple, Optional

import support

from colock._decisions import Abort, Ask, Asker, End, OnlookerFree, Verdict, Wake
from colock._engine import Engine

SEEDS = int(os.environ.get("COLOCK_SEEDS") or (10 if support.QUICK else 50))
STEPS = 300


class Draw(random.Random):
    def hits(self, percent):
        """Whether it happens that has this chance of a hundred."""
        return self.randrange(100) < percent

    def one_of(self, some):
        """One of them, or none where there is none."""
        return self.choice(some) if some else None


class Model:
    """A store of a few objects whose calls take nothing but locks."""

    def __init__(self, blocks):
        self.blocks = blocks
        # the operations that open transactions have done: the number, the object and the call
        self.held = []

    def is_in_the_way(self, held, asker):
        number, x, call = held
        return x == asker.object and number != asker.number and (call, asker.call) in self.blocks

    def blocker(self, asker):
        """Who is in the way of a call, if anyone."""
        return next((held[0] for held in self.held if self.is_in_the_way(held, asker)), None)

    def keeps_out(self, number, asker):
        """Whether a transaction is in the way of a call."""
        return any(held[0] == number and self.is_in_the_way(held, asker) for held in self.held)

    def does(self, asker):
        assert self.blocker(asker) is None, f"{asker} isn't free"
        self.held.append((asker.number, asker.object, asker.call))

    def take_back(self, number, operations):
        """Takes the last operations of a transaction back."""
        for place in [place for place, held in enumerate(self.held) if held[0] == number][: -operations - 1 : -1]:
            del self.held[place]

    def end(self, number):
        self.held = [held for held in self.held if held[0] != number]


class Doing(enum.Enum):
    """What a transaction does."""

    RUNNING = enum.auto()
    SLEEPING = enum.auto()
    # it may make its call
    WOKEN = enum.auto()
    # a child has answered, and nobody has read that yet
    ANSWERED = enum.auto()
    # it is a victim
    DOOMED = enum.auto()


AWAKE = (Doing.WOKEN, Doing.ANSWERED, Doing.DOOMED)


class Answer(NamedTuple):
    """What a child answered, at a moment: who is in the way, if anyone."""

    blocker: Optional[int]
    moment: int


class Transaction:
    def __init__(self, age):
        self.age, self.doing, self.touched = age, Doing.RUNNING, set()
        # the call that it waits with, and what that was answered
        self.asker = self.answer = None


class Base:
    """What all parts of a run share. The store is asked by whoever ends, or by each for itself over a child."""

    def __init__(self, seed, is_child):
        self.draw, self.is_child = Draw(seed), is_child
        self.objects, self.calls, self.most = self.draw.randint(1, 3), self.draw.randint(1, 4), self.draw.randint(2, 21)
        percent = 20 + self.draw.randrange(80)
        pairs = [(call, other) for call in range(self.calls) for other in range(self.calls)]
        self.blocks = {pair for pair in pairs if self.draw.hits(percent)}
        self.model = Model(self.blocks)
        self.engine = Engine(lambda x, call, other: (call, other) in self.blocks)
        self.open, self.begun, self.aged = {}, 0, 0
        # the ages of aborted ones, which begin again
        self.ages = []
        # when somebody last let go at an object
        self.moment, self.let_go = 0, {}
        # those that must come
        self.victims, self.wakes = deque(), set()
        self.count = Counter()

    def those(self, *doing):
        """Those that do this."""
        return [number for number, transaction in self.open.items() if transaction.doing in doing]

    def put(self, number, doing, asker=None, answer=None):
        transaction = self.open[number]
        transaction.doing, transaction.asker, transaction.answer = doing, asker, answer

    def call_of(self, number):
        """The call that a transaction waits with, if it does."""
        return self.open[number].asker if number in self.open else None


class Checked(Base):
    """What must be."""

    def in_the_way(self, asker):
        """The oldest whom a call has to go after, by a look at all."""
        others = [transaction.asker for transaction in self.open.values() if transaction.asker]
        ahead = [other.rank for other in others if self.is_ahead(other, asker)]
        return min(ahead)[1] if ahead else None

    def is_ahead(self, other, asker):
        is_older = other.object == asker.object and other.age < asker.age
        return is_older and (asker.call, other.call) in self.blocks and asker.number not in self.path(other.number)

    def path(self, number):
        """For whom a transaction waits, along edges."""
        path, at = [], self.engine.edge(number)
        while at is not None:
            path.append(at.to)
            assert len(path) <= len(self.open), f"a circle through {number}"
            at = self.engine.edge(at.to)
        return path

    def check(self):
        for number, transaction in self.open.items():
            assert number not in self.path(number)
            if transaction.doing is Doing.SLEEPING:
                self.check_sleeper(transaction.asker)
            else:
                assert self.engine.edge(number) is None
        is_waiting = any(transaction.asker for transaction in self.open.values())
        assert self.engine.is_empty() is not is_waiting
        assert is_waiting or self.engine.is_bare()

    def check_sleeper(self, asker):
        """A sleeper is kept out by the one for whom it waits."""
        edge = self.engine.edge(asker.number)
        if edge.by_gate:
            assert self.is_ahead(self.call_of(edge.to), asker), f"{edge.to} is ahead of {asker}"
        else:
            assert edge.to in self.open, f"{edge.to} has ended"
            assert self.model.keeps_out(edge.to, asker), f"{edge.to} keeps {asker} out"


class Decided(Checked):
    """What is decided."""

    def busy(self, asker, blocker):
        """The store names a blocker; and what must come of it, where that makes a circle."""
        circle = self.circle(asker, blocker)
        passing = [other[0] for one, other in zip(circle, circle[1:] + circle[:1]) if other[2] and not one[2]]
        number = min(passing, key=lambda other: other.age).number if passing else None
        edge = number and self.engine.edge(number)
        self.engine.busy(asker.number, blocker)
        if number is not None:
            self.count["passes"] += 1
            assert self.engine.edge(number) != edge, f"{number} passes"
        elif circle:
            victim, waited_for, _ = max(circle, key=lambda one: one[0].age)
            self.victims.append(Abort(victim.number, waited_for))

    def circle(self, asker, blocker):
        """The circle that a new edge makes: each in it, for whom it waits, and whether by the gate."""
        members, at = [(asker, blocker, False)], blocker
        while at != asker.number:
            edge = self.engine.edge(at)
            if edge is None:
                return []
            members.append((self.call_of(at), *edge))
            at = edge.to
        return members

    def drain(self):
        for decision in iter(self.engine.next_decision, None):
            if isinstance(decision, Ask):
                self.asks(decision.asker)
            elif isinstance(decision, Wake):
                self.wakes_up(decision.number)
            elif isinstance(decision, Abort):
                self.is_victim(decision)
            elif isinstance(decision, End):
                assert decision.verdict is Verdict.GONE and decision.number not in self.open
            else:
                assert isinstance(decision, OnlookerFree) and not self.engine.looks_on(decision.id)
        assert not self.victims and not self.wakes, "victims and wakes that didn't come"

    def asks(self, asker):
        assert self.open[asker.number].doing is Doing.SLEEPING and self.call_of(asker.number) == asker
        blocker = self.model.blocker(asker)
        if self.is_child:
            if blocker is None:
                self.does(asker)
            self.put(asker.number, Doing.ANSWERED, asker, Answer(blocker, self.moment))
        elif blocker is None:
            self.may_go(asker)
        else:
            self.busy(asker, blocker)

    def may_go(self, asker):
        """It may go, and goes where nobody is in its way at the gate."""
        if self.in_the_way(asker) is None:
            self.wakes.add(asker.number)
        self.engine.may_go(asker.number)

    def wakes_up(self, number):
        self.wakes.remove(number)
        asker = self.call_of(number)
        assert self.model.blocker(asker) is None, f"{number} is woken in vain"
        self.count["wakes"] += 1
        self.put(number, Doing.WOKEN, asker)

    def is_victim(self, decision):
        assert self.victims.popleft() == decision
        number = decision.number
        oldest = min(transaction.age for transaction in self.open.values())
        assert self.open[number].age != oldest, "the oldest is no victim"
        self.count["victims"] += 1
        self.put(number, Doing.DOOMED, self.call_of(number))

    def does(self, asker):
        self.model.does(asker)
        self.open[asker.number].touched.add(asker.object)


class Run(Decided):
    """What is drawn."""

    def step(self):
        what = self.draw.randrange(10)
        if what < 2 and len(self.open) < self.most:
            self.begin()
        elif 2 <= what < 5:
            self.anyone_runs()
        elif 5 <= what < 7:
            self.anyone_goes_on()
        elif what == 7:
            self.one_ends_or_takes_back()
        elif what == 8 and self.draw.hits(15):
            self.one_gives_up()
        elif what == 9:
            self.anything_else()
        self.drain()
        self.check()

    def begin(self):
        self.begun += 1
        if self.ages and self.draw.hits(40):
            age = self.ages.pop()
        else:
            age = self.aged = self.aged + 1
        self.open[self.begun] = Transaction(age)

    def anyone_runs(self):
        number = self.draw.one_of(self.those(Doing.RUNNING))
        if number is None:
            return
        asker = Asker(number, self.open[number].age, self.draw.randrange(self.objects), self.draw.randrange(self.calls))
        gate, blocker = self.engine.gate(asker), self.model.blocker(asker)
        assert gate == self.in_the_way(asker), f"the gate for {asker}"
        if gate is None and blocker is None:
            self.does(asker)
            return
        self.count["sleeps"] += 1
        self.put(number, Doing.SLEEPING, asker)
        self.engine.enter(asker)
        if gate is not None:
            assert self.engine.edge(number).by_gate, f"the gate keeps {asker}"
        elif self.draw.hits(50):
            self.busy(asker, blocker)

    def anyone_goes_on(self):
        """Somebody who doesn't sleep any more does what it is to do."""
        number = self.draw.one_of(self.those(*AWAKE))
        if number is not None:
            self.goes_on(number)

    def goes_on(self, number):
        transaction = self.open[number]
        if transaction.doing is Doing.WOKEN:
            self.calls_again(transaction.asker)
        elif transaction.doing is Doing.ANSWERED:
            self.reads(transaction.asker, transaction.answer)
        else:
            self.ends(number)

    def calls_again(self, asker):
        self.put(asker.number, Doing.SLEEPING, asker)
        blocker = self.model.blocker(asker)
        if self.engine.gate(asker) is not None:
            self.engine.again(asker.number)
        elif blocker is not None:
            self.busy(asker, blocker)
        else:
            self.does(asker)
            self.leaves(asker.number)

    def reads(self, asker, answer):
        if answer.blocker is None:
            self.leaves(asker.number)
            return
        self.put(asker.number, Doing.SLEEPING, asker)
        if self.let_go.get(asker.object, 0) > answer.moment or answer.blocker not in self.open:
            self.count["stale"] += 1
            self.engine.again(asker.number)
        else:
            self.busy(asker, answer.blocker)

    def leaves(self, number):
        self.put(number, Doing.RUNNING)
        self.engine.leave(number)

    def one_gives_up(self):
        number = self.draw.one_of(self.those(Doing.SLEEPING, Doing.WOKEN))
        if number is not None:
            self.leaves(number)

    def one_ends_or_takes_back(self):
        number = self.draw.one_of(self.those(Doing.RUNNING))
        if number is None:
            return
        if not self.draw.hits(30):
            self.ends(number)
            return
        self.model.take_back(number, self.draw.randint(1, 2))
        self.lets_go(number)
        self.engine.took_back(number, self.open[number].touched)

    def anything_else(self):
        """Somebody is ended by others, or all look again."""
        if self.draw.hits(8) and self.open:
            self.ends(self.draw.choice(list(self.open)))
        elif self.draw.hits(3):
            self.engine.all_again()

    def ends(self, number):
        self.model.end(number)
        self.lets_go(number)
        transaction = self.open.pop(number)
        if self.draw.hits(50):
            self.ages.append(transaction.age)
        looks = [self.engine.look_on(number), self.engine.look_on_any()]
        self.engine.ended(number, transaction.touched)
        assert not any(map(self.engine.looks_on, looks))
        self.wakes.discard(number)

    def lets_go(self, number):
        self.moment += 1
        for x in self.open[number].touched:
            self.let_go[x] = self.moment

    def finish(self):
        """All holders end, and everybody does."""
        while self.open:
            number = self.draw.choice(self.those(Doing.RUNNING, *AWAKE))
            if self.open[number].doing is Doing.RUNNING:
                self.ends(number)
            else:
                self.goes_on(number)
            self.drain()
            self.check()
        assert self.engine.is_empty()


class Drawn(unittest.TestCase):
    def counted(self, is_child):
        """What happened in all runs."""
        total = Counter()
        for seed in range(SEEDS):
            with self.subTest(seed=seed):
                run = Run(seed, is_child)
                for _ in range(STEPS):
                    run.step()
                run.finish()
                total += run.count
        self.assertTrue(total["sleeps"] > SEEDS and total["victims"] and total["passes"], total)
        return total

    def test_in_memory(self):
        total = self.counted(False)
        self.assertTrue(total["wakes"] and not total["stale"], total)

    def test_over_a_child(self):
        total = self.counted(True)
        self.assertTrue(total["stale"] and not total["wakes"], total)


if __name__ == "__main__":
    unittest.main()
