#!/usr/bin/env python3
"""enemy.py [--transactions N] [--seeds S] [--first SEED] [--child]: what threads do to the scheduler of a store.

Eight threads over four objects of drawn types and kinds make drawn calls by every policy: without waits, with waits
that have a limit, with long ones, tried again, in turns, with rollbacks, and all of these mixed. A watch fails where
nobody moves for 5 seconds. At the end nothing is open and nobody is asleep; each thread finds in the history what it
was told; and `colock audit` says yes. N transactions (20,000) for each of S seeds (5), from SEED on (1), in memory
or, with --child, over a child. COLOCK names the program.
"""
import argparse
import faulthandler
import os
import random
import subprocess
import sys
import tempfile
import threading
import time

import colock
from colock import Busy, EventKind, Kind, NoOperation, Operation, Store, Type
from colock._operations import number_of
from colock._program import find_program

THREADS = 8
OBJECTS = 4
STILL = 5.0


class Stuck(Exception):
    """Nobody moved for too long, or a thread failed."""


class GaveUp(Exception):
    """A transaction that its own thread gives up."""


# ---- types

def drawn_number(source):
    """A number with drawn operations, each of which is legal from a lowest to a highest state, and moves these as far."""
    top, count = source.randint(1, 9), source.randint(1, 6)
    lines = ["type number", f"states {top + 1}", f"initial {source.randint(0, top)}", *(f"op c{k // 2} r{k % 2}" for k in range(count))]
    bounds = [sorted(source.choices(range(top + 1), k=2)) for _ in range(count)]
    moves = [source.randint(-low, top - high) for low, high in bounds]
    lines += [f"step {s} {k} {s + moves[k]}" for s in range(top + 1) for k, (low, high) in enumerate(bounds) if low <= s <= high]
    return Type("\n".join([*lines, "end", ""]), Kind.ESCROW)


def drawn_purse(source):
    """A small number with drawn lines, of which any amount is taken or given, or the value told."""
    top = source.randint(2, 6)
    lines = [f"take {source.randint(1, top)}", "take any", f"give {source.randint(1, top)}", "give any", f"atleast {source.randint(1, top)}", "value"]
    drawn = [line for line in lines if source.random() < 0.6] or ["take any", "value"]
    return Type("\n".join(["number purse", f"max {top}", f"initial {source.randint(0, top)}", *drawn, "end", ""]), Kind.ESCROW)


def operations_of(of):
    """The numbers of the operations of each call of a type, by its name, in ascending order; with amounts of a small number alone."""
    calls = {}
    for number in sorted(number_of(place, amount) for place in range(len(of.operations)) for amount in (None, *range(min(of.states, 10)))):
        try:
            of.step(0, number)
        except NoOperation:
            continue
        calls.setdefault(of._operation(number).call, []).append(number)
    return calls


def drawn_type(source):
    """A type of a few states and operations with drawn steps, or one of a family."""
    kind, which = source.choice(list(Kind)), source.randrange(6)
    if which == 0:
        return Type.counter(source.randint(2, 20), [1, 2][: source.randint(1, 2)], kind)
    if which == 1:
        return Type.account(source.randint(2, 6), [1, 2], kind)
    if kind == Kind.ESCROW:
        return drawn_number(source) if which < 4 else drawn_purse(source)
    if which == 2:
        return Type.set(["a", "b"], kind)
    if which == 3:
        return Type.semiqueue(["a", "b"], 3, kind)
    states = source.randint(1, 5)
    pairs = [(f"c{c}", f"r{r}") for c in range(source.randint(1, 4)) for r in range(source.randint(1, 2))]
    steps = {(s, pair): source.randrange(states) for s in range(states) for pair in pairs if source.random() < 0.7}
    return Type.from_steps("drawn", 0, pairs, lambda s, pair: steps.get((s, pair)), kind)


def types_of(seed):
    """The types of a seed."""
    source = random.Random(seed)
    return [drawn_type(source) for _ in range(OBJECTS)]


# ---- what the threads do

class Work:
    """Threads at a store, what they were answered, and how often anything moved."""

    def __init__(self, store, transactions, seed, is_child):
        self.store, self.seed, self.is_child = store, seed, is_child
        self.left = transactions
        self.moves = [0] * THREADS
        self.committed = {}
        self.wrong = []
        self.lock = threading.Lock()
        self.calls = [sorted(operations_of(of)) for of in store._backend.types]

    def next(self):
        """Whether another transaction is to be done."""
        with self.lock:
            self.left -= 1
            return self.left >= 0

    def run(self, worker):
        """A thread's transactions."""
        source = random.Random(self.seed * 1000 + worker)
        try:
            while self.next() and not self.wrong:
                source.choice(POLICIES)(Turn(self, source, worker))
                self.moves[worker] += 1
        except BaseException as error:  # said by the watch
            self.wrong.append(f"thread {worker}: {error!r}")
            raise

    def all(self):
        """Runs the threads. Raises `Stuck`."""
        threads = [threading.Thread(target=self.run, args=(worker,), daemon=True) for worker in range(THREADS)]
        for thread in threads:
            thread.start()
        self.watch(threads)
        if self.wrong:
            raise Stuck("; ".join(self.wrong))

    def watch(self, threads):
        """Waits for the threads, as long as one of them moves."""
        seen, since = -1, time.monotonic()
        while any(thread.is_alive() for thread in threads):
            time.sleep(0.02)
            if sum(self.moves) != seen:
                seen, since = sum(self.moves), time.monotonic()
            elif time.monotonic() - since > STILL:
                faulthandler.dump_traceback(all_threads=True)
                raise Stuck(f"nobody moved for {STILL} seconds")


class Turn:
    """One piece of work of a thread, with its draws."""

    def __init__(self, work, source, worker):
        self.work, self.source, self.worker, self.store = work, source, worker, work.store
        self.said_worker = 0 if work.is_child else worker
        self.told = []

    def begin(self):
        self.told = []
        return self.store.begin(self.said_worker)

    def wait(self):
        """How long a call waits: not at all, or up to this many seconds."""
        return self.source.choice([None, 0, 0.0005, 0.005, 0.05, 30])

    def call(self, t, wait):
        """A drawn call. What is executed is noted."""
        x = self.source.randrange(OBJECTS)
        name = self.source.choice(self.work.calls[x])
        if self.source.random() < 0.5:
            reply = t.call_op(x, self.store.call_number(x, name), wait)
        else:
            reply = t.call(x, name, wait)
        self.work.moves[self.worker] += 1
        if isinstance(reply, Operation):
            self.told.append((x, reply.place, reply.amount))
        elif wait is not None and isinstance(reply, Busy):
            raise AssertionError(f"a call that waits was told {reply}")
        return reply

    def roll_back(self, t):
        """Takes some operations back, where there are any."""
        if self.told:
            count = self.source.randint(1, len(self.told))
            t.rollback(count)
            del self.told[len(self.told) - count :]

    def some(self, t, wait=None, must=False):
        """Some calls and rollbacks. Each `wait` is drawn where none is given."""
        self.told = []
        for _ in range(self.source.randint(1, 4)):
            reply = self.call(t, wait if wait is not None else self.wait())
            if must and isinstance(reply, Busy):
                reply.executed()
            if self.source.random() < 0.15:
                self.roll_back(t)
            if self.source.random() < 0.05:
                time.sleep(self.source.random() / 1000)

    def note(self, t):
        """The transaction is committed."""
        with self.work.lock:
            self.work.committed[t.id] = list(self.told)
        self.work.moves[self.worker] += 1


def no_waits(turn):
    """Calls without a wait. What is busy is let be, or ends it."""
    t = turn.begin()
    for _ in range(turn.source.randint(1, 4)):
        if isinstance(turn.call(t, None), Busy) and turn.source.random() < 0.5:
            t.abort()
            return
    if turn.source.random() < 0.1:
        t.abort()
        return
    t.commit()
    turn.note(t)


def waits(turn):
    """Calls of drawn waits, in a `with`."""
    try:
        with turn.begin() as t:
            turn.some(t)
            if turn.source.random() < 0.1:
                raise GaveUp
    except (colock.DeadlockError, colock.TimedOut, GaveUp):
        return
    turn.note(t)


def goes_on(turn):
    """Calls of drawn waits; where a limit is over it goes on with others."""
    t = turn.begin()
    for _ in range(turn.source.randint(1, 5)):
        try:
            turn.call(t, turn.wait())
        except colock.TimedOut:
            if turn.source.random() < 0.3:
                turn.roll_back(t)
        except colock.DeadlockError:
            return
    t.commit()
    turn.note(t)


def long_waits(turn):
    """Calls that wait as long as it takes."""
    try:
        with turn.begin() as t:
            turn.some(t, 30)
    except colock.DeadlockError:
        return
    turn.note(t)


def tried(turn, wait):
    """Calls that are tried again."""
    begun = []

    def f(t):
        begun[:] = [t]
        turn.some(t, wait, must=True)

    try:
        turn.store.retry(f, tries=turn.source.randint(1, 10), worker=turn.said_worker)
    except (colock.BusyError, colock.DeadlockError, colock.TimedOut):
        return
    turn.note(begun[0])


def tried_without_waits(turn):
    """Busy is tried again."""
    begun = []

    def f(t):
        begun[:], turn.told = [t], []
        for _ in range(turn.source.randint(1, 4)):
            reply = turn.call(t, None)
            if isinstance(reply, Busy):
                reply.executed()

    try:
        turn.store.retry(f, tries=turn.source.randint(1, 5), worker=turn.said_worker)
    except colock.BusyError:
        return
    turn.note(begun[0])


def in_a_turn(turn):
    """Calls in one turn of the lock."""
    begun = []

    def f(t):
        begun[:], turn.told = [t], []
        for _ in range(turn.source.randint(1, 4)):
            turn.call(t, None)
            if turn.source.random() < 0.2:
                turn.roll_back(t)
        if turn.source.random() < 0.1:
            raise GaveUp

    try:
        turn.store.transact(f, turn.said_worker)
    except GaveUp:
        return
    turn.note(begun[0])


POLICIES = [
    no_waits, waits, waits, goes_on, long_waits, lambda turn: tried(turn, None), lambda turn: tried(turn, 30),
    lambda turn: tried(turn, 0.005), tried_without_waits, in_a_turn,
]


# ---- what is found at the end

def found(events):
    """The operations of each committed transaction that weren't taken back, by the history."""
    done, committed = {}, {}
    for event in events:
        if event.kind == EventKind.OP:
            done.setdefault(event.transaction, []).append((event.object, event.op, event.amount))
        elif event.kind == EventKind.ROLLBACK:
            del done[event.transaction][-event.other :]
        elif event.kind == EventKind.COMMIT:
            committed[event.transaction] = done.get(event.transaction, [])
    return committed


def check(work, events):
    """Compares what was answered with the history. Raises `Stuck`."""
    told = {int(id.split(".")[1]): done for id, done in work.committed.items()}
    there = found(events)
    if told != there:
        differing = [number for number in set(told) | set(there) if told.get(number) != there.get(number)]
        raise Stuck(f"{len(differing)} transactions were told otherwise than the history says, as {differing[0]}")


def check_rest(store, transactions):
    """Nobody is asleep, and nothing is open. Raises `Stuck`."""
    sleepers = store._backend.sleepers
    if store.open_count() or not sleepers.is_bare():
        raise Stuck(f"{store.open_count()} are open, {len(sleepers.calls)} asleep, or something is left of those that were")
    if store.stats().commits == 0 and transactions > 100:
        raise Stuck("nothing was committed")


def audit(program, folder, types, history):
    """What an audit of a history says. Raises `Stuck` where that isn't a yes."""
    paths = []
    for place, of in enumerate(types):
        paths.append(os.path.join(folder, f"{place}.type"))
        with open(paths[-1], "wb") as file:
            file.write(of._source.text or subprocess.run([program, "make", "--", *of._source.words], capture_output=True, check=True).stdout)
    done = subprocess.run([program, "audit", history, *paths], capture_output=True, text=True, check=False)
    if done.returncode or not done.stdout.startswith("# audit yes\n"):
        raise Stuck(f"the audit: status {done.returncode} {done.stdout[:200]} {done.stderr[:200]}")


def in_memory(transactions, seed, program):
    """One seed in memory; the counts."""
    types = types_of(seed)
    with tempfile.TemporaryDirectory() as folder, Store(types, 4_000_000) as store:
        work = Work(store, transactions, seed, False)
        work.all()
        check_rest(store, transactions)
        events = store.events()
        check(work, events)
        history = os.path.join(folder, "history")
        with open(history, "w", encoding="ascii") as file:
            file.write("".join(f"object {of.kind.name.lower()} {x}\n" for x, of in enumerate(types)))
            file.write("".join(f"{event}\n" for event in events) + "end\n")
        audit(program, folder, types, history)
        return store.stats()


def over_a_child(transactions, seed, program):
    """One seed over a child; the counts. The history is that of the archive."""
    types = types_of(seed)
    with tempfile.TemporaryDirectory() as folder:
        archive = os.path.join(folder, "archive")
        with Store.open(os.path.join(folder, "e.db"), types, create=True, archive=archive, program=program, fast=True) as store:
            work = Work(store, transactions, seed, True)
            work.all()
            check_rest(store, transactions)
            check(work, store.events())
        audit(program, folder, types, os.path.join(archive, *os.listdir(archive)))
        return store.stats()


def main():
    parser = argparse.ArgumentParser(description=__doc__, formatter_class=argparse.RawDescriptionHelpFormatter)
    parser.add_argument("--transactions", type=int, default=20_000)
    parser.add_argument("--seeds", type=int, default=5)
    parser.add_argument("--first", type=int, default=1)
    parser.add_argument("--child", action="store_true")
    options = parser.parse_args()
    program, one = find_program(None), over_a_child if options.child else in_memory
    for seed in range(options.first, options.first + options.seeds):
        start = time.monotonic()
        try:
            told = one(options.transactions, seed, program)
        except Stuck as stuck:
            print(f"seed {seed}: {stuck}", flush=True)
            os._exit(1)  # threads may hang
        print(f"seed {seed}: {told.commits} commits, {told.aborts} aborts, {told.waits} waits, {told.deadlocks} deadlocks, "
              f"{told.timeouts} timeouts, {time.monotonic() - start:.1f} s", flush=True)
    print(f"{options.seeds} seeds with {options.transactions} transactions each: no failure")


if __name__ == "__main__":
    main()
    sys.exit(0)
