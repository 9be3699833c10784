#!/usr/bin/env python3
"""clients_bench.py [SECONDS | herd MOST]: how many transactions a second threads do. Lines `name value`, a value a second.

Each part runs this many seconds (2). With `herd` 10 threads, 100, 400 and 800, but no more than MOST, wait for one object,
and each commits as soon as it has it; with each of these numbers there are MOST hand-overs. Without the program the parts over a child are left out.
"""
import os
import sys
import tempfile
import threading
import time

import colock
from colock import Store, Type
from colock._program import find_program

THREADS = 16
THINK = 0.001

# How many threads wait in `herd`, and the stack of such a thread.
HERDS = (10, 100, 400, 800)
STACK = 256 * 1024

# A type of one call, which each other one keeps out.
TOKEN = """type token
states 1
initial 0
op pass ok
step 0 0 0
conflict undo 0 0
end
"""

# A counter that never ends, whose ups don't hold each other up: takes and gives do.
TALLY = """type tally
states 1
initial 0
op up ok
op take ok
op give ok
step 0 0 0
step 0 1 0
step 0 2 0
conflict undo 1 2
conflict undo 2 1
end
"""


def measured(seconds, work):
    """How often a second the threads do something, of which `work` gets the number."""
    over, counts = threading.Event(), [0] * THREADS

    def run(worker):
        while not over.is_set():
            work(worker)
            counts[worker] += 1

    threads = [threading.Thread(target=run, args=(worker,)) for worker in range(THREADS)]
    start = time.monotonic()
    for thread in threads:
        thread.start()
    time.sleep(seconds)
    over.set()
    for thread in threads:
        thread.join()
    return sum(counts) / (time.monotonic() - start)


def think():
    time.sleep(THINK)


def up(store):
    """Counts up, and thinks before the commit."""
    def work(worker):
        with store.begin() as t:
            t.call(0, "up").executed()
            think()
    return work


def takes_and_gives(store):
    """One of four threads gives, and the others take, each as long as it has to wait."""
    def work(worker):
        def f(t):
            t.call(0, "give" if worker % 4 == 0 else "take", wait=60).executed()
            think()
        store.retry(f)
    return work


def with_a_lock():
    """A plain counter whose lock is held as long as the transaction lasts."""
    lock, counter = threading.Lock(), [0]

    def work(worker):
        with lock:
            counter[0] += 1
            think()
    return work


def plain(store):
    """Counts up without thinking."""
    def work(worker):
        with store.begin() as t:
            t.call(0, "up").executed()
    return work


def told(name, value):
    print(name, f"{value:.0f}", flush=True)
    return value


def program_of_children():
    """The program that serves a store in a file, or None, with a word on standard error."""
    try:
        return find_program(None)
    except colock.CannotOpen as error:
        print(error, file=sys.stderr)
        return None


def over_a_child(seconds, program):
    for name, fast in (("child_commits", False), ("child_fast_commits", True)):
        with tempfile.TemporaryDirectory() as folder:
            with Store.open(os.path.join(folder, "bench.db"), [Type(TALLY)], create=True, program=program, fast=fast) as store:
                told(name, measured(seconds, plain(store)))


def handed_over(store, waiting):
    """How many seconds it takes until all that wait for an object have had it, one after another."""
    slept, ends = store.stats().waits, []

    def wait():
        with store.begin() as t:
            t.call(0, "pass", wait=600).executed()
        ends.append(time.perf_counter())

    threads = [threading.Thread(target=wait) for _ in range(waiting)]
    with store.begin() as holder:
        holder.call(0, "pass").executed()
        for thread in threads:
            thread.start()
        while store.stats().waits < slept + waiting:
            think()
        start = time.perf_counter()
    for thread in threads:
        thread.join()
    return max(ends) - start


def herd(store, name, most):
    for waiting in (waiting for waiting in HERDS if waiting <= most):
        rounds = most // waiting
        seconds = sum(handed_over(store, waiting) for _ in range(rounds))
        told(f"{name}_{waiting}", rounds * waiting / seconds)


def herds(most):
    threading.stack_size(STACK)
    with Store([Type(TOKEN)], 100_000_000) as store:
        herd(store, "herd_store", most)
    program = program_of_children()
    if program is not None:
        with tempfile.TemporaryDirectory() as folder:
            with Store.open(os.path.join(folder, "bench.db"), [Type(TOKEN)], create=True, program=program) as store:
                herd(store, "herd_child_store", most)


def one_thread(seconds):
    """Commands a second of one thread, as the bench of the library counts them: begin, call, commit."""
    store, count = Store([Type.counter(1_000, [1])], 100_000_000), 0
    start = time.perf_counter()
    while time.perf_counter() - start < seconds:
        for turn in range(1000):
            t = store.begin()
            t.call(0, "dec:1" if turn & 1 else "inc:1")
            t.commit()
        count += 3000
    return count / (time.perf_counter() - start)


def throughput(seconds):
    told("commands_of_one_thread", one_thread(seconds))
    lock = told("lock_commits", measured(seconds, with_a_lock()))
    with Store([Type(TALLY)], 100_000_000) as store:
        ups = told("up_commits", measured(seconds, up(store)))
    with Store([Type(TALLY)], 100_000_000) as store:
        mixed = told("take_and_give_commits", measured(seconds, takes_and_gives(store)))
    print("up_over_lock", f"{ups / lock:.1f}")
    print("take_and_give_over_lock", f"{mixed / lock:.1f}")
    program = program_of_children()
    if program is not None:
        over_a_child(seconds, program)


def main():
    if sys.argv[1:2] == ["herd"]:
        herds(int(sys.argv[2]))
    else:
        throughput(float(sys.argv[1]) if len(sys.argv) > 1 else 2.0)


if __name__ == "__main__":
    main()
