"""Times of the store by its library: the same commands from Rattle, C and Rust, and what Python comes to.

From Rattle they are given to a store of objects of any kind of recovery, as the library's is, and to one of objects of
one kind.
"""
import os
import sys
import tempfile
import time

import programs
import store_times
import type_texts
from programs import COMMANDS, KINDS, TURNS

WORKLOADS = [workload for workload in store_times.WORKLOADS if workload[4] == "plain"]
TRANSACTIONS = 100_000
EACH = 3  # commands of a transaction that begins, calls and commits


def commands_of_python():
    """How many commands a second a store does for Python, one transaction after another at one counter."""
    os.environ["COLOCK_LIBRARY"] = os.path.join(programs.library(), "libcolock.so")
    sys.path.insert(0, os.path.join(programs.ROOT, "bindings", "python"))
    import colock  # pylint: disable=import-outside-toplevel,import-error
    counter = colock.Type.counter(1_000, [1])
    most = 0
    for _ in range(TURNS):
        store = colock.Store([counter], 1_000_000)
        start = time.perf_counter()
        for turn in range(TRANSACTIONS):
            t = store.begin()
            t.call(0, "dec:1" if turn & 1 else "inc:1")
            t.commit()
        most = max(most, EACH * TRANSACTIONS / (time.perf_counter() - start))
        store.close()
    return most


def show_rows(folder, rounds):
    asked = store_times.Asked(folder)
    benches, from_c = programs.store_in_rattle(folder), programs.library_of_c(folder)
    for kind in KINDS:
        for workload in WORKLOADS:
            commands = [asked.by_file(program, kind, workload, rounds) for program in ([benches, "any"], [benches, "one"], [from_c])]
            commands.append(asked.by_words([asked.library, "store"], kind, workload, rounds))
            ours, one_kind, c, rust = (time / COMMANDS for time in programs.least(commands))
            print(f"{store_times.title(kind, workload):44} {ours:8.1f} {c:8.1f} {rust:8.1f} {c - ours:8.1f} {rust - ours:10.1f} "
                  f"{one_kind:10.1f}", flush=True)


def main(rounds):
    with tempfile.TemporaryDirectory() as folder:
        type_texts.write_all(folder)
        print(f"{os.cpu_count()} processors, least of {TURNS} turns of {rounds} rounds")
        print(f"{'nanoseconds a command':44} {'Rattle':>8} {'C':>8} {'Rust':>8} {'C more':>8} {'Rust more':>10} {'one kind':>10}")
        show_rows(folder, rounds)
        print(f"Python: {commands_of_python():,.0f} commands a second")
