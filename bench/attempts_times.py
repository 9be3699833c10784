"""Times of whole transactions in one call beside their steps, and of committed states by the length of a log."""
import os
import tempfile

import durable_times
import programs
import type_texts

# Of each kind the type file, and a call that is always legal there.
TYPES = {"undo": ("modulo.type", "inc:1"), "intentions": ("modulo.type", "inc:1"), "escrow": ("taken.type", "give:1")}
TAKEN = "number taken\nmax 4294967295\ninitial 0\ngive 1\nend\n"
CALLS = (1, 4, 16)
WAYS = ("number", "name")
LOGS = (1, 10, 100, 1000)
COUNT, IN_FLIGHT, TURNS = programs.few(20_000, 200), 64, programs.few(3, 1)


def told(program, folder, what, kind, *numbers):
    """Nanoseconds, as `bench/attempts.c` prints them."""
    file, call = TYPES[kind]
    words = programs.printed([program, what, kind, os.path.join(folder, file), call, *numbers])
    return {name: float(number) for name, number in words.items()}


def show_transactions(program, folder, rounds):
    """A row for each kind and number of calls: one call of the library, the steps, and the ratio, by number and by name."""
    print(f"{f'nanoseconds, {rounds} rounds':24}" + "".join(f"{f'by {way}':>12}{'steps':>10}{'ratio':>7}" for way in WAYS))
    for kind in TYPES:
        for calls in CALLS:
            found = told(program, folder, "whole", kind, calls, rounds)
            pairs = [(found[f"whole_by_{way}"], found[f"steps_by_{way}"]) for way in WAYS]
            print(f"{f'{kind}, calls: {calls}':24}" + "".join(f"{whole:12.1f}{steps:10.1f}{whole / steps:7.2f}" for whole, steps in pairs), flush=True)


def show_committed(program, folder, rounds):
    for operations in LOGS:
        took = told(program, folder, "committed", "undo", operations, rounds)["committed"]
        print(f"committed, a log of {operations}: {took:.1f} ns", flush=True)


def show_served(colock, folder):
    """Commits a second where so many transactions are in flight, by three lines each and by one."""
    program, best = durable_times.driver(folder), {}
    for turn in range(TURNS):
        for way in ("serve", "whole"):
            path = durable_times.database(colock, folder, f"{way}{turn}.db")
            rate = COUNT / durable_times.seconds(program, way, colock, path, IN_FLIGHT, COUNT)[0]
            best[way] = max(best.get(way, 0), rate)
    print(f"{IN_FLIGHT} in flight: {best['serve']:,.0f} commits a second by begin, call and commit,"
          f" {best['whole']:,.0f} by do, {best['whole'] / best['serve']:.2f} times as many")


def main(rounds):
    """The files are beside this one, and not in /tmp, which may be memory."""
    with tempfile.TemporaryDirectory(dir=programs.HERE) as folder:
        programs.written(folder, "one.objects", "object undo 0\nend\n")
        programs.written(folder, "modulo.type", type_texts.modulo())
        programs.written(folder, "taken.type", TAKEN)
        program = programs.library_of_c(folder, "attempts")
        show_transactions(program, folder, rounds)
        show_committed(program, folder, rounds)
        show_served(programs.built(), folder)
