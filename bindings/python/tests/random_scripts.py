#!/usr/bin/env python3
"""random_scripts.py COLOCK COUNT SEED: random scripts by the package and by `colock run`, as bindings/c/tests/scripts.py.

A call is answered as `would` says before it, and each second call is made by its number. A second store follows the
events, forgets some of them now and then, and keeps the same.
"""
import io
import os
import sys

sys.path.insert(0, os.path.join(os.path.dirname(os.path.abspath(__file__)), "..", "..", "c", "tests"))

import scripts  # noqa: E402

import colock  # noqa: E402

REFUSALS = ["NotOpen", "NoObject", "NoCall", "TooManyOpen", "HistoryFull", "NoMemory", "BadRollback"]


def call(store, transaction, x, name):
    """Makes a call, by its number where as many events have happened as is even, and as `would` says."""
    would = transaction.would(x, name)
    if store.event_count() % 2:
        answer = transaction.call(x, name)
    else:
        answer = transaction.call_op(x, store.call_number(x, name))
    if answer != would:
        raise AssertionError(f"{name} at {x}: {answer}, and {would} before it")


def is_followed(types, limit, store):
    """Whether another store makes the same events, forgets some, and keeps the same."""
    events = store.events()
    with colock.Store(types, limit) as other:
        for place in range(0, len(events), 7):
            other.follow(events[place : place + 7])
            other.forget(place % 5)
        left = events[other.forgotten_count() :]
        return other.events(other.forgotten_count()) == left and all(other.kept(x) == store.kept(x) for x in range(len(types)))


def command(store, begun, words):
    """Does a command. The number of a transaction that never began is as that of one that ended."""
    if words[0] == "begin":
        begun.append(store.begin())
        return
    number = int(words[1])
    if number >= len(begun):
        raise colock.NotOpenError
    if words[0] == "call":
        call(store, begun[number], int(words[2]), words[3])
    elif words[0] == "rollback":
        begun[number].rollback(int(words[2]))
    else:
        getattr(begun[number], words[0])()


def run(path, type_paths):
    """What `colock run` writes of a script, up to the kept states."""
    out, types, limit, commands = io.StringIO(), [], 0, []
    with open(path, encoding="ascii") as file:
        for line in file:
            words = line.split()
            if words[0] == "max":
                limit = int(words[1])
            elif words[0] == "object":
                with open(type_paths[int(words[2])], "rb") as text:
                    types.append(colock.Type(text.read(), colock.Kind[words[1].upper()]))
                out.write(line)
            elif words[0] != "end":
                commands.append(words)
    with colock.Store(types, limit) as store:
        begun, told = [], 0
        for words in commands:
            refused = ""
            try:
                command(store, begun, words)
            except colock.Error as error:
                name = type(error).__name__.replace("Error", "")
                refused = f"# refused {REFUSALS.index(name) + 1} {name}\n"
            events = store.events(told)
            told += len(events)
            out.write("".join(f"{event}\n" for event in events) + refused)
        store.abort_all()
        out.write("".join(f"{event}\n" for event in store.events(told)) + "end\n")
        out.write("".join(f"# kept {x} {store.kept(x)}\n" for x in range(len(types))))
        if not is_followed(types, limit, store):
            out.write("another store that follows keeps something else\n")
    return out.getvalue()


def main():
    program, count, seed = sys.argv[1], int(sys.argv[2]), int(sys.argv[3])
    found = list(scripts.differences(program, count, seed, [run]))
    print(*found, f"{count} random scripts by the package: {len(found)} differences", sep="\n")
    sys.exit(1 if found else 0)


main()
