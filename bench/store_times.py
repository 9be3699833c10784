"""Times of the store beside a plain Rust program's, and figures that show what its calls depend on."""
import os
import subprocess
import sys
import tempfile

import programs
import type_texts
from programs import COMMANDS, KINDS, TURNS

# (type, objects, transactions that are always open, calls of each, what else happens)
WORKLOADS = [
    ("modulo", 1, 1, 1, "plain"),
    ("modulo", 1, 16, 1, "plain"),
    ("modulo", 1, 16, 8, "plain"),
    ("modulo", 1, 1024, 8, "plain"),
    ("modulo", 1, 16, 1, "old"),
    ("modulo", 1, 16, 8, "old"),
    ("modulo", 1, 16, 8, "rollback"),
    ("counter", 1, 1, 1, "plain"),
    ("counter", 256, 1, 1, "plain"),
    ("counter", 256, 16, 4, "plain"),
    ("counter", 256, 1024, 1, "plain"),
    ("account", 256, 16, 4, "plain"),
]

# Pairs of workloads of which the first is to take at most 1.5 times the second.
PAIRS = [
    (("modulo", 1, 16, 1, "old"), ("modulo", 1, 16, 1, "plain")),
    (("modulo", 1, 16, 8, "old"), ("modulo", 1, 16, 8, "plain")),
    (("counter", 256, 1, 1, "plain"), ("counter", 1, 1, 1, "plain")),
]

# What a cost depends on: a title, and for each row a word, a kind, a workload and its commands.
LAWS = [
    ("a begin and a commit, by the transactions that are open",
     [(str(open), "undo", ("modulo", 1, open, 0, "plain"), COMMANDS)
      for open in (1, 16, 128, 1024)]),
    ("one call a transaction, by the number of objects",
     [(str(objects), "undo", ("counter", objects, 1, 1, "plain"), COMMANDS)
      for objects in (1, 4, 16, 64, 256)]),
    ("16 transactions of 4 calls at 256 objects, by the commands before",
     [(str(commands), "undo", ("counter", 256, 16, 4, "plain"), commands)
      for commands in (10_000, 100_000, 900_000)]),
    ("the same at one object, behind an old transaction at the front of its log",
     [(str(commands), "undo", ("modulo", 1, 16, 4, "old"), commands)
      for commands in (10_000, 100_000, 900_000)]),
    ("one call a transaction at one object, by the transactions that are open there",
     [(f"{open} {kind}", kind, ("modulo", 1, open, 1, "plain"), COMMANDS)
      for kind in KINDS for open in (1, 4, 16, 64, 256, 1024)]),
    ("16 open transactions at one object, by the calls of each",
     [(f"{calls} {kind}", kind, ("modulo", 1, 16, calls, "plain"), COMMANDS)
      for kind in KINDS for calls in (1, 4, 16, 64)]),
    ("one call a transaction, by the number of calls that the type has",
     [(f"{calls}", "undo", (f"names{calls}", 1, 1, 1, "plain"), COMMANDS)
      for calls in (1, 8, 64)]),
    ("one call a transaction, by the operations of the call, of which the last is legal",
     [(f"{ops} {kind}", kind, (f"replies{ops}", 1, 1, 1, "plain"), COMMANDS)
      for kind in KINDS for ops in (1, 8, 64)]),
    ("the same with 64 operations, by the transactions that are open there",
     [(f"{open} {kind}", kind, ("replies64", 1, open, 1, "plain"), COMMANDS)
      for kind in KINDS for open in (1, 16, 64)]),
    ("half of the calls conflict with an operation that is held, by the operations held",
     [(f"{open * 4}", "undo", ("rival", 1, open, 8, "plain"), COMMANDS)
      for open in (4, 16, 64, 256)]),
]


def workload_words(folder, kind, workload, commands):
    name, *numbers = workload
    return [kind, type_texts.at(folder, name), *numbers, commands]


class Asked:
    """The commands of workloads, written to files by the library's program, and the words by which programs take them."""

    def __init__(self, folder):
        self.folder, self.library, self.paths = folder, programs.library_of_rust(folder), {}

    def path(self, kind, workload, commands):
        """The file of the commands, which are the same for each kind."""
        if (workload, commands) not in self.paths:
            words = [self.library, "commands", *workload_words(self.folder, kind, workload, commands)]
            with open(os.path.join(self.folder, f"{len(self.paths)}.commands"), "w", encoding="ascii") as file:
                subprocess.run([*map(str, words)], check=True, stdout=file)
            self.paths[workload, commands] = file.name
        return self.paths[workload, commands]

    def by_file(self, program, kind, workload, rounds, commands=COMMANDS):
        """The words of a program that reads the commands."""
        name, objects, *_ = workload
        return [*program, kind, type_texts.at(self.folder, name), objects, self.path(kind, workload, commands), rounds]

    def by_words(self, program, kind, workload, rounds, commands=COMMANDS):
        """The words of a program that makes the commands."""
        return [*program, *workload_words(self.folder, kind, workload, commands), rounds]


def title(kind, workload):
    name, objects, open, calls, mode = workload
    what = {"plain": "", "old": ", an old one", "rollback": ", rolled back"}[mode]
    return f"{kind}: {name} on {objects}, {open}x{calls}{what}"


def show_times(asked, store, plain, rounds):
    """Each workload beside the plain program, and then the pairs."""
    print(f"{'nanoseconds a command':44} {'colock':>8} {'plain':>8} {'ratio':>6}")
    ours = {}
    for kind in KINDS:
        for workload in WORKLOADS:
            time, beside = programs.least([asked.by_file(store, kind, workload, rounds), asked.by_words([plain], kind, workload, rounds)])
            ours[kind, workload] = time
            print(f"{title(kind, workload):44} {time / COMMANDS:8.1f} {beside / COMMANDS:8.1f} {time / beside:6.2f}", flush=True)
    print(f"\n{'of two of these':84} {'ratio':>6}")
    for kind in KINDS:
        for first, second in PAIRS:
            ratio = ours[kind, first] / ours[kind, second]
            print(f"{title(kind, first) + ' / ' + title(kind, second):84} {ratio:6.2f}")


def heap_bytes(words):
    """All bytes that a run allocates, as valgrind counts them."""
    run = subprocess.run(["valgrind", *map(str, words)], check=True, capture_output=True, text=True)
    line = next(line for line in run.stderr.split("\n") if "total heap usage" in line)
    return int(line.split("frees, ")[1].split(" bytes")[0].replace(",", ""))


def show_bytes(asked, store):
    """The bytes of an event, and of a round in which no transaction begins."""
    for objects in (1, 256):
        workload = ("account", objects, 0, 0, "plain")
        once, twice = (asked.by_file(store, "undo", workload, rounds, 0) for rounds in (1, 2))
        if objects == 1:
            print(f"\nan event: {programs.printed(once)['event_bytes']} bytes")
        print(f"a store of {objects} of account, no transaction: {heap_bytes(twice) - heap_bytes(once)} bytes")


def show_following(asked, program, rounds):
    """The time in which a store follows the events of a run, beside that of the run."""
    print(f"{'nanoseconds a command, and an event':44} {'run':>8} {'follow':>8} {'ratio':>6}")
    for kind in KINDS:
        for workload in WORKLOADS:
            turns = [programs.printed(asked.by_file([program], kind, workload, rounds)) for _ in range(TURNS)]
            run, follow = (min(int(turn[what]) for turn in turns) for what in ("nanoseconds", "follow"))
            print(f"{title(kind, workload):44} {run / COMMANDS:8.1f} {follow / COMMANDS:8.1f} {follow / run:6.2f}", flush=True)


def show_laws(asked, store, rounds):
    """Nanoseconds a command, by what a cost may depend on."""
    for what, rows in LAWS:
        print(f"\n{what}")
        for row, kind, workload, commands in rows:
            time, = programs.least([asked.by_file(store, kind, workload, rounds, commands)])
            print(f"{row:>20} {time / commands:10.1f}", flush=True)


def show_lasting(library, kind, path, millions):
    """The first and the last of this many million events at a type, and the most memory of the run."""
    words = [library, "lasting", kind, path, str(millions)]
    with subprocess.Popen(words, stdout=subprocess.PIPE, text=True) as run:
        lines = [line.split() for line in run.stdout]
        _, status, used = os.wait4(run.pid, 0)
        run.returncode = os.waitstatus_to_exitcode(status)
    if run.returncode:
        sys.exit(f"{' '.join(words)}: status {run.returncode}")
    times = [int(number) / 1e6 for word, number in lines if word == "nanoseconds"]
    events = next(int(number) for word, number in lines if word == "events")
    print(f"{events:,} events: the first million {times[0]:.0f} ms, the last {times[-1]:.0f} ms; "
          f"at most {used.ru_maxrss / 1024:.1f} MB")


def lasting(millions):
    with tempfile.TemporaryDirectory() as folder:
        type_texts.write_all(folder)
        show_lasting(programs.library_of_rust(folder), "undo", type_texts.at(folder, "counter"), millions)


def main(what, rounds):
    with tempfile.TemporaryDirectory() as folder:
        type_texts.write_all(folder)
        asked = Asked(folder)
        print(f"{os.cpu_count()} processors, least of {TURNS} turns of {rounds} rounds")
        if what == "follow":
            show_following(asked, programs.library_of_c(folder), rounds)
            return
        store = [programs.store_in_rattle(folder), "one"]
        if what == "laws":
            show_laws(asked, store, rounds)
            return
        show_times(asked, store, programs.plain(folder, "plain_store", "plain_store/main.rs"), rounds)
        show_bytes(asked, store)
