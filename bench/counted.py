"""The cases whose instructions are counted, small ones that are the same each time, and what is counted of each.

Start-up doesn't count. Of `run`, `audit`, `check` and `tables` a run of the same program at nothing is taken off: at a script
or a history of one object without an entry, over the same type file; at a type file of one state. Of `serve` a run with
half the groups is taken off. Of calls of the library, and of the plain store, the calls alone are counted.
"""
import concurrent.futures
import itertools
import os
import shutil
import subprocess
from dataclasses import dataclass

import callgrind
import programs
import scripts
import type_texts

LINES = 20_000
FEW, MANY = 1, 256
KINDS = (*programs.KINDS, "escrow")
# Of each type of a store its calls, and the kinds of recovery that it is for.
TYPES = {
    "counter": (["inc:1", "dec:1"], KINDS),
    "account": (["deposit:1", "withdraw:1", "deposit:5", "withdraw:5"], KINDS),
    "set": ([f"{call}:{element}" for element in "abcd" for call in ("insert", "delete", "member")], programs.KINDS),
    "number": (["take:1", "give:1", "take:17", "give:17"], KINDS[2:]),
}
NUMBER = ["number number", "max 4294967295", "initial 2147483648", "take 1", "take any", "give 1", "give any", "value", "end"]
# What there is at many objects too. Of `audit`, which reads the same lines for each kind, there is less.
WIDE = {("counter", kind) for kind in KINDS} | {("set", "undo"), ("number", "escrow")}
AUDITED = {("counter", "undo"), ("account", "undo"), ("set", "undo"), ("counter", "escrow"), ("number", "escrow")}
AUDITED_WIDE = {("counter", "undo"), ("number", "escrow")}

# How many commits are in flight at `serve`, and how many such groups there are.
FLIGHTS = {1: 60, 64: 8}

# The first words of rows, in the order in which these are shown.
ORDER = ("run", "audit", "check", "tables", "commit", "attempt", "attempt_op", "peek", "follow", "serve")

# The columns: ours, the plain program, and one that holds neither commands nor events. These two read no number file.
PROGRAMS = COLOCK, PLAIN, STREAM = "colock", "plain", "stream"


class Room:
    """A folder with the programs and all that they read, and what was counted there."""

    def __init__(self, folder, pool):
        self.folder, self.pool, self.counts, self.names = folder, pool, {}, itertools.count()

    def path(self, name):
        return os.path.join(self.folder, name)

    def name(self):
        """A name of a file to count into, which no other run has."""
        return f"counts{next(self.names):04}"

    def put(self, name, lines):
        programs.written(self.folder, name, "\n".join([*lines, ""]))

    def plain(self, name, source, *flags):
        """Builds a plain program, linked statically, so that less comes before its work."""
        programs.plain(self.folder, name, source, "-C", "target-feature=+crt-static", *flags)

    def asking(self, library):
        """Builds the program that asks the library."""
        words = ["cc", "-O2", "-Wall", "-Wextra", "-static", os.path.join(programs.HERE, "instructions.c"), f"-I{programs.C}"]
        programs.compiled(self.folder, "instructions", *words, os.path.join(os.path.abspath(library), "libcolock.a"))

    def output(self, *words):
        """What a program writes that isn't counted."""
        return subprocess.run([f"./{words[0]}", *words[1:]], cwd=self.folder, env=callgrind.ENVIRONMENT, check=True, capture_output=True).stdout

    def count(self, counting, *words, **more):
        """Where what is counted of this run will be. The same run is counted once."""
        if words not in self.counts:
            program, *rest = words
            self.counts[words] = self.pool.submit(counting, self.folder, self.name(), [f"./{program}", *rest], **more)
        return self.counts[words]


def build(room, colock, library):
    """Builds all programs."""
    os.symlink(os.path.abspath(colock), room.path("colock"))
    sources = {"plain_run": "plain_run/main.rs", "plain_check": "plain_check.rs", "plain_store": "plain_store/main.rs"}
    built = [room.pool.submit(room.plain, *which) for which in sources.items()] + [room.pool.submit(room.asking, library)]
    for one in built:
        one.result()


def write_types(room):
    for name, words in {"counter": ("100", "1"), "account": ("50", "1", "5")}.items():
        programs.written(room.folder, f"{name}.type", room.output("colock", "make", name, *words).decode())
    room.put("set.type", type_texts.set_of("abcd").splitlines())
    room.put("number.type", NUMBER)
    room.put("one.type", ["type one", "states 1", "initial 0", "op call ok", "step 0 0 0", "end"])


# ---- rows: a name, what a figure is of, a program, and a function that answers its figure

def words_of(program, *words):
    """The words by which a program is asked what `colock` is asked by these."""
    if program == COLOCK:
        return (COLOCK, *words)
    task, *rest = words
    return ("plain_run", f"stream-{task}" if program == STREAM else task, *rest)


def beside(name):
    return PROGRAMS[:1] if name == "number" else PROGRAMS


def less_start(room, program, task, text, empty, of, lines):
    """The figure of a command over a text: less that of the empty text."""
    counts = [room.count(callgrind.whole, *words_of(program, task, path, of)) for path in (text, empty)]
    return lambda: (counts[0].result() - counts[1].result()) / lines


def of_text(room, task, name, kind, objects, text, lines):
    """The rows of `run` or `audit` over a text, of which each program has to write the same. What ours writes."""
    of, empty = f"{name}.type", f"{kind}.{task}"
    told = {program: room.output(*words_of(program, task, text, of)) for program in beside(name)}
    if len(set(told.values())) > 1:
        raise callgrind.Failed(f"{task} {name} {kind} {objects}: the programs write different texts")
    rows = [(f"{task} {name} {kind} {objects}", "line", program, less_start(room, program, task, text, empty, of, lines)) for program in told]
    return rows, told[COLOCK]


def of_texts(room):
    """The rows of `run`, and of `audit` at what the runs wrote."""
    for kind in KINDS:
        room.put(f"{kind}.run", ["max 2", f"object {kind} 0", "end"])
        room.put(f"{kind}.audit", [f"object {kind} 0", "end"])
    for name, (calls, kinds) in TYPES.items():
        for kind, objects in itertools.product(kinds, (FEW, MANY)):
            if objects == MANY and (name, kind) not in WIDE:
                continue
            script, history = (f"{name}.{kind}.{objects}.{what}" for what in ("script", "history"))
            room.put(script, scripts.script(kind, calls, LINES, objects=objects))
            rows, told = of_text(room, "run", name, kind, objects, script, LINES)
            yield from rows
            if (name, kind) in (AUDITED if objects == FEW else AUDITED_WIDE):
                lines = told.decode().splitlines()
                room.put(history, lines)
                yield from of_text(room, "audit", name, kind, objects, history, lines.index("end") - objects)[0]


def of_checks(room):
    """The rows of `check` at a set of ten elements, and of `tables` at one of seven: it goes through pairs of states."""
    def row(name, program, elements, words, *behind):
        made = type_texts.set_of(type_texts.ELEMENTS[:elements])
        path, lines = f"{elements:02}.type", made.count("\n")
        programs.written(room.folder, path, made)
        counts = [room.count(callgrind.whole, *words, of, *behind, has_threads="check" in words) for of in (path, "one.type")]
        return f"{name} set-of-{elements}", "line", program, lambda: (counts[0].result() - counts[1].result()) / lines

    for kind in programs.KINDS:
        yield row(f"check {kind}", COLOCK, 10, ("colock", "check", kind))
        yield row(f"check {kind}", PLAIN, 10, ("plain_check", kind), "0")
    yield row("tables", COLOCK, 7, ("colock", "tables"))


def of_calls(room):
    """The rows that programs write which do the calls, and their figures."""
    for program, words in ((COLOCK, ("instructions", "set.type", "number.type")), (PLAIN, ("plain_store", "commits", "set.type", "insert:a"))):
        count = room.count(callgrind.parts, *words)
        for name in count.result():
            word = name.split()[0]
            per = {"follow": "event", "peek": "peek"}.get(word, "commit")
            yield name, per, program, lambda count=count, name=name: count.result()[name]


# ---- `serve`

def answered(service, lines):
    """Asks these lines at once, and waits for an answer to each."""
    service.stdin.write("".join(lines).encode())
    service.stdin.flush()
    for _ in lines:
        if service.stdout.readline() != b"d done ok\n":
            raise callgrind.Failed("serve: a transaction wasn't done")


def served(folder, name, words, database, flight, groups):
    """The instructions of a service that is asked for so many groups, one after another is answered."""
    shutil.copy(os.path.join(folder, "new.db"), os.path.join(folder, database))
    with subprocess.Popen(callgrind.command(name, [*words, database]), cwd=folder, env=callgrind.ENVIRONMENT, stdin=subprocess.PIPE,
                          stdout=subprocess.PIPE, stderr=subprocess.DEVNULL) as service:
        service.stdout.readline()
        for group in range(groups):
            answered(service, flight.lines(group))
        service.stdin.close()
    if service.returncode:
        raise callgrind.Failed(f"serve: status {service.returncode}")
    return callgrind.total(os.path.join(folder, name))


@dataclass(frozen=True)
class Flight:
    """So many commits in flight, each under a key of its own or none."""
    window: int
    has_keys: bool

    def __str__(self):
        return f"keys {self.window}" if self.has_keys else str(self.window)

    def lines(self, group):
        """What a group asks."""
        keys = (f"=key:{group * self.window + one} " if self.has_keys else "" for one in range(self.window))
        return [f"d do {key}0 insert:a\n" for key in keys]


def of_serve(room):
    """The rows of `serve`: a commit of a group of so many, also under keys. An index of keys is put later than these are kept."""
    room.put("objects", ["object undo 0", "end"])
    room.output("colock", "create", "new.db", "objects", "set.type")
    for (window, groups), has_keys in itertools.product(FLIGHTS.items(), (False, True)):
        flight = Flight(window, has_keys)
        counts = [room.pool.submit(served, room.folder, room.name(), ["./colock", "serve"], f"{has_keys:d}.{window:02}.{many:03}.db", flight, many)
                  for many in (2 * groups, groups)]
        yield f"serve {flight}", "commit", COLOCK, lambda counts=counts, many=window * groups: (counts[0].result() - counts[1].result()) / many


def measured(room):
    """Of each row what its figures are of, and its figures by program. What is asked for one after another comes first."""
    found = {}
    rows = [*of_serve(room), *of_checks(room), *of_texts(room), *of_calls(room)]
    for name, per, program, figure in sorted(rows, key=lambda row: ORDER.index(row[0].split()[0])):
        found.setdefault(name, (per, {}))[1][program] = figure
    return {name: (per, {program: figure() for program, figure in figures.items()}) for name, (per, figures) in found.items()}


def all_rows(folder, colock, library):
    """The figures of all cases, counted side by side."""
    with concurrent.futures.ThreadPoolExecutor(os.cpu_count()) as pool:
        room = Room(folder, pool)
        build(room, colock, library)
        write_types(room)
        return measured(room)


def store_rows(folder, *flags):
    """The figures of the plain store alone, compiled with these flags."""
    with concurrent.futures.ThreadPoolExecutor(1) as pool:
        room = Room(folder, pool)
        room.plain("plain_store", "plain_store/main.rs", *flags)
        room.put("set.type", type_texts.set_of("abcd").splitlines())
        count = room.count(callgrind.parts, "plain_store", "commits", "set.type", "insert:a")
        return {name: ("commit", {PLAIN: figure}) for name, figure in count.result().items()}
