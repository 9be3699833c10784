"""Times of numbers in escrow beside other ways to share a number, and of a number without a table beside a table, as
rows of CSV."""
import csv
import os
import sys
import tempfile

import programs
import store_times
import type_texts
import workers_times

WORKERS = 16

# The greatest number, which is shared, and where it begins far from a bound and near one.
GREATEST, FAR, NEAR = 1000, 500, 16

# The calls of all jobs, taken in turn: as many that take as that give; and nine that take 1 to one that
# gives 9.
BY_TURNS = ["dec:1", "inc:1"]
ONE_IN_TEN = ["dec:1"] * 9 + ["inc:9"]

# What a row is about: a title, where the number begins, and the calls.
WORK = [
    ("take and give, far", FAR, BY_TURNS),
    ("nine take and one gives, far", FAR, ONE_IN_TEN),
    ("nine take and one gives, near", NEAR, ONE_IN_TEN),
]

# Microseconds between a call and the end of its transaction, with the jobs of each worker and the tries of
# each job. The first is about how many jobs commit, and the others about how fast.
FEW, LARGE = programs.few((200, 20_000), (16, 32))
PACES = [("3,200 jobs", 0, FEW, 1), ("3,200 jobs that think", 1000, FEW, 1), ("many jobs", 0, LARGE, 1)]

MILLIONS = programs.few(30, 1)

PROGRAMS = ("escrow", "undo", "intentions", "plain", "object")

# The largest table and the largest number, by their greatest states. Both have these amounts, each taken and given, with
# the refusals `short` and `full`, and begin in the middle or near their lower bound.
DECLARED = {"table": 1023, "number": 2**32 - 1}
AMOUNTS = (1, 9)

# What goes on without end takes 1 and gives 1.
LASTING = (1,)


def write_types(folder):
    """The same table, beginning at each number."""
    for initial in (FAR, NEAR):
        programs.written(folder, f"{initial}.type", type_texts.made("counter", GREATEST, AMOUNTS, initial))


def declared_text(name, amounts, initial):
    """The text of the table or of the number."""
    if name == "table":
        return type_texts.made("stock", DECLARED[name], amounts, initial)
    lines = ["number number", f"max {DECLARED[name]}", f"initial {initial}"]
    return type_texts.text_of(lines + [f"{word} {amount}" for word in ("take", "give") for amount in amounts])


def write_declared(folder):
    """The table and the number, beginning in the middle and near a bound, and those that go on without end."""
    for name, greatest in DECLARED.items():
        for place, amounts, initial in (("far", AMOUNTS, greatest // 2), ("near", AMOUNTS, NEAR), ("lasting", LASTING, greatest // 2)):
            programs.written(folder, f"{name}-{place}.type", declared_text(name, amounts, initial))


def begun(folder):
    """The words by which each program begins, the kind among them."""
    at_once = workers_times.plain(folder, "at_once")
    pausing = workers_times.plain(folder, "pausing", "--cfg", "pausing")
    ours = [programs.library_of_rust(folder), "workers"]
    begin = {kind: [*ours, kind] for kind in ("escrow", "undo", "intentions")}
    return begin | {"plain": [pausing, "escrow", "escrow"], "object": [at_once, "object", "undo"]}


def told(program, path, jobs, tries, think, calls):
    """Milliseconds, commits, and calls that were busy, of a run."""
    run = programs.printed([*program, path, WORKERS, jobs, tries, think, *calls])
    return int(run["nanoseconds"]) / 1e6, int(run["commits"]), int(run["busy"])


def rate(run):
    """Commits a millisecond."""
    milliseconds, commits, _ = run
    return commits / milliseconds


def row(started, folder, title, pace, initial, calls, rounds):
    """A row: of each program the best of its rounds by commits a second, with its commits and busy calls."""
    name, think, jobs, tries = pace
    path = os.path.join(folder, f"{initial}.type")
    seen = {program: [] for program in PROGRAMS}
    for _ in range(rounds):
        for program in PROGRAMS:
            # a lock on the whole object that is held while its owner thinks
            few = think > 0 and program == "object"
            seen[program].append(told(started[program], path, jobs // WORKERS if few else jobs, tries, think, calls))
    best = {program: max(runs, key=rate) for program, runs in seen.items()}
    cells = [title, name, *(f"{rate(best[program]) * 1e3:.0f}" for program in PROGRAMS)]
    cells += [best[program][1] for program in PROGRAMS[:4]]
    cells.append(max(run[2] for run in seen["escrow"]))
    return [*cells, f"{rate(best['plain']) / rate(best['escrow']):.2f}", f"{rate(best['escrow']) / rate(best['object']):.1f}"]


def declared_row(started, folder, title, pace, place, calls, rounds):
    """A row: of the table and of the number the best of its rounds, with its commits and the most busy calls."""
    name, think, jobs, tries = pace
    calls = [call.replace("dec:", "take:").replace("inc:", "give:") for call in calls]
    seen = {declared: [] for declared in DECLARED}
    for _ in range(rounds):
        for declared in DECLARED:
            path = os.path.join(folder, f"{declared}-{place}.type")
            seen[declared].append(told(started["escrow"], path, jobs, tries, think, calls))
    best = {declared: max(runs, key=rate) for declared, runs in seen.items()}
    cells = [title, name, *(f"{rate(run) * 1e3:.0f}" for run in best.values()), *(run[1] for run in best.values())]
    cells += [max(run[2] for run in runs) for runs in seen.values()]
    return [*cells, f"{rate(best['table']) / rate(best['number']):.2f}"]


def write_rows(head, rows):
    out = csv.writer(sys.stdout, lineterminator="\n")
    out.writerow(head)
    for row in rows:
        out.writerow(row)
        sys.stdout.flush()


def show_declared(started, folder, rounds):
    """The number beside the table: the jobs of workers, and what goes on without end, with the most memory."""
    write_declared(folder)
    rows = (declared_row(started, folder, title, pace, "far" if initial == FAR else "near", calls, rounds)
            for title, initial, calls in WORK for pace in PACES)
    write_rows(DECLARED_HEAD, rows)
    library = started["escrow"][0]
    for declared in DECLARED:
        print(f"\n{declared}: one call a transaction, 16 of them open, that goes on")
        store_times.show_lasting(library, "escrow", type_texts.at(folder, f"{declared}-lasting"), MILLIONS)


DECLARED_HEAD = ["calls", "jobs", *(f"{name} {what}" for what in ("commits a second", "committed", "busy") for name in DECLARED),
                 "time of the number to the table's"]

HEAD = ["calls", "jobs", *(f"{program} commits a second" for program in PROGRAMS),
        *(f"{program} committed" for program in PROGRAMS[:4]), "busy in escrow", "time to plain", "commits to object"]


def main(rounds):
    with tempfile.TemporaryDirectory() as folder:
        write_types(folder)
        started = begun(folder)
        print(f"{os.cpu_count()} processors, best of {rounds} rounds, {WORKERS} workers", file=sys.stderr)
        rows = (row(started, folder, title, pace, initial, calls, rounds) for title, initial, calls in WORK for pace in PACES)
        write_rows(HEAD, rows)
        print("\none call a transaction, 16 of them open, at a number that goes on")
        lasting = programs.written(folder, "lasting.type", type_texts.made("counter", GREATEST, [1]))
        store_times.show_lasting(started["escrow"][0], "escrow", lasting, MILLIONS)
        show_declared(started, folder, rounds)
