"""Times of workers beside those of plain Rust programs, as rows of CSV."""
import csv
import os
import sys
import tempfile

import programs
import type_texts
from programs import KINDS

WORKERS = (1, 2, 4, 16)

# Microseconds between a call and the end of its transaction.
THINKING = (0, 100, 1000)

# The calls of each type, which a worker makes in turn, each in a transaction of its own.
CALLS = {
    "modulo": ["inc:1"],
    "counter": ["inc:1", "dec:1"],
    "account": ["deposit:1", "withdraw:1", "deposit:5", "withdraw:5"],
}

# The most tries of a job that there may be.
MOST_TRIES = 100

# The jobs of a run where nobody thinks, of all workers together, and the tries of each. With no more of
# them no history is full, so such runs are short, and a round has RUNS. More jobs, where no call can be
# busy.
JOBS, TRIES, RUNS = programs.few(8_000, 160), 40, programs.few(10, 1)
JOBS_WITHOUT_CONFLICTS = programs.few(320_000, 160)

# How long all jobs of a worker take at the least where it thinks, in microseconds, and how long a sleep is
# beyond its time.
RUN, LATE = programs.few(150_000, 1_500), 60

PROGRAMS = ("colock", "operations", "object", "pausing")


def write_types(folder):
    """Writes each type file. What `make` makes begins in the middle, so that no call is without a reply."""
    programs.written(folder, "modulo.type", type_texts.modulo())
    programs.written(folder, "counter.type", type_texts.made("counter", 1023, [1], 512))
    programs.written(folder, "account.type", type_texts.made("account", 50, [1, 5], 25))


def plain(folder, name, *flags):
    """The plain program, built with these flags."""
    return programs.plain(folder, name, "plain_workers/main.rs", *flags)


def begun(folder):
    """The words by which each program begins."""
    at_once, pausing = plain(folder, "at_once"), plain(folder, "pausing", "--cfg", "pausing")
    return {"colock": [programs.library_of_rust(folder), "workers"], "operations": [at_once, "operations"],
            "object": [at_once, "object"], "pausing": [pausing, "operations"]}


def work(program, name, think, workers):
    """The jobs of each worker, the tries of each job, and the runs of a round."""
    if think > 0:
        jobs = RUN // (think + LATE)
        return (jobs // workers + 1 if program == "object" else jobs), MOST_TRIES, 1
    if name == "modulo" or workers == 1 or program == "object":
        return JOBS_WITHOUT_CONFLICTS // workers, 1, 1
    return JOBS // workers, TRIES, RUNS


def outcome(program, began, name, kind, path, think, workers):
    """The commits a second of a round, and the share of its calls that were busy."""
    jobs, tries, runs = work(program, name, think, workers)
    words = [*began, kind, path, workers, jobs, tries, think, *CALLS[name]]
    told = [programs.printed(words) for _ in range(runs)]
    time, commits, busy, none = (sum(int(run[word]) for run in told)
                                 for word in ("nanoseconds", "commits", "busy", "none"))
    if name == "modulo" and (commits, busy, none) != (workers * jobs, 0, 0):
        sys.exit(f"{program} {name} {kind}: {told}")
    return commits * 1e9 / time, busy / (commits + busy + none)


def row(started, folder, name, kind, think, workers, rounds):
    """A row: the least and the most of each program, ratios of the most, shares of busy calls."""
    path = os.path.join(folder, name + ".type")
    seen = {program: [] for program in PROGRAMS}
    for _ in range(rounds):
        for program in PROGRAMS:
            seen[program].append(outcome(program, started[program], name, kind, path, think, workers))
    rates = {program: [rate for rate, _ in runs] for program, runs in seen.items()}
    most = {program: max(runs) for program, runs in rates.items()}
    locking = ("colock", "operations", "pausing")
    busy = [sum(share for _, share in seen[program]) / rounds for program in locking]
    cells = [think, name, kind, workers]
    cells += [f"{rate:.0f}" for program in PROGRAMS for rate in (min(rates[program]), most[program])]
    cells += [f"{most['colock'] / most[program]:.2f}" for program in PROGRAMS[1:]]
    return cells + [f"{share:.0%}" for share in busy]


HEAD = ["microseconds", "type", "kind", "workers", *(f"{program} {end}" for program in PROGRAMS for end in ("least", "most")),
        *(f"to {program}" for program in PROGRAMS[1:]), "busy", "busy of operations", "busy of pausing"]


def main(rounds):
    with tempfile.TemporaryDirectory() as folder:
        write_types(folder)
        started = begun(folder)
        print(f"{os.cpu_count()} processors, commits a second, least and most of {rounds} rounds", file=sys.stderr)
        out = csv.writer(sys.stdout, lineterminator="\n")
        out.writerow(HEAD)
        for think in THINKING:
            for name in CALLS:
                for kind in KINDS:
                    for workers in WORKERS:
                        out.writerow(row(started, folder, name, kind, think, workers, rounds))
                        sys.stdout.flush()
