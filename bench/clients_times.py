"""Times of the clients that wait, in Rust and Python, over the library and over a child process: threads at one counter,
sellers beside who looks, and how long a hand-over takes where many wait for one object."""
import os
import re
import subprocess
import sys
import tempfile

import durable_times
import programs
from programs import HERE, ROOT

BINDINGS = os.path.join(ROOT, "bindings")
TURNS = programs.few(3, 1)
SECONDS = programs.few("2", "0.05")
SYNCS = programs.few(2_000, 20)
# The most threads of a herd.
HERD = programs.few("800", "10")
PYTHON = [sys.executable, os.path.join(BINDINGS, "python", "tests", "clients_bench.py")]


def program_of_rust(folder):
    subprocess.run(["cargo", "build", "--quiet", *programs.RELEASE, "--offline", "--example", "clients_bench", "--target-dir", folder],
                   cwd=os.path.join(BINDINGS, "rust"), check=True, env={**os.environ, "COLOCK_LIB_DIR": programs.library()})
    return os.path.join(folder, programs.RELEASED, "examples", "clients_bench")


def told(folder, *words):
    """What a program prints, lines of a name and a number. Its databases are in the folder."""
    environment = {**os.environ, "PYTHONPATH": os.path.join(BINDINGS, "python"), "COLOCK_LIBRARY": os.path.join(programs.library(), "libcolock.so"), "TMPDIR": folder}
    done = subprocess.run(words, check=True, stdout=subprocess.PIPE, text=True, env=environment)
    return {name: float(number) for name, number in (line.split(" ") for line in done.stdout.splitlines())}


def most(folder, commands):
    """The most of each number in some turns of all commands."""
    best = {}
    for _ in range(TURNS):
        for words in commands:
            for name, number in told(folder, *words).items():
                best[name] = max(best.get(name, 0), number)
    return best


def compared(name):
    """The name of the number that one is compared with, where there is such a one."""
    if name.endswith("_beside"):
        return name[: -len("_beside")]
    # a thread that thinks of nothing counts by the same mutex, in whatever way it counts by the store
    return re.sub("^(attempts_op|attempts|begun)_", "turns_", name).replace("store", "mutex")


def of_rust(folder, program):
    parts = [[program, part, SECONDS] for part in ("think", "mixed", "turns", "peeks")]
    parts += [[program, part, SECONDS, os.path.join(folder, f"{part}.db")] for part in ("child", "peeks")]
    best = most(folder, parts)
    for name, number in best.items():
        other = compared(name)
        ratio = f", {number / best[other]:.2f} of {other}" if other != name and other in best else ""
        print(f"Rust: {name} {number:,.0f} {'looks' if name.startswith('looks') else 'commits'} a second{ratio}")


def of_python(folder):
    for name, number in most(folder, [[*PYTHON, SECONDS]]).items():
        print(f"Python: {name} {number:,.1f}")


def of_herds(folder, program):
    """The least time of a hand-over, by how many wait. The programs print how many there are in a second."""
    parts = {"Rust": [[program, "herd", HERD], [program, "herd", HERD, os.path.join(folder, "herd.db")]], "Python": [[*PYTHON, "herd", HERD]]}
    for language, commands in parts.items():
        for name, number in most(folder, commands).items():
            print(f"{language}: {name} {1e6 / number:,.1f} microseconds a hand-over", flush=True)


def measure(has_commits):
    """Databases are beside this file, and not in memory."""
    with tempfile.TemporaryDirectory(dir=HERE) as folder:
        os.environ["COLOCK"] = programs.built()
        loop = SYNCS / durable_times.seconds(durable_times.driver(folder), "loop", os.path.join(folder, "loop"), 16, SYNCS)[0]
        print(f"{os.cpu_count()} processors, the best of {TURNS} turns; the disk's loop has {loop:,.0f} syncs a second", flush=True)
        program = program_of_rust(os.path.join(programs.SHARED or folder, "target"))
        if has_commits:
            of_rust(folder, program)
            of_python(folder)
        of_herds(folder, program)


def main():
    measure(has_commits=True)


def herds():
    measure(has_commits=False)
