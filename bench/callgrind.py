"""Instructions of programs, as valgrind's callgrind counts them: the same numbers in each run and on each machine.

So a program gets an environment of its own, in which glibc takes those of its functions that each processor of x86-64 has.
Its folder's name is as long each time, and it is told names in that folder alone. One that takes a thread for each processor
gets one processor.
"""
import os
import re
import subprocess

# Without these glibc chooses the functions that copy and compare by what the processor can do.
ENVIRONMENT = {
    "PATH": "/usr/bin:/bin",
    "LC_ALL": "C",
    "GLIBC_TUNABLES": "glibc.cpu.hwcaps=-AVX512F,-AVX512VL,-AVX2,-AVX,-AVX_Fast_Unaligned_Load,-ERMS,-FSRM",
}
VALGRIND = ["valgrind", "--tool=callgrind", "--vgdb=no", "--quiet"]
# What a program names so is collected alone, and dumped each time it is left.
PARTS = ["--toggle-collect=*counted", "--dump-after=*counted"]
ONE_PROCESSOR = ["taskset", "--cpu-list", str(min(os.sched_getaffinity(0)))]


class Failed(Exception):
    """A program that didn't do what it was to do."""


def command(name, words, options=(), before=()):
    """The words by which a program is started that leaves what was counted in files of this name."""
    return [*before, *VALGRIND, f"--callgrind-out-file={name}", *options, *map(str, words)]


def total(path):
    """What a file says was counted."""
    with open(path, encoding="ascii", errors="replace") as file:
        return int(re.search(r"^totals: (\d+)$", file.read(), re.M)[1])


def ran(folder, name, words, options=(), before=()):
    """What a program writes that runs in this folder."""
    run = subprocess.run(command(name, words, options, before), cwd=folder, env=ENVIRONMENT, stdin=subprocess.DEVNULL, capture_output=True, check=False)
    if run.returncode:
        raise Failed(f"{' '.join(map(str, words))}: status {run.returncode}\n{run.stderr.decode()}")
    return run.stdout


def whole(folder, name, words, has_threads=False):
    """The instructions of a whole run."""
    ran(folder, name, words, before=ONE_PROCESSOR if has_threads else ())
    return total(os.path.join(folder, name))


def parts(folder, name, words):
    """Of each line that the program writes, which is a number and a name, the instructions of each of so many."""
    lines = ran(folder, name, words, PARTS).decode().splitlines()
    found = {}
    for at, line in enumerate(lines, 1):
        count, row = line.split(" ", 1)
        found[row] = total(os.path.join(folder, f"{name}.{at}")) / int(count)
    return found
