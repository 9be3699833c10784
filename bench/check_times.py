"""Times of the reader of type files and of the checker, beside a plain Rust program.

The library reads and checks in one call. For escrow it hardly checks: it looks at each step once at most. So what a call
for escrow takes is called reading, and what one for another kind takes longer, checking. The check by all processors is
that of the whole program `colock check`, of which the same is taken off.
"""
import os
import subprocess
import tempfile
import time

import programs
import type_texts


def show(what, ours, plain):
    print(f"{what:34} {ours / 1e6:9.2f} ms {plain / 1e6:9.2f} ms {ours / plain:7.2f}", flush=True)


def least_run(words, rounds):
    """The least nanoseconds of a process, whatever its answer."""
    times = []
    for _ in range(rounds):
        start = time.perf_counter_ns()
        subprocess.run(words, stdout=subprocess.DEVNULL, stderr=subprocess.DEVNULL, check=False)
        times.append(time.perf_counter_ns() - start)
    return min(times)


def show_kind(name, kind, told, plain, whole):
    if told["accepted"] != plain["accepted"]:
        raise SystemExit(f"{name} {kind}: the verdicts differ")
    read, both, check = (int(number) for number in (told["read"], told["whole"], plain["check"]))
    if kind == programs.KINDS[0]:
        show(f"{name}: read", read, int(plain["read"]))
    show(f"{name}: check {kind}", both - read, check)
    show(f"{name}: check_parallel {kind}", whole, check)


def main(rounds):
    colock = programs.built()
    with tempfile.TemporaryDirectory() as folder:
        library, plain = programs.library_of_rust(folder), programs.plain(folder, "plain_check")
        print(f"{os.cpu_count()} processors, least of {rounds} rounds")
        print(f"{'':34} {'colock':>12} {'plain':>12} {'ratio':>7}")
        for name, text in type_texts.timed():
            path = programs.written(folder, "file.type", text)
            start = least_run([colock, "check", "escrow", path], rounds)
            for kind in programs.KINDS:
                told = programs.printed([library, "types", kind, path, rounds])
                whole = least_run([colock, "check", kind, path], rounds) - start
                show_kind(name, kind, told, programs.printed([plain, kind, path, rounds]), whole)
