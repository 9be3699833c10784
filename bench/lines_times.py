"""Times of the readers of texts, by the line, beside a plain Rust reader.

A type file is read by the library, as in `check_times`. A script is read by the whole program `colock run`: the text has no
line `end`, so that it is read to its last line and refused then. The plain program is timed in the same manner.
"""
import subprocess
import sys
import tempfile

import check_times
import programs
import scripts
import type_texts

COMMANDS = programs.few(1_000_000, 10_000)


def show(name, lines, ours, plain):
    print(f"{name:22} {lines:9} {ours / lines:9.1f} {plain / lines:9.1f} {ours / plain:7.2f}", flush=True)


def time_types(folder, library, plain, rounds):
    for name, text in type_texts.timed():
        path = programs.written(folder, "file.type", text)
        ours, theirs = [], []
        for _ in range(programs.TURNS):
            told, beside = programs.printed([library, "types", "escrow", path, rounds]), programs.printed([plain, "type", path, rounds])
            if beside["outcome"] != "read" or told["lines"] != beside["lines"]:
                sys.exit(f"{name}: {beside}")
            ours.append(int(told["read"]))
            theirs.append(int(beside["read"]))
        show(name, int(told["lines"]), min(ours), min(theirs))


def time_script(folder, colock, plain, rounds):
    lines = scripts.reading(COMMANDS)[:-1]
    path = programs.written(folder, "endless.script", "\n".join([*lines, ""]))
    modulo = programs.written(folder, "modulo.type", type_texts.modulo())
    ours, theirs = [colock, "run", path, modulo], [plain, "script", path, "1"]
    refused = subprocess.run(ours, capture_output=True, text=True, check=False)
    said = programs.printed(theirs)["outcome"]
    if refused.returncode != 2 or said != f"line {len(lines) + 1}: Missing" or str(len(lines) + 1) not in refused.stderr:
        sys.exit(f"script: {refused.stderr}{said}")
    times = [[check_times.least_run(words, rounds) for words in (ours, theirs)] for _ in range(programs.TURNS)]
    show("script", len(lines), *map(min, zip(*times)))


def main(rounds):
    with tempfile.TemporaryDirectory() as folder:
        colock, library = programs.built(), programs.library_of_rust(folder)
        plain = programs.plain(folder, "plain_lines")
        print(f"least of {programs.TURNS} turns of {rounds} rounds, nanoseconds a line")
        print(f"{'':22} {'lines':>9} {'colock':>9} {'plain':>9} {'ratio':>7}")
        time_types(folder, library, plain, rounds)
        time_script(folder, colock, plain, rounds)
