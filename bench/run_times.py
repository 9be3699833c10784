"""Times and memory of `colock run` and `colock audit` beside those of a plain Rust program."""
import hashlib
import os
import subprocess
import sys
import tempfile
import time

import programs
import type_texts
from programs import HERE, KINDS

COMMANDS = programs.few(1_000_000, 10_000)

# The calls of a script, by its type, and the greatest number of the counter.
CALLS = {"modulo": ["inc:1"], "counter": ["inc:1", "dec:1"]}
MOST = 1000

# Events, transactions and objects of a history that no program here has run.
WIDE = programs.few((1_000_000, 300_000, 256), (10_000, 3_000, 256))


def written(folder, name, words):
    """A text that `scripts.py` makes. Its process is one of its own, so that this one stays small: a
    program is charged the memory of the process that starts it."""
    path = os.path.join(folder, name)
    with open(path, "w", encoding="ascii") as file:
        subprocess.run([sys.executable, os.path.join(HERE, "scripts.py"), *map(str, words)],
                       check=True, stdout=file)
    return path


def write_types(folder):
    written(folder, "counter.type", ["counter", MOST])
    programs.written(folder, "modulo.type", type_texts.modulo())


def once(command, output):
    """The seconds, the processor's seconds and the most bytes of a run, and its status."""
    start = time.perf_counter()
    run = subprocess.Popen(command, stdout=output)
    _, status, used = os.wait4(run.pid, 0)
    seconds = time.perf_counter() - start
    run.returncode = os.waitstatus_to_exitcode(status)
    return seconds, used.ru_utime + used.ru_stime, used.ru_maxrss * 1024, run.returncode


def digest(path):
    with open(path, "rb") as file:
        return hashlib.file_digest(file, "sha256").hexdigest()


def outputs(folder, both, words):
    """Where each program's output is, of which the bytes must be the same."""
    paths = [os.path.join(folder, f"output{place}") for place in range(len(both))]
    for program, path in zip(both, paths):
        with open(path, "wb") as file:
            status = once([program, *words], file)[3]
        if status != 0:
            sys.exit(f"{program} {' '.join(words)}: status {status}")
    if len({digest(path) for path in paths}) > 1:
        sys.exit(f"{' '.join(words)}: the outputs differ")
    return paths


def least(both, words, rounds):
    """Of each program the least seconds, processor's seconds and bytes, by turns."""
    seen = [[] for _ in both]
    with open(os.devnull, "wb") as nowhere:
        for _ in range(rounds):
            for runs, program in zip(seen, both):
                runs.append(once([program, *words], nowhere)[:3])
    return [[min(run[place] for run in runs) for place in range(3)] for runs in seen]


def show_header():
    print(f"{'nanoseconds a line, MB':34} {'colock':>8} {'plain':>8} {'ratio':>6}   {'cpu':>8} {'plain':>8} "
          f"{'ratio':>6}   {'memory':>8} {'plain':>8} {'ratio':>6}")


def show(title, lines, figures):
    """A row: time, processor time and memory of both programs, each with its ratio."""
    ours, plain = figures
    row = f"{title:34}"
    for place, scale in ((0, 1e9 / lines), (1, 1e9 / lines), (2, 1e-6)):
        ratio = ours[place] / plain[place]
        row += f" {ours[place] * scale:8.1f} {plain[place] * scale:8.1f} {ratio:6.2f}  "
    print(row.rstrip(), flush=True)


def show_parts(plain, words, lines, rounds):
    """The parts of the plain program's time."""
    text = subprocess.run([plain, f"times-{words[0]}", *words[1:]], check=True, capture_output=True, text=True).stdout
    parts = [line.split(" ") for line in text.split("\n") if line]
    print(f"{'    plain, by its parts':34} " + ", ".join(f"{name} {int(time) / lines:.1f}" for name, time in parts))
    streamed = least([plain], [f"stream-{words[0]}", *words[1:]], rounds)[0]
    print(f"{'    plain, nothing held':34} {streamed[0] * 1e9 / lines:.1f} ns, {streamed[2] * 1e-6:.1f} MB", flush=True)


def cases(folder):
    """Each script with its title and its type."""
    for name, calls in CALLS.items():
        for kind in KINDS:
            path = written(folder, f"{name}.{kind}.script", ["script", kind, COMMANDS, *calls])
            yield f"{name}, {kind}", path, os.path.join(folder, name + ".type")


def time_run(folder, both, rounds):
    for title, script, of in cases(folder):
        words = ["run", script, of]
        outputs(folder, both, words)
        show(title, COMMANDS, least(both, words, rounds))
        show_parts(both[-1], words, COMMANDS, rounds)


def lines_of(path):
    with open(path, "rb") as file:
        return sum(1 for _ in file)


def time_audit(folder, both, rounds):
    histories = []
    for title, script, of in cases(folder):
        path = script.replace(".script", ".history")
        os.rename(outputs(folder, both[-1:], ["run", script, of])[0], path)
        histories.append((title + ", run", path, of))
    wide = written(folder, "wide.history", ["history", *WIDE, MOST])
    histories.append(("300,000 transactions, 256 objects", wide, os.path.join(folder, "counter.type")))
    for title, path, of in histories:
        words, lines = ["audit", path, of], lines_of(path)
        outputs(folder, both, words)
        show(title, lines, least(both, words, rounds))
        show_parts(both[-1], words, lines, rounds)


def main(what, rounds):
    with tempfile.TemporaryDirectory() as folder:
        write_types(folder)
        both = [programs.built(), programs.plain(folder, "plain_run", "plain_run/main.rs")]
        print(f"{os.cpu_count()} processors, least of {rounds} rounds")
        show_header()
        (time_run if what == "run" else time_audit)(folder, both, rounds)
