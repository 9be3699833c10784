"""Times of texts and files of many objects, up to the most that there may be: each is to take as long for each object.

And of stores in memory of many objects, and of many transactions that are open at one.
"""
import os
import re
import subprocess
import tempfile
import threading
import time

import programs
import type_texts

COUNTS = programs.few((16_384, 32_768, 65_536), (256, 512))
# A file has so many events beside its objects: begin, two calls and commit, in so many groups of lines.
TRANSACTIONS, GROUP = programs.few(25_000, 500), 500


def objects_of(count):
    return f"objects {count}\n" + "object undo 0\n" * count


def history_of(count):
    """A transaction for each object, which counts up there."""
    events = "".join(f"begin 0 {x}\nop 0 {x} {x} 0\ncommit 0 {x}\n" for x in range(count))
    return f"{objects_of(count)}{events}end\n"


def script_of(count):
    commands = "".join(f"begin\ncall {x} {x} inc:1\ncommit {x}\n" for x in range(count))
    return f"objects {count}\nmax 1000000\n" + "object undo 0\n" * count + f"{commands}end\n"


def seconds(rounds, words):
    """The least seconds that a command takes, which has to say yes."""
    found = []
    for _ in range(rounds):
        start = time.perf_counter()
        subprocess.run(words, check=True, stdout=subprocess.DEVNULL)
        found.append(time.perf_counter() - start)
    return min(found)


def creating(colock, path, folder):
    """The seconds that a new file takes, in place of one that is there with its log."""
    for there in filter(os.path.exists, (path, f"{path}-wal")):
        os.unlink(there)
    return seconds(1, [colock, "create", path, os.path.join(folder, "objects"), os.path.join(folder, "modulo.type")])


def filled(colock, path, count):
    """Puts 100,000 events into a file, at all its objects in turn. The service is killed, so that they stay."""
    lines = [f"a begin\na call 1.{t} {t % count} inc:1\na call 1.{t} {count - 1 - t % count} inc:1\na commit 1.{t}\n" for t in range(TRANSACTIONS)]
    with subprocess.Popen([colock, "serve", path], stdin=subprocess.PIPE, stdout=subprocess.PIPE, stderr=subprocess.DEVNULL) as service:
        asking = threading.Thread(target=asked, args=(service, lines))
        asking.start()
        for _ in range(1 + 4 * TRANSACTIONS):
            service.stdout.readline()
        asking.join()
        service.kill()


def asked(service, lines):
    for at in range(0, len(lines), GROUP):
        service.stdin.write("".join(lines[at : at + GROUP]).encode())
        service.stdin.flush()


def opening(colock, path):
    """The seconds that opening takes, as the service says, and how many events it found. It is killed when it greets."""
    with subprocess.Popen([colock, "serve", path], stdin=subprocess.PIPE, stdout=subprocess.PIPE, stderr=subprocess.PIPE) as service:
        service.stdout.readline()
        service.kill()
        told = service.stderr.read().decode()
    events, took = re.search(r": (\d+) events, 0 aborted, (\d+) ms", told).groups()
    return int(took) / 1000, int(events)


def times(colock, rounds, count, folder):
    """Of each row its name and the seconds."""
    put = lambda name, text: programs.written(folder, name, text)
    put("objects", f"{objects_of(count)}end\n")
    path, modulo = os.path.join(folder, "a.db"), os.path.join(folder, "modulo.type")
    yield "create", min(creating(colock, path, folder) for _ in range(rounds))
    yield "serve: open, no events", min(opening(colock, path)[0] for _ in range(rounds))
    yield "history", seconds(rounds, [colock, "history", path])
    creating(colock, path, folder)
    filled(colock, path, count)
    opened = [opening(colock, path) for _ in range(rounds)]
    if any(events != 4 * TRANSACTIONS for _, events in opened):
        raise SystemExit(f"{opened}, and not {4 * TRANSACTIONS} events")
    yield "serve: open, 100,000 events", min(took for took, _ in opened)
    yield "audit --database, 100,000 events", seconds(rounds, [colock, "audit", "--database", path])
    yield "audit, no events", seconds(rounds, [colock, "audit", put("a.history", f"{objects_of(count)}end\n"), modulo])
    yield "audit, three events an object", seconds(rounds, [colock, "audit", put("a.history", history_of(count)), modulo])
    yield "run, three commands an object", seconds(rounds, [colock, "run", put("a.script", script_of(count)), modulo])


def show_memory(folder, rounds):
    """A commit by how many objects there are, and by how many transactions are open at its object, and at another."""
    many = programs.library_of_c(folder, "many")
    files = {"undo": "modulo.type", "intentions": "modulo.type", "escrow": "taken.type"}
    print(f"{'nanoseconds of a commit, least of':34} {rounds} rounds")
    for kind, name in files.items():
        call = "give:1" if kind == "escrow" else "inc:1"
        told = subprocess.run([many, kind, os.path.join(folder, name), call, str(rounds)], check=True, capture_output=True, text=True).stdout
        for what, count, *found in map(str.split, told.splitlines()):
            rest = f"{found[0]:>9} anew {found[1]:>7} ms" if what == "objects" else f"{found[0]:>9} there {found[1]:>7} elsewhere"
            print(f"{kind + ', ' + what:24}{int(count):>10,}{rest}", flush=True)


def main(rounds):
    colock = programs.built()
    found = {}
    with tempfile.TemporaryDirectory(dir=programs.HERE) as folder:
        programs.written(folder, "modulo.type", type_texts.modulo())
        for count in COUNTS:
            for name, took in times(colock, rounds, count, folder):
                found.setdefault(name, []).append(took)
    print(f"{'milliseconds, by objects':34}" + "".join(f"{count:>9,}" for count in COUNTS) + "    twice as many")
    for name, row in found.items():
        more = max(after / before for before, after in zip(row, row[1:]))
        print(f"{name:34}" + "".join(f"{1000 * took:9.0f}" for took in row) + f"{more:10.2f}")
    with tempfile.TemporaryDirectory() as folder:
        programs.written(folder, "modulo.type", type_texts.modulo())
        programs.written(folder, "taken.type", "number taken\nmax 4294967295\ninitial 0\ngive 1\nend\n")
        show_memory(folder, rounds)
