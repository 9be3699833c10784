"""Times of `colock serve` beside a loop of writes and syncs, SQLite's C library, and PostgreSQL where it is."""
import itertools
import os
import re
import shutil
import subprocess
import tempfile

import programs
import type_texts
from programs import HERE

WINDOWS = (1, 16, 64)
COUNT = programs.few(2_000, 64)
# Commits under keys, in so many turns, and how many keys there are before.
KEYED, TURNS, BEFORE = programs.few((100_000, 5, (0, 1_000_000)), (100, 1, (0, 1_000)))
# Behind so many transactions of one call, and five events more, an epoch of 32,768 events is full.
EPOCH = 10_921


def driver(folder):
    """The program that asks, waits and times."""
    return programs.compiled(folder, "durable", "rustc", *programs.OPTIMIZED, "--edition", "2024", os.path.join(HERE, "durable.rs"))


def seconds(program, *words):
    return [float(word) for word in subprocess.run([program, *map(str, words)], check=True, capture_output=True, text=True).stdout.split()]


def database(colock, folder, name):
    """A new database of one counter that nothing conflicts at."""
    path = os.path.join(folder, name)
    subprocess.run([colock, "create", path, os.path.join(folder, "one.objects"), os.path.join(folder, "modulo.type")], check=True)
    return path


def syncs(colock, program, folder, window, options):
    """How often `serve` asks for a sync, of which a commit of its log takes two, or one where it is fast."""
    path, log = database(colock, folder, f"traced{window}{''.join(options)}.db"), os.path.join(folder, "trace")
    words = ["strace", "-f", "-qq", "-e", "trace=fsync,fdatasync", "-o", log, program, "serve", colock, path, str(window), str(COUNT), *options]
    subprocess.run(words, check=True, capture_output=True)
    with open(log, encoding="ascii") as file:
        return len(re.findall("fdatasync|fsync", file.read()))


def postgres(folder):
    """Commits a second at one row with this many clients, where PostgreSQL is on the machine."""
    if not all(map(shutil.which, ("initdb", "pg_ctl", "pgbench", "runuser"))):
        return {}
    room = os.path.join(folder, "postgres")
    os.mkdir(room)
    shutil.chown(room, "nobody")
    os.chmod(folder, 0o755)
    script = os.path.join(room, "hot.sql")
    with open(script, "w", encoding="ascii") as file:
        file.write("begin; update stock set n = n + 1 where id = 0; commit;\n")

    def run(*words):
        return subprocess.run(["runuser", "-u", "nobody", "--", *words], check=True, capture_output=True, text=True, cwd=room).stdout

    data = os.path.join(room, "data")
    run("initdb", "-D", data, "-A", "trust", "-U", "nobody")
    run("pg_ctl", "-D", data, "-w", "-o", f"-k {room} -c listen_addresses=''", "-l", os.path.join(room, "log"), "start")
    try:
        run("psql", "-h", room, "-d", "postgres", "-c", "create table stock(id int primary key, n int); insert into stock values(0, 0)")
        found = {}
        for clients in (1, 16):
            told = run("pgbench", "-h", room, "-n", "-c", str(clients), "-j", "2", "-T", programs.few("5", "1"), "-f", script, "postgres")
            found[clients] = float(re.search(r"tps = ([0-9.]+)", told)[1])
        return found
    finally:
        run("pg_ctl", "-D", data, "-m", "immediate", "stop")


def opening(colock, program, folder):
    """The seconds that it takes to open 32,763 events, an epoch that is nearly full."""
    path = database(colock, folder, "full.db")
    subprocess.run([program, "fill", colock, path, str(EPOCH)], check=True)
    return seconds(program, "open", colock, path)[0]


def epoch(colock, program, folder, *options):
    """The seconds that a request waits while an epoch of 32,768 events ends and another begins, and those of one before."""
    path = database(colock, folder, f"epoch{len(options)}.db")
    return seconds(program, "epoch", colock, path, EPOCH, *options)


def keys(colock, program, folder):
    """How much longer commits take under keys, where so many outcomes are there before: by three lines and by one."""
    for before in BEFORE:
        path = database(colock, folder, f"keys{before}.db")
        if before:
            seconds(program, "whole-keys", colock, path, 1_000, before)
        for way in ("serve", "whole"):
            plain, keyed = (min(seconds(program, f"{way}{kind}", colock, path, 64, KEYED)[0] for _ in range(TURNS)) for kind in ("", "-keys"))
            yield f"{way}, behind {before} keys: {keyed / plain:.2f} of the time without"


def main():
    """One run on one disk: the folder is beside this file, and not in /tmp, which may be memory."""
    with tempfile.TemporaryDirectory(dir=HERE) as folder:
        colock, program = programs.built(), driver(folder)
        programs.written(folder, "one.objects", "object undo 0\nend\n")
        programs.written(folder, "modulo.type", type_texts.modulo())
        once = COUNT / seconds(program, "sqlite", os.path.join(folder, "sqlite.db"), COUNT)[0]
        print(f"SQLite, an UPDATE each: {once:.0f} commits a second")
        for window, options in itertools.product(WINDOWS, ((), ("--fast",))):
            took = seconds(program, "serve", colock, database(colock, folder, f"{window}{''.join(options)}.db"), window, COUNT, *options)[0]
            loop = COUNT / seconds(program, "loop", os.path.join(folder, "loop"), window, COUNT)[0]
            groups = syncs(colock, program, folder, window, options) / (1 if options else 2)
            rate, groups_rate = COUNT / took, groups / took
            print(f"{' '.join((str(window), *options))} in flight: {rate:.0f} commits a second, {COUNT / groups:.1f} a group, {groups_rate:.0f} groups a second,"
                  f" {groups_rate / loop:.2f} of the loop's {loop:.0f} syncs, {rate / once:.1f} of SQLite")
        for clients, rate in postgres(folder).items():
            print(f"PostgreSQL, one row, {clients} clients: {rate:.0f} commits a second")
        print(*keys(colock, program, folder), sep="\n")
        print(f"32,763 events are opened in {opening(colock, program, folder):.2f} s")
        archive = os.path.join(folder, "archive")
        os.mkdir(archive)
        for options in ((), ("--archive", archive)):
            waited, before = epoch(colock, program, folder, *options)
            print(f"{' '.join(('a new epoch', *options[:1]))}: behind 32,768 events a request waits {waited:.3f} s, and one before waited {1e6 * before:.0f} us")
