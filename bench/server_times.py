"""Times of `colockd` beside a bare server, and PostgreSQL and Redis where they are on the machine: bookings of one hot counter."""
import json
import os
import re
import shutil
import signal
import subprocess
import tempfile
import time
import urllib.request
from contextlib import contextmanager

import programs
from programs import HERE, ROOT

CONNECTIONS = programs.few((1, 16, 64, 256), (1, 2))
# For how many seconds it is looked what the server takes at rest, and a load goes on at the least.
REST, LEAST = programs.few((5, 5), (1, 1))
# A booking takes one of so many.
MANY = 4_294_967_295
HOT = f"number hot\nmax {MANY}\ninitial {MANY}\ntake 1\nend\n"
STATEMENT = "update stock set n = n - 1 where id = 0 and n >= 1;\n"
STATEMENTS = {"one statement": STATEMENT, "a millisecond between two": f"begin;\n{STATEMENT}\\sleep 1 ms\ncommit;\n"}
SCRIPT = "local n = tonumber(redis.call('get', KEYS[1])) if n < 1 then return 'short' end redis.call('set', KEYS[1], n - 1) return 'ok'"


def released():
    """The folder of the server and of what asks it, made by cargo."""
    subprocess.run(["cargo", "build", "--offline", "--quiet", *programs.RELEASE], cwd=ROOT, check=True)
    return os.path.join(os.environ.get("CARGO_TARGET_DIR") or os.path.join(ROOT, "target"), programs.RELEASED)


# ---- the server

class Server:
    """A server in a folder, with the hot counter."""

    def __init__(self, built, colock, folder):
        command = [os.path.join(built, "colockd"), "--data", os.path.join(folder, "data"), "--listen", "127.0.0.1:0", "--program", colock, "--log", "json",
                   "--most-open", "1024", "--slow", "60000"]
        start = time.monotonic()
        self.process = subprocess.Popen(command, stderr=subprocess.PIPE, text=True)
        lines = (json.loads(line) for line in self.process.stderr if line.startswith("{"))
        ready = next(line for line in lines if line["message"] == "ready")
        self.started, self.port = time.monotonic() - start, int(ready["address"].rsplit(":", 1)[1])
        # what it says later is in nobody's way
        self.drain = subprocess.Popen(["cat"], stdin=self.process.stderr, stdout=subprocess.DEVNULL)
        self.put("/v1/types/hot", HOT.encode())
        self.put("/v1/objects/hot", b'{"type": "hot", "recovery": "escrow"}')

    def put(self, path, body):
        urllib.request.urlopen(urllib.request.Request(f"http://127.0.0.1:{self.port}{path}", body, method="PUT"), timeout=60).close()

    def metric(self, name):
        with urllib.request.urlopen(f"http://127.0.0.1:{self.port}/metrics", timeout=60) as answer:
            return float(re.search(rf"^colockd_{name} (\S+)$", answer.read().decode(), re.M)[1])

    def processor(self):
        """The seconds of processor time of the server and its child."""
        told = subprocess.run(["ps", "-o", "pid=", "--ppid", str(self.process.pid)], capture_output=True, text=True, check=True).stdout
        return [seconds_of(int(number)) for number in (self.process.pid, told.split()[0])]

    def most_memory(self):
        with open(f"/proc/{self.process.pid}/status", encoding="ascii") as file:
            return int(re.search(r"VmHWM:\s+(\d+)", file.read())[1]) / 1_000

    def end(self):
        self.process.send_signal(signal.SIGTERM)
        self.process.wait(300)
        self.drain.wait(60)


def seconds_of(number):
    with open(f"/proc/{number}/stat", encoding="ascii") as file:
        return sum(map(int, file.read().rsplit(")", 1)[1].split()[11:13])) / os.sysconf("SC_CLK_TCK")


@contextmanager
def bare(built):
    """The port of a server that answers at once."""
    process = subprocess.Popen([os.path.join(built, "bare")], stdout=subprocess.PIPE, text=True)
    try:
        yield int(process.stdout.readline())
    finally:
        process.kill()
        process.wait()


def load(built, kind, port, connections, seconds):
    """Bookings a second, and how long half, 99 of 100 and the longest took, in microseconds."""
    told = subprocess.run([os.path.join(built, "load"), kind, str(port), str(connections), str(seconds)], capture_output=True, text=True, check=True)
    return tuple(map(int, told.stdout.split()))


def of_server(built, server, seconds):
    """Prints what the server does, and a bare one."""
    best = {}
    for connections in CONNECTIONS:
        with bare(built) as port:
            limit = load(built, "attempts", port, connections, seconds)[0]
        for kind in ("attempts", "transactions", "lists"):
            before = server.metric("epochs_total")
            rate, half, most, longest = load(built, kind, server.port, connections, seconds)
            best[connections] = max(best.get(connections, 0), rate) if kind == "attempts" else best[connections]
            epochs, part = server.metric("epochs_total") - before, f", {rate / limit:.2f} of a bare server's {limit}" if kind == "attempts" else ""
            print(f"colockd, {kind}, {connections} connections: {rate} bookings a second{part}; half took {half} us, 99 of 100 {most} us ({most / half:.1f} times),"
                  f" the longest {longest} us, {epochs:.0f} epochs ended", flush=True)
    return best


def at_rest(server):
    before = server.processor()
    time.sleep(REST)
    used = [after - then for after, then in zip(server.processor(), before)]
    print(f"colockd: ready in {server.started:.2f} s, at most {server.most_memory():.0f} MB, and at rest {used[0]:.2f} s of the processor in {REST} s, its store {used[1]:.2f} s")


# ---- those beside it

@contextmanager
def postgres(folder):
    """What runs a program at a PostgreSQL of its own, and the folder of its socket."""
    room = os.path.join(folder, "postgres")
    os.mkdir(room)
    shutil.chown(room, "nobody")

    def run(*words):
        return subprocess.run(["runuser", "-u", "nobody", "--", *words], check=True, capture_output=True, text=True, cwd=room).stdout

    data = os.path.join(room, "data")
    run("initdb", "-D", data, "-A", "trust", "-U", "nobody")
    run("pg_ctl", "-D", data, "-w", "-o", f"-k {room} -c listen_addresses='' -c max_connections=300", "-l", os.path.join(room, "log"), "start")
    try:
        run("psql", "-h", room, "-d", "postgres", "-c", f"create table stock(id int primary key, n bigint); insert into stock values(0, {MANY})")
        yield run, room
    finally:
        run("pg_ctl", "-D", data, "-m", "immediate", "stop")


def of_postgres(folder, seconds):
    """Prints what one hot row does; the most bookings a second in one statement."""
    if not all(map(shutil.which, ("initdb", "pg_ctl", "pgbench", "runuser"))):
        print("PostgreSQL isn't here")
        return None
    best = 0
    with postgres(folder) as (run, room):
        for name, text in STATEMENTS.items():
            script = os.path.join(room, name.replace(" ", "_") + ".sql")
            programs.written(room, os.path.basename(script), text)
            for clients in (*CONNECTIONS[:2], 4, 32, *CONNECTIONS[2:]):
                told = run("pgbench", "-h", room, "-n", "-M", "prepared", "-c", str(clients), "-j", "2", "-T", str(max(seconds, LEAST)), "-f", script, "postgres")
                rate = float(re.search(r"tps = ([0-9.]+)", told)[1])
                best = max(best, rate) if name == "one statement" else best
                print(f"PostgreSQL, one row, {name}, {clients} clients: {rate:.0f} bookings a second", flush=True)
    return best


def of_redis(folder, seconds):
    """Prints what a script at one key does that is synced each time."""
    if not all(map(shutil.which, ("redis-server", "redis-cli", "redis-benchmark"))):
        print("Redis isn't here")
        return
    room = os.path.join(folder, "redis")
    os.mkdir(room)
    path = os.path.join(room, "socket")
    words = ["redis-server", "--port", "0", "--unixsocket", path, "--dir", room, "--appendonly", "yes", "--appendfsync", "always", "--save", ""]
    process = subprocess.Popen(words, stdout=subprocess.DEVNULL)
    try:
        until(lambda: os.path.exists(path))
        subprocess.run(["redis-cli", "-s", path, "set", "hot", str(MANY)], check=True, capture_output=True)
        for clients in CONNECTIONS:
            count, took = 200 * clients, 0.0
            while took < seconds / 2:
                start = time.monotonic()
                subprocess.run(["redis-benchmark", "-s", path, "-c", str(clients), "-n", str(count), "-q", "eval", SCRIPT, "1", "hot"], check=True, capture_output=True)
                took, done, count = time.monotonic() - start, count, count * 4
            print(f"Redis, one script, appendfsync always, {clients} clients: {done / took:.0f} bookings a second", flush=True)
    finally:
        process.terminate()
        process.wait()


def until(test, seconds=20):
    end = time.monotonic() + seconds
    while not test():
        if time.monotonic() > end:
            raise TimeoutError(f"not within {seconds} s")
        time.sleep(0.02)


def main(seconds):
    """One run on one disk: the folder is beside this file, and not in /tmp, which may be memory."""
    built, loaded = released(), programs.few(seconds, 0.2)
    with tempfile.TemporaryDirectory(dir=HERE) as folder:
        os.chmod(folder, 0o755)
        server = Server(built, programs.built(), folder)
        try:
            best = of_server(built, server, loaded)
            at_rest(server)
        finally:
            server.end()
        one = of_postgres(folder, seconds)
        of_redis(folder, seconds)
        for connections, rate in best.items():
            if one:
                print(f"{connections} connections: {rate / one:.2f} times the hot row's most in one statement")
