"""A server for tests: started over a program, asked over HTTP, and ended.

COLOCKD names the server, and COLOCK the program `colock`; without it the fake beside this file stands in. What needs the fake is
left out over the program, and what needs the program over the fake.
"""
import http.client
import json
import os
import shutil
import signal
import subprocess
import tempfile
import threading
import time
import unittest
from contextlib import contextmanager

HERE = os.path.dirname(os.path.abspath(__file__))
EXAMPLES = os.path.join(HERE, "..", "..", "examples")
FAKE = os.path.join(HERE, "fake_colock")
PROGRAM = os.environ.get("COLOCK") or FAKE
TARGET = os.environ.get("CARGO_TARGET_DIR") or os.path.join(HERE, "..", "..", "target")
SERVER = os.environ.get("COLOCKD") or os.path.join(TARGET, "debug", "colockd")
IS_FAKE = PROGRAM == FAKE
of_fake = unittest.skipUnless(IS_FAKE, "only the fake does this")
of_program = unittest.skipIf(IS_FAKE, "the fake doesn't do this")


class Answer:
    """A status, its headers and its body."""

    def __init__(self, response):
        self.status, self.headers, self.body = response.status, response.headers, response.read()

    @property
    def json(self):
        return json.loads(self.body)

    @property
    def problem(self):
        """The name of the problem."""
        assert self.headers["content-type"] == "application/problem+json", (self.status, self.body)
        assert self.json["status"] == self.status, self.body
        return self.json["type"].removeprefix("/problems/")


class Served:
    """A server in a folder of its own, which stays between two starts."""

    def __init__(self, *words, program=PROGRAM):
        self.folder = tempfile.mkdtemp(prefix="colockd-")
        self.data, self.words, self.program = os.path.join(self.folder, "data"), words, program
        self.process, self.port, self.lines = None, None, []
        self.start()

    # ---- how it starts and ends

    def start(self, **environment):
        command = [SERVER, "--data", self.data, "--listen", "127.0.0.1:0", "--log", "json", "--program", self.program, *self.words]
        self.process = subprocess.Popen(command, stdout=subprocess.DEVNULL, stderr=subprocess.PIPE, text=True, env={**os.environ, **environment})
        self.lines, ready = [], threading.Event()
        threading.Thread(target=self.listen, args=(self.process.stderr, self.lines, ready), daemon=True).start()
        if not ready.wait(240) or self.port is None:
            self.kill()
            raise AssertionError(f"it didn't get ready: {self.lines}")

    def listen(self, stream, lines, ready):
        for line in stream:
            lines.append(line)
            said = json.loads(line) if line.startswith("{") else {}
            if said.get("message") == "ready":
                self.port = int(said["address"].rsplit(":", 1)[1])
                ready.set()
        ready.set()

    def log(self):
        return "".join(self.lines)

    def end(self, wanted=0):
        """Ends it in order."""
        self.process.send_signal(signal.SIGTERM)
        try:
            status = self.process.wait(60)
        except subprocess.TimeoutExpired:
            self.kill()
            raise
        assert status == wanted, (status, self.lines)

    def kill(self):
        """Kills it, and with it its store."""
        child = self.store()
        self.process.kill()
        self.process.wait()
        if child:
            os.kill(child, signal.SIGKILL)

    def store(self):
        """The number of the store's process."""
        told = subprocess.run(["ps", "-o", "pid=", "--ppid", str(self.process.pid)], capture_output=True, text=True, check=False)
        return next((int(word) for word in told.stdout.split()), None)

    def kill_store(self):
        child = self.store()
        os.kill(child, signal.SIGKILL)
        return child

    def close(self):
        if self.process.poll() is None:
            self.end()
        self.process.stderr.close()
        shutil.rmtree(self.folder)

    def misbehave(self, **how):
        """The fake does this when it is started next."""
        with open(os.path.join(self.data, "fake.json"), "w", encoding="utf-8") as file:
            json.dump(how, file)

    # ---- what is asked

    def connection(self):
        return http.client.HTTPConnection("127.0.0.1", self.port, timeout=60)

    def ask(self, method, path, body=None, headers=None, connection=None):
        own = connection or self.connection()
        if body is not None and not isinstance(body, (str, bytes)):
            body = json.dumps(body)
        own.request(method, path, body, headers or {})
        answer = Answer(own.getresponse())
        if connection is None:
            own.close()
        return answer

    def get(self, path, **headers):
        return self.ask("GET", path, headers=headers)

    def post(self, path, body=None, headers=None):
        return self.ask("POST", path, body if body is not None else "", headers)

    def put(self, path, body, headers=None):
        return self.ask("PUT", path, body, headers)

    # ---- what is often asked

    def add(self, of, recovery, *names):
        """Objects of a type of the examples."""
        with open(os.path.join(EXAMPLES, of + ".type"), encoding="ascii") as file:
            answer = self.put(f"/v1/types/{of}", file.read())
        assert answer.status in (200, 201), answer.body
        answer = self.post("/v1/objects", {"objects": [{"name": name, "type": of, "recovery": recovery} for name in names]})
        assert answer.status == 201, answer.body

    def attempt(self, *calls, key=None, wait=0):
        return self.post("/v1/attempts", {"calls": calls_of(calls), "wait": wait}, {"Idempotency-Key": key} if key else {})

    def begin(self, **how):
        answer = self.post("/v1/transactions", how)
        assert answer.status == 201, answer.body
        return Transaction(self, answer.json["id"])

    def state(self, name):
        return self.get(f"/v1/objects/{name}").json["state"]


class Transaction:
    """An open transaction."""

    def __init__(self, served, name):
        self.served, self.name, self.path = served, name, f"/v1/transactions/{name}"

    def call(self, *calls, wait=0):
        return self.served.post(self.path + "/calls", {"calls": calls_of(calls), "wait": wait})

    def commit(self, key=None):
        return self.served.post(self.path + "/commit", headers={"Idempotency-Key": key} if key else {})

    def abort(self):
        return self.served.post(self.path + "/abort")

    def rollback(self, count):
        return self.served.post(self.path + "/rollback", {"count": count})

    def prepare(self, key, seconds):
        return self.served.post(self.path + "/prepare", {"key": key, "for": seconds})

    def known(self):
        return self.served.get(self.path).json


def calls_of(calls):
    return [{"object": name, "call": call} for name, call in calls]


@contextmanager
def served(*words, **how):
    """A server that is ended behind it."""
    one = Served(*words, **how)
    try:
        yield one
    except BaseException:
        print(one.log())
        raise
    finally:
        one.close()


def until(test, seconds=60):
    """Waits until something is so."""
    end = time.monotonic() + seconds
    while time.monotonic() < end:
        found = test()
        if found:
            return found
        time.sleep(0.02)
    raise AssertionError(f"not within {seconds} s")


class InBackground(threading.Thread):
    """Something that is asked meanwhile."""

    def __init__(self, ask):
        super().__init__(daemon=True)
        self.ask, self.answer = ask, None
        self.start()

    def run(self):
        self.answer = self.ask()

    def result(self, seconds=60):
        self.join(seconds)
        assert not self.is_alive(), f"no answer within {seconds} s"
        return self.answer
