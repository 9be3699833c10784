"""What the tests share: stores of both backends, threads with a result, and programs that answer as they like.

With COLOCK_TESTS=quick in the environment what takes seconds is left out.
"""
import os
import sqlite3
import sys
import tempfile
import threading
import time
import unittest
import warnings
from contextlib import closing

import colock
from colock._program import find_program

QUICK = os.environ.get("COLOCK_TESTS") == "quick"
# How long a test waits for what has to come.
SOON = 20.0
# How long a call waits that is to be woken: who isn't woken is found out by SOON.
LONG = 600.0

# Two calls that are legal at any time, and each of which is in the way of the other.
TWO = """type two
states 1
initial 0
op take ok
op give ok
step 0 0 0
step 0 1 0
conflict undo 0 1
conflict undo 1 0
conflict intentions 0 1
conflict intentions 1 0
end
"""

# A number from 0 to 5, at 3: one is given or two are taken, and there may not be two. Its set lacks the initial
# state, so it is refused for any kind that looks at the set.
FIVE = """type five
states 6
initial 3
op give:1 ok
op take:2 ok
op take:2 short
step 0 0 1
step 0 2 0
step 1 0 2
step 1 2 1
step 2 0 3
step 2 1 0
step 3 0 4
step 3 1 1
step 4 0 5
step 4 1 2
step 5 1 3
reach 0
end
"""

# The text of a type whose yes is one-way in place, as the checker says (cases/verdicts.cases).
ONE_WAY = """type oneway
states 5
initial 0
op p ok
op q ok
op r ok
step 0 0 2
step 0 1 1
step 1 0 3
step 2 1 4
step 4 2 4
equi 3 4
conflict undo 1 0
conflict undo 2 1
end
"""

# A purse, of which any amount is taken and given, 100 by a line of its own, and what is in it is told.
PURSE = "number purse\nmax 10000\ninitial 500\ntake 100\ntake any\ngive any\nvalue\nend\n"


def one_way():
    """A type of which a store in a file may have an object, and then aborts what is open where an epoch ends."""
    return colock.Type(ONE_WAY)


def program():
    """The path of the program. A test that needs it fails in words where it isn't there."""
    try:
        return find_program(None)
    except colock.CannotOpen as error:
        raise AssertionError(f"this test needs the program: {error}") from None


def folder_of(test):
    """A folder that is there as long as a test."""
    folder = tempfile.TemporaryDirectory(prefix="colock-test-")
    test.addCleanup(folder.cleanup)
    return folder.name


def id_of(path):
    """The id of the store in a file, as it is in the names of its histories."""
    with closing(sqlite3.connect(f"file:{path}?immutable=1", uri=True)) as file:
        return file.execute("SELECT hex(id) FROM store").fetchone()[0].lower()


def write_id(path, id):
    """A file of which nothing is there but the table with the id of a store."""
    with closing(sqlite3.connect(path)) as file, file:
        file.execute("CREATE TABLE store (position INTEGER PRIMARY KEY, format INTEGER NOT NULL, id BLOB NOT NULL, s INTEGER NOT NULL)")
        file.execute("INSERT INTO store VALUES (0, 3, ?, 5)", [bytes.fromhex(id)])


def quietly():
    """Tests let transactions go that are open: only those of the warnings hear of it."""
    warnings.filterwarnings("ignore", "transaction .* is let go", ResourceWarning)


class InMemory:
    """Stores in memory."""

    is_child = False

    def make(self, types, max_events=1_000_000, **limits):
        quietly()
        store = colock.Store.with_limits(types, colock.Limits(max_events, **limits)) if limits else colock.Store(types, max_events)
        self.addCleanup(store.close)
        return store


class OverChild:
    """Stores in files, each in a folder of its own."""

    is_child = True

    def make(self, types, **options):
        quietly()
        path = os.path.join(folder_of(self), "test.db")
        store = colock.Store.open(path, types, create=True, program=program(), **options)
        self.addCleanup(store.close)
        return store


class Run(threading.Thread):
    """A thread whose result, or what it raised, is asked for."""

    def __init__(self, act, *arguments):
        super().__init__(daemon=True)
        self.act, self.arguments, self.value, self.error = act, arguments, None, None
        self.start()

    def run(self):
        try:
            self.value = self.act(*self.arguments)
        except BaseException as error:  # raised by `result`
            self.error = error

    def result(self, seconds=SOON):
        """What it returned. Raises what it raised, or fails where it goes on longer."""
        self.join(seconds)
        if self.is_alive():
            raise AssertionError(f"a thread didn't end within {seconds} seconds")
        if self.error is not None:
            raise self.error
        return self.value


def until(holds, what="it", seconds=SOON):
    """Waits until something holds, or fails."""
    end = time.monotonic() + seconds
    while not holds():
        if time.monotonic() > end:
            raise AssertionError(f"{what} didn't come within {seconds} seconds")
        time.sleep(0.002)


def asleep(store, count):
    """Waits until this many sleeps have begun at a store, or calls were answered Busy."""
    until(lambda: sum(store.stats().busy) >= count, f"sleep {count}")


def known(store, t):
    """The number by which a store knows a transaction."""
    return store._backend.known(t._life, t.number)


def behind(store, t, other):
    """Waits until a transaction waits for another one."""
    until(lambda: store._backend.sleepers.waits_for(known(store, t)) == known(store, other), "the wait")


class Timed:
    """How long something took."""

    def __enter__(self):
        self.start = time.monotonic()
        return self

    def __exit__(self, *raised):
        self.seconds = time.monotonic() - self.start


def closed(store):
    """Closes a store whose program may be gone, or may not know how to end."""
    try:
        store.close()
    except colock.ConnectionLost:
        pass


def pid_of(store):
    """The number of the process that serves a store."""
    return store._backend._connection._process.pid


def is_running(pid):
    """Whether a process is there and hasn't ended."""
    try:
        with open(f"/proc/{pid}/stat", encoding="ascii", errors="replace") as file:
            return file.read().rpartition(")")[2].split()[0] not in ("Z", "X")
    except (FileNotFoundError, ProcessLookupError):
        return False


FAKE = """#!{python}
import os, sys, time

TYPE = '''{type}'''


def say(text):
    data = text.encode("latin-1")
    while data:
        data = data[os.write(1, data):]


def requests():
    for line in sys.stdin:
        tag, *words = line.split()
        yield tag, words


def opened(greeting="colock 5 5\\n", kind="{kind}"):
    '''Greets, and answers what a client asks as it opens; then the requests that follow.'''
    say(greeting)
    for tag, words in requests():
        if words[0] == "objects":
            say(f"{{tag}} object {{kind}} 0\\n{{tag}} ok\\n")
        elif words[0] == "types":
            say("".join(f"{{tag}} {{line}}\\n" for line in TYPE.split("\\n")) + f"{{tag}} ok\\n")
        else:
            yield tag, words


{body}
"""


# It has to be asked these lines, in this order, and answers so.
ASKED = """
lines = {lines!r}
for tag, words in opened():
    if words == ["end"]:
        say(f"{{tag}} ok\\n")
        break
    asked, answer = lines.pop(0)
    if asked != " ".join(words):
        sys.exit("it was asked " + " ".join(words) + ", and not " + asked)
    if answer == "die":
        sys.exit(3)
    say("".join(f"{{tag}} {{line}}\\n" for line in answer.split("\\n")))
"""


class Fakes(unittest.TestCase):
    """Tests with programs that answer as they like."""

    # the type of the one object, and its kind
    type, kind = TWO, "undo"

    def fake(self, body):
        """The path of a program of this body."""
        path = os.path.join(folder_of(self), "fake")
        with open(path, "w", encoding="utf-8") as file:
            file.write(FAKE.format(python=sys.executable, type=self.type, kind=self.kind, body=body))
        os.chmod(path, 0o755)
        return path

    def open(self, body, limit=SOON, path="nothing.db", archive=None):
        """A store that this program serves."""
        store = colock.Store.open(path, program=self.fake(body), limit=limit, archive=archive)
        self.addCleanup(closed, store)
        return store

    def asked(self, *lines):
        """A store whose program is asked these lines, one after another, and answers so."""
        return self.open(ASKED.format(lines=[*lines]))
