"""The service as a process: what it answers, and what is in its file where it was killed under load.

It needs Linux, for /proc. The package finds the program `colock` and its library by itself, or by COLOCK and
COLOCK_LIBRARY.
"""
import contextlib
import http.client
import json
import os
import random
import shutil
import signal
import socket
import sqlite3
import subprocess
import sys
import tempfile
import threading
import time
import unittest
from typing import Any, Dict, Iterator, List, NamedTuple, Optional, Sequence, Tuple
from unittest import mock

import colock
from crowd import Crowd
from hall import COUNT, MOST_AT_ONCE, SEAT_OPERATIONS, SEATS, Denied, Hall, NoSeat
from load import Asked, Load
from service import LATER, Server

HERE = os.path.dirname(os.path.abspath(__file__))
REQUESTS, GUESTS = 2000, 32
# How many guests ask at the same moment.
CROWD = 2000
# How many seconds anything here may take before it counts as a failure.
LIMIT = 60.0

# States are numbered as they are found: from free, "hold ok" leads to the first new one, and "book ok" on to the next.
HELD, BOOKED = 1, 2
BOOK_OK = SEAT_OPERATIONS.index(("book", "ok"))
# The object that counts, and by how many each of its operations does.
SOLD = len(SEATS)
COUNTED = {COUNT.operations.index(colock.TypeOperation(f"give:{n}", "ok")): n for n in range(1, MOST_AT_ONCE + 1)}

# ---- the service


def free_port() -> int:
    """A port that nobody uses, below those that the system gives to clients: one of them could take it in between."""
    for port in random.sample(range(20_000, 32_000), 100):
        with socket.socket() as one:
            one.setsockopt(socket.SOL_SOCKET, socket.SO_REUSEADDR, 1)
            with contextlib.suppress(OSError):
                one.bind(("127.0.0.1", port))
                return port
    raise OSError("no port is free")


def children_of(parent: int) -> List[int]:
    """The processes that a process has started, and that haven't ended."""
    found = []
    for name in filter(str.isdigit, os.listdir("/proc")):
        with contextlib.suppress(OSError), open(f"/proc/{name}/stat", encoding="utf-8", errors="replace") as file:
            state, of = file.read().rpartition(")")[2].split()[:2]
            if int(of) == parent and state != "Z":
                found.append(int(name))
    return found


class Service:
    """`service.py` over a file in a folder, at one port in all its lives."""

    def __init__(self, folder: str, *options: str) -> None:
        self.path, self.archive = os.path.join(folder, "hall.db"), os.path.join(folder, "hall.archive")
        self.port = free_port()
        self._options, self._said = options, os.path.join(folder, "said")
        self._process: Optional["subprocess.Popen[str]"] = None

    @property
    def address(self) -> str:
        return f"http://127.0.0.1:{self.port}"

    def start(self) -> None:
        """Starts it, as its supervisor does. It is there after this."""
        words = [sys.executable, os.path.join(HERE, "service.py"), self.path, "--port", str(self.port), *self._options]
        with open(self._said, "ab") as said:
            process = self._process = subprocess.Popen(words, stdout=subprocess.PIPE, stderr=said, text=True)
        limit = threading.Timer(LIMIT, process.kill)
        limit.start()
        line = self._output().readline()
        limit.cancel()
        if line != self.address + "\n":
            raise AssertionError(f"it didn't start: {line!r} {self.said()}")

    def said(self) -> str:
        """What it wrote on standard error in all its lives."""
        with open(self._said, encoding="utf-8") as file:
            return file.read()

    def kill(self) -> int:
        """Kills the service alone; its status."""
        self._there().kill()
        return self.ended()

    def kill_store(self) -> None:
        """Kills the store behind it, which is its only child."""
        (store,) = children_of(self._there().pid)
        os.kill(store, signal.SIGKILL)

    def terminate(self) -> int:
        """Has it end in order; its status."""
        self._there().terminate()
        return self.ended()

    def ended(self) -> int:
        """Its status, once it has ended."""
        status = self._there().wait(LIMIT)
        self._output().close()
        self._process = None
        return status

    def close(self) -> None:
        """Ends it where it runs."""
        if self._process is not None:
            self.terminate()

    def _there(self) -> "subprocess.Popen[str]":
        assert self._process is not None
        return self._process

    def _output(self) -> Any:
        return self._there().stdout


class Client:
    """A guest by hand, with a connection for each request."""

    def __init__(self, service: Service) -> None:
        self._service = service
        self._headers: Dict[str, str] = {}

    def sent(self, method: str, path: str, body: Optional[bytes] = None) -> Tuple[http.client.HTTPResponse, bytes]:
        """The answer to a request, and its body."""
        connection = http.client.HTTPConnection("127.0.0.1", self._service.port, timeout=LIMIT)
        with contextlib.closing(connection):
            connection.request(method, path, body, self._headers)
            answer = connection.getresponse()
            cookie = answer.getheader("Set-Cookie")
            if cookie is not None:
                self._headers = {"Cookie": cookie.partition(";")[0]}
            return answer, answer.read()

    def status(self, method: str, path: str, body: Optional[bytes] = None) -> int:
        """The status of an answer, whose body is JSON with its reason where it isn't 200."""
        answer, content = self.sent(method, path, body)
        if answer.status != 200:
            assert json.loads(content)["error"], content
        return answer.status

    def post(self, action: str, *seats: str) -> int:
        """The status of an action at seats."""
        return self.status("POST", f"/{action}", json.dumps({"seats": seats}).encode())

    def seats(self) -> Dict[str, Any]:
        """The hall as it is shown."""
        shown: Dict[str, Any] = json.loads(self.sent("GET", "/seats")[1])
        return shown


# ---- the file


def program() -> str:
    """The program `colock`, where the package finds it."""
    beside = os.path.join(os.path.dirname(os.path.abspath(colock.__file__)), "colock")
    return os.environ.get("COLOCK") or (beside if os.path.exists(beside) else "colock")


def told(*words: str) -> List[str]:
    """The lines that the program writes, with status 0 and nothing on standard error."""
    done = subprocess.run([program(), *words], capture_output=True, text=True, timeout=LIMIT, check=False)
    if done.returncode or done.stderr:
        raise AssertionError(f"colock {' '.join(words)}: status {done.returncode}\n{done.stdout[-500:]}{done.stderr}")
    return done.stdout.splitlines()


def states_of(audit: Sequence[str]) -> List[int]:
    """The state of each object by the lines of an audit that says yes."""
    assert audit[0] == "# audit yes", audit[0]
    return [int(line.split()[3]) for line in audit if line.startswith("# serial ")]


def type_files(path: str, folder: str) -> List[str]:
    """Files with the texts of the types that a store has, by their numbers."""
    with contextlib.closing(sqlite3.connect(f"file:{path}?mode=ro", uri=True)) as database:
        texts = [text for (text,) in database.execute("SELECT text FROM type ORDER BY number")]
    files = [os.path.join(folder, f"{number}.type") for number in range(len(texts))]
    for name, text in zip(files, texts):
        with open(name, "w", encoding="ascii") as file:
            file.write(text)
    return files


class History(NamedTuple):
    """The history of an epoch, or of its beginning."""

    path: str
    lines: List[str]
    """All but the last one, which is `end`."""

    def committed(self) -> Iterator[List[Tuple[int, int]]]:
        """Of each transaction that was committed, the objects and the operations. The hall rolls nothing back."""
        there: Dict[str, List[Tuple[int, int]]] = {}
        for words in map(str.split, self.lines):
            if words[0] == "begin":
                there[words[2]] = []
            elif words[0] == "op":
                there[words[2]].append((int(words[3]), int(words[4])))
            elif words[0] == "commit":
                yield there[words[2]]


def histories(archive: str) -> List[History]:
    """The histories of a folder in their order, without those that are the beginning of the next one."""
    names = sorted((name for name in os.listdir(archive) if name.endswith(".history")), key=lambda name: int(name.partition(".")[0].rpartition("-")[2]))
    found: List[History] = []
    for name in names:
        path = os.path.join(archive, name)
        with open(path, encoding="ascii") as file:
            lines = file.read().splitlines()[:-1]
        if found and lines[: len(found[-1].lines)] == found[-1].lines:
            found.pop()
        found.append(History(path, lines))
    return found


# ---- the tests


class ServiceTest(unittest.TestCase):
    """A service in a folder of its own."""

    options: Tuple[str, ...] = ()

    def setUp(self) -> None:
        self.folder = tempfile.mkdtemp()
        self.addCleanup(shutil.rmtree, self.folder, ignore_errors=True)
        self.service = Service(self.folder, *self.options)
        self.addCleanup(self.service.close)
        self.service.start()

    def audited(self) -> List[int]:
        """The states in the file, of which the audit says yes, and whose counter is the number of booked seats."""
        states = states_of(told("audit", "--database", self.service.path))
        self.assertEqual(len(states), SOLD + 1)
        self.assertEqual(states[:SOLD].count(BOOKED), states[SOLD])
        return states


class LoadTest(ServiceTest):
    def test_killed_under_load(self) -> None:
        guests = Load(self.service.address, REQUESTS, GUESTS, seed=random.randrange(1_000_000))
        guests.start()
        kills = [self._kill_service, self._kill_store] * 2
        for before, kill in enumerate(kills, 1):
            self._behind(guests, REQUESTS * before // (len(kills) + 1))
            kill()
            self.service.start()
        asked = guests.join(LIMIT)
        self.assertEqual(self.service.terminate(), 0, self.service.said())
        states = self.audited()
        self._nothing_is_lost(asked, states)
        self._histories_agree(states)
        self._what_was_held_is_free(states)

    def _kill_service(self) -> None:
        """The store ends the epoch then."""
        self.assertEqual(self.service.kill(), -signal.SIGKILL)

    def _kill_store(self) -> None:
        """The service ends then, and the epoch goes on where it was."""
        self.service.kill_store()
        self.assertEqual(self.service.ended(), 1)
        self.audited()

    def _behind(self, guests: Load, count: int) -> None:
        """Waits until this many requests were asked."""
        end = time.monotonic() + LIMIT
        while len(guests.asked()) < count:
            self.assertFalse(guests.is_over(), "the guests have gone")
            self.assertLess(time.monotonic(), end)
            time.sleep(0.005)

    def _nothing_is_lost(self, asked: Sequence[Asked], states: Sequence[int]) -> None:
        """What was answered is in the file, and nothing that wasn't asked."""
        self.assertEqual(len(asked), REQUESTS)
        statuses = {one.status for one in asked}
        self.assertEqual(statuses - {503}, {200, 409, None}, self.service.said())
        answered = [seat for one in asked if one.action == "book" and one.status == 200 for seat in one.seats]
        unknown = {seat for one in asked if one.action == "book" and one.status in (None, 503) for seat in one.seats}
        booked = {name for name, state in zip(SEATS, states) if state == BOOKED}
        self.assertGreater(len(answered), 10)
        self.assertEqual(len(set(answered)), len(answered), "a seat was sold twice")
        self.assertEqual(set(answered) - booked, set(), "these bookings were answered, and are gone")
        self.assertEqual(booked - set(answered) - unknown, set(), "nobody booked these")

    def _histories_agree(self, states: Sequence[int]) -> None:
        """The histories of all epochs lead to these states, and each booking in them is whole."""
        found = histories(self.service.archive)
        words = [word for history in found for word in ("--then", history.path)]
        files = type_files(self.service.path, self.folder)
        self.assertEqual(states_of(told("audit", *words[1:], *files)), list(states))
        sold: List[int] = []
        for history in found:
            self.assertEqual([line for line in history.lines if self._is_busy_at_counter(line)], [])
            sold += self._bookings(history)
        self.assertEqual(sorted(sold), [seat for seat in range(SOLD) if states[seat] == BOOKED])

    def _bookings(self, history: History) -> List[int]:
        """The seats that were booked in a history, each together with the counter."""
        seats: List[int] = []
        for operations in history.committed():
            booked = [x for x, k in operations if x < SOLD and k == BOOK_OK]
            counted = [COUNTED[k] for x, k in operations if x == SOLD]
            self.assertEqual(counted, [len(booked)] if booked else [])
            seats += booked
        return seats

    def _is_busy_at_counter(self, line: str) -> bool:
        words = line.split()
        return words[0] == "busy" and int(words[3]) == SOLD

    def _what_was_held_is_free(self, states: Sequence[int]) -> None:
        """Started once more, it shows what is booked, and nothing is held."""
        self.service.start()
        shown = Client(self.service).seats()
        self.assertEqual([shown["seats"][name] for name in SEATS], ["booked" if state == BOOKED else "free" for state in states[:SOLD]])
        self.assertEqual(shown["sold"], states[SOLD])
        self.assertEqual(self.service.terminate(), 0)
        self.assertNotIn(HELD, self.audited()[:SOLD])


class CrowdTest(ServiceTest):
    options = ("--hold-seconds", "600")

    def test_all_ask_at_once(self) -> None:
        source = random.Random(5)
        seats = [source.choice(SEATS) for _ in range(CROWD)]
        with Crowd(self.service.address, CROWD) as crowd:
            held, booked = crowd.ask("hold", seats), crowd.ask("book", seats)
        shown = Client(self.service).seats()
        self.assertEqual(self.service.terminate(), 0)
        self.assertIn(f"; {CROWD} requests at once\n", self.service.said())
        for asked in held, booked:
            self.assertEqual({one.status for one in asked}, {200, 409})
        # one guest holds each seat that was asked for, and books it
        winners = [[(one.guest, *one.seats) for one in asked if one.status == 200] for asked in (held, booked)]
        self.assertEqual(sorted(seat for _, seat in winners[0]), sorted(set(seats)))
        self.assertEqual(winners[1], winners[0])
        self.assertEqual({name for name, state in shown["seats"].items() if state == "booked"}, set(seats))
        self.assertEqual(self.audited()[SOLD], len(set(seats)))


class AnswersTest(ServiceTest):
    def test_the_page(self) -> None:
        answer, page = Client(self.service).sent("GET", "/")
        self.assertEqual((answer.status, answer.getheader("Content-Type")), (200, "text/html; charset=utf-8"))
        with open(os.path.join(HERE, "hall.html"), "rb") as file:
            self.assertEqual(page, file.read())
        # it fetches nothing from anywhere else
        for word in b"http:", b"https:", b"//cdn", b"<script src", b"@import", b"url(":
            self.assertNotIn(word, page)
        self.assertIn("connect-src 'self'", answer.getheader("Content-Security-Policy") or "")

    def test_two_guests(self) -> None:
        ann, bob = Client(self.service), Client(self.service)
        shown = ann.seats()
        self.assertEqual((set(shown["seats"].values()), list(shown["seats"]), shown["sold"]), ({"free"}, list(SEATS), 0))
        self.assertEqual((ann.post("hold", "C7"), ann.post("hold", "C7"), bob.post("hold", "C7")), (200, 200, 409))
        self.assertEqual((bob.post("book", "C7"), bob.post("release", "C7")), (409, 409))
        seen = [guest.seats() for guest in (ann, bob)]
        self.assertEqual([one["seats"]["C7"] for one in seen], ["mine", "held"])
        self.assertEqual([list(one["left"]) for one in seen], [["C7"], []])
        self.assertTrue(60.0 < seen[0]["left"]["C7"] <= 120.0, seen[0]["left"])
        self.assertEqual((ann.post("release", "C7"), bob.post("hold", "C7"), bob.post("book", "C7")), (200, 200, 200))
        self.assertEqual((ann.post("hold", "C7"), bob.post("book", "C7"), bob.post("release", "C7")), (409, 409, 409))
        shown = bob.seats()
        self.assertEqual((shown["seats"]["C7"], shown["sold"], shown["left"]), ("booked", 1, {}))
        self.assertEqual(self.service.terminate(), 0)
        self.assertEqual(self.audited()[SOLD], 1)

    def test_several_seats_at_once(self) -> None:
        ann, bob = Client(self.service), Client(self.service)
        self.assertEqual((ann.post("hold", "AN75", "A1", "C7"), bob.post("hold", "C6", "C7", "C8")), (200, 409))
        # of what is denied nothing is done
        self.assertEqual([bob.seats()["seats"][name] for name in ("C6", "C7", "C8", "A1")], ["free", "held", "free", "held"])
        self.assertEqual((bob.post("hold", "C8", "C6"), bob.post("book", "C6", "C7"), bob.post("book", "C6", "C8", "C6")), (200, 409, 200))
        self.assertEqual((ann.post("book", "A1", "C8"), ann.post("release", "AN75", "C8"), ann.post("book", "A1", "AN75", "C7")), (409, 409, 200))
        shown = ann.seats()
        self.assertEqual((shown["sold"], {name for name, word in shown["seats"].items() if word == "booked"}), (5, {"A1", "AN75", "C6", "C7", "C8"}))
        self.assertEqual(self.service.terminate(), 0)
        self.assertEqual(self.audited()[SOLD], 5)

    def test_what_is_no_request(self) -> None:
        ann = Client(self.service)
        for path in "/nothing", "/seats/C7", "/hall.html":
            self.assertEqual((ann.status("GET", path), ann.status("POST", path)), (404, 404))
        self.assertEqual((ann.post("hold", "C76"), ann.post("book", "c7"), ann.post("release", ""), ann.post("hold", "C7", "sold")), (404,) * 4)
        for body in b"", b"C7", b'{"seats": "C7"}', b'{"seats": []}', b'{"seats": [7]}', b'["C7"]', b'{"chairs": ["C7"]}', b"\xff", b'{"seats": ["C7"]}' + b" " * 200:
            self.assertEqual(ann.status("POST", "/hold", body), 400, body)
        self.assertEqual((ann.post("hold", *SEATS[:11]), ann.post("hold", *SEATS[:10])), (400, 200))
        self.assertEqual(ann.post("release", *SEATS[:10]), 200)
        for method, path in ("GET", "/hold"), ("POST", "/seats"), ("POST", "/"):
            answer, _ = ann.sent(method, path)
            self.assertEqual((answer.status, answer.getheader("Allow")), (405, "POST" if method == "GET" else "GET"))
        self.assertEqual(set(ann.seats()["seats"].values()), {"free"})

    def test_a_token_is_drawn_once(self) -> None:
        ann = Client(self.service)
        first, second = ann.sent("GET", "/")[0], ann.sent("GET", "/seats")[0]
        self.assertRegex(first.getheader("Set-Cookie") or "", r"^guest=[A-Za-z0-9_-]{22}; .*HttpOnly; SameSite=Strict")
        self.assertIsNone(second.getheader("Set-Cookie"))


class ReasonsTest(unittest.TestCase):
    """What is answered to what a hall raises, without a process."""

    def answer(self, error: Exception) -> Tuple[int, str, bool]:
        """The status and the words of the answer, and whether the service ends."""
        server = Server("127.0.0.1", 0, False)
        self.addCleanup(server.server_close)
        server.hall = mock.Mock(hold=mock.Mock(side_effect=error))
        answer = server.answer("/hold", b'{"seats": ["C7"]}', "ann")
        return answer.status, json.loads(answer.content)["error"], server.stop.is_set()

    def test_what_goes_on(self) -> None:
        self.assertEqual(self.answer(NoSeat("no seat")), (404, "no seat", False))
        self.assertEqual(self.answer(Denied("denied")), (409, "denied", False))
        for error in LATER:
            self.assertEqual(self.answer(error(1)), (503, "It couldn't be done now. Try again in a moment.", False), error)

    def test_what_ends_the_service(self) -> None:
        lost = "The store is lost. Nothing was done. Try again in a moment."
        for error in colock.ConnectionLost("gone"), colock.ClosedError("closed"):
            self.assertEqual(self.answer(error), (503, lost, True))
        unknown = "It isn't known whether this was done. Look again in a moment."
        self.assertEqual(self.answer(colock.OutcomeUnknown("1.1")), (503, unknown, True))


class LostTest(ServiceTest):
    def test_a_store_that_is_lost_ends_the_service(self) -> None:
        ann = Client(self.service)
        self.assertEqual((ann.post("hold", "A1"), ann.post("book", "A1"), ann.post("hold", "A2")), (200, 200, 200))
        self.service.kill_store()
        # nobody asks, and it finds out by itself
        self.assertEqual(self.service.ended(), 1)
        self.assertIn("the store is lost", self.service.said())
        self.service.start()
        seats = ann.seats()
        self.assertEqual((seats["seats"]["A1"], seats["seats"]["A2"], seats["sold"]), ("booked", "free", 1))

    def test_a_file_that_is_served_is_not_opened(self) -> None:
        with self.assertRaises(colock.InUse):
            Hall.open(self.service.path, self.service.archive, 60.0, patience=0.2)
        self.assertEqual(Client(self.service).seats()["sold"], 0)


class ShortTest(ServiceTest):
    options = ("--hold-seconds", "0.3")

    def test_a_hold_ends(self) -> None:
        ann, bob, end = Client(self.service), Client(self.service), time.monotonic() + LIMIT
        self.assertEqual(ann.post("hold", "C7"), 200)
        while bob.post("hold", "C7") != 200:
            self.assertLess(time.monotonic(), end)
            time.sleep(0.05)
        self.assertEqual((ann.post("book", "C7"), ann.post("release", "C7")), (409, 409))


if __name__ == "__main__":
    unittest.main()
