#!/usr/bin/env python3
"""A service that books the seats of a hall over HTTP. `service.py --help` lists its options, README.md the rest."""
import argparse
import json
import os
import re
import secrets
import signal
import socket
import sys
import threading
import traceback
from http.server import BaseHTTPRequestHandler, ThreadingHTTPServer
from types import TracebackType
from typing import Any, Callable, Dict, List, NamedTuple, Optional, Tuple, Type

import colock
from board import Shown
from files import allow_files
from hall import MOST_AT_ONCE, OBJECTS, ROWS, SEATS_IN_ROW, SOLD, Denied, Disagree, Hall, NoSeat

PAGE = os.path.join(os.path.dirname(os.path.abspath(__file__)), "hall.html")
# The page has its style and its script in itself, and asks nobody else for anything.
POLICY = (
    "default-src 'none'; style-src 'unsafe-inline'; script-src 'unsafe-inline'; connect-src 'self'; img-src data:; "
    "base-uri 'none'; form-action 'none'; frame-ancestors 'none'"
)
METHODS = {"/": "GET", "/seats": "GET", "/hold": "POST", "/book": "POST", "/release": "POST"}
# In bytes; a request has the names of ten seats at most.
LONGEST_BODY = 200
# The object that counts bookings.
COUNTER = list(OBJECTS).index(SOLD)
# How often holds are looked through that last too long, in seconds; a store that is lost is found out then, too.
SWEEP = 0.5
# How many seconds requests that are being answered have where the service ends.
LAST_ANSWERS = 5.0
# How many clients may knock at the same moment. Who finds the queue full knocks again after a second.
KNOCKING = 2048
# How many files it may have open, of which each connection is one.
FILES = 4096

# The store is gone: this process can only end, and its supervisor starts it anew.
LOST = (colock.ConnectionLost, colock.OutcomeUnknown, colock.ClosedError)
# Nothing was changed, and it may be done another time.
LATER = (
    colock.Retryable,
    colock.TooManyOpenError,
    colock.HistoryFullError,
    colock.NoMemory,
)

# A guest is known by 22 letters that the service drew.
GUEST = re.compile(r"(?:^|;)\s*guest=([A-Za-z0-9_-]{22})\s*(?:;|$)")

Json = Dict[str, Any]

# ---- what is answered


class BadRequest(Exception):
    """A request that isn't one. Its words are for the client."""


class Answer(NamedTuple):
    """An answer, but for the cookie."""

    status: int
    content: bytes
    kind: str = "application/json"
    headers: Tuple[Tuple[str, str], ...] = ()


def told(content: Json) -> Answer:
    """It is done."""
    return Answer(200, json.dumps(content).encode())


def refused(status: int, words: str, *headers: Tuple[str, str]) -> Answer:
    """It isn't done, for a reason in words."""
    return Answer(status, json.dumps({"error": words}).encode(), headers=headers)


def later(words: str) -> Answer:
    """It isn't done, or nobody knows: in a moment the service can say."""
    return refused(503, words, ("Retry-After", "1"))


CLOSING = later("The service is closing. Try again in a moment.")


def seats_in(body: bytes) -> List[str]:
    """The seats that a body names. Raises `BadRequest`."""
    try:
        content = json.loads(body)
    except ValueError:
        raise BadRequest("The body isn't JSON.") from None
    names = content.get("seats") if isinstance(content, dict) else None
    if not (isinstance(names, list) and 1 <= len(names) <= MOST_AT_ONCE and all(isinstance(name, str) for name in names)):
        raise BadRequest(f'The body has to be as {{"seats": ["C7", "C8"]}}, with at most {MOST_AT_ONCE} seats.')
    return names


def hold(hall: Hall, names: List[str], guest: str) -> Json:
    """Holds seats; what is answered."""
    holds = hall.hold(names, guest)
    return {"seats": names, "state": Shown.MINE.value, "left": round(min(hold.left() for hold in holds), 1)}


def book(hall: Hall, names: List[str], guest: str) -> Json:
    """Books seats; what is answered."""
    hall.book(names, guest)
    return {"seats": names, "state": Shown.BOOKED.value}


def release(hall: Hall, names: List[str], guest: str) -> Json:
    """Releases seats; what is answered."""
    hall.release(names, guest)
    return {"seats": names, "state": Shown.FREE.value}


ACTIONS: Dict[str, Callable[[Hall, List[str], str], Json]] = {"/hold": hold, "/book": book, "/release": release}


def seats(hall: Hall, guest: str) -> Json:
    """The hall as a guest sees it."""
    seen = hall.seen_by(guest)
    return {
        "rows": ROWS,
        "seats_in_row": SEATS_IN_ROW,
        "most_at_once": MOST_AT_ONCE,
        "hold_seconds": hall.hold_seconds,
        "sold": seen.sold,
        "seats": {name: shown.value for name, shown in seen.seats.items()},
        "left": {name: round(left, 1) for name, left in seen.left.items()},
    }


# ---- the server


class Requests:
    """How many requests are being answered, so that the service ends after them. A `with` counts one.

    It says whether the request is to be done: not where the service is closing.
    """

    def __init__(self) -> None:
        self._changed = threading.Condition()
        self._count = 0
        self._is_closing = False
        self.most = 0
        """How many there were at once at most."""

    def __enter__(self) -> bool:
        with self._changed:
            self._count += 1
            self.most = max(self.most, self._count)
            return not self._is_closing

    def __exit__(self, kind: Optional[Type[BaseException]], error: Optional[BaseException], trace: Optional[TracebackType]) -> None:
        with self._changed:
            self._count -= 1
            self._changed.notify_all()

    def close(self, limit: float) -> None:
        """From now on none is done. Waits for those that are, at most this many seconds."""
        with self._changed:
            self._is_closing = True
            self._changed.wait_for(lambda: self._count == 0, limit)


class Server(ThreadingHTTPServer):
    """Each connection has a thread, and all of them share the hall."""

    daemon_threads = True
    request_queue_size = KNOCKING
    hall: Hall

    def __init__(self, host: str, port: int, is_verbose: bool) -> None:
        """Takes the port. Raises `OSError`."""
        super().__init__((host, port), Handler)
        with open(PAGE, "rb") as file:
            self.page = Answer(200, file.read(), "text/html; charset=utf-8", (("Content-Security-Policy", POLICY),))
        self.is_verbose = is_verbose
        self.requests = Requests()
        self.stop = threading.Event()
        self.lost: Optional[BaseException] = None

    def lose(self, error: BaseException) -> None:
        """The store is lost, so the service ends; where it ends already, that is why."""
        if not self.stop.is_set():
            self.lost = error
            self.stop.set()

    def sweep(self) -> None:
        """Looks through the holds from time to time, until the service ends."""
        while not self.stop.wait(SWEEP):
            try:
                self.hall.sweep()
            except LATER:
                pass  # the next sweep tries again
            except Exception as error:
                self.lose(error)  # also a fault of the service: holds would last for ever

    def answer(self, path: str, body: bytes, guest: str) -> Answer:
        """What is answered to a request of a method that its path takes."""
        try:
            if path == "/":
                return self.page
            if path == "/seats":
                return told(seats(self.hall, guest))
            return told(ACTIONS[path](self.hall, seats_in(body), guest))
        except BadRequest as error:
            return refused(400, str(error))
        except NoSeat as error:
            return refused(404, str(error))
        except Denied as error:
            return refused(409, str(error))
        except (*LOST, *LATER) as error:
            return self._not_done(error)

    def _not_done(self, error: Exception) -> Answer:
        if isinstance(error, LATER):
            return later("It couldn't be done now. Try again in a moment.")
        self.lose(error)
        if isinstance(error, colock.OutcomeUnknown):
            return later("It isn't known whether this was done. Look again in a moment.")
        return later("The store is lost. Nothing was done. Try again in a moment.")

    def end(self) -> int:
        """Ends after the requests that are being answered. The status of the process."""
        self.shutdown()
        self.requests.close(LAST_ANSWERS)
        self.server_close()
        if self.lost is None:
            self._close_hall()
        return 0 if self.lost is None else failed(f"the store is lost: {self.lost}")

    def _close_hall(self) -> None:
        stats = self.hall.stats()
        try:
            self.hall.close()
        except LOST as error:
            self.lost = error
            return
        done = f"{stats.commits} commits, {stats.aborts} aborts, {stats.waits} waits of {stats.waited:.3f} s in all"
        print(f"service.py: {done}; {stats.busy[COUNTER]} times busy at the counter; {self.requests.most} requests at once", file=sys.stderr)

    def handle_error(self, request: Any, client_address: Any) -> None:
        """A client that went away is no error of the service."""
        if not isinstance(sys.exc_info()[1], (ConnectionError, TimeoutError, socket.timeout)):
            super().handle_error(request, client_address)


class Handler(BaseHTTPRequestHandler):
    """One connection of a client, for any number of requests."""

    protocol_version = "HTTP/1.1"
    # An answer goes out in one piece, and at once.
    wbufsize = -1
    disable_nagle_algorithm = True
    # In seconds without a request.
    timeout = 60
    server: Server

    def do_GET(self) -> None:
        with self.server.requests as is_open:
            self._serve(is_open)

    do_POST = do_GET

    def handle_expect_100(self) -> bool:
        """A client that waits for this before it sends the body gets it where the body is read."""
        return True

    def _serve(self, is_open: bool) -> None:
        found = GUEST.search(self.headers.get("Cookie", ""))
        guest = found[1] if found else secrets.token_urlsafe(16)
        try:
            body = self._body()
            answer = self._answer(body, guest) if is_open else CLOSING
        except BadRequest as error:
            self.close_connection = True
            answer = refused(400, str(error))
        except (ConnectionError, socket.timeout):
            raise
        except Exception:
            traceback.print_exc()
            answer = refused(500, "The service has a fault.")
        self._send(answer, None if found else guest)

    def _body(self) -> bytes:
        """The body of the request. Raises `BadRequest` where it isn't read, so that the connection has to end."""
        length = self.headers.get("Content-Length", "0")
        if "Transfer-Encoding" in self.headers or not re.fullmatch("[0-9]{1,9}", length):
            raise BadRequest("The length of the body isn't told.")
        if int(length) > LONGEST_BODY:
            raise BadRequest(f"The body has more than {LONGEST_BODY} bytes.")
        if self.headers.get("Expect", "").lower() == "100-continue":
            self.send_response_only(100)
            self.end_headers()
            self.wfile.flush()
        return self.rfile.read(int(length))

    def _answer(self, body: bytes, guest: str) -> Answer:
        path = self.path.partition("?")[0]
        method = METHODS.get(path)
        if method is None:
            return refused(404, "There is nothing at this path.")
        if method != self.command:
            return refused(405, f"This path takes {method}.", ("Allow", method))
        return self.server.answer(path, body, guest)

    def _send(self, answer: Answer, new_guest: Optional[str]) -> None:
        if self.server.stop.is_set():
            self.close_connection = True
        self.send_response(answer.status)
        for name, value in self._headers(answer, new_guest):
            self.send_header(name, value)
        self.end_headers()
        self.wfile.write(answer.content)
        self.wfile.flush()

    def _headers(self, answer: Answer, new_guest: Optional[str]) -> List[Tuple[str, str]]:
        headers = [
            ("Content-Type", answer.kind),
            ("Content-Length", str(len(answer.content))),
            ("Cache-Control", "no-store"),
            ("X-Content-Type-Options", "nosniff"),
            *answer.headers,
        ]
        if new_guest is not None:
            headers.append(("Set-Cookie", f"guest={new_guest}; Path=/; Max-Age=86400; HttpOnly; SameSite=Strict"))
        if self.close_connection:
            headers.append(("Connection", "close"))
        return headers

    def version_string(self) -> str:
        return "booking"

    def log_message(self, format: str, *arguments: Any) -> None:
        if self.server.is_verbose:
            super().log_message(format, *arguments)


# ---- the process


def failed(words: str) -> int:
    """Says why the service ends, and returns the status at which its supervisor starts it anew."""
    print(f"service.py: {words}", file=sys.stderr, flush=True)
    return 1


def seconds(word: str) -> float:
    """A word as a number of seconds from 0.1 to a day."""
    number = float(word)
    if not 0.1 <= number <= 86_400:
        raise argparse.ArgumentTypeError("not from 0.1 to 86400 seconds")
    return number


def options(words: Optional[List[str]]) -> argparse.Namespace:
    parser = argparse.ArgumentParser(description="Books the seats of a hall over HTTP.")
    parser.add_argument("database", nargs="?", default="hall.db", help="the file of the store, which is made where nothing is (hall.db)")
    parser.add_argument("--archive", metavar="FOLDER", help="the folder of the histories of earlier epochs (hall.archive)")
    parser.add_argument("--host", default="127.0.0.1", help="the address to listen at (127.0.0.1)")
    parser.add_argument("--port", type=int, default=8000, help="the port, or 0 for any that is free (8000)")
    parser.add_argument("--hold-seconds", type=seconds, default=120.0, metavar="S", help="how long a seat is held (120)")
    parser.add_argument("--verbose", action="store_true", help="tell each request on standard error")
    chosen = parser.parse_args(words)
    chosen.archive = chosen.archive or os.path.splitext(chosen.database)[0] + ".archive"
    return chosen


def stop_at_signals(server: Server) -> None:
    """SIGTERM and Ctrl-C end it in order."""
    for number in signal.SIGTERM, signal.SIGINT:
        signal.signal(number, lambda *_: server.stop.set())


def main(words: Optional[List[str]] = None) -> int:
    chosen = options(words)
    allow_files(FILES)
    try:
        server = Server(chosen.host, chosen.port, chosen.verbose)
    except (OSError, OverflowError) as error:
        return failed(f"{chosen.host} {chosen.port}: {error}")
    stop_at_signals(server)
    try:
        server.hall = Hall.open(chosen.database, chosen.archive, chosen.hold_seconds)
    except (colock.Error, Disagree) as error:
        return failed(f"{chosen.database}: {error}")
    for work in server.serve_forever, server.sweep:
        threading.Thread(target=work, daemon=True).start()
    print(f"http://{chosen.host}:{server.server_address[1]}", flush=True)
    server.stop.wait()
    return server.end()


if __name__ == "__main__":
    sys.exit(main())
