#!/usr/bin/env python3
"""A crowd of guests who ask for seats at the same moment, each on a connection of its own.

Each sends the head of its request, and waits until the service has it (`Expect: 100-continue`). When all have been told
to go on, all send the rest: so many requests are in the service's hands at once. First each guest asks to hold a seat,
and then to book it. Where there are more guests than seats, all but one at each seat are told that they can't.
"""
import argparse
import collections
import json
import random
import selectors
import socket
import sys
import time
from types import TracebackType
from typing import Callable, Dict, List, Optional, Sequence, Type
from urllib.parse import urlsplit
from urllib.request import urlopen

from files import allow_files
from load import Asked

# How many seconds anything may take before it counts as a failure.
LONGEST = 60.0
# What isn't connections.
OTHER_FILES = 50
GO_ON = b"HTTP/1.1 100 Continue\r\n\r\n"
LATER = 503


class Guest:
    """One guest, with a connection and a token."""

    def __init__(self, host: str, port: int) -> None:
        self.host = host
        self.socket = socket.create_connection((host, port), timeout=LONGEST)
        self._cookie = ""
        self._there = b""

    def ask(self, action: str, body: bytes) -> None:
        """Sends the head of a request."""
        head = f"POST /{action} HTTP/1.1\r\nHost: {self.host}\r\n{self._cookie}Content-Length: {len(body)}\r\nExpect: 100-continue\r\n\r\n"
        self.socket.sendall(head.encode("ascii"))

    def read(self) -> None:
        """Reads what is there. Raises `ConnectionError` where the service has hung up."""
        more = self.socket.recv(65_536)
        if not more:
            raise ConnectionError("the service hung up")
        self._there += more

    def is_let_go_on(self) -> bool:
        """Whether the service has the head of the request."""
        if not self._there.startswith(GO_ON):
            return False
        self._there = self._there[len(GO_ON) :]
        return True

    def status(self) -> Optional[int]:
        """The status of the answer, where that is whole. The token of the first one is the guest's."""
        head, end, body = self._there.partition(b"\r\n\r\n")
        first, *lines = head.decode("ascii").split("\r\n")
        headers = {name.lower(): value for name, _, value in (line.partition(": ") for line in lines)}
        if not end or len(body) < int(headers["content-length"]):
            return None
        self._there = b""
        if "set-cookie" in headers:
            self._cookie = f"Cookie: {headers['set-cookie'].partition(';')[0]}\r\n"
        return int(first.split()[1])


class Crowd:
    """This many guests, all of them connected. A `with` hangs up at its end."""

    def __init__(self, address: str, size: int) -> None:
        """At an address as `http://127.0.0.1:8000`. Raises `OSError`."""
        allow_files(size + OTHER_FILES)
        parts = urlsplit(address)
        self._guests: List[Guest] = []
        try:
            for _ in range(size):
                self._guests.append(Guest(parts.hostname or "127.0.0.1", parts.port or 80))
        except OSError:
            self.close()
            raise

    def ask(self, action: str, seats: Sequence[str]) -> List[Asked]:
        """Each guest asks this at its seat, all at once; those whose answer is that it can't be done now, once more."""
        statuses: Dict[int, int] = {}
        while len(statuses) < len(seats):
            asked = self._ask_once(action, {guest: seat for guest, seat in enumerate(seats) if guest not in statuses})
            statuses.update((guest, status) for guest, status in asked.items() if status != LATER)
        return [Asked(guest, action, (seat,), statuses[guest]) for guest, seat in enumerate(seats)]

    def _ask_once(self, action: str, seats: Dict[int, str]) -> Dict[int, int]:
        """What each of these guests is answered, who ask at once."""
        bodies = {guest: json.dumps({"seats": [seat]}).encode("ascii") for guest, seat in seats.items()}
        for guest, body in bodies.items():
            self._guests[guest].ask(action, body)
        self._until({guest: self._guests[guest].is_let_go_on for guest in seats})
        for guest, body in bodies.items():
            self._guests[guest].socket.sendall(body)
        statuses: Dict[int, int] = {}

        def is_answered(guest: int) -> bool:
            status = self._guests[guest].status()
            if status is not None:
                statuses[guest] = status
            return status is not None

        self._until({guest: lambda guest=guest: is_answered(guest) for guest in seats})  # type: ignore[misc]
        return statuses

    def _until(self, is_there: Dict[int, Callable[[], bool]]) -> None:
        """Reads until all of it is there. Raises `TimeoutError`, or `ConnectionError`."""
        end = time.monotonic() + LONGEST
        with selectors.DefaultSelector() as selector:
            for guest in is_there:
                selector.register(self._guests[guest].socket, selectors.EVENT_READ, guest)
            while selector.get_map():
                found = selector.select(max(end - time.monotonic(), 0.0))
                if not found:
                    raise TimeoutError(f"{len(selector.get_map())} guests aren't answered within {LONGEST:g} s")
                for key, _ in found:
                    self._guests[key.data].read()
                    if is_there[key.data]():
                        selector.unregister(key.fileobj)

    def close(self) -> None:
        """All hang up."""
        for guest in self._guests:
            guest.socket.close()

    def __enter__(self) -> "Crowd":
        return self

    def __exit__(self, kind: Optional[Type[BaseException]], error: Optional[BaseException], trace: Optional[TracebackType]) -> None:
        self.close()


def seats_of(address: str) -> List[str]:
    """The names of all seats. Raises `OSError`."""
    with urlopen(f"{address}/seats", timeout=LONGEST) as answer:
        return list(json.load(answer)["seats"])


def main(words: Optional[List[str]] = None) -> int:
    parser = argparse.ArgumentParser(description=__doc__)
    parser.add_argument("address", nargs="?", default="http://127.0.0.1:8000", help="where the service is (http://127.0.0.1:8000)")
    parser.add_argument("--guests", type=int, default=2000, help="how many ask at once (2000)")
    parser.add_argument("--seed", type=int, default=1, help="what their seats are drawn by (1)")
    chosen = parser.parse_args(words)
    source, names = random.Random(chosen.seed), seats_of(chosen.address)
    seats = [source.choice(names) for _ in range(chosen.guests)]
    with Crowd(chosen.address, chosen.guests) as crowd:
        for action in "hold", "book":
            start = time.monotonic()
            counted = collections.Counter(one.status for one in crowd.ask(action, seats))
            told = ", ".join(f"{count} of status {status}" for status, count in sorted(counted.items()))  # type: ignore[type-var]
            print(f"{chosen.guests} requests at once to {action} a seat: {told}, in {time.monotonic() - start:.1f} s")
    return 0


if __name__ == "__main__":
    sys.exit(main())
