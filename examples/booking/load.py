#!/usr/bin/env python3
"""Guests in threads that hold, book and release seats at random, some at once, each as fast as it is answered.

What was answered is kept. A request that gets no answer, since the service was killed, is kept too, and isn't sent
again: nobody knows whether it was done.
"""
import argparse
import collections
import http.client
import json
import random
import sys
import threading
import time
from typing import Counter, Dict, List, NamedTuple, Optional, Sequence, Tuple
from urllib.parse import urlsplit

# How many seconds a guest waits for a service that is started anew.
PATIENCE = 30.0
# How many seconds a request may take.
LONGEST = 60.0
# How often a guest who holds a seat goes on with it, and how often that is to book it and not to release it.
GOES_ON, BOOKS = 0.8, 0.15
# What a guest asks at seats that may be anybody's, and how many seats it wants at most.
ANYWHERE = ["hold"] * 8 + ["book", "release"]
MOST = 3


class Asked(NamedTuple):
    """A request, and the status of its answer: None where there was none."""

    guest: int
    action: str
    seats: Tuple[str, ...]
    status: Optional[int]


class Load:
    """Requests by guests in threads, from `start` to the end of `join`."""

    def __init__(self, address: str, requests: int, guests: int, seed: int) -> None:
        """To an address as `http://127.0.0.1:8000`, this many requests in all."""
        parts = urlsplit(address)
        self.host, self.port = parts.hostname or "127.0.0.1", parts.port or 80
        self._lock = threading.Lock()
        self._left = requests
        self._guests = [Guest(self, number, random.Random(f"{seed} {number}")) for number in range(guests)]

    def start(self) -> None:
        """All guests begin."""
        for guest in self._guests:
            guest.start()

    def take(self) -> bool:
        """Takes one of the requests, where one is left."""
        with self._lock:
            is_left = self._left > 0
            self._left -= is_left
            return is_left

    def asked(self) -> List[Asked]:
        """What was asked up to now, guest by guest."""
        return [one for guest in self._guests for one in list(guest.asked)]

    def is_over(self) -> bool:
        """Whether no guest asks any more."""
        return not any(guest.is_alive() for guest in self._guests)

    def join(self, limit: float) -> List[Asked]:
        """What was asked, when all guests are through. Raises what a guest raised, or `TimeoutError`."""
        end = time.monotonic() + limit
        for guest in self._guests:
            guest.join(max(end - time.monotonic(), 0.0))
        errors = [guest.error for guest in self._guests if guest.error is not None]
        if errors:
            raise errors[0]
        if not self.is_over():
            raise TimeoutError(f"the requests take more than {limit} s")
        return self.asked()


class Guest(threading.Thread):
    """One guest, with a connection and a token."""

    def __init__(self, load: Load, number: int, source: random.Random) -> None:
        super().__init__(daemon=True)
        self.asked: List[Asked] = []
        self.error: Optional[BaseException] = None
        self._load, self._number, self._source = load, number, source
        self._connection: Optional[http.client.HTTPConnection] = None
        self._headers: Dict[str, str] = {}
        self._held: List[str] = []

    def run(self) -> None:
        try:
            seats = self._seats()
            while self._load.take():
                self._ask(*self._chosen(seats))
        except Exception as error:
            self.error = error
        finally:
            self._hang_up()

    def _chosen(self, seats: Sequence[str]) -> Tuple[str, Tuple[str, ...]]:
        """An action and its seats."""
        source = self._source
        if self._held and source.random() < GOES_ON:
            return ("book" if source.random() < BOOKS else "release"), self._drawn(self._held)
        return source.choice(ANYWHERE), self._drawn(seats)

    def _drawn(self, seats: Sequence[str]) -> Tuple[str, ...]:
        """Some of these seats."""
        return tuple(self._source.sample(seats, min(len(seats), self._source.randint(1, MOST))))

    def _ask(self, action: str, seats: Tuple[str, ...]) -> None:
        """One request, and what the guest then knows."""
        status = self._status(action, seats)
        self.asked.append(Asked(self._number, action, seats, status))
        if action == "hold" and status == 200:
            self._held += [seat for seat in seats if seat not in self._held]
        elif action != "hold":
            self._held = [seat for seat in self._held if seat not in seats]

    def _status(self, action: str, seats: Tuple[str, ...]) -> Optional[int]:
        connection = self._connected()
        body = json.dumps({"seats": seats})
        try:
            connection.request("POST", f"/{action}", body, {**self._headers, "Content-Type": "application/json"})
            return self._answered(connection)[0]
        except (OSError, http.client.HTTPException):
            self._hang_up()
            return None

    def _answered(self, connection: http.client.HTTPConnection) -> Tuple[int, bytes]:
        """The status and the body of an answer. The token of the first one is the guest's."""
        answer = connection.getresponse()
        body = answer.read()
        cookie = answer.getheader("Set-Cookie")
        if cookie:
            self._headers = {"Cookie": cookie.partition(";")[0]}
        if answer.will_close:
            self._hang_up()
        return answer.status, body

    def _seats(self) -> List[str]:
        """The names of all seats, of a service that may be starting."""
        end = time.monotonic() + PATIENCE
        while True:
            try:
                connection = self._connected()
                connection.request("GET", "/seats")
                status, body = self._answered(connection)
                if status == 200:
                    return list(json.loads(body)["seats"])
            except (OSError, http.client.HTTPException):
                self._hang_up()
            if time.monotonic() > end:
                raise TimeoutError("the service doesn't tell its seats")
            time.sleep(0.02)

    def _connected(self) -> http.client.HTTPConnection:
        """The connection: a new one where there is none, once the service takes it. Raises `OSError`."""
        end = time.monotonic() + PATIENCE
        while self._connection is None:
            connection = http.client.HTTPConnection(self._load.host, self._load.port, timeout=LONGEST)
            try:
                connection.connect()
                self._connection = connection
            except OSError:
                if time.monotonic() > end:
                    raise
                time.sleep(0.02)
        return self._connection

    def _hang_up(self) -> None:
        if self._connection is not None:
            self._connection.close()
            self._connection = None


def counts(asked: Sequence[Asked]) -> List[str]:
    """What came of the requests, in lines."""
    statuses: Counter[Optional[int]] = collections.Counter(one.status for one in asked)
    booked = sum(len(one.seats) for one in asked if one.action == "book" and one.status == 200)
    lines = [f"{count} of status {status}" for status, count in sorted((s, n) for s, n in statuses.items() if s is not None)]
    return [*lines, f"{statuses[None]} without an answer", f"{booked} seats were booked"]


def main(words: Optional[List[str]] = None) -> int:
    parser = argparse.ArgumentParser(description=__doc__)
    parser.add_argument("address", nargs="?", default="http://127.0.0.1:8000", help="where the service is (http://127.0.0.1:8000)")
    parser.add_argument("--requests", type=int, default=2000, help="how many in all (2000)")
    parser.add_argument("--threads", type=int, default=32, help="how many guests (32)")
    parser.add_argument("--seed", type=int, default=1, help="what they draw by (1)")
    parser.add_argument("--keep", metavar="FILE", help="write each request with its status there, a line of JSON each")
    chosen = parser.parse_args(words)
    load, start = Load(chosen.address, chosen.requests, chosen.threads, chosen.seed), time.monotonic()
    load.start()
    asked = load.join(3600.0)
    print(f"{len(asked)} requests by {chosen.threads} guests in {time.monotonic() - start:.1f} s", *counts(asked), sep="\n")
    if chosen.keep:
        with open(chosen.keep, "w", encoding="utf-8") as file:
            file.writelines(json.dumps(one._asdict()) + "\n" for one in asked)
    return 0


if __name__ == "__main__":
    sys.exit(main())
