"""The hall: its seats as objects of a store that lasts, and the transactions that hold, book and release them.

Each seat is an object by its name, and one object more counts the bookings. One transaction has some seats, all of them or
none. Two bookings of different seats run side by side, at the counter too, which is in escrow. Two guests at one seat come one
after the other.
"""
import itertools
import string
import time
from typing import Callable, Dict, List, Optional, Sequence, Tuple, TypeVar

import colock
from board import Board, Hold, Seen, SeatState, Turn

LETTERS = string.ascii_uppercase
ROWS = (*LETTERS, *("A" + letter for letter in LETTERS[:14]))
"""40 rows: A to Z, then AA to AN."""
SEATS_IN_ROW = 75
SEATS = tuple(f"{row}{place}" for row in ROWS for place in range(1, SEATS_IN_ROW + 1))
PLACES = {name: place for place, name in enumerate(SEATS)}

SOLD = "sold"
"""The object after those of the seats: how many are booked."""
MOST_AT_ONCE = 10
"""How many seats a transaction may have."""

WAIT = 10.0
"""How many seconds a call waits for all who are before it. A transaction here takes milliseconds, and hundreds may be."""
TRIES = 5
"""How often a transaction is tried in all."""

T = TypeVar("T")

# ---- the types

# What a call changes: it replies "ok" where the seat is the first, which then is the second.
CHANGES = {
    "hold": (SeatState.FREE, SeatState.HELD),
    "book": (SeatState.HELD, SeatState.BOOKED),
    "release": (SeatState.HELD, SeatState.FREE),
}

# Any other reply says what the seat is, and changes nothing. So each call is legal whatever the seat is.
SEAT_OPERATIONS = [
    ("hold", "ok"), ("hold", "held"), ("hold", "booked"),
    ("book", "ok"), ("book", "free"), ("book", "booked"),
    ("release", "ok"), ("release", "free"), ("release", "booked"),
    ("look", "free"), ("look", "held"), ("look", "booked"),
]


def seat_step(state: SeatState, operation: Tuple[str, str]) -> Optional[SeatState]:
    """The state after an operation, or None where a seat doesn't reply so."""
    call, reply = operation
    if call in CHANGES and state is CHANGES[call][0]:
        return CHANGES[call][1] if reply == "ok" else None
    return state if reply == state.value else None


SEAT = colock.Type.from_steps("seat", SeatState.FREE, SEAT_OPERATIONS, seat_step)

# In escrow two bookings count up side by side: there is room for all that are open, as each has seats of its own.
COUNT = colock.Type.number(len(SEATS), range(1, MOST_AT_ONCE + 1))

OBJECTS = {**dict.fromkeys(SEATS, SEAT), SOLD: COUNT}

# ---- what isn't done


class NoSeat(Exception):
    """The hall has no seat of this name."""


class Denied(Exception):
    """Nothing was changed, since somebody else has the seat, or nobody holds it. Its words are for the guest."""


class Disagree(Exception):
    """The counter of a file isn't the number of its booked seats. No transaction here leaves a file so."""


def seats_of(names: Sequence[str]) -> List[str]:
    """The seats of these names, each once. Raises `NoSeat`.

    They are in the order of the hall, in which each transaction asks for them: so of two that want the same ones neither waits
    for the other at one seat, and has another for which that one waits.
    """
    for name in names:
        if name not in PLACES:
            raise NoSeat(f"There is no seat {name[:20]!r}.")
    return sorted(set(names), key=PLACES.__getitem__)


# ---- the transactions


class Hall:
    """The hall over its store. Threads share it.

    `hold`, `book` and `release` of some seats, at most `MOST_AT_ONCE`, are one transaction each, and come back when it is
    durable. Where they raise `NoSeat` or `Denied`, nothing was changed at any of them. They raise what `Store.retry` does, too: `colock.OutcomeUnknown` and
    `colock.ConnectionLost` where the store is lost.
    """

    def __init__(self, store: colock.Store, hold_seconds: float) -> None:
        """The hall over a store of `OBJECTS` that nobody else uses. What is held there is released.

        Raises `Disagree`, and what `Store.retry` does.
        """
        self._store = store
        self._turns = itertools.count(1)
        states = store.retry(_woken, tries=TRIES)
        booked, sold = list(states.values()).count(SeatState.BOOKED), store.kept(SOLD)
        if sold != booked:
            raise Disagree(f"{booked} seats are booked, and {sold} were counted")
        self._board = Board(states, sold, hold_seconds)

    @classmethod
    def open(cls, path: str, archive: str, hold_seconds: float, patience: float = 10.0) -> "Hall":
        """The hall in a file, which is made where nothing is at the path; `archive` is the folder of its histories.

        Where another process has the file, it is asked for again for `patience` seconds. Raises `colock.CannotOpen`,
        `colock.OtherObjects`, `Disagree`, and what `Store.retry` does.
        """
        store = _opened(path, archive, patience)
        try:
            return cls(store, hold_seconds)
        except BaseException:
            store.close()
            raise

    def hold(self, names: Sequence[str], guest: str) -> List[Hold]:
        """Holds seats for a guest for a time. A guest who holds one already goes on to do so, for the same time."""
        seats = seats_of(names)

        def holding(t: colock.Transaction) -> List[Hold]:
            return [self._held(t, seat, guest) for seat in seats]

        holds = self._done(holding)
        for hold in holds:
            self._board.show(hold.seat, SeatState.HELD, hold.turn)
        return holds

    def book(self, names: Sequence[str], guest: str) -> None:
        """Books seats that the guest holds. All of them and the counter change together, or none does."""
        seats = seats_of(names)

        def booking(t: colock.Transaction) -> List[Turn]:
            turns = [self._booked(t, seat, guest) for seat in seats]
            t.expect(SOLD, f"give:{len(seats)}", "ok", wait=WAIT)
            return turns

        for seat, turn in zip(seats, self._done(booking)):
            self._board.show(seat, SeatState.BOOKED, turn)

    def release(self, names: Sequence[str], guest: str) -> None:
        """Releases seats that the guest holds."""
        holds: List[Hold] = []
        for seat in seats_of(names):
            hold = self._board.hold_of(seat)
            if hold is None or hold.guest != guest:
                raise Denied(f"You don't hold {seat}.")
            holds.append(hold)
        self._release(holds)

    def sweep(self) -> None:
        """Releases what was held too long, and asks the store whether it is there. Raises as `release` but `Denied`."""
        for hold in self._board.overdue():
            try:
                self._release([hold])
            except Denied:
                self._board.drop(hold)
        self._store.kept(SOLD)

    def seen_by(self, guest: str) -> Seen:
        """What a guest is shown: only what is durable."""
        return self._board.seen_by(guest)

    @property
    def hold_seconds(self) -> float:
        """How long a hold lasts."""
        return self._board.hold_seconds

    def stats(self) -> colock.Stats:
        """What the store's client counted."""
        return self._store.stats()

    def close(self) -> None:
        """Closes the store in order: it ends its epoch. Raises `colock.ConnectionLost`."""
        self._store.close()

    def _held(self, t: colock.Transaction, seat: str, guest: str) -> Hold:
        """Holds a seat in a transaction."""
        reply, turn = self._turn(t, seat, "hold")
        return self._board.put(seat, guest, turn) if reply == "ok" else self._own(seat, guest, reply)

    def _booked(self, t: colock.Transaction, seat: str, guest: str) -> Turn:
        """Books a seat in a transaction."""
        reply, turn = self._turn(t, seat, "book")
        self._own(seat, guest, reply)
        return turn

    def _release(self, holds: Sequence[Hold]) -> None:
        """Releases these holds, and not others at their seats."""

        def releasing(t: colock.Transaction) -> List[Turn]:
            return [self._released(t, hold) for hold in holds]

        for hold, turn in zip(holds, self._done(releasing)):
            self._board.show(hold.seat, SeatState.FREE, turn)

    def _released(self, t: colock.Transaction, hold: Hold) -> Turn:
        reply, turn = self._turn(t, hold.seat, "release")
        if self._own(hold.seat, hold.guest, reply) is not hold:
            raise Denied(f"{hold.seat} is held anew.")
        return turn

    def _done(self, f: Callable[[colock.Transaction], T]) -> T:
        """A function as a transaction, which is durable after this."""
        return self._store.retry(f, tries=TRIES)

    def _turn(self, t: colock.Transaction, seat: str, call: str) -> Tuple[str, Turn]:
        """The reply of a seat, after whoever is there; and the turn, drawn while nobody else can change the seat."""
        reply = t.call(seat, call, wait=WAIT).executed().reply
        return reply, Turn(next(self._turns))

    def _own(self, seat: str, guest: str, reply: str) -> Hold:
        """The guest's hold of a seat that replied so to the transaction. Else raises `Denied`, and it is aborted.

        A seat that replied that it is held stays held by the same guest while the transaction is open: a change by
        anybody else conflicts with its operation.
        """
        if reply in ("free", "booked"):
            raise Denied(f"{seat} is booked." if reply == "booked" else f"Nobody holds {seat}.")
        hold = self._board.hold_of(seat)
        if hold is None or hold.guest != guest:
            raise Denied(f"Somebody else holds {seat}.")
        return hold


def _woken(t: colock.Transaction) -> Dict[str, SeatState]:
    """The states of all seats where a service begins. Who held a seat isn't known any more, so it is released."""
    return {seat: _woken_seat(t, seat) for seat in SEATS}


def _woken_seat(t: colock.Transaction, seat: str) -> SeatState:
    state = SeatState(t.call(seat, "look").executed().reply)
    if state is not SeatState.HELD:
        return state
    t.call(seat, "release").executed()
    return SeatState.FREE


def _opened(path: str, archive: str, patience: float) -> colock.Store:
    """The store in a file. Where the last service was killed, its store may still be ending the epoch: the file is in
    use for a moment.
    """
    end = time.monotonic() + patience
    while True:
        try:
            return colock.Store.open(path, OBJECTS, create=True, archive=archive)
        except colock.InUse:
            if time.monotonic() > end:
                raise
        time.sleep(0.1)
