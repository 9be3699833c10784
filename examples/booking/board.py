"""What the service keeps in memory: what guests are shown of the hall, and who holds which seat until when.

The transactions at one seat come one after another, but the threads that made them may come here in another order.
So each transaction draws a turn while it has its operation at the seat, and of two turns at one seat the later one
decides what is kept here.
"""
import enum
import threading
import time
from dataclasses import dataclass
from typing import Dict, List, Mapping, NamedTuple, Optional


class SeatState(enum.Enum):
    """What a seat is in the store."""

    FREE = "free"
    HELD = "held"
    BOOKED = "booked"


class Shown(enum.Enum):
    """What a seat is for a guest."""

    FREE = "free"
    MINE = "mine"
    """Held by this guest."""
    HELD = "held"
    """Held by somebody else."""
    BOOKED = "booked"


class Turn(NamedTuple):
    """When a transaction was at a seat: of two turns at one seat the greater one is the later.

    It stays so where an epoch of the store ends, since what is open goes over: the yes of a seat's type is strong.
    """

    count: int


@dataclass(frozen=True, eq=False)
class Hold:
    """A guest holds a seat, since a turn and until a time of `time.monotonic`. It is equal to itself alone."""

    seat: str
    guest: str
    turn: Turn
    until: float

    def left(self) -> float:
        """How many seconds are left, 0 where it is over."""
        return max(self.until - time.monotonic(), 0.0)


class Seen(NamedTuple):
    """The hall as one guest sees it."""

    seats: Dict[str, Shown]
    left: Dict[str, float]
    """How many seconds are left of each hold of this guest."""
    sold: int


class Board:
    """The states of all seats, by their names, after the last durable commits, and the holds. Threads share it."""

    def __init__(self, states: Mapping[str, SeatState], sold: int, hold_seconds: float) -> None:
        """The hall as the store has it while nobody holds a seat. A hold lasts `hold_seconds`, which is above 0."""
        self.hold_seconds = hold_seconds
        self._lock = threading.Lock()
        self._states = dict(states)
        self._shown = dict.fromkeys(states, Turn(0))
        self._holds: Dict[str, Hold] = {}
        self._sold = sold

    def put(self, seat: str, guest: str, turn: Turn) -> Hold:
        """A guest is to hold a seat. It is said before the commit, so that who finds the seat held knows by whom."""
        hold = Hold(seat, guest, turn, time.monotonic() + self.hold_seconds)
        with self._lock:
            there = self._holds.get(seat)
            if there is None or there.turn < turn:
                self._holds[seat] = hold
        return hold

    def hold_of(self, seat: str) -> Optional[Hold]:
        """The hold that was put last at a seat. Where the seat isn't held, it says nothing."""
        with self._lock:
            return self._holds.get(seat)

    def drop(self, hold: Hold) -> None:
        """Lets go of a hold that the store doesn't have."""
        with self._lock:
            if self._holds.get(hold.seat) is hold:
                del self._holds[hold.seat]

    def overdue(self) -> List[Hold]:
        """The holds whose time is over."""
        now = time.monotonic()
        with self._lock:
            return [hold for hold in self._holds.values() if hold.until <= now]

    def show(self, seat: str, state: SeatState, turn: Turn) -> None:
        """A seat has this state after a turn. It is shown after the durable commit."""
        with self._lock:
            hold = self._holds.get(seat)
            if state is not SeatState.HELD and hold is not None and hold.turn < turn:
                del self._holds[seat]
            if self._shown[seat] < turn:
                self._sold += state is SeatState.BOOKED and self._states[seat] is not SeatState.BOOKED
                self._states[seat], self._shown[seat] = state, turn

    def seen_by(self, guest: str) -> Seen:
        """What a guest is shown."""
        with self._lock:
            seats = {seat: Shown(state.value) for seat, state in self._states.items()}
            mine = [hold for hold in self._holds.values() if hold.guest == guest and seats[hold.seat] is Shown.HELD]
            sold = self._sold
        for hold in mine:
            seats[hold.seat] = Shown.MINE
        return Seen(seats, {hold.seat: hold.left() for hold in mine}, sold)
