"""Calls that wait, at a store of either backend."""
import random
import time
from typing import TYPE_CHECKING, Callable, NamedTuple, NoReturn, Optional, Tuple, Union, cast

from ._backend import Asked, Backend, Finish, Steps
from ._decisions import Asker
from ._errors import DeadlockError, TimedOut, TooManyOpenError
from ._operations import PLACES
from ._replies import REPLIES, Busy, Reply
from ._sleepers import Sleeper, Watch

if TYPE_CHECKING:
    from ._transaction import Transaction

# How long a sleeper looks at nothing. Nobody is rung where a transaction is let go.
SECONDS_OF_NAP = 1.0
# How long a victim waits for the end of whom it waited for, before it is tried again.
SECONDS_FOR_BLOCKER = 10.0
# How long a try waits at most for its next one.
LONGEST_BACKOFF = 1.0


class Ahead(NamedTuple):
    """Who is in the way of a call, and whether the gate says so."""

    blocker: int
    by_gate: bool


class Waiting:
    """Who calls at a store while somebody sleeps, or may have to sleep itself."""

    def __init__(self, backend: Backend) -> None:
        self._backend, self._sleepers, self._counts = backend, backend.sleepers, backend.counts

    # ---- calls that don't wait

    def at_once(self, x: int, ask: Callable[[], Asked[Reply]]) -> Reply:
        """What a call is answered that doesn't wait. The lock isn't held."""
        reply: Reply = self._backend.run(ask)  # type: ignore[assignment]
        if reply.__class__ is Busy:
            with self._backend.lock:
                self._counts.busy[x] += 1
        return reply

    def call_now(self, t: "Transaction", x: int, call: int) -> Asked[Reply]:
        """A call that has passed the gate, where somebody sleeps, under the lock."""
        self._backend.check(t)
        ahead = self._at_gate(t, x, call)
        return self._backend.call_op(t, x, call) if ahead is None else ahead

    def would_now(self, t: "Transaction", x: int, call: int) -> Asked[Reply]:
        """What the call would be answered, where somebody sleeps, under the lock."""
        self._backend.check(t)
        ahead = self._at_gate(t, x, call)
        return self._backend.would_op(t, x, call) if ahead is None else ahead

    def _at_gate(self, t: "Transaction", x: int, call: int) -> Optional[Busy]:
        ahead = self._sleepers.at_gate(Asker(self._known(t), t._age, x, call % PLACES))
        return None if ahead is None else Busy(*self._seen(t, ahead))

    def _known(self, t: "Transaction") -> int:
        """The number by which those that wait know a transaction."""
        return self._backend.known(t._life, t._number)

    def _seen(self, t: "Transaction", known: int) -> Tuple[int, Optional[int]]:
        """The number of the transaction that is known by a number, and its life where that isn't this one's."""
        life, number = self._backend.named(known)
        return number, None if life == t._life else life

    # ---- calls that wait

    def call(self, t: "Transaction", x: int, call: int, wait: float) -> Reply:
        """A call that waits this many seconds at most. The lock isn't held."""
        deadline = deadline_of(wait)
        sleeper = Sleeper(self._known(t), t._age, x, call)
        try:
            try:
                return self._waited(t, sleeper, deadline)
            finally:
                self._leave(sleeper)
        except BaseException:
            self._leave(sleeper)  # also where the first time was interrupted
            raise

    def _waited(self, t: "Transaction", sleeper: Sleeper, deadline: float) -> Reply:
        """After each sleep all is looked at anew: the gate, whether the call would be free, and then the call itself."""
        reply = self._tried(t, sleeper, deadline, True)
        while reply is None:
            start = time.monotonic()
            is_rung = self._slept(sleeper, deadline)
            self._get_up(t, sleeper, is_rung, time.monotonic() - start)
            reply = self._tried(t, sleeper, deadline, False)
        return reply

    def _slept(self, sleeper: Sleeper, deadline: float) -> bool:
        """Sleeps until it is rung, or its time is over. Whether it was rung. What others let go open is aborted now and then."""
        while True:
            left = deadline - time.monotonic()
            if sleeper.bell.sleep(min(left, SECONDS_OF_NAP)):
                return True
            if left <= SECONDS_OF_NAP:
                return False
            if self._backend.gone:
                with self._backend.lock:
                    self._backend.put_right()

    def _tried(self, t: "Transaction", sleeper: Sleeper, deadline: float, is_first: bool) -> Optional[Reply]:
        """The answer of the call; none where it has lain down. The lock isn't held."""
        def ask() -> Asked[Optional[Reply]]:
            return self._try(t, sleeper, deadline, is_first)

        return cast(Optional[Reply], self._backend.run(ask))

    def _try(self, t: "Transaction", sleeper: Sleeper, deadline: float, is_first: bool) -> Steps[Optional[Reply]]:
        """The answer of the call; none where it has lain down."""
        if self._backend.is_in_turn():
            raise ValueError("a call can't wait inside of `transact`")
        while True:
            told = yield from self._look(t, sleeper, is_first)
            if isinstance(told, REPLIES):
                return told
            if told is not None or not is_first:
                self._check_time(deadline)
            self._check_alone(sleeper)
            if told is not None:
                self._lie_down(t, sleeper, told)
                return None
            self._sleepers.look_again(sleeper)
            is_first = False

    def _look(self, t: "Transaction", sleeper: Sleeper, is_first: bool) -> Steps[Union[Reply, Ahead, None]]:
        """The answer of the call, or who is in its way; None where somebody let go while the answer was awaited."""
        x, call = sleeper.asker.object, sleeper.call
        # the transaction may have ended while it slept
        self._backend.check(t)
        ahead = self._sleepers.at_gate(sleeper.asker)
        if ahead is not None:
            return Ahead(ahead, True)
        # only what is free is called again, so that a try is no event
        reply = None if is_first else cast(Reply, (yield from self._backend.steps_to(lambda: self._backend.would_op(t, x, call))))
        if not isinstance(reply, Busy):
            reply = cast(Reply, (yield from self._backend.steps_to(lambda: self._backend.call_op(t, x, call))))
        if not isinstance(reply, Busy):
            return reply
        # or while the answer was awaited
        self._backend.check(t)
        blocker = self._backend.known(t._life if reply.life is None else reply.life, reply.blocker)
        return None if self._backend.is_stale(x, blocker) else Ahead(blocker, False)

    def _check_alone(self, sleeper: Sleeper) -> None:
        """Raises `ValueError` where the transaction waits in another thread."""
        if self._sleepers.calls.get(sleeper.asker.number, sleeper) is not sleeper:
            raise ValueError("the transaction waits already, in another thread")

    def _check_time(self, deadline: float) -> None:
        """Raises `TimedOut` where the time is over."""
        if time.monotonic() >= deadline:
            self._time_out()

    def _time_out(self) -> NoReturn:
        self._counts.timeouts += 1
        raise TimedOut(TimedOut.__doc__)

    def _lie_down(self, t: "Transaction", sleeper: Sleeper, ahead: Ahead) -> None:
        """From now on it is woken where it may go."""
        self._sleepers.lie_down(sleeper, ahead.blocker, ahead.by_gate)
        self._counts.busy[sleeper.asker.object] += 1
        self._counts.waits += 1
        # who loses the connection marks it first and rings then, so one of the two sees the other
        self._backend.check(t)

    def _get_up(self, t: "Transaction", sleeper: Sleeper, is_rung: bool, slept: float) -> None:
        """A sleep is over. Raises `TimedOut` where nobody ended it, and of a victim `DeadlockError`, behind its abort."""
        with self._backend.lock:
            self._counts.waited += slept
            if sleeper.waited_for is None:
                if not is_rung and sleeper.is_asleep:
                    self._time_out()
                return
            self._counts.deadlocks += 1
            finish = self._backend.abort(t)
            t._deadlock = DeadlockError(*self._seen(t, sleeper.waited_for))
        finished(finish)
        raise t._deadlock

    def _leave(self, sleeper: Sleeper) -> None:
        """The call waits no more. A second time does nothing."""
        if self._sleepers.calls.get(sleeper.asker.number) is sleeper:
            with self._backend.lock:
                self._sleepers.leave(sleeper)

    # ---- waiting for an end

    def before_next(self, t: "Transaction", reason: Exception, behind: int, backoff: float) -> None:
        """What comes between two tries, when this many are over. The lock isn't held."""
        if isinstance(reason, DeadlockError):
            # a victim that began at once would take again what it gave up, before the other one wakes
            self._await_end(t, t._life if reason.life is None else reason.life, reason.blocker)
        else:
            time.sleep(random.uniform(0, min(backoff * 2.0 ** min(behind - 1, 60), LONGEST_BACKOFF)))

    def _await_end(self, t: "Transaction", life: int, number: int) -> None:
        """Waits until the transaction has ended for which another one waited. Where an epoch has ended since, that may have aborted it."""
        backend = self._backend
        self._watch(backend.known(life, number), SECONDS_FOR_BLOCKER, lambda: t._life == backend.life and backend.is_open(life, number))

    def out_of_the_way(self, busy: Busy, deadline: float) -> None:
        """Sleeps until the transaction that was in the way of an attempt has ended, or for a nap. The lock isn't held.

        Raises `TimedOut` where the time is over.
        """
        start = time.monotonic()
        if start >= deadline:
            with self._backend.lock:
                self._counts.timeouts += 1
            raise TimedOut("the limit of a wait is over, and nothing was executed")
        backend, seconds = self._backend, min(deadline - start, SECONDS_OF_NAP)
        life, number = backend.life if busy.life is None else busy.life, busy.blocker
        self._watch(backend.known(life, number), seconds, lambda: backend.may_be_open(life, number))
        with self._backend.lock:
            self._counts.waits += 1
            self._counts.waited += time.monotonic() - start

    def in_room(self, begin: Callable[[], None], seconds: float) -> None:
        """Begins a transaction. Where too many are open it waits for an end, this many seconds at most, and then begins."""
        deadline = time.monotonic() + seconds
        while True:
            ends = self._backend.ends
            try:
                begin()
                return
            except TooManyOpenError:
                left = deadline - time.monotonic()
                if left <= 0:
                    raise
            self._watch(None, left, lambda: self._backend.ends == ends and not self._backend.is_lost())

    def _watch(self, number: Optional[int], seconds: float, is_to_come: Callable[[], bool]) -> None:
        """Sleeps until a transaction ends, or any, where that is to come, this many seconds at most."""
        watch = Watch()
        try:
            try:
                with self._backend.lock:
                    self._sleepers.look_on(watch, number)
                    # who loses the connection marks it first and rings then, so one of the two sees the other
                    is_sleeping = is_to_come()
                if is_sleeping:
                    watch.bell.sleep(seconds)
            finally:
                self._look_away(watch)
        except BaseException:
            self._look_away(watch)  # also where the first time was interrupted
            raise

    def _look_away(self, watch: Watch) -> None:
        with self._backend.lock:
            self._sleepers.look_away(watch)


def finished(finish: Finish) -> None:
    """Does what is left to do, outside the lock."""
    if finish is not None:
        finish()


def deadline_of(wait: float) -> float:
    """When a wait is over, by the monotonic clock. Raises `ValueError` where it is negative or no number."""
    if not wait >= 0:
        raise ValueError(f"a wait is {wait!r} seconds")
    return time.monotonic() + wait
