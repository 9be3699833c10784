"""A store in memory, over the library."""
import ctypes
import time
from functools import partial
from itertools import islice
from typing import TYPE_CHECKING, Callable, Dict, Iterable, List, NoReturn, Optional, Sequence, Tuple, Union
from weakref import ref

from . import _library
from ._attempts import Attempt, Done, Ended
from ._backend import NOBODY, CallAt, Finish, Pairs
from ._errors import Error, IllegalError, NotFollowedError, NotOpenError, PreparedError, done, error_of
from ._events import Event, EventKind, event_of, words_of
from ._library import functions, quick, unsigned
from ._keys import PREPARED, Committed, Keys, Outcome, refuse_work
from ._limits import Limits
from ._objects import Given, check_names
from ._outcomes import outcome_among
from ._reads import Moment, Seen, States
from ._renewals import ALL, NO_CALL, Renewing
from ._replies import Busy, Illegal, Operation, Reply
from ._sleepers import Blocker, Sleeper

if TYPE_CHECKING:
    from ._transaction import Transaction

_BEGIN, _CALL, _CALL_OP, _WOULD, _WOULD_OP = (quick[name] for name in ("begin", "call", "call_op", "would", "would_op"))
COMMIT, ABORT, _ROLLBACK = (quick[name] for name in ("commit", "abort", "rollback"))
_ATTEMPT_OP, _PEEK, _COMMITTED = (quick[name] for name in ("attempt_op", "peek", "committed"))
_ILLEGAL = Illegal()
# What the library may have done of which the client doesn't know yet.
Half = Tuple[Optional["Transaction"], int, int, Optional[str]]
# That a transaction was begun.
_BEGINS: Half = (None, 0, 0, None)
# What is no kind of an outcome.
_NO_KIND = (1 << 64) - 1


class Memory(Renewing):
    """Transactions over the library. What it is asked is done when it answers."""

    def __init__(self, first: List[Given], limits: Limits) -> None:
        # before anything is refused, since it is closed where it goes
        super().__init__(_blocker_in(ref(self)), limits.events)
        check_names(first, ())
        events, opens = unsigned("the limit of events", limits.events, 64), unsigned("the limit of open transactions", limits.open, 32)
        objects, outcomes = unsigned("the limit of objects", limits.objects, 32), unsigned("the limit of outcomes", limits.outcomes, 32)
        _begin_store(self._handle, first)
        # the replies are made once, under the lock
        self._replies: List[Dict[int, Operation]] = []
        self.know(0, first)
        # what says who is in the way of a sleeper writes into it
        self._told_of_sleeper = _library.Answer()
        # a transaction that ends, how many commits and aborts there are with it, and the key under which it commits; or `_BEGINS`
        self._half: Optional[Half] = None
        self._keys = Keys(outcomes)
        done(functions["store_open_with"](self._handle, events, opens, objects))

    # ---- transactions

    def begin(self, t: "Transaction") -> bool:
        if self._half is not None or self.doing is not None or self.gone:
            self.put_right()
        self._half, epoch = _BEGINS, self.epoch
        code = _BEGIN(self._handle, t._worker, epoch.begun)
        if code:
            self._half = None
            self.make_room(code)
            return self.begin(t)
        t._in_library = epoch.begun.value
        t._life, t._number, t._epoch = self.life, t._in_library + epoch.shift, epoch
        self.hold(t, t._number)
        self._half = None
        return True

    def is_half_done(self) -> bool:
        return self._half is not None or super().is_half_done()

    def put_right(self) -> None:
        if self._half is not None:
            t = self._half[0]
            # the library does all of what it is asked, or nothing
            if t is None:
                number = self.epoch.begun.value + self.epoch.shift
                # it may be the one before, which nobody has to have where it is prepared
                if number not in self.holders and all(one.number != number for one in self.undecided.values()):
                    self.abort_forsaken(number)
            elif not self.is_open(self.life, t._number):
                self._has_ended()
            self._half = None
        super().put_right()

    def abort_forsaken(self, known: int) -> None:
        if self.is_open(self.life, known):
            self.counts.aborts += 1
            self.doing = self.sleepers.begin_anew
            ABORT(self._handle, 0, self.epoch.in_library(known))
            self.ends += 1
            # at which objects it let go isn't known
            self.sleepers.ended(known, range(len(self.types)))
            self.doing = None

    def _refuse(self, t: "Transaction") -> NoReturn:
        """Raises what is said of a transaction that is prepared, or of an earlier life."""
        if t._key is None:
            raise NotOpenError(NotOpenError.__doc__)
        # where the store is closed this raises
        self.moment()
        raise PreparedError(t._key)

    def _know_again(self, t: "Transaction") -> None:
        """A transaction is used in the present epoch of the library. Raises what is said where it can't be used."""
        if t._life != self.life or t._key is not None:
            self._refuse(t)
        epoch = self.epoch
        t._in_library = epoch.in_library(t._number)
        t._epoch = epoch

    def check(self, t: "Transaction") -> None:
        if t._key is not None:
            self._refuse(t)
        code = self._code_of(self.epoch.in_library(t._number)) if t._life == self.life else _library.NOT_OPEN
        if code != _library.NO_CALL:
            raise error_of(code)

    def is_stale(self, x: int, blocker: int) -> bool:
        return False

    def call(self, t: "Transaction", x: int, name: str) -> Reply:
        content = name.encode("utf-8", "surrogatepass")
        if t._epoch is not self.epoch or t._key is not None:
            self._know_again(t)
        try:
            code = _CALL(self._handle, t._worker, t._in_library, x, content, len(content), self._answer)
            if code:
                self.make_room(code)
                return self.call(t, x, name)
            if self._answer.kind:
                return self._otherwise()
            t._touched.add(x)
        except Error:
            raise
        except BaseException:
            t._touched.add(x)  # it may have been executed
            raise
        return self._replies[x][self._answer.number]

    def call_op(self, t: "Transaction", x: int, call: int) -> Reply:
        if t._epoch is not self.epoch or t._key is not None:
            self._know_again(t)
        try:
            code = _CALL_OP(self._handle, t._worker, t._in_library, x, call, self._answer)
            if code:
                self.make_room(code)
                return self.call_op(t, x, call)
            if self._answer.kind:
                return self._otherwise()
            t._touched.add(x)
        except Error:
            raise
        except BaseException:
            t._touched.add(x)  # it may have been executed
            raise
        return self._replies[x][self._answer.number]

    def blocker_of(self, sleeper: Sleeper) -> Optional[int]:
        """Who is in the way of a sleeper, if anyone."""
        told, number = self._told_of_sleeper, self.epoch.in_library(sleeper.asker.number)
        # where it is refused, or there is no room for it, the sleeper is to see that itself
        code = _WOULD_OP(self._handle, number, sleeper.asker.object, sleeper.call, told)
        return self.epoch.number(told.number) if code == _library.OK and told.kind == 1 else None

    def would(self, t: "Transaction", x: int, name: str) -> Reply:
        content = name.encode("utf-8", "surrogatepass")
        if t._epoch is not self.epoch or t._key is not None:
            self._know_again(t)
        code = _WOULD(self._handle, t._in_library, x, content, len(content), self._answer)
        if code:
            self.make_room(code)
            return self.would(t, x, name)
        return self._replies[x][self._answer.number] if self._answer.kind == 0 else self._otherwise()

    def would_op(self, t: "Transaction", x: int, call: int) -> Reply:
        if t._epoch is not self.epoch or t._key is not None:
            self._know_again(t)
        code = _WOULD_OP(self._handle, t._in_library, x, call, self._answer)
        if code:
            self.make_room(code)
            return self.would_op(t, x, call)
        return self._replies[x][self._answer.number] if self._answer.kind == 0 else self._otherwise()

    def _otherwise(self) -> Reply:
        return Busy(self.epoch.number(self._answer.number)) if self._answer.kind == 1 else _ILLEGAL

    def rollback(self, t: "Transaction", operations: int) -> Finish:
        self.put_right()
        if t._epoch is not self.epoch or t._key is not None:
            self._know_again(t)
        t._took_back = True
        self.doing = self.sleepers.begin_anew
        code = _ROLLBACK(self._handle, t._worker, t._in_library, operations)
        if not code and self.sleepers.calls:
            self.sleepers.took_back(t._number, t._touched)
        self.doing = None
        if code:
            self.make_room(code)
            return self.rollback(t, operations)
        return None

    def commit(self, t: "Transaction", key: Optional[str] = None) -> Finish:
        if key is not None:
            return self._commit_under(t, key)
        if self._half is not None or self.gone:
            self.put_right()
        if t._epoch is not self.epoch or t._key is not None:
            self._know_again(t)
        if not t._ended:
            self._half = t, self.counts.commits + 1, self.counts.aborts, None
        return self._ended(COMMIT(self._handle, t._worker, t._in_library))

    def _commit_under(self, t: "Transaction", key: str) -> Finish:
        """A commit under a key. It counts as one also where another one committed under it before."""
        outcome = self.outcome(key)
        if t._key is not None:
            self._refuse(t)
        refuse_work(key, outcome)
        was_done = isinstance(outcome, Committed)
        if was_done and not self.is_open(t._life, t._number):
            self.counts.commits += 1
            return None
        self.check(t)
        self._know_again(t)
        self._half = t, self.counts.commits + 1, self.counts.aborts, None if was_done else key
        return self._ended((ABORT if was_done else COMMIT)(self._handle, t._worker, t._in_library))

    def outcome(self, key: str) -> Outcome:
        self.put_right()
        # where it is closed this raises
        self.moment()
        return PREPARED if key in self.undecided else self._keys.outcome(key)

    def abort(self, t: "Transaction") -> Finish:
        if self._half is not None or self.gone:
            self.put_right()
        if t._epoch is not self.epoch or t._key is not None:
            self._know_again(t)
        if not t._ended:
            self._half = t, self.counts.commits, self.counts.aborts + 1, None
        return self._ended(ABORT(self._handle, t._worker, t._in_library))

    def _ended(self, code: int) -> Finish:
        """The library was asked for an end, and told this code. Who is woken by it goes first."""
        self.sleepers.has_woken = False
        if code:
            self._half = None
            raise error_of(code)
        self._has_ended()
        self._half = None
        return let_others_run if self.sleepers.has_woken else None

    def _has_ended(self) -> None:
        """What follows from an end. It may be done twice."""
        t, commits, aborts, key = self._half or _BEGINS
        if t is None:
            return
        # before it counts as ended, and so never of one that had ended otherwise
        if key is not None and not t._ended:
            self._keys.keep(key, Committed(()))
        self.counts.commits, self.counts.aborts = commits, aborts
        t._ended = True
        self.ends += 1
        self.holders.pop(t._number, None)
        if not self.sleepers.is_empty():
            self.sleepers.ended(t._number, t._touched)

    def attempt(self, pairs: Pairs, worker: int, key: Optional[str] = None) -> Callable[[], Attempt]:
        self.put_right()
        before = None if key is None else self.told_before(self.outcome(key), pairs, key)
        if before is not None:
            self.counts.commits += 1
            return partial(_told_after, before, False)
        count = len(pairs)
        numbers = ctypes.c_uint64 * count
        objects, calls = (ctypes.c_uint32 * count)(*(x for x, _ in pairs)), numbers(*(self._call_or_none(x, name) for x, name in pairs))
        operations, outcome = numbers(), _library.Outcome(_NO_KIND)
        self.sleepers.has_woken, numbered = False, self.epoch.next_in_library() + 1
        self.doing = partial(self._put_attempt_right, pairs, key, operations, outcome, numbered)
        code = _ATTEMPT_OP(self._handle, worker, objects, count, calls, count, operations, count, outcome)
        told = None if code else self._came(pairs, key, operations, outcome, numbered)
        self.doing = None
        if told is None:
            self.make_room(code)
            return self.attempt(pairs, worker, key)
        return partial(_told_after, told, self.sleepers.has_woken)

    def _call_or_none(self, x: int, name: str) -> int:
        """The number of a call, as the library refuses it where it isn't there."""
        call = self.call_of(x, name)
        return NO_CALL if call is None else call

    def _put_attempt_right(self, pairs: Pairs, key: Optional[str], operations: Iterable[int], outcome: _library.Outcome, numbered: int) -> None:
        """An attempt was interrupted: who sleeps may be free behind it, and where it committed its key is kept."""
        self.sleepers.begin_anew()
        if outcome.kind != _NO_KIND:
            self.epoch.numbered = numbered
        if not outcome.kind:
            self._done(pairs, key, operations)

    def _came(self, pairs: Pairs, key: Optional[str], operations: Iterable[int], outcome: _library.Outcome, numbered: int) -> Attempt:
        """What came of an attempt, which is counted. Whoever sleeps at an object that it changed may be free by now."""
        self.epoch.numbered = numbered
        if outcome.kind:
            self.counts.aborts += 1
            return Ended(outcome.at, self._how(pairs[outcome.at][0], outcome))
        told = self._done(pairs, key, operations)
        self.counts.commits += 1
        if self.sleepers.calls:
            self.sleepers.took_back(NOBODY, {x for x, _ in pairs})
        return told

    def _done(self, pairs: Pairs, key: Optional[str], operations: Iterable[int]) -> Done:
        """An attempt committed: its operations, of which the replies are kept under its key. It may be done twice."""
        told = Done(tuple(self._replies[x][number] for (x, _), number in zip(pairs, operations)))
        if key is not None:
            self._keys.keep(key, Committed(tuple(operation.reply for operation in told.replies)))
        return told

    def _how(self, x: int, outcome: _library.Outcome) -> Union[Busy, Illegal, Error]:
        """How a call at an object ended it."""
        if outcome.kind == 1:
            self.counts.busy[x] += 1
            return Busy(self.epoch.number(outcome.number))
        return _ILLEGAL if outcome.kind == 2 else error_of(outcome.number)

    def abort_all(self) -> int:
        self.put_right()
        count = self.open_count()
        self.doing = self.sleepers.begin_anew
        done(functions["abort_all"](self._handle))
        self.ends += 1
        self.sleepers.all_ended()
        self.doing = None
        return count

    # ---- what is committed

    def moment(self) -> Moment:
        return Moment(self.life, self.commit_count())

    def peek(self, pairs: Pairs) -> Seen:
        replies = [self._peeked(index, call) for index, call in enumerate(self.calls_at(pairs))]
        return Seen(self.moment(), tuple(replies))

    def _peeked(self, index: int, call: CallAt) -> Operation:
        """The operation of the call at this place."""
        name = call.name.encode("ascii")
        done(_PEEK(self._handle, call.object, name, len(name), self._answer, self._number))
        if self._answer.kind:
            raise IllegalError.at(index)
        return self._replies[call.object][self._answer.number]

    def states(self, objects: Sequence[int]) -> States:
        states = [self._state(x) for x in objects]
        return States(self.moment(), tuple(states))

    def _state(self, x: int) -> int:
        """The committed state of an object."""
        done(_COMMITTED(self._handle, x, self._number, self._commits))
        return self._number.value

    def snapshot(self) -> States:
        count = len(self.types)
        room = (ctypes.c_uint64 * count)()
        done(functions["snapshot"](self._handle, room, count, self._number))
        return States(Moment(self.life, self.epoch.commits + self._number.value), tuple(room))

    # ---- the store

    def call_number(self, x: int, name: str) -> int:
        call, content = ctypes.c_uint64(), name.encode("utf-8", "surrogatepass")
        done(functions["call_number"](self._handle, x, content, len(content), call))
        return call.value

    def kept(self, x: int) -> int:
        done(functions["kept"](self._handle, x, self._number))
        return self._number.value

    def events(self, start: int) -> Callable[[], List[Event]]:
        (count, forgotten), epoch = self._event_counts(), self.epoch
        if start < forgotten:
            raise error_of(_library.FORGOTTEN)
        size = max(count - start, 0)
        room, copied = (_library.Event * max(size, 1))(), ctypes.c_uint64()
        done(functions["events"](self._handle, start - epoch.events, room, size, copied))
        return lambda: [event_of(room[i], epoch.number) for i in range(copied.value)]

    def take_events(self) -> Callable[[], List[Event]]:
        told = self.events(self.forgotten_count())
        self.forget(ALL)
        return told

    def event_count(self) -> int:
        return self._event_counts()[0]

    def forgotten_count(self) -> int:
        return self._event_counts()[1]

    def _event_counts(self) -> Tuple[int, int]:
        """How many events there were, and how many of them were forgotten."""
        counts = self.counts_in_library()
        return self.epoch.events + counts.all, self.epoch.events + counts.forgotten

    def follow(self, events: Iterable[Event]) -> None:
        all_of_them = list(events)
        self.put_right()
        place = 0
        while True:
            code, made = self._followed(all_of_them[place:])
            place += made
            if code != _library.NOT_MADE or not self.is_full():
                break
            try:
                self.make_room(_library.HISTORY_FULL)
            except Error:
                break
        if code == _library.NOT_HELD:
            raise error_of(code)
        if code != _library.OK:
            raise NotFollowedError(place) from error_of(code)

    def _followed(self, events: List[Event]) -> Tuple[int, int]:
        """Makes events again in the present epoch of the library. The code of that, and how many were made."""
        words = [words_of(event, self.epoch.in_library) for event in events]
        room, made = (_library.Event * max(len(words), 1))(*words), ctypes.c_uint64()
        # the events may have ended whom somebody waits for
        self.doing = has_followed = partial(self._has_followed, events, made, self.epoch.next_in_library())
        code = functions["follow"](self._handle, room, len(words), made)
        has_followed()
        self.doing = None
        return code, made.value

    def _has_followed(self, events: List[Event], made: ctypes.c_uint64, numbered: int) -> None:
        """The first of these events were made, when so many transactions were numbered. It may be done twice."""
        self.epoch.numbered = numbered + sum(event.kind is EventKind.BEGIN for event in islice(events, made.value))
        self.sleepers.begin_anew()

    def extend(self, added: List[Given]) -> int:
        return self.run(lambda: self._extend(added))

    def _extend(self, added: List[Given]) -> int:
        check_names(added, self.numbers)
        self.put_right()
        first, life, begun = len(self.types), self.life + 1, _Begun(added)
        self.doing = lambda: self._put_extension_right(life, first, added)
        code = functions["store_extend"](self._handle, begun)
        if not code:
            self._has_extended(life, first, added)
        self.doing = None
        done(code)
        return first

    def _put_extension_right(self, life: int, first: int, added: List[Given]) -> None:
        """An extension was interrupted: where it was done the first new object is there; as a renewal where none is new."""
        is_done = functions["kept"](self._handle, first, self._number) == _library.OK if added else not self.counts_in_library().all
        if is_done:
            self._has_extended(life, first, added)

    def _has_extended(self, life: int, first: int, added: List[Given]) -> None:
        """What follows from an extension. It may be done twice, as what follows from a renewal."""
        if self.life != life:
            self.know(first, added)
            self.has_renewed(life)

    def know(self, first: int, added: List[Given]) -> None:
        super().know(first, added)
        self._replies[first:] = [of._calls.replies for of, _ in added]

    def committed(self, life: int, number: int) -> Optional[bool]:
        # the history of an earlier life isn't there any more
        return outcome_among(self.events(self.forgotten_count())(), number) if life == self.life else None

    def close(self) -> Finish:
        self.put_right()
        self.doing = self.sleepers.begin_anew
        functions["close"](self._handle)
        self.ends += 1
        self.sleepers.all_ended()
        self.doing = None
        return None

    def after_fork(self) -> None:
        super().after_fork()
        # another thread may have been in the library, so what was held isn't used any more: not even to give it back
        self._handle = _library.Handle()

    def __del__(self, close: Callable[..., int] = functions["close"]) -> None:
        close(self._handle)


class _Begun(_library.Handle):
    """The beginning of a store of these objects, as long as somebody has it."""

    def __init__(self, objects: List[Given]) -> None:
        super().__init__()
        _begin_store(self, objects)

    def __del__(self, close: Callable[..., int] = functions["close"]) -> None:
        close(self)


def _begin_store(handle: _library.Handle, objects: List[Given]) -> None:
    """Begins a store of these objects behind a handle."""
    done(functions["store_new"](handle))
    for of, _ in objects:
        of._add_to(handle)


def _told_after(told: Attempt, has_woken: bool) -> Attempt:
    """What came of an attempt. Who was woken by it goes first."""
    if has_woken:
        let_others_run()
    return told


def let_others_run() -> None:
    """Else they would run when this thread sleeps, or after some milliseconds."""
    time.sleep(0)


def _blocker_in(memory: "ref[Memory]") -> Blocker:
    """What says who is in the way of a sleeper. It doesn't have the store, which goes as soon as nobody has it."""

    def blocker(sleeper: Sleeper) -> Optional[int]:
        store = memory()
        return None if store is None else store.blocker_of(sleeper)

    return blocker
