"""Types of objects."""
import ctypes
import enum
import operator
import os
import threading
import weakref
from typing import Any, Callable, FrozenSet, Hashable, Iterable, List, NamedTuple, Optional, Sequence, Tuple, TypeVar, Union, cast

from . import _library
from ._bounds import Bounds, bounds_of, may_block
from ._calls import Calls
from ._errors import BadParameter, NoOperation, done, error_of, type_error
from ._library import functions, unsigned
from ._operations import number_of
from ._steps import grid, labelled


class Kind(enum.IntEnum):
    """How an object recovers from aborts."""

    UNDO = 0
    """It is updated in place, and operations are taken back."""
    INTENTIONS = 1
    """Each transaction keeps its operations by itself until it commits."""
    ESCROW = 2
    """The same of a number: how far others may move it says what has to wait, and no conflict table does.

    A type has to be numeric: each operation is legal from a lowest to a highest state, and moves all of these as far.
    A counter, a stock and an account are, a set isn't, a semiqueue and a queue are where they have one element, or a
    capacity of 1, and seats are where there is one.
    """


class TypeOperation(NamedTuple):
    """An operation of a type: a call with its reply."""

    call: str
    reply: str


# How an operation is named: by its number (`Operation.number`), or by its call and reply.
OperationName = Union[int, Tuple[str, str]]
S = TypeVar("S", bound=Hashable)


class Source(NamedTuple):
    """What a type was made of: a text, or the family and the words of `colock make`."""

    text: bytes = b""
    has_made_tables: bool = False
    words: Tuple[str, ...] = ()


class Type:
    """States, operations, and which operations conflict, checked for a kind of recovery.

    Many objects of many stores may have one type. It may be closed, or let go, before they are. Its text by
    `print` is the grid of its conflicts: a row for each operation that is requested, a column for each that is held.
    Of `Kind.ESCROW` it is a line that says that there is no conflict table.
    """

    name: str
    kind: Kind
    states: int
    """How many states there are: they are the numbers below."""
    initial: int
    operations: Tuple[TypeOperation, ...]
    """The operations that it lists, by their places; with any amount as ("take:any", "ok"), and a value as ("value", "n")."""
    labels: Optional[Tuple[Hashable, ...]]
    """The states by their numbers, as the function of `from_steps` has them; None of any other type."""

    def __init__(self, text: Union[str, bytes], kind: Kind = Kind.UNDO) -> None:
        """The type of a text, with its own conflicts, which for `Kind.ESCROW` aren't looked at.

        A text whose first word is `number` is of a number up to 4,294,967,295, which has no table and is for `Kind.ESCROW`
        alone. It lists amounts, or with `take any` and `give any` takes and gives each one from 1 to the greatest number,
        as `take:17`; with `value` it answers what it is. Raises `BadText`, `NeedsEscrow`, `Refused` or `NoMemory`.
        """
        content = _bytes(text)
        self._make(Source(content), "type_read", kind, content, len(content))

    @classmethod
    def with_made_tables(cls, text: Union[str, bytes], kind: Kind = Kind.UNDO) -> "Type":
        """The type of a text whose conflicts are found out. Raises `BadText`, `Refused` or `NoMemory`."""
        content = _bytes(text)
        return cls._made(Source(content, True), "type_tables", kind, content, len(content))

    @classmethod
    def from_steps(
        cls,
        name: str,
        initial: S,
        operations: Iterable[Tuple[str, str]],
        step: Callable[[S, Tuple[str, str]], Optional[S]],
        kind: Kind = Kind.UNDO,
    ) -> "Type":
        """The type of a function, whose conflicts are found out.

        `operations` are 1 to 64 pairs of a call and a reply, and `step` gives the state to which a pair leads from
        a state, or None where it isn't legal. States are hashable, and equal ones are one. They are found from
        `initial` on and numbered as they are found, 1 to 1,024; for `Kind.ESCROW` in ascending order, so that a number
        may begin in the middle. `labels` has them by their numbers. Names are 1 to 32 of `a` to `z`, `0` to `9`, `_`,
        `:` and `-`. Raises `TooManyStates`, `BadParameter` where a name is none, `BadText` where a pair is there twice
        or there are none or more than 64, `Refused`, `NoMemory`, or for `Kind.ESCROW` `TypeError` where states have no
        order.
        """
        content, labels = labelled(name, initial, list(operations), step, Kind(kind) is Kind.ESCROW)
        made = cls._made(Source(content, True), "type_tables", kind, content, len(content))
        made.labels = labels
        return made

    @classmethod
    def account(cls, cap: int, amounts: Iterable[int], kind: Kind = Kind.UNDO) -> "Type":
        """An account of 0 to `cap`: `deposit:A` and `withdraw:A` for each amount A, and `balance`.

        Amounts are 1 to `cap`, ascending. Raises `BadParameter`, `TooLarge` or `NoMemory`.
        """
        return cls._of_amounts("account", cap, list(amounts), kind)

    @classmethod
    def counter(cls, cap: int, amounts: Iterable[int], kind: Kind = Kind.UNDO) -> "Type":
        """A counter of 0 to `cap`: `inc:A` and `dec:A` for each amount A. As `account`."""
        return cls._of_amounts("counter", cap, list(amounts), kind)

    @classmethod
    def stock(cls, cap: int, amounts: Iterable[int], kind: Kind = Kind.UNDO) -> "Type":
        """A stock of 0 to `cap`: `give:A` and `take:A` for each amount A, whose refusals, `full` and `short`, are replies.

        As `account`.
        """
        return cls._of_amounts("stock", cap, list(amounts), kind)

    @classmethod
    def set(cls, elements: Iterable[str], kind: Kind = Kind.UNDO) -> "Type":
        """A set: `insert:E`, `delete:E` and `member:E` for each element E, which are names. As `account`."""
        names = list(elements)
        content = _spaced(names)
        return cls._made(_family("set", 0, names), "type_set", kind, content, len(content))

    @classmethod
    def semiqueue(cls, elements: Iterable[str], capacity: int, kind: Kind = Kind.UNDO) -> "Type":
        """A semiqueue of at most `capacity` items: `enq:E` for each element E, and `deq`, whose reply is any item.

        As `account`.
        """
        return cls._of_elements("semiqueue", list(elements), capacity, kind)

    @classmethod
    def queue(cls, elements: Iterable[str], capacity: int, kind: Kind = Kind.UNDO) -> "Type":
        """A queue of at most `capacity` items: `enq:E` for each element E, and `deq`, whose reply is the item that is
        longest there.

        As `account`.
        """
        return cls._of_elements("queue", list(elements), capacity, kind)

    @classmethod
    def seats(cls, count: int, kind: Kind = Kind.UNDO) -> "Type":
        """1 to 6 seats, each free, held or booked: `hold:I`, `release:I`, `book:I` and `cancel:I` for each I from 1 to
        `count`, and `free`, whose reply is how many are free.

        As `account`.
        """
        most = unsigned("the seats", count, 64)
        return cls._made(_family("seats", most, []), "type_seats", kind, most)

    @classmethod
    def number(cls, most: int, amounts: Iterable[int]) -> "Type":
        """A number of 0 to `most`, at 0, of `Kind.ESCROW`, which has no table: `take:A` and `give:A` for each amount A, whose
        refusals, `short` and `full`, are replies.

        `most` is up to 4,294,967,295, and amounts are 1 to `most`, ascending, at most 16. Raises `BadParameter`, `TooLarge`
        or `NoMemory`.
        """
        numbers = list(amounts)
        room, count = _words(numbers, ctypes.c_uint32)  # it raises where an amount is none
        source = _family("number", unsigned("the greatest value", most, 32), numbers)
        return cls._made(source, "type_number", Kind.ESCROW, most, room, count)

    @classmethod
    def _of_elements(cls, family: str, names: List[str], capacity: int, kind: Kind) -> "Type":
        content, most = _spaced(names), unsigned("the capacity", capacity, 64)
        return cls._made(_family(family, most, names), "type_" + family, kind, content, len(content), most)

    @classmethod
    def _of_amounts(cls, family: str, cap: int, amounts: List[int], kind: Kind) -> "Type":
        room, count = _words(amounts, ctypes.c_uint64)  # it raises where an amount is none
        most = unsigned("the cap", cap, 64)
        return cls._made(_family(family, most, amounts), "type_" + family, kind, most, room, count)

    @classmethod
    def _made(cls, source: Source, maker: str, kind: Kind, *parameters: Any) -> "Type":
        made = cls.__new__(cls)
        made._make(source, maker, kind, *parameters)
        return made

    def _make(self, source: Source, maker: str, kind: Kind, *parameters: Any) -> None:
        self._lock = threading.RLock()
        _all_types.add(self)
        self._handle = _library.Handle()
        self._source = source
        self.labels = None
        self._is_used = False
        # what is worked out once: which calls block which, and all that two types are compared by
        self._pairs: Optional[FrozenSet[Tuple[int, int]]] = None
        self._all: Optional[Tuple[Any, ...]] = None
        fault = _library.Fault()
        code = functions[maker](self._handle, Kind(kind), *parameters, fault)
        if code != _library.OK:
            raise type_error(code, fault)
        self._read()

    def _read(self) -> None:
        shape = _library.Shape()
        done(functions["type_shape"](self._handle, shape))
        self.kind, self.states, self.initial = Kind(shape.kind), shape.states, shape.initial
        self.name = _told(lambda *room: functions["type_name"](self._handle, *room))
        self.operations = tuple(map(self._operation, range(shape.ops)))
        self._calls = Calls(self.operations, list(map(self._has_amounts, range(shape.ops))), self.states - 1)

    def _operation(self, k: int) -> TypeOperation:
        call = _told(lambda *room: functions["type_call"](self._handle, k, *room))
        return TypeOperation(call, _told(lambda *room: functions["type_reply"](self._handle, k, *room)))

    def _has_amounts(self, place: int) -> bool:
        """Whether the operations at a place have amounts: then the place alone is none."""
        return functions["type_step"](self._handle, 0, place, ctypes.c_uint64()) == _library.NO_OPERATION

    def step(self, state: int, operation: OperationName) -> Optional[int]:
        """The state to which an operation leads from a state; None where it isn't legal there.

        It is a number, or a pair of a call and a reply. Raises `NoState`, `NoOperation` or `ClosedError`.
        """
        s, k, to = unsigned("the state", state, 64), self._number_of(operation), ctypes.c_uint64()
        with self._lock:
            code = functions["type_step"](self._handle, s, k, to)
        if code == _library.NOT_LEGAL:
            return None
        done(code)
        return to.value

    def conflicts(self, requested: OperationName, held: OperationName) -> bool:
        """Whether an operation that is requested conflicts with one that another transaction holds.

        Of `Kind.ESCROW` none do, since it has no conflict table. Each is a place, or a pair of a call and a reply.
        Raises `NoOperation`, also of one with an amount, or `ClosedError`.
        """
        return self._conflicts(self._number_of(requested), self._number_of(held))

    def _conflicts(self, requested: int, held: int) -> bool:
        told = ctypes.c_uint32()
        with self._lock:
            done(functions["type_conflict"](self._handle, requested, held, told))
        return told.value == 1

    def _number_of(self, operation: OperationName) -> int:
        if not isinstance(operation, tuple):
            return unsigned("the operation", operation, 64)
        found = self._calls.found(operation)
        if found is None:
            raise NoOperation(f"the type has no operation {' '.join(map(str, operation))}")
        return found.number

    def _blocks(self) -> FrozenSet[Tuple[int, int]]:
        """The pairs of calls, by their first places, of which the first, once executed, may be in the way of the second.

        Amounts are of no account for that.

        Raises `ClosedError` where it wasn't asked before.
        """
        if self._pairs is None:
            self._pairs = frozenset(self._blocking_pairs())
        return self._pairs

    def _blocking_pairs(self) -> Iterable[Tuple[int, int]]:
        call_of = [row.first for row in self._calls.rows]
        numbers, blocks = range(len(call_of)), self._blocking_test()
        return ((call_of[held], call_of[asked]) for held in numbers for asked in numbers if blocks(asked, held))

    def _blocking_test(self) -> Callable[[int, int], bool]:
        """Whether an operation that is held may be in the way of one that is requested, which comes first."""
        if self.kind is not Kind.ESCROW:
            return self._conflicts
        bounds = list(map(self._bounds_at, range(len(self.operations))))
        return lambda asked, held: any(may_block(one, other) for one in bounds[asked] for other in bounds[held])

    def _bounds(self, operation: int) -> Optional[Bounds]:
        """Between which states an operation of a numeric type is legal. It is no value but 0 or the greatest one."""
        return bounds_of(self.states, lambda state: self.step(state, operation))

    def _bounds_at(self, place: int) -> Tuple[Optional[Bounds], ...]:
        """The bounds of operations at a place that stand for all of them: whether they block others is the same for each
        amount. A take blocks a value that is great enough, and a give one that is small enough.
        """
        row, greatest = self._calls.rows[place], self.states - 1
        if not row.has_amounts:
            return (self._bounds(place),)
        if row.has_values:
            return self._bounds(number_of(place, 0)), self._bounds(number_of(place, greatest))
        # of 32 lines one is for any amount, so that of so many amounts one isn't listed, where there are so many
        amounts = range(1, min(greatest, 32) + 1)
        least = next((amount for amount in amounts if self._calls.name(number_of(row.first, amount)) is not None), None)
        return () if least is None else (self._bounds(number_of(place, least)),)

    def _steps(self, operation: int) -> Any:
        """The states to which an operation leads from each state. Of a number it is the bounds, which say as much."""
        if self.kind is Kind.ESCROW:
            return self._bounds_at(operation)
        return tuple(self.step(s, operation) for s in range(self.states))

    def _compared(self) -> Tuple[Any, ...]:
        """What two types are compared by: name, kind, states, initial state, operations, steps and conflicts.

        Raises `ClosedError` where it wasn't asked before.
        """
        if self._all is None:
            numbers = range(len(self.operations))
            steps = tuple(map(self._steps, numbers))
            conflicts = tuple(self._conflicts(p, q) for p in numbers for q in numbers)
            self._all = (self.name, self.kind, self.states, self.initial, self.operations, steps, conflicts)
        return self._all

    def _use(self) -> None:
        """A store has it, which may ask later what it is asked here. Raises `ClosedError` where it is closed."""
        self._is_used = True
        if not self._handle.live:
            raise error_of(_library.NOT_HELD)

    def _add_to(self, store: _library.Handle) -> None:
        """Adds an object of it to a store that was begun. Raises `NoMemory` or `ClosedError`."""
        self._is_used = True
        try:
            with self._lock:
                code = functions["store_add"](store, self._handle)
        except BaseException:
            # a signal handler may have raised where the lock was held, and nothing would give it back
            while self._lock._is_owned():  # type: ignore[attr-defined]
                self._lock.release()
            raise
        done(code)

    def close(self) -> None:
        """Gives its memory back. Stores that have it keep it. A second time does nothing."""
        if self._is_used and self._handle.live:
            self._blocks()  # its stores may ask later
        with self._lock:
            functions["close"](self._handle)

    def __del__(self, close: Callable[..., int] = functions["close"]) -> None:
        if hasattr(self, "_handle"):
            close(self._handle)

    def __repr__(self) -> str:
        return f"<colock.Type {self.name!r}, {self.kind.name}, {self.states} states, {len(self.operations)} operations>"

    def __str__(self) -> str:
        """The grid of its conflicts, where it has a conflict table. Raises `ClosedError`."""
        numbers = range(len(self.operations))
        held = [[q for q in numbers if self._conflicts(p, q)] for p in numbers]
        title = f"{self.name}, {self.kind.name.lower()}, {self.states} states"
        return f"{title}, no conflict table" if self.kind is Kind.ESCROW else grid(title, self.operations, held)


def _bytes(text: Union[str, bytes]) -> bytes:
    return text.encode("utf-8", "surrogatepass") if isinstance(text, str) else bytes(text)


def _words(numbers: Iterable[int], word: Any) -> Tuple[Any, int]:
    """Numbers as they go over, each a word, and their count. There is always an address."""
    words = [unsigned("an amount", number, 8 * ctypes.sizeof(word)) for number in numbers]
    return (word * max(len(words), 1))(*words), len(words)


def _family(family: str, size: int, items: Sequence[object]) -> Source:
    """The words by which `colock make` writes the type of a family."""
    return Source(words=(family, str(size), *(item if isinstance(item, str) else str(operator.index(cast(int, item))) for item in items)))


def _spaced(names: Sequence[str]) -> bytes:
    """Elements with a space between two. One that has a space in it would be read as two."""
    if any(not name or " " in name for name in names):
        raise BadParameter("an element is empty or has a space in it")
    return _bytes(" ".join(names))


def _told(tell: Callable[[Any, int, Any], int]) -> str:
    room, count = ctypes.create_string_buffer(_library.LONGEST_NAME), ctypes.c_uint64()
    done(tell(room, len(room), count))
    return room.raw[: count.value].decode("ascii")


_all_types: "weakref.WeakSet[Type]" = weakref.WeakSet()


def _free_in_fork() -> None:
    """The threads that held the locks of types aren't in a fork."""
    for of in list(_all_types):
        of._lock = threading.RLock()


if hasattr(os, "register_at_fork"):
    os.register_at_fork(after_in_child=_free_in_fork)
