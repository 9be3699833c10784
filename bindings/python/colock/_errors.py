"""What is raised. Nothing has changed then, but for what `NotFollowedError` and `UnexpectedError` say.

Each is an `Error`. Those whose names don't end in `Error` are also of the kind of Python's own by which they are caught.
"""
import enum
from typing import Dict, Optional, Tuple, Type

from . import _library


class Error(Exception):
    """What the others are."""


def _named(number: int, life: Optional[int]) -> str:
    """A transaction in words, with its life where that is another one's."""
    return str(number) if life is None else f"{life}.{number}"


class Retryable(Error):
    """What `Store.retry` tries again: another transaction was in the way, or an epoch ended."""


class NotOpenError(Error):
    """The transaction isn't open."""


class PreparedError(Error):
    """The transaction is prepared, under the key `key`: nothing but `Store.decide` ends it. Nothing has changed."""

    def __init__(self, key: str) -> None:
        super().__init__(key)
        self.key = key

    def __str__(self) -> str:
        return f"the transaction is prepared, under the key {self.key}"


class NoObject(Error, LookupError):
    """The store has no object of this number."""

    name: Optional[str] = None
    """The name by which an object was asked for; None where that was a number."""

    @classmethod
    def named(cls, name: str) -> "NoObject":
        """The store has no object of this name."""
        error = cls(f"The store has no object {name!r}.")
        error.name = name
        return error


class BadName(Error, ValueError):
    """The name `name` of an object isn't 1 to 64 bytes of a-z, A-Z, 0-9, `_`, `:`, `-`, `.` and `/`."""

    def __init__(self, name: str) -> None:
        super().__init__(name)
        self.name = name

    def __str__(self) -> str:
        return f"{self.name!r} is no name of an object"


class NameTaken(Error, ValueError):
    """Two objects were given the name `name`."""

    def __init__(self, name: str) -> None:
        super().__init__(name)
        self.name = name

    def __str__(self) -> str:
        return f"two objects have the name {self.name}"


class BadKey(Error, ValueError):
    """The key `key` of a transaction isn't 1 to 64 bytes of a-z, A-Z, 0-9, `_`, `:`, `-` and `.`. Nothing was asked."""

    def __init__(self, key: str) -> None:
        super().__init__(key)
        self.key = key

    def __str__(self) -> str:
        return f"{self.key!r} is no key of a transaction"


class KeyAborted(Error, ValueError):
    """The transaction of the key `key` was aborted, and none commits under it.

    A transaction that was to commit or to be prepared under it is open as before.
    """

    def __init__(self, key: str) -> None:
        super().__init__(key)
        self.key = key

    def __str__(self) -> str:
        return f"the transaction of the key {self.key} was aborted"


class KeyCommitted(Error, ValueError):
    """A transaction committed under the key `key`, so none is prepared under it. The one that was to be is open as before."""

    def __init__(self, key: str) -> None:
        super().__init__(key)
        self.key = key

    def __str__(self) -> str:
        return f"a transaction committed under the key {self.key}"


class KeyPrepared(Error, ValueError):
    """Another transaction is prepared under the key `key`, and isn't decided.

    Nothing was done, and a transaction that was to commit or to be prepared under it is open as before.
    """

    def __init__(self, key: str) -> None:
        super().__init__(key)
        self.key = key

    def __str__(self) -> str:
        return f"a transaction is prepared under the key {self.key}"


class KeyDecided(Error, ValueError):
    """The transaction of the key `key` ended otherwise than is asked for. `Store.outcome` says how. Nothing was done."""

    def __init__(self, key: str) -> None:
        super().__init__(key)
        self.key = key

    def __str__(self) -> str:
        return f"the transaction of the key {self.key} ended otherwise"


class KeyUnknown(Error, LookupError):
    """No transaction is prepared under the key `key`, and none has ended under it: there is none to commit."""

    def __init__(self, key: str) -> None:
        super().__init__(key)
        self.key = key

    def __str__(self) -> str:
        return f"no transaction has the key {self.key}"


class KeyTaken(Error, ValueError):
    """The file has another key where it would keep the key `key`, which happens by a chance of one in 2^62.

    Nothing was done, and a transaction that was to commit or to be prepared under it is open as before: it may take another key.
    """

    def __init__(self, key: str) -> None:
        super().__init__(key)
        self.key = key

    def __str__(self) -> str:
        return f"the file has another key in the place of {self.key}"


class OtherCalls(Error, ValueError):
    """The key `key` is of other work than this attempt: what committed under it has replies that its calls can't have.

    `Store.outcome` says which they are. Nothing was done.
    """

    def __init__(self, key: str) -> None:
        super().__init__(key)
        self.key = key

    def __str__(self) -> str:
        return f"other work than these calls committed under the key {self.key}"


class NoCall(Error, LookupError):
    """No operation of the object's type has this call."""


class Changes(Error, ValueError):
    """An operation of the call may change something, so it isn't a read."""


class TooManyOpenError(Error):
    """As many transactions are open as may be."""


class HistoryFullError(Error):
    """The history has no room for the event, and for the end of each open transaction."""


class NoMemory(Error, MemoryError):
    """Memory was refused."""


class BadRollback(Error, ValueError):
    """A rollback of no operation, or of more than the transaction has."""


class ClosedError(Error):
    """The store or the type is closed."""


class EpochEndedError(NotOpenError, Retryable):
    """The end of an epoch aborted the transaction, which it does only where the checker's yes to some object's type is one-way."""


class DeadlockError(Retryable):
    """Transactions waited for each other in a circle, and this one, the youngest, was aborted.

    `blocker` is the number of the transaction for which it waited. `life` is None, but where that one began in another life
    than this one: then it is that life.
    """

    def __init__(self, blocker: int, life: Optional[int] = None) -> None:
        super().__init__(blocker)
        self.blocker = blocker
        self.life = life

    def __str__(self) -> str:
        return f"it waited for transaction {_named(self.blocker, self.life)} in a circle, and was aborted as the youngest"


class TimedOut(Retryable, TimeoutError):
    """The limit of a wait is over. Nothing was executed, and the transaction is open."""


class BusyError(Retryable):
    """What `executed` says of a `Busy`: `blocker` is the number of the transaction that is in the way.

    `life` is None, but where that one began in another life than the transaction that asked: then it is that life.
    """

    def __init__(self, blocker: int, life: Optional[int] = None) -> None:
        super().__init__(blocker)
        self.blocker = blocker
        self.life = life

    def __str__(self) -> str:
        return f"transaction {_named(self.blocker, self.life)} is in the way"


class IllegalError(Error):
    """What `executed` says of an `Illegal`: no operation of the call was legal."""

    index: Optional[int] = None
    """Of `Store.peek` the place of the call among those that were given, from 0; else None."""

    @classmethod
    def at(cls, index: int) -> "IllegalError":
        """No operation of the call at this place was legal."""
        error = cls(f"no operation of call {index} is legal")
        error.index = index
        return error


class UnexpectedError(Error):
    """What `expect` says of an operation with another reply than the one that was expected.

    It was executed, and is in its transaction as long as that isn't rolled back or aborted: `call` and `reply` are its
    words.
    """

    def __init__(self, call: str, reply: str) -> None:
        super().__init__(call, reply)
        self.call = call
        self.reply = reply

    def __str__(self) -> str:
        return f"{self.call} was answered {self.reply}"


class ConnectionLost(Error, ConnectionError):
    """The program that serves the store is gone, or didn't answer as it has to: `words` say what was seen.

    The store isn't to be used any more, but for `close`. What was committed is in its file. Where the file is open again,
    what was asked under a key may be asked once more, and isn't done twice; or `Store.outcome` says what became of it.
    """

    def __init__(self, words: str) -> None:
        super().__init__(words)
        self.words = words


class OutcomeUnknown(Error, ConnectionError):
    """A commit was in flight when the program was lost: it may be durable or not. So may a prepare, or a decision.

    `id` names the transaction: `Store.committed` of a later opening says what became of it. It is empty of an attempt,
    whose number nobody told, and of a decision. Of what was asked under a key `Store.outcome` of a later opening says it;
    or the same is asked there again under the key, and isn't done twice. `key` is that of a prepare or a decision.
    """

    key: Optional[str] = None
    _end = "committed"

    def __init__(self, id: str) -> None:
        super().__init__(id)
        self.id = id

    @classmethod
    def of_prepare(cls, id: str, key: str) -> "OutcomeUnknown":
        """A prepare under this key was in flight."""
        return cls(id)._under(key, "prepared")

    @classmethod
    def of_decision(cls, key: str) -> "OutcomeUnknown":
        """A decision of this key was in flight."""
        return cls("")._under(key, "decided")

    def _under(self, key: str, end: str) -> "OutcomeUnknown":
        self.key, self._end = key, end
        return self

    def __str__(self) -> str:
        who = f"transaction {self.id}" if self.id else "the attempt" if self.key is None else f"the transaction of the key {self.key}"
        return f"whether {who} is {self._end} isn't known"


class CannotOpen(Error, OSError):
    """A store in a file wasn't opened: `words` say what the program said, or why it wasn't started."""

    def __init__(self, words: str) -> None:
        super().__init__(words)
        self.words = words


class InUse(CannotOpen):
    """Another process has the file open, or makes it."""


class CannotExtend(Error, OSError):
    """A store in a file got no more objects: `words` say what the program said, or why it wasn't asked."""

    def __init__(self, words: str) -> None:
        super().__init__(words)
        self.words = words


class OtherObjects(Error, ValueError):
    """The objects of the file aren't those that were given: the words name the first that differs."""


class InMemoryOnly(Error, NotImplementedError):
    """Only a store in memory does this."""


class TooManyStates(Error, ValueError):
    """The steps lead to more than 1,024 states. `call` and `reply` are the operation that led to most new ones."""

    def __init__(self, call: str, reply: str) -> None:
        super().__init__(call, reply)
        self.call = call
        self.reply = reply

    def __str__(self) -> str:
        return f"there are more than 1,024 states, and `{self.call} {self.reply}` leads to most of them"


class NoObjects(Error, ValueError):
    """A store of no object, or one in a file that is extended by none."""


class TooManyObjects(Error, ValueError):
    """A store of more objects than it may have."""


class BadMax(Error, ValueError):
    """A limit of the store is out of its range."""


class StillOpenError(Error):
    """A transaction is open."""


class NotMadeError(Error):
    """No command makes this event now."""


class Forgotten(Error, LookupError):
    """These events were forgotten, or some of them."""


class BadParameter(Error, ValueError):
    """A parameter of a family is out of its range, or in a wrong order."""


class TooLarge(Error, ValueError):
    """The family would have more than 64 operations or 1,024 states."""


class NoState(Error, LookupError):
    """The type has no state of this number."""


class NoOperation(Error, LookupError):
    """The type has no operation of this number."""


class NeedsEscrow(Error, ValueError):
    """The text declares a number, which is for `Kind.ESCROW` alone."""


class FaultKind(enum.IntEnum):
    """What is wrong with a line of the text of a type."""

    NotAscii = 1
    LineTooLong = 2
    Unterminated = 3
    UnknownWord = 4
    BadNumber = 5
    OutOfRange = 6
    OutOfOrder = 7
    Missing = 8
    AfterEnd = 9
    TwiceOp = 10


class BadText(Error, ValueError):
    """The text of a type has a fault: `line` is its first refused line, from 1, and `kind` what is wrong."""

    def __init__(self, line: int, kind: FaultKind) -> None:
        super().__init__(line, kind)
        self.line = line
        self.kind = kind

    def __str__(self) -> str:
        return f"line {self.line}: {self.kind.name}"


class Refused(Error, ValueError):
    """The checker refuses the type for this kind.

    `reason` is a word, and `numbers` what it names: `InitialOutside`; `NotClosed` a state and an operation;
    `NotSimulation` a state, the one that it looks like, and an operation; `NotCommuting` the requested and
    the held operation, and a state. For `Kind.ESCROW` it is `NotNumeric`, an operation and a state: it isn't legal
    there, though in a lower and in a higher state; or it is, and moves it otherwise than the least state in which it
    is legal.
    """

    def __init__(self, reason: str, numbers: Tuple[int, ...]) -> None:
        super().__init__(reason, numbers)
        self.reason = reason
        self.numbers = numbers

    def __str__(self) -> str:
        return " ".join([self.reason, *map(str, self.numbers)])


class NotFollowedError(Error):
    """Events of which one wasn't made: `made` of them were. Its cause is `NotMadeError` or `NoMemory`."""

    def __init__(self, made: int) -> None:
        super().__init__(made)
        self.made = made

    def __str__(self) -> str:
        return f"{self.made} events were made, and the next wasn't"


CODES: Dict[int, Type[Error]] = {
    1: NotOpenError,
    2: NoObject,
    3: NoCall,
    4: TooManyOpenError,
    5: HistoryFullError,
    6: NoMemory,
    7: BadRollback,
    8: ClosedError,
    13: NoObjects,
    14: TooManyObjects,
    16: BadMax,
    17: StillOpenError,
    18: NotMadeError,
    19: Forgotten,
    20: BadParameter,
    21: TooLarge,
    22: NoState,
    23: NoOperation,
    26: NeedsEscrow,
    27: Changes,
}

# The checker's refusals, with how many numbers each names.
_REASONS = {1: ("InitialOutside", 0), 2: ("NotClosed", 2), 3: ("NotSimulation", 3), 4: ("NotCommuting", 3), 5: ("NotNumeric", 2)}


def error_of(code: int) -> Error:
    """What is raised at a code."""
    kind = CODES.get(code)
    if kind is None:
        return Error(f"the library told the code {code}, which is unknown")
    return kind(kind.__doc__)


def done(code: int) -> None:
    """Raises where the code isn't that of success."""
    if code != _library.OK:
        raise error_of(code)


def type_error(code: int, fault: _library.Fault) -> Error:
    """What is raised of a type that wasn't made."""
    if code == _library.BAD_TEXT:
        return BadText(fault.line, FaultKind(fault.kind))
    if code == _library.REFUSED:
        reason, count = _REASONS[fault.kind]
        return Refused(reason, (fault.first, fault.second, fault.third)[:count])
    return error_of(code)
