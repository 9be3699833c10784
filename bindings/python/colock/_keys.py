"""Keys, each of a transaction that is done at most once, and what became of them."""
import enum
import re
from collections import OrderedDict
from dataclasses import dataclass
from typing import Mapping, Optional, Tuple, Union
from typing import Type as Class

from ._errors import BadKey, Error, KeyAborted, KeyCommitted, KeyDecided, KeyPrepared, KeyTaken, KeyUnknown

KEY = re.compile(r"[a-zA-Z0-9_:.-]{1,64}")
# What is raised of a key.
OfKey = Union[KeyAborted, KeyCommitted, KeyDecided, KeyPrepared, KeyTaken, KeyUnknown]
Refusals = Mapping[bytes, Class[OfKey]]
# What a program refuses of the key of a commit or an attempt, of a prepare, and of a decision.
REFUSALS: Refusals = {b"refused Aborted": KeyAborted, b"refused KeyPrepared": KeyPrepared, b"refused KeyTaken": KeyTaken}
REFUSED_PREPARES: Refusals = {**REFUSALS, b"refused Committed": KeyCommitted}
REFUSED_DECISIONS: Refusals = {b"refused Decided": KeyDecided, b"refused KeyTaken": KeyTaken, b"refused Unknown": KeyUnknown}


@dataclass(frozen=True)
class Committed:
    """The key's transaction committed: `replies` has those of an attempt, in the order of its calls, and none of a commit."""

    # for `match`; dataclasses have it only from Python 3.10 on
    __match_args__ = ("replies",)

    replies: Tuple[str, ...]


@dataclass(frozen=True)
class Aborted:
    """The key's transaction was aborted, and none commits under the key."""

    __match_args__ = ()


@dataclass(frozen=True)
class Prepared:
    """The key's transaction is prepared, and isn't decided yet."""

    __match_args__ = ()


@dataclass(frozen=True)
class Unknown:
    """No transaction has ended or is prepared under the key, as far as the store knows: it is free."""

    __match_args__ = ()


# How a key's transaction ended, and what became of a key. Each is matched by its class.
End = Union[Committed, Aborted]
Outcome = Union[Committed, Aborted, Prepared, Unknown]
PREPARED, UNKNOWN = Prepared(), Unknown()


class Decision(enum.Enum):
    """How a transaction that is prepared ends."""

    COMMIT = "commit"
    ABORT = "abort"

    def refuse(self, key: str, outcome: Outcome) -> None:
        """Raises `KeyDecided` where the key's transaction ended otherwise, and `KeyUnknown` where there is none to commit."""
        if isinstance(outcome, Aborted if self is Decision.COMMIT else Committed):
            raise KeyDecided(key)
        if self is Decision.COMMIT and isinstance(outcome, Unknown):
            raise KeyUnknown(key)


def check_key(key: str) -> None:
    """Raises `BadKey` where a text is no key."""
    if not KEY.fullmatch(key):
        raise BadKey(key)


def refusal_of(key: Optional[str], answer: bytes, refusals: Refusals = REFUSALS) -> Optional[Error]:
    """What is raised where the answer to a request refuses its key."""
    kind = None if key is None else refusals.get(answer)
    return None if kind is None or key is None else kind(key)


def refuse_work(key: str, outcome: Outcome) -> None:
    """Raises `KeyAborted` or `KeyPrepared` where nothing is done under a key of this outcome."""
    if isinstance(outcome, Aborted):
        raise KeyAborted(key)
    if isinstance(outcome, Prepared):
        raise KeyPrepared(key)


class Keys:
    """The last ends of a store in memory, by their keys. It is used under the lock of the store.

    In a file at least as many stay; and here no more, so that the room for them has an end.
    """

    def __init__(self, most: int) -> None:
        self._kept: OrderedDict[str, End] = OrderedDict()
        self._most = most

    def outcome(self, key: str) -> Outcome:
        """How the transaction of a key ended, or that nothing is known of it."""
        return self._kept.get(key, UNKNOWN)

    def keep(self, key: str, outcome: End) -> None:
        """Keeps an outcome, for which the oldest one goes where there are too many. It may be done twice."""
        self._kept[key] = outcome
        while len(self._kept) > self._most:
            self._kept.popitem(last=False)
