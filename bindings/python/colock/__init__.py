"""A transactional store of shared, typed objects, in memory or in a file, in which only operations that don't
commute keep each other waiting: two transactions may count one counter up side by side.

    >>> import colock
    >>> counter = colock.Type.counter(5, [1])
    >>> store = colock.Store([counter], max_events=1_000_000)
    >>> first, second = store.begin(), store.begin()
    >>> first.call(0, "inc:1")
    Operation('inc:1', 'ok', place=0)
    >>> second.call(0, "inc:1")  # beside the first
    Operation('inc:1', 'ok', place=0)
    >>> second.call(0, "dec:1")
    Busy(blocker=0)
    >>> first.abort()  # takes its up out of the middle
    >>> second.commit()
    >>> store.kept(0)
    1

A transaction in a `with` commits at its end, and aborts where an exception leaves it. `expect` raises where a call has
another reply than the one that is named:

    >>> with store.begin() as transaction:
    ...     done = transaction.expect(0, "dec:1", "ok")
    >>> store.kept(0)
    0

A call may wait where another transaction is in its way. It sleeps until that one has ended or rolled back, goes
after older ones that wait at the object, and raises where it can't be: `TimedOut` at its limit, and `DeadlockError`
where transactions wait for each other, of which the youngest is aborted.

    >>> with store.begin() as transaction:
    ...     reply = transaction.call(0, "inc:1", wait=2.0)
    >>> store.retry(lambda transaction: transaction.call(0, "inc:1", wait=2.0).executed().reply)
    'ok'

A number may be in escrow. Then one transaction may count it up and another down, as long as it stays inside its
bounds whatever becomes of them; and what is kept is what is committed:

    >>> stock = colock.Type.counter(5, [1, 2], colock.Kind.ESCROW)
    >>> shelf = colock.Store([stock], max_events=1_000_000)
    >>> with shelf.begin() as transaction:
    ...     reply = transaction.call(0, "inc:2")
    >>> first, second, third = shelf.begin(), shelf.begin(), shelf.begin()
    >>> first.call(0, "dec:2"), second.call(0, "inc:1")
    (Operation('dec:2', 'ok', place=3), Operation('inc:1', 'ok', place=0))
    >>> third.call(0, "dec:1")  # the second one's up may yet be taken back
    Busy(blocker=1)
    >>> second.commit()
    >>> third.call(0, "dec:1"), shelf.kept(0)
    (Operation('dec:1', 'ok', place=1), 3)

A number that has no table may take and give any amount, and answer what it is:

    >>> text = "number purse\\nmax 10000\\ninitial 500\\ntake any\\ngive any\\nvalue\\nend\\n"
    >>> purses = colock.Store([colock.Type(text, colock.Kind.ESCROW)], max_events=1_000_000)
    >>> first, second = purses.begin(), purses.begin()
    >>> first.call(0, "take:17"), second.call(0, "give:3")
    (Operation('take:17', 'ok', place=0, amount=17), Operation('give:3', 'ok', place=2, amount=3))
    >>> first.call(0, "value")  # the give may yet be aborted
    Busy(blocker=1)
    >>> second.commit()
    >>> first.call(0, "value")
    Operation('value', '486', place=4, amount=486)

`Store.open` has the same store in a file, behind a child process, where each commit is durable when it returns:

    with colock.Store.open("shop.db", [counter], create=True) as store:
        store.retry(lambda transaction: transaction.call(0, "inc:1", wait=2.0).executed())

`Type.from_steps` makes a type of a function, and finds out which of its operations conflict; `print` shows them:

    >>> def step(state, operation):
    ...     return {("free", "hold"): "held", ("held", "release"): "free"}.get((state, operation[0]))
    >>> seat = colock.Type.from_steps("seat", "free", [("hold", "ok"), ("release", "ok")], step)
    >>> print(seat)
    seat, undo, 2 states
                 0 1
    0 hold ok    . x
    1 release ok x .

A store in memory has 256 objects at most, and 1,024 open transactions, or limits of its own:

    >>> many = colock.Store.with_limits([counter] * 10_000, colock.Limits(objects=10_000))
    >>> many.kept(9_999)
    0

A whole transaction may be one call, which commits, or ends at the first call that isn't executed; and what is committed is
read without waiting for anybody, all at one moment:

    >>> pair = colock.Store({"one": stock, "other": stock}, max_events=1_000_000)
    >>> pair.attempt([("one", "inc:2"), ("other", "inc:1")])
    Done(replies=(Operation('inc:2', 'ok', place=2), Operation('inc:1', 'ok', place=0)))
    >>> pair.attempt([("other", "dec:1"), ("one", "inc:2"), ("one", "inc:2")])
    Ended(index=2, how=Illegal())
    >>> with pair.begin() as transaction:
    ...     done = transaction.call("one", "dec:2")
    ...     pair.snapshot()  # without what is open
    States(at=Moment(epoch=0, commits=1), states=(2, 1))
    >>> pair.snapshot()
    States(at=Moment(epoch=0, commits=2), states=(0, 1))

What has a key is done at most once, however often it is asked. So who wasn't answered asks again, under the same key; and
`outcome` says what became of it:

    >>> pair.attempt([("one", "inc:1")], key="order:7")
    Done(replies=(Operation('inc:1', 'ok', place=0),))
    >>> pair.attempt([("one", "inc:1")], key="order:7")
    Done(replies=(Operation('inc:1', 'ok', place=0),))
    >>> pair.kept("one"), pair.outcome("order:7"), pair.outcome("order:8")
    (1, Committed(replies=('ok',)), Unknown())
    >>> for _ in range(2):
    ...     transaction = pair.begin()
    ...     done = transaction.call("one", "inc:2")
    ...     transaction.commit(key="order:8")  # the second one is aborted
    >>> pair.kept("one")
    3
    >>> pair.retry(lambda transaction: transaction.call("one", "inc:2").executed(), key="order:8")
    Committed(replies=())

In a file keys stay, so what was asked before its program was lost is asked again where the file is open anew. At least the last
1,000,000 stay.

A transaction may be prepared under a key. Then it holds what it did, whoever lets it go, until it is decided under the key:

    >>> with pair.begin() as transaction:
    ...     done = transaction.expect("one", "dec:1", "ok")
    ...     transaction.prepare("order:9", until=1_800_000_000)
    >>> pair.prepared(), pair.outcome("order:9")
    ([PreparedTransaction(key='order:9', id='0.6', until=1800000000, objects=('one',))], Prepared())
    >>> pair.decide("order:9", colock.Decision.COMMIT)
    >>> pair.kept("one"), pair.outcome("order:9")
    (2, Committed(replies=()))

In a file that is durable: a later program finds it again, and decides.

Objects may have names, by which calls then have them; and more may be added while the store lives:

    >>> hall = colock.Store({"A1": seat, "A2": seat}, max_events=1_000_000)
    >>> with hall.begin() as transaction:
    ...     done = transaction.expect("A2", "hold", "ok")
    >>> hall.extend([("B1", seat), ("B2", seat)])  # the number of the first of them
    2
    >>> hall.kept("A2"), hall.kept("B1"), hall.find("B2"), hall.name_of(0)
    (1, 0, 3, 'A1')

In a file they have names too, and `extend` waits there until no transaction is open.

A store has a lock, which each call takes: threads may share it and its transactions.
"""
from typing import TYPE_CHECKING as _TYPE_CHECKING

from ._attempts import Attempt, Done, Ended
from ._errors import (
    BadKey,
    BadMax,
    BadName,
    BadParameter,
    BadRollback,
    BadText,
    BusyError,
    CannotExtend,
    CannotOpen,
    Changes,
    ClosedError,
    ConnectionLost,
    DeadlockError,
    EpochEndedError,
    Error,
    FaultKind,
    Forgotten,
    HistoryFullError,
    IllegalError,
    InMemoryOnly,
    InUse,
    KeyAborted,
    KeyCommitted,
    KeyDecided,
    KeyPrepared,
    KeyTaken,
    KeyUnknown,
    NameTaken,
    NeedsEscrow,
    NoCall,
    NoMemory,
    NoObject,
    NoObjects,
    NoOperation,
    NoState,
    NotFollowedError,
    NotMadeError,
    NotOpenError,
    OtherCalls,
    OtherObjects,
    OutcomeUnknown,
    PreparedError,
    Refused,
    Retryable,
    StillOpenError,
    TimedOut,
    TooLarge,
    TooManyObjects,
    TooManyOpenError,
    TooManyStates,
    UnexpectedError,
)
from ._events import Event, EventKind
from ._keys import Aborted, Committed, Decision, Prepared, Unknown
from ._limits import Limits
from ._old_names import renamed as _renamed
from ._prepared import PreparedTransaction
from ._reads import Moment, Seen, States
from ._replies import Busy, Illegal, Operation, Reply
from ._stats import Stats
from ._store import Store
from ._transaction import Transaction
from ._types import Kind, Type, TypeOperation

__version__ = "0.2.0"

__all__ = [
    "Aborted",
    "Attempt",
    "BadKey",
    "BadMax",
    "BadName",
    "BadParameter",
    "BadRollback",
    "BadText",
    "Busy",
    "BusyError",
    "CannotExtend",
    "CannotOpen",
    "Changes",
    "ClosedError",
    "Committed",
    "ConnectionLost",
    "DeadlockError",
    "Decision",
    "Done",
    "Ended",
    "EpochEndedError",
    "Error",
    "Event",
    "EventKind",
    "FaultKind",
    "Forgotten",
    "HistoryFullError",
    "Illegal",
    "IllegalError",
    "InMemoryOnly",
    "InUse",
    "KeyAborted",
    "KeyCommitted",
    "KeyDecided",
    "KeyPrepared",
    "KeyTaken",
    "KeyUnknown",
    "Kind",
    "Limits",
    "Moment",
    "NameTaken",
    "NeedsEscrow",
    "NoCall",
    "NoMemory",
    "NoObject",
    "NoObjects",
    "NoOperation",
    "NoState",
    "NotFollowedError",
    "NotMadeError",
    "NotOpenError",
    "Operation",
    "OtherCalls",
    "OtherObjects",
    "OutcomeUnknown",
    "Prepared",
    "PreparedError",
    "PreparedTransaction",
    "Refused",
    "Reply",
    "Retryable",
    "Seen",
    "States",
    "Stats",
    "StillOpenError",
    "Store",
    "TimedOut",
    "TooLarge",
    "TooManyObjects",
    "TooManyOpenError",
    "TooManyStates",
    "Transaction",
    "Type",
    "TypeOperation",
    "UnexpectedError",
    "Unknown",
]

# type checkers are told of no old name
if not _TYPE_CHECKING:

    def __getattr__(name: str) -> object:
        return _renamed(name)
