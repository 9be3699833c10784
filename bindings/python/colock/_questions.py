"""What a store is asked of keys, of transactions and of what is committed."""
from typing import Callable, Iterable, List, Optional, Tuple, TypeVar, Union, cast

from ._backend import Asked, Backend, Pairs
from ._keys import Aborted, Committed, Decision, Outcome, Prepared, Unknown, check_key
from ._objects import ObjectRef
from ._outcomes import read_id
from ._prepared import PreparedTransaction
from ._reads import Moment, Seen, States
from ._waiting import finished

T = TypeVar("T")
# Calls, each of an object by its number or name, and the name of the call.
CallsOf = Iterable[Tuple[ObjectRef, str]]


class Questions:
    """What is asked outside of transactions. A `Store` is one."""

    _backend: Backend
    _number_of: Callable[[ObjectRef], int]

    def _told(self, ask: Callable[[], Asked[T]]) -> T:
        """What is asked under the lock, and answered perhaps after a wait without it."""
        try:
            return self._backend.run(ask)
        except BaseException as error:
            self._backend.interrupted(error)
            raise

    def _check_no_turn(self) -> None:
        """Raises `ValueError` inside of `transact`, where only its transaction may be used."""
        if self._backend.is_in_turn():
            raise ValueError("the store can't be asked inside of `transact`, but by calls of transactions")

    def _pairs(self, calls: CallsOf) -> Pairs:
        """Calls by the numbers of their objects."""
        return [(self._number_of(object), name) for object, name in calls]

    # ---- what became of transactions

    def committed(self, id: str) -> Optional[bool]:
        """What became of the transaction of this id, `S.N`, as `Transaction.id` and `OutcomeUnknown` give it.

        True where it is committed, False where it never will be, and None where it is open or prepared, or where it isn't
        certain any more: of a store in memory where a life ended by `renew`, or its end was forgotten, and of one in a file where
        neither the events nor the archive say. The life before this opening is always known until an epoch ends, and then
        by the archive.

        One that outlived its epoch is followed through the later ones, by the archive and by the events of the present epoch, as
        long as none but the oldest histories are taken out of the archive. It is None where an epoch may be missing: where the
        file was opened more than once in one of them, or one doesn't begin with what went over. Then only `outcome` of its key says
        it, where it has one. In memory it keeps its number where the store begins anew, and its end tells of it.

        Raises `ValueError` where it isn't an id, and `ClosedError`, `ConnectionLost` or `OSError`.
        """
        life, number = read_id(id)
        self._check_no_turn()
        return self._told(lambda: self._backend.committed(life, number))

    def outcome(self, key: str) -> Union[Committed, Aborted, Prepared, Unknown]:
        """What became of a key: `Committed` with the replies of its attempt, `Aborted`, `Prepared` where that isn't decided, or
        `Unknown` where it is free.

        It is durable. At least the last 1,000,000 of the first two stay, or as many as the `outcomes` of `Store.open` or `Limits` say;
        an older one may be `Unknown`, and its work would be done again. What is prepared stays.
        While a commit under the key is in flight in another thread it may still be `Unknown`. Raises `BadKey`, `ClosedError` or
        `ConnectionLost`.
        """
        check_key(key)
        self._check_no_turn()
        return cast(Outcome, self._told(lambda: self._backend.outcome(key)))

    def decide(self, key: str, decision: Decision) -> None:
        """Ends the transaction that is prepared under a key, by a commit or an abort, in whichever life it was prepared.

        Of a store in a file it is durable after this. Asked again it is the same. `Decision.ABORT` of a key that is free keeps that it
        is aborted: then nothing is prepared or committed under it. All of that holds as long as its `outcome` stays: later the key is
        free.

        Raises `BadKey`, `KeyDecided` where it ended otherwise, `KeyUnknown` of a `Decision.COMMIT` where the key is free, `KeyTaken`,
        `ValueError` of what is no `Decision`, or inside of `transact`, `ClosedError` or `ConnectionLost`; nothing was done then. Where the program was lost
        before it answered it is `OutcomeUnknown`; then, and where a signal handler raises in it, it may be asked again.
        """
        check_key(key)
        how = Decision(decision)
        self._check_no_turn()
        try:
            with self._backend.lock:
                finish = self._backend.decide(key, how)
            finished(finish)
        except BaseException as error:
            self._backend.interrupted(error)
            raise

    def prepared(self) -> List[PreparedTransaction]:
        """The transactions that are prepared and not decided, in the order in which they were prepared, in whichever life.

        Of a store in a file that they are prepared is durable. Raises `ClosedError` or `ConnectionLost`.
        """
        self._check_no_turn()
        return self._told(self._backend.prepared)

    # ---- what is committed

    def moment(self) -> Moment:
        """The present moment. What is read from now on is of this one or a later one.

        Raises `ClosedError` or `ConnectionLost`.
        """
        self._check_no_turn()
        return self._told(self._backend.moment)

    def peek(self, calls: CallsOf) -> Seen:
        """What these calls are replied to a transaction that only reads what is committed, all at one moment.

        It holds nothing, is no event, and waits for nobody, and nobody waits for it. `calls` are pairs of an object and the name
        of a call. Raises `NoObject` or `NoCall` where one isn't there. Else the first call without a reply says what is raised:
        `IllegalError`, with its `index`, where no operation of it is legal; `Changes` where an operation of it may change
        something. Also `ClosedError`; of a store in a file `ConnectionLost`, or `TimedOut` of more than 64 calls of which not
        all are of one moment.
        """
        pairs = self._pairs(calls)
        self._check_no_turn()
        return self._told(lambda: self._backend.peek(pairs))

    def committed_states(self, objects: Iterable[ObjectRef]) -> States:
        """The committed states of these objects, all at one moment: what is left where open transactions are left out.

        Unlike `kept` it is so of each kind. It holds nothing, is no event, and waits for nobody. Raises `NoObject`, `ClosedError`,
        `ConnectionLost`, or `TimedOut` as `peek`.
        """
        numbers = list(map(self._number_of, objects))
        self._check_no_turn()
        return self._told(lambda: self._backend.states(numbers))

    def snapshot(self) -> States:
        """The committed states of all objects, by their numbers, at one moment. As `committed_states`."""
        self._check_no_turn()
        return self._told(self._backend.snapshot)
