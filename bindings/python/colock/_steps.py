"""Types of functions, and conflicts in a grid."""
import re
from typing import Any, Callable, Dict, Hashable, List, Optional, Sequence, Tuple, TypeVar, cast

from ._errors import BadParameter, TooManyStates

MOST_STATES = 1024
MOST_OPERATIONS = 64

S = TypeVar("S", bound=Hashable)
Pair = Tuple[str, str]
Step = Callable[[S, Pair], Optional[S]]


def labelled(name: str, initial: S, operations: Sequence[Pair], step: "Step[S]", ascending: bool) -> Tuple[bytes, Tuple[S, ...]]:
    """The text of the type that a function describes, without conflicts, and the states by their numbers.

    They are numbered as they are found, or in ascending order. Raises `BadParameter` where a name is none, or
    `TooManyStates`.
    """
    for word in [name, *(word for pair in operations for word in pair)]:
        _check_name(word)
    # a text with too many operations is refused, so their states aren't looked for
    states, steps = _reached(initial, operations[:MOST_OPERATIONS], step)
    if ascending:
        states, steps = _ascending(states, steps)
    lines = [f"type {name}", f"states {len(states)}", f"initial {states.index(initial)}"]
    lines += [f"op {call} {reply}" for call, reply in operations]
    lines += [f"step {s} {k} {to}" for s, k, to in steps]
    return "".join(line + "\n" for line in [*lines, "end"]).encode("ascii"), tuple(states)


def _check_name(word: str) -> None:
    if not isinstance(word, str) or re.fullmatch(r"[a-z0-9_:-]{1,32}", word) is None:
        raise BadParameter(f"{word!r} isn't a name: 1 to 32 of a to z, 0 to 9, _, : and -")


def _reached(initial: S, operations: Sequence[Pair], step: "Step[S]") -> Tuple[List[S], List[Tuple[int, int, int]]]:
    """The states, as they are found from the first one on, and the steps between them, in ascending order."""
    numbers: Dict[S, int] = {initial: 0}
    states: List[S] = [initial]
    steps: List[Tuple[int, int, int]] = []
    made = [0] * len(operations)
    at = 0
    while at < len(states):
        for k, pair in enumerate(operations):
            to = step(states[at], pair)
            if to is None:
                continue
            if to not in numbers:
                _check_room(states, operations, made, k)
                numbers[to] = len(states)
                states.append(to)
            steps.append((at, k, numbers[to]))
        at += 1
    return states, steps


def _ascending(states: Sequence[S], steps: Sequence[Tuple[int, int, int]]) -> Tuple[List[S], List[Tuple[int, int, int]]]:
    """The same states in their order, and the steps between them."""
    places = sorted(range(len(states)), key=cast(Callable[[int], Any], states.__getitem__))
    numbers = {s: place for place, s in enumerate(places)}
    return [states[s] for s in places], sorted((numbers[s], k, numbers[to]) for s, k, to in steps)


def _check_room(states: Sequence[S], operations: Sequence[Pair], made: List[int], k: int) -> None:
    """Counts a state that an operation made, and raises where it is one too many."""
    made[k] += 1
    if len(states) == MOST_STATES:
        raise TooManyStates(*operations[made.index(max(made))])


def grid(title: str, operations: Sequence[Pair], held: Sequence[Sequence[int]]) -> str:
    """Conflicts as a text: a row for each operation that is requested, a column for each one that is held."""
    numbers = range(len(operations))
    names = [f"{k} {call} {reply}" for k, (call, reply) in enumerate(operations)]
    name_width, width = max(map(len, names)), len(str(len(operations) - 1))
    head = " ".join([" " * name_width, *(str(q).rjust(width) for q in numbers)])
    rows = [
        " ".join([name.ljust(name_width), *(("x" if q in row else ".").rjust(width) for q in numbers)])
        for name, row in zip(names, held)
    ]
    return "\n".join([title, head, *rows])
