"""How a store in a file is found, made and opened."""
import os
import re
import tempfile
from typing import Dict, List, NamedTuple, NoReturn, Optional, Sequence, Set, Tuple

from ._connection import Connection
from ._errors import BadText, CannotOpen, ConnectionLost, OtherObjects, Refused, TooManyObjects
from ._extensions import Extending
from ._identity import store_id
from ._library import unsigned
from ._object_files import write_objects
from ._objects import MOST_OBJECTS, Given, check_names
from ._outcomes import Archive
from ._preparing_child import PreparingChild
from ._program import find_program, refused, told
from ._types import Kind, Type

# The version of what is spoken.
VERSION = b"5"
GREETING = re.compile(rb"colock ([^ ]+) (0|[1-9][0-9]{0,9})")
OBJECT = re.compile(rb"object (undo|intentions|escrow) (0|[1-9][0-9]{0,4})(?: ([a-zA-Z0-9_:./-]{1,64}))?")


class Opening(NamedTuple):
    """What `Store.open` was asked for."""

    path: str
    objects: Optional[List[Given]]
    create: bool
    archive: Optional[str]
    fast: bool
    drain: Optional[int]
    outcomes: Optional[int]
    program: Optional[str]
    limit: float

    def check(self) -> None:
        """Raises `ValueError`, `OverflowError`, `NameTaken` or `TooManyObjects`, as `Store.open` says."""
        if self.create and not self.objects:
            raise ValueError("a store is created of objects, and none are given")
        check_names(self.objects or (), ())
        if len(self.objects or ()) > MOST_OBJECTS:
            raise TooManyObjects(TooManyObjects.__doc__)
        if not self.limit > 0:
            raise ValueError(f"the limit is {self.limit!r} seconds")
        if self.drain is not None:
            unsigned("the seconds of the drain", self.drain, 32)
        if self.outcomes is not None:
            unsigned("the number of outcomes", self.outcomes, 32)


def open_child(opening: Opening) -> PreparingChild:
    """The store in a file, over its process.

    Raises as `Store.open`.
    """
    opening.check()
    program = find_program(opening.program)
    if opening.create and not os.path.lexists(opening.path):
        _create(program, opening)
    _find_archive(opening)
    connection = Connection(_words(program, opening), opening.limit)
    try:
        return _greeted(connection, opening, program)
    except ConnectionLost as lost:
        _give_up(connection)
        raise refused(lost.words) from lost
    except BaseException:
        _give_up(connection)
        raise


def _give_up(connection: Connection) -> None:
    """Ends the process without a word: the file stays as it is."""
    connection.lose("it wasn't opened")
    connection.finish()


# ---- the program

def _words(program: str, opening: Opening) -> List[str]:
    """The command line of the program."""
    words = [program, "serve"]
    if opening.fast:
        words.append("--fast")
    if opening.archive is not None:
        words += ["--archive", opening.archive]
    if opening.drain is not None:
        words += ["--drain", str(int(opening.drain))]
    if opening.outcomes is not None:
        words += ["--outcomes", str(int(opening.outcomes))]
    return [*words, opening.path]


def _find_archive(opening: Opening) -> None:
    """Makes the folder of the archive where it isn't there: the program would miss it at the end of the epoch."""
    if opening.archive is None:
        return
    try:
        os.makedirs(opening.archive, exist_ok=True)
    except OSError as error:
        raise CannotOpen(f"the archive isn't a folder: {error}") from error


# ---- making a file

def _create(program: str, opening: Opening) -> None:
    """Makes the file of a store of these objects. Raises `CannotOpen`."""
    with tempfile.TemporaryDirectory(prefix="colock-") as folder:
        files = write_objects(program, folder, opening.objects or (), opening.limit)
        told(program, ["create", opening.path, *files], opening.limit)


# ---- opening it

def _greeted(connection: Connection, opening: Opening, program: str) -> PreparingChild:
    """The store behind a process that was started. Raises `ConnectionLost`, `CannotOpen` or `OtherObjects`."""
    life = _life(connection)
    objects = _objects(_listed(connection, "objects"), _listed(connection, "types"))
    if opening.objects is not None:
        _compare(opening.objects, objects)
    archive = None if opening.archive is None else Archive(opening.archive, store_id(opening.path))
    return PreparingChild(connection, life, objects, archive, Extending(program, opening.limit))


def _life(connection: Connection) -> int:
    """The number of the life, by the greeting."""
    greeting = connection.wait(connection.greeting)
    words = GREETING.fullmatch(greeting)
    if words is None:
        raise CannotOpen(f"the program's first line is {greeting[:80]!r}, and no greeting")
    if words[1] != VERSION:
        raise CannotOpen(f"the program speaks version {words[1].decode('ascii', 'replace')}, and this package {VERSION.decode()}")
    return int(words[2])


def _listed(connection: Connection, verb: str) -> List[bytes]:
    """The lines of an answer of several."""
    slot = connection.send(verb, True)
    answer = connection.wait(slot)
    if answer != b"ok":
        raise CannotOpen(f"the program answers {answer[:80]!r} to `{verb}`")
    return slot.lines


def _objects(listed: Sequence[bytes], lines: Sequence[bytes]) -> List[Given]:
    """The objects, with their types made of the texts that the program gave."""
    texts = b"\n".join(lines).split(b"\n\n")
    made: Dict[Tuple[bytes, bytes], Type] = {}
    objects: List[Given] = []
    for line in listed:
        words = OBJECT.fullmatch(line)
        if words is None or int(words[2]) >= len(texts):
            raise CannotOpen(f"the program tells the object {line[:80]!r}")
        key = (words[1], words[2])
        if key not in made:
            made[key] = _read_type(texts[int(words[2])].rstrip(b"\n") + b"\n", Kind[words[1].decode().upper()])
        objects.append(Given(made[key], None if words[3] is None else words[3].decode()))
    return objects


def _read_type(text: bytes, kind: Kind) -> Type:
    try:
        return Type(text, kind)
    except (BadText, Refused) as error:
        raise CannotOpen(f"the program tells a type that isn't accepted: {error}") from error


# ---- comparing

# The parts of `Type._compared`.
PARTS = ("name", "kind of recovery", "number of states", "initial state", "operations", "steps", "conflicts")


def _compare(given: Sequence[Given], found: Sequence[Given]) -> None:
    """Raises `OtherObjects` where the objects of the file aren't those that are given."""
    if len(given) != len(found):
        raise OtherObjects(f"the file has {len(found)} objects, and {len(given)} are given")
    same: Set[Tuple[int, int]] = set()
    for x, ((one, name), (other, other_name)) in enumerate(zip(given, found)):
        if name != other_name:
            raise OtherObjects(f"object {x}: it is {_shown(other_name)} in the file, and {_shown(name)} is given")
        if (id(one), id(other)) in same:
            continue
        if one._compared() != other._compared():
            _differ(x, one, other)
        same.add((id(one), id(other)))


def _shown(name: Optional[str]) -> str:
    return "nameless" if name is None else name


def _differ(x: int, one: Type, other: Type) -> NoReturn:
    parts = zip(PARTS, one._compared(), other._compared())
    part = next(name for name, a, b in parts if a != b)
    raise OtherObjects(f"object {x}: the {part} of {other.name} in the file isn't that of {one.name}, which is given")
