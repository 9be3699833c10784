"""The objects of a store, as they are given: their types, and names of those that have one."""
import re
from typing import Container, Iterable, List, Mapping, NamedTuple, Optional, Set, Tuple, Union

from ._errors import BadName, NameTaken
from ._types import Type

# An object, by its number or its name.
ObjectRef = Union[int, str]
# Objects of a store that is to be made: types, and pairs of a name or None and a type; or types by their names.
Objects = Union[Mapping[str, Type], Iterable[Union[Type, Tuple[Optional[str], Type]]]]

# The most objects of a store.
MOST_OBJECTS = 65_536
NAME = re.compile(r"[a-zA-Z0-9_:./-]{1,64}")


class Given(NamedTuple):
    """An object that is given: its type, and its name where it has one."""

    of: Type
    name: Optional[str]


def given(objects: Objects) -> List[Given]:
    """The objects in their order. Raises `BadName`, or `TypeError` where something is none."""
    pairs = objects.items() if isinstance(objects, Mapping) else objects
    return [Given(each, None) if isinstance(each, Type) else _named(each) for each in pairs]


def _named(pair: Tuple[Optional[str], Type]) -> Given:
    """The object of a pair of a name or None and a type."""
    if not (isinstance(pair, tuple) and len(pair) == 2 and isinstance(pair[1], Type) and isinstance(pair[0], (str, type(None)))):
        raise TypeError(f"an object is a colock.Type, or a pair of a name and a colock.Type, and not {pair!r}")
    name, of = pair
    if name is not None and not NAME.fullmatch(name):
        raise BadName(name)
    return Given(of, name)


def check_names(objects: Iterable[Given], taken: Container[str]) -> None:
    """Raises `NameTaken` where a name is taken, or given twice."""
    seen: Set[str] = set()
    for _, name in objects:
        if name is None:
            continue
        if name in taken or name in seen:
            raise NameTaken(name)
        seen.add(name)
