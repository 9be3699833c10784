"""Extensions of a store in a file: what they need, the thread of each, and why nothing is added."""
import re
import threading
from typing import Callable, Container, List, NamedTuple, NoReturn, Optional

from ._errors import CannotExtend, NoMemory, NoObjects, Refused, TooManyObjects
from ._objects import MOST_OBJECTS, Given, check_names
from ._types import Type

# That the type of an object isn't accepted.
NOT_ACCEPTED = re.compile(r"# object [0-9]+ no ([A-Za-z]+)((?: [0-9]+)*)")


class Extending(NamedTuple):
    """What an extension needs: the program, which writes texts of types; and how many seconds a command and an epoch may take."""

    program: str
    limit: float


class Work(threading.Thread):
    """What is done by a thread of its own, to its end, also where whoever waits for it is interrupted."""

    def __init__(self, act: Callable[[], int]) -> None:
        super().__init__(name="colock extension", daemon=True)
        self._act, self._told = act, 0
        self._error: Optional[BaseException] = None

    def run(self) -> None:
        try:
            self._told = self._act()
        except BaseException as error:
            self._error = error

    def result(self) -> int:
        """What came of it."""
        self.join()
        if self._error is not None:
            raise self._error
        return self._told


def check_addition(added: List[Given], types: List[Type], names: Container[str]) -> None:
    """That these objects may be added to those of these types and names, as far as is known."""
    check_names(added, names)
    if not added:
        raise NoObjects(NoObjects.__doc__)
    if len(types) + len(added) > MOST_OBJECTS:
        raise TooManyObjects(TooManyObjects.__doc__)


def refuse_objects(why: str) -> NoReturn:
    """Raises why no objects were added, by the words of the program."""
    words = NOT_ACCEPTED.fullmatch(why)
    if words is not None:
        raise Refused(words[1], tuple(map(int, words[2].split())))
    if why == "TooLarge":
        raise TooManyObjects(TooManyObjects.__doc__)
    if why == "no memory":
        raise NoMemory(NoMemory.__doc__)
    raise CannotExtend(why)
