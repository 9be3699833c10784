"""The library, of whose calls bindings/c/colock.h says what each does and what its caller owes."""
import ctypes
import os
from operator import index
from typing import Callable, Dict

from ._declarations import BAD_TEXT, FORGOTTEN, HISTORY_FULL, LONGEST_NAME, NO_CALL, NO_OPERATION, NOT_HELD, NOT_LEGAL, NOT_MADE, NOT_OPEN, OK, REFUSED
from ._declarations import SIGNATURES, STILL_OPEN, VERSION, Answer, Event, Fault, Handle, Outcome, Shape

# what other modules have of this one: parts of the declarations, the functions and their numbers
__all__ = [
    "BAD_TEXT", "FORGOTTEN", "HISTORY_FULL", "LONGEST_NAME", "NO_CALL", "NO_OPERATION", "NOT_HELD", "NOT_LEGAL", "NOT_MADE", "NOT_OPEN", "OK", "REFUSED", "STILL_OPEN",
    "Answer", "Event", "Fault", "Handle", "Outcome", "Shape", "functions", "quick", "unsigned",
]


def _path() -> str:
    path = os.environ.get("COLOCK_LIBRARY") or os.path.join(os.path.dirname(os.path.abspath(__file__)), "libcolock.so")
    if not os.path.exists(path):
        raise ImportError(
            f"{path} isn't there: run `make library` in bindings/c and then `pip install .` in bindings/python, "
            "or set COLOCK_LIBRARY to the path of libcolock.so"
        )
    return path


def _declared(library: ctypes.CDLL) -> Dict[str, Callable[..., int]]:
    functions: Dict[str, Callable[..., int]] = {}
    for name, arguments in SIGNATURES.items():
        function = getattr(library, "colock_" + name)
        function.restype, function.argtypes = ctypes.c_uint32, arguments
        functions[name] = function
    if functions["version"]() != VERSION:
        raise ImportError(f"libcolock.so has version {functions['version']()} of its calls, and not {VERSION}")
    return functions


# Each takes what its signature says, and returns a code.
functions = _declared(ctypes.CDLL(_path()))
# The same for calls that take a microsecond: no other thread runs meanwhile, since to let one do so would take longer.
quick = _declared(ctypes.PyDLL(_path()))


def unsigned(what: str, number: int, bits: int) -> int:
    """A number that goes over as it is: ctypes would cut a greater one without a word."""
    number = index(number)
    # of a number below 0 something stays, too
    if number >> bits:
        raise OverflowError(f"{what} is {number}, and not in 0 to {(1 << bits) - 1}")
    return number
