"""The program `colock`: where it is, and what its commands write."""
import os
import re
import shutil
import subprocess
from typing import Optional, Sequence

from ._errors import CannotOpen, InUse

PROGRAM = "colock"
# A process can be waited for at most this many seconds.
LONGEST_WAIT = 86_400.0
# What the program says of a file that another process has open, or makes.
IN_USE = re.compile(r"^colock: .*: in use$", re.MULTILINE)


def refused(words: str) -> CannotOpen:
    """What is raised where the program said why it doesn't open or make a file."""
    return InUse(words) if IN_USE.search(words) else CannotOpen(words)


def find_program(program: Optional[str]) -> str:
    """The path of the program. Raises `CannotOpen`, which says what was looked for."""
    named = program or os.environ.get("COLOCK")
    if named:
        path = shutil.which(named)
        if path is None:
            raise CannotOpen(f"{named} isn't a program" + ("" if program else ", and COLOCK of the environment names it"))
        return os.path.abspath(path)
    beside = os.path.join(os.path.dirname(os.path.abspath(__file__)), PROGRAM)
    path = shutil.which(beside) or shutil.which(PROGRAM)
    if path is None:
        raise CannotOpen(
            f"the program that serves a store isn't there: COLOCK of the environment isn't set, {beside} isn't a "
            f"program, and {PROGRAM} isn't on PATH. `rt run` in crates/colock makes it, and `pip install .` in "
            "bindings/python takes it along then"
        )
    return os.path.abspath(path)


def told(program: str, words: Sequence[str], limit: float) -> bytes:
    """What a command writes. Raises `CannotOpen` with what it said."""
    try:
        done = subprocess.run([program, *words], stdin=subprocess.DEVNULL, capture_output=True, timeout=min(limit, LONGEST_WAIT), check=False)
    except subprocess.TimeoutExpired as error:
        raise CannotOpen(f"`{PROGRAM} {words[0]}` didn't end within {limit:g} seconds") from error
    except (OSError, ValueError) as error:
        raise CannotOpen(f"{program} can't be started: {error}") from error
    if done.returncode:
        said = (done.stderr or done.stdout).decode("utf-8", "replace").strip()
        raise refused(said or f"`{PROGRAM} {words[0]}` ended with status {done.returncode}")
    return done.stdout
