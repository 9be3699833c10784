"""Objects as files that the program reads: one that lists them, and one with the text of each type."""
import os
import tempfile
from typing import Dict, List, Sequence

from ._errors import CannotExtend
from ._objects import Given
from ._program import told
from ._types import Type

# Where files may be whose path goes over as a word, if the folder for temporary files isn't such a path.
PLACES = ("/tmp", "/var/tmp", "/dev/shm")


def room_for_words() -> "tempfile.TemporaryDirectory[str]":
    """A folder, as long as somebody has it, whose path is a word of a request. Raises `CannotExtend`."""
    for place in (tempfile.gettempdir(), *PLACES):
        if all("!" <= letter <= "~" for letter in place):
            try:
                return tempfile.TemporaryDirectory(prefix="colock-", dir=place)
            except OSError:
                pass
    raise CannotExtend(f"no folder for temporary files has a path without spaces: {tempfile.gettempdir()}")


def write_objects(program: str, folder: str, objects: Sequence[Given], limit: float) -> List[str]:
    """Writes them, and returns the paths: of the list, and of the types by their places. Raises `CannotOpen`, or another `OSError`."""
    places: Dict[int, int] = {}
    paths = [os.path.join(folder, "objects")]
    lines = [f"objects {len(objects)}\n"]
    for of, name in objects:
        if id(of) not in places:
            places[id(of)] = len(places)
            paths.append(_write_type(program, folder, places[id(of)], of, limit))
        lines.append(f"object {of.kind.name.lower()} {places[id(of)]}{'' if name is None else ' ' + name}\n")
    _write(paths[0], "".join([*lines, "end\n"]).encode("ascii"))
    return paths


def _write_type(program: str, folder: str, place: int, of: Type, limit: float) -> str:
    """Writes the text of a type into a file, and returns its path."""
    path, source = os.path.join(folder, str(place)), of._source
    text = source.text
    if source.words:
        # after the hyphens a name may begin with one
        text = told(program, ["make", "--", *source.words], limit)
    elif source.has_made_tables:
        _write(path, text)
        text = told(program, ["tables", path], limit)
    _write(path, text)
    return path


def _write(path: str, content: bytes) -> None:
    with open(path, "wb") as file:
        file.write(content)
