"""The id of the store in a file, which is in the names of its archived histories."""
import os
import sqlite3
from contextlib import closing
from urllib.parse import quote

from ._errors import CannotOpen


def store_id(path: str) -> str:
    """The 16 bytes of the id in lower-case hex digits. Raises `CannotOpen`.

    The id is in the file itself since it was made, so nothing of its log is needed: the file is read as one that
    stays as it is, without a lock. The process that has it open writes nothing before it is asked to.
    """
    try:
        with closing(sqlite3.connect(f"file:{quote(os.fsencode(path))}?mode=ro&immutable=1", uri=True)) as file:
            rows = file.execute("SELECT id FROM store").fetchall()
    except sqlite3.Error as error:
        raise CannotOpen(f"{path}: the id of the store can't be read: {error}") from error
    if len(rows) != 1 or not isinstance(rows[0][0], bytes) or len(rows[0][0]) != 16:
        raise CannotOpen(f"{path}: the store has no id")
    return rows[0][0].hex()
