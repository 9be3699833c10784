"""The id of the store in a file, by which its archived histories are named."""
import sqlite3
from contextlib import closing


def store_id(path):
    """Its 32 hex digits. The file is read as one that stays as it is, so that nothing is made beside it."""
    with closing(sqlite3.connect(f"file:{path}?immutable=1", uri=True)) as file:
        return file.execute("SELECT hex(id) FROM store").fetchone()[0].lower()
