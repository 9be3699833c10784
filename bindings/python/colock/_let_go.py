"""What is let go before its end. A `ResourceWarning` says so, as of files."""
import warnings
from typing import TYPE_CHECKING

if TYPE_CHECKING:
    from ._store import Store


class _Warning:
    """It warns as it goes. So where warnings are errors Python tells of it, and the call in which it was found goes on."""

    def __init__(self, words: str) -> None:
        self._words = words

    def __del__(self) -> None:
        warnings.warn(self._words, ResourceWarning, stacklevel=4)


def warn_of_transaction(life: int, number: int) -> None:
    """Nobody has this transaction any more, and it was open."""
    _Warning(f"transaction {life}.{number} is let go before its end, and is aborted")


def warn_of_store(store: "Store") -> None:
    """Warns where a store in a file that nobody has any more isn't closed."""
    # where it wasn't opened it has no backend, and one in memory needs no end
    if not getattr(getattr(store, "_backend", None), "_is_closed", True):
        warnings.warn(f"{store!r} is let go, and not closed", ResourceWarning, stacklevel=2, source=store)
