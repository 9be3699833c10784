"""How much a store in memory may have."""
from dataclasses import dataclass


@dataclass(frozen=True)
class Limits:
    """How many events, open transactions and objects a store in memory may have, and how many outcomes of keys it keeps, for
    `Store.with_limits`."""

    events: int = 1_000_000
    """The events of its history, 2 to 4,294,967,295, those that were forgotten among them: then it is full, or begins anew (`Store.forget_when_full`)."""
    open: int = 1_024
    """The transactions that are open at once, 1 to 65,536."""
    objects: int = 256
    """Its objects, 1 to 65,536."""
    outcomes: int = 1_000_000
    """How many of the last outcomes of keys it keeps, 0 to 4,294,967,295: a key whose outcome is older is `Unknown`. What is prepared stays."""
