"""The numbers by which operations go over: a place, and an amount where there is one."""
from typing import Optional, Tuple

# A place is a byte.
PLACES = 256


def number_of(place: int, amount: Optional[int] = None) -> int:
    """The number of an operation: its place, and with the amount n 256 * (n + 1) more."""
    return place if amount is None else place + PLACES * (amount + 1)


def parts_of(number: int) -> Tuple[int, Optional[int]]:
    """The place and the amount of an operation of this number."""
    above, place = divmod(number, PLACES)
    return place, above - 1 if above else None
