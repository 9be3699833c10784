"""What the tests expect of an operation: where its type lists it, its reply, and its amount."""
import colock
from colock._operations import number_of


class Executed:
    """What equals an operation that was executed at a place with a reply, whatever its call."""

    def __init__(self, place, reply, amount=None):
        self.parts = (place, reply, amount)

    def __eq__(self, other):
        if isinstance(other, colock.Operation):
            return self.parts == (other.place, other.reply, other.amount)
        return isinstance(other, Executed) and self.parts == other.parts

    __hash__ = None

    @property
    def number(self):
        """As of an operation."""
        return number_of(self.parts[0], self.parts[2])

    def __repr__(self):
        return f"Executed{self.parts}"
