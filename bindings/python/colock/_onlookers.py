"""Who waits for the end of a transaction, or of any, and isn't one itself."""
from collections import OrderedDict
from typing import Dict, List


class Onlookers:
    """All that look on, each named by a number of its own."""

    def __init__(self) -> None:
        self._made = 0
        self._of: Dict[int, int] = {}
        # those of each transaction, and those of any, in the order in which they came
        self._by_number: Dict[int, Dict[int, None]] = {}
        self._of_any: "OrderedDict[int, None]" = OrderedDict()

    def _next_id(self) -> int:
        id = self._made
        self._made += 1
        return id

    def add(self, number: int) -> int:
        """Somebody looks on, at this transaction."""
        id = self._next_id()
        self._of[id] = number
        self._by_number.setdefault(number, {})[id] = None
        return id

    def add_of_any(self) -> int:
        """Somebody looks on, at any transaction."""
        id = self._next_id()
        self._of_any[id] = None
        return id

    def has(self, id: int) -> bool:
        """Whether that one looks on."""
        return id in self._of or id in self._of_any

    def remove(self, id: int) -> None:
        """It looks on no more."""
        self._of_any.pop(id, None)
        number = self._of.pop(id, None)
        if number is not None:
            others = self._by_number[number]
            del others[id]
            if not others:
                del self._by_number[number]

    def take(self, number: int) -> List[int]:
        """Those of a transaction, which look on no more."""
        ids = list(self._by_number.get(number, ()))
        for id in ids:
            self.remove(id)
        return ids

    def take_of_any(self) -> List[int]:
        """The first of those of any transaction, which looks on no more: an end makes room for one."""
        return [self._of_any.popitem(last=False)[0]] if self._of_any else []

    def take_all(self) -> List[int]:
        """All of them, which look on no more, in their order."""
        ids = sorted([*self._of, *self._of_any])
        for id in ids:
            self.remove(id)
        return ids

    def is_empty(self) -> bool:
        """Whether nobody looks on."""
        return not (self._by_number or self._of_any)
