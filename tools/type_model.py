"""Types, by the lines of their texts, and numbers in escrow: a part of the model of a store (tools/store_model.py), written
from docs/formats.md and docs/theory.md.
"""
import re


class Type:
    """A type file, by the lines of its text."""

    def __init__(self, text):
        lines = [line.split() for line in text.splitlines()]
        of = lambda word: [line[1:] for line in lines if line[:1] == [word]]
        self.lines, self.initial, self.states = lines, int(of("initial")[0][0]), int(of("states")[0][0])
        self.ops = [tuple(line) for line in of("op")]
        self.next = {(int(s), int(k)): int(t) for s, k, t in of("step")}
        self.conflicts = {(kind, int(p), int(q)) for kind, p, q in of("conflict")}
        self.related = {(int(s), int(t)) for s, t in of("equi")}
        self.text = "".join(" ".join(line) + "\n" for line in lines)

    def step(self, state, k):
        """The state after an operation, or none."""
        return self.next.get((state, k))

    def run(self, state, operations):
        """The state after these operations, or none."""
        for k in operations:
            state = None if state is None else self.step(state, k)
        return state

    def operations(self, call, state=0):
        """Those of a call, whatever the state is."""
        return [k for k, op in enumerate(self.ops) if op[0] == call]

    def reply(self, k):
        return self.ops[k][1]

    def names(self, _):
        """The calls."""
        return sorted({call for call, _ in self.ops})

    def moves(self, k):
        """How far an operation moves each state in which it is legal."""
        return {s: self.next[s, k] - s for s in range(self.states) if (s, k) in self.next}

    def move(self, k):
        """How far an operation of a numeric type moves each of them."""
        return min(self.moves(k).values(), default=0)

    def is_still(self, k):
        """Whether an operation changes nothing."""
        return not any(self.moves(k).values())

    def is_strong(self, kind):
        """Whether the yes of an accepted type is strong: in place, where the end of one operation after another and that in
        the other order look alike, each like the other one, but for pairs that conflict."""
        pairs = [(p, q) for p in range(len(self.ops)) for q in range(len(self.ops)) if ("undo", p, q) not in self.conflicts]
        return kind != "undo" or all(self.looks_back(self.run(s, [p, q]), self.run(s, [q, p]))
                                     for p, q in pairs for s in range(self.states) if self.run(s, [q, p]) is not None)

    def looks_back(self, end, other):
        """Whether an end looks like the other one, which looks like it."""
        return end == other or (end, other) in self.related

    def fault(self):
        """The first operation, and its first state, by which the type isn't numeric; or none."""
        for k in range(len(self.ops)):
            moves = self.moves(k)
            for s in range(self.states):
                is_gap = s not in moves and any(r < s for r in moves) and any(r > s for r in moves)
                if is_gap or s in moves and moves[s] != moves[min(moves)]:
                    return k, s
        return None


class NumberType(Type):
    """A number file, by the lines of its text: a number from 0 to a greatest one, and calls of listed amounts, of any
    amount, and of its value. It has no table, and is for escrow alone. Each call is two operations: there is enough, or
    room for so much; or there isn't. Of a call of any amount an operation is its place and the amount; of the value it
    is its place and the number."""

    REPLIES = {"take": ("ok", "short"), "give": ("ok", "full"), "atleast": ("yes", "no")}
    SIGNS = {"take": -1, "give": 1, "atleast": 0, "value": 0}

    def __init__(self, text):
        self.lines = [line.split() for line in text.splitlines() if line.strip() and line[0] != "#"]
        given = {word: int(value) for word, value in self.lines[1:3]}
        self.most, self.initial, self.conflicts = given["max"], given["initial"], set()
        self.text = "".join(" ".join(line) + "\n" for line in self.lines)
        self.calls = [(word, amount[0] if amount else "any") for word, *amount in self.lines[3:-1]]
        self.ops = [(f"{word}:{amount}", reply) for word, amount in self.calls if amount != "any"
                    for reply in self.REPLIES[word]]

    def is_strong(self, _):
        return True

    def parts(self, k):
        """The word of an operation's call, its amount, and whether it is the first of the two."""
        place, amount = k if isinstance(k, tuple) else (k, int(self.calls[k // 2][1]))
        return self.calls[place // 2][0], amount, place % 2 == 0

    def step(self, state, k):
        word, amount, is_done = self.parts(k)
        if word == "value":
            return state if state == amount else None
        is_there = amount <= (self.most - state if word == "give" else state)
        is_legal = 0 <= state <= self.most and is_there == is_done
        return state + self.move(k) if is_legal else None

    def move(self, k):
        word, amount, is_done = self.parts(k)
        return self.SIGNS[word] * amount if is_done else 0

    def is_still(self, k):
        return self.move(k) == 0

    def is_any(self, word, amount):
        """Whether it is an amount of a call of any amount, which no line lists."""
        is_amount = word in ("take", "give") and re.fullmatch("[1-9][0-9]{0,9}", amount) and int(amount) <= self.most
        return is_amount and (word, "any") in self.calls and (word, amount) not in self.calls

    def operations(self, call, state=0):
        """Those of a call, of the value the one that is legal."""
        if call == "value" and ("value", "any") in self.calls:
            return [(2 * self.calls.index(("value", "any")), state)]
        word, _, amount = call.partition(":")
        if self.is_any(word, amount):
            place = 2 * self.calls.index((word, "any"))
            return [(place, int(amount)), (place + 1, int(amount))]
        return [2 * at + half for at, listed in enumerate(self.calls) if listed == (word, amount) != (word, "any") for half in (0, 1)]

    def names(self, source):
        """The calls that are listed, and of each call of any amount three."""
        amounts = [source.choice([1, 2, self.initial, self.most, self.most - self.initial, source.randint(1, self.most)])
                   for _ in range(3)]
        anys = [f"{word}:{amount}" for word, any_ in self.calls if any_ == "any" for amount in amounts if word != "value"]
        return sorted({call for call, _ in self.ops}) + anys + ["value"] * (("value", "any") in self.calls)

    def reply(self, k):
        word, amount, is_done = self.parts(k)
        return str(amount) if word == "value" else self.REPLIES[word][not is_done]

    def fault(self):
        return None


class Number:
    """A number in escrow: what is committed, and what each open transaction did there."""

    def __init__(self, type_, base, own):
        self.type, self.base, self.own = type_, base, own

    def fronts(self, t):
        """How far each front of what a transaction did moves the number: a rollback may leave any."""
        moves = [self.type.move(k) for k in self.own[t]]
        return {sum(moves[:count]) for count in range(len(moves) + 1)}

    def left_by_others(self, t):
        """The numbers that the others may leave where a transaction commits, each of them a front of what it did."""
        numbers = {self.base}
        for u in self.own:
            if u != t:
                numbers = {number + move for number in numbers for move in self.fronts(u)}
        return numbers

    def is_legal_at(self, end, t):
        """Whether what a transaction did is legal from the lowest or the highest of these."""
        return self.type.run(end(self.left_by_others(t)), self.own[t]) is not None

    def is_firm(self, t):
        """Whether it is legal from each of these."""
        return all(self.type.run(number, self.own[t]) is not None for number in self.left_by_others(t))

    def keepers(self, t):
        """The others that keep a transaction from what it did last."""
        others = [u for u in self.own if u != t]
        if self.is_firm(t):
            return [u for u in others if not self.is_firm(u)]
        low, high = self.is_legal_at(min, t), self.is_legal_at(max, t)
        return [u for u in others if not low and min(self.fronts(u)) < 0 or not high and max(self.fronts(u)) > 0]

    def keeps_alone(self, u, t):
        """Whether another alone keeps a transaction from what it did last: it may leave a number from which that isn't
        legal, where no other did anything."""
        return any(self.type.run(self.base + move, self.own[t]) is None for move in self.fronts(u))
