"""Scripts and histories that are the same each time, for `run`, `audit` and the reader of scripts."""
import random
import sys

# A script: transactions open at a time, objects, and how often a transaction that ends aborts.
OPEN = 16
OBJECTS = 4
ABORTS_OF_100 = 5
SEED = 1988


class Script:
    """Commands that are being made; this many transactions are always open."""

    def __init__(self, seed, objects, calls):
        self.random = random.Random(seed)
        self.objects, self.calls = objects, calls
        self.begun, self.open, self.lines = 0, [], []

    def begin(self):
        self.lines.append("begin")
        self.open.append(self.begun)
        self.begun += 1

    def call(self):
        t, x = self.random.choice(self.open), self.random.randrange(self.objects)
        self.lines.append(f"call {t} {x} {self.random.choice(self.calls)}")

    def end(self, place):
        word = "abort" if self.random.randrange(100) < ABORTS_OF_100 else "commit"
        self.lines.append(f"{word} {self.open.pop(place)}")


def script(kind, calls, commands, seed=SEED, objects=OBJECTS):
    """The lines of a script of this many commands. A transaction makes four calls on average, and all
    are ended after the last call, so that no command is refused."""
    made = Script(seed, objects, calls)
    for _ in range(OPEN):
        made.begin()
    while len(made.lines) + OPEN + 2 <= commands:
        if made.random.randrange(5) == 0:
            made.end(made.random.randrange(OPEN))
            made.begin()
        else:
            made.call()
    while len(made.lines) + OPEN < commands:
        made.call()
    while made.open:
        made.end(0)
    return [f"max {max(2, commands)}"] + [f"object {kind} 0"] * objects + made.lines + ["end"]


def numbers(seed=1):
    """Numbers below 2 ** 31 from a linear congruence."""
    while True:
        seed = (seed * 6364136223846793005 + 1442695040888963407) % 2 ** 64
        yield seed >> 33


def reading_commands(count, calls=7, names=("inc:1", "dec:1", "read")):
    """Commands to be read: each of the transactions makes this many calls and ends, and another begins in its place."""
    chance = numbers()
    made = [0] * OPEN
    number = list(range(OPEN))
    begun = OPEN
    lines = ["begin"] * OPEN
    while len(lines) < count:
        slot = next(chance) % OPEN
        if made[slot] < calls:
            made[slot] += 1
            x, name = next(chance) % OBJECTS, names[next(chance) % len(names)]
            lines.append(f"call {number[slot]} {x} {name}")
        else:
            word = "abort" if next(chance) % 100 < ABORTS_OF_100 else "commit"
            lines += [f"{word} {number[slot]}", "begin"]
            made[slot], number[slot], begun = 0, begun, begun + 1
    return lines[:count]


def reading(count):
    """The lines of a script of this many commands that is read, and not run."""
    objects = [f"object {'undo' if x % 2 == 0 else 'intentions'} 0" for x in range(OBJECTS)]
    return ["max 1000000", *objects, *reading_commands(count), "end"]


class History:
    """Events that are being made, of a counter from 0 to `most` with the operations 0, one up, and 1,
    one down. What is open may be committed in any order: no sum of a part of it leaves the range."""

    def __init__(self, seed, objects, most):
        self.random = random.Random(seed)
        self.most, self.lines, self.open = most, [], []
        self.begun = 0
        # Of each object what is committed, and what is open above and below that.
        self.committed, self.up, self.down = [0] * objects, [0] * objects, [0] * objects

    def begin(self):
        t = self.begun
        self.lines.append(f"begin {t % 16} {t}")
        self.open.append((t, []))
        self.begun += 1

    def op(self, place):
        t, own = self.open[place]
        x = self.random.randrange(len(self.committed))
        may_fall = self.committed[x] - self.down[x] > 0
        falls = may_fall and self.random.randrange(2) == 0
        if not falls and self.committed[x] + self.up[x] == self.most:
            return
        (self.down if falls else self.up)[x] += 1
        own.append((x, falls))
        self.lines.append(f"op {t % 16} {t} {x} {int(falls)}")

    def give_back(self, x, falls):
        (self.down if falls else self.up)[x] -= 1

    def rollback(self, place):
        t, own = self.open[place]
        if own:
            self.give_back(*own.pop())
            self.lines.append(f"rollback {t % 16} {t} 1")

    def end(self, place):
        t, own = self.open.pop(place)
        aborts = self.random.randrange(100) < ABORTS_OF_100
        for x, falls in own:
            self.give_back(x, falls)
            self.committed[x] += 0 if aborts else -1 if falls else 1
        self.lines.append(f"{'abort' if aborts else 'commit'} {t % 16} {t}")


def history(events, transactions, objects, most, seed=SEED):
    """The lines of a serial history of this many events and transactions, of which OPEN are open at a
    time; one of a hundred other events is a rollback."""
    made = History(seed, objects, most)
    while made.begun < transactions:
        while len(made.open) < OPEN and made.begun < transactions:
            made.begin()
        # With the ends of those that are open, as many events as these transactions have on average.
        while len(made.lines) + len(made.open) < events * made.begun // transactions:
            place = made.random.randrange(len(made.open))
            if made.random.randrange(100) == 0:
                made.rollback(place)
            else:
                made.op(place)
        made.end(made.random.randrange(len(made.open)))
    while made.open:
        made.end(0)
    return ["object undo 0"] * objects + made.lines + ["end"]


def counter(most):
    """The lines that `colock make counter MOST 1` writes."""
    steps = [f"step {s} {k} {t}" for s in range(most + 1) for k, t in ((0, s + 1), (1, s - 1)) if 0 <= t <= most]
    pairs = [f"conflict undo {p} {1 - p}" for p in (0, 1)] + [f"conflict intentions {p} {p}" for p in (0, 1)]
    top = ["type counter", f"states {most + 1}", "initial 0", "op inc:1 ok", "op dec:1 ok"]
    return top + steps + pairs + ["end"]


def main():
    """`scripts.py script KIND COMMANDS CALL...`, `scripts.py history EVENTS TRANSACTIONS OBJECTS MOST`
    or `scripts.py counter MOST`."""
    what, *words = sys.argv[1:]
    if what == "script":
        lines = script(words[0], words[2:], int(words[1]))
    elif what == "counter":
        lines = counter(int(words[0]))
    else:
        lines = history(*map(int, words))
    sys.stdout.write("\n".join(lines) + "\n")


if __name__ == "__main__":
    main()
