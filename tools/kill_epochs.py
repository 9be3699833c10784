"""What tools/kill_serve finds in the file of a store and in its archive: the epochs that ended since the last look, and the
present one.

A transaction is known by the name that its client was told, in every epoch into which it goes over. In a history it has a
number: where it goes over its place among all that was open, and else the number of its name. The lives of an epoch are
those behind the last one of the epoch before.
"""
import glob
import os
import subprocess
import sys

from kill_votes import OBJECTS, counted, events


def told(program, *words):
    """The lines of what a command writes."""
    done = subprocess.run([program, *words], capture_output=True, text=True, timeout=120)
    if done.returncode != 0 or done.stderr:
        sys.exit(f"{' '.join(words)}: status {done.returncode} {done.stdout[-300:]} {done.stderr}")
    return done.stdout.splitlines()


def life_of(path):
    """The life of which an archived history has the name."""
    return int(path.rpartition("-")[2].partition(".")[0])


def parts_of(lines):
    """How many objects a history has, and its events. Of more than 256 objects a line before theirs says how many they are."""
    count = sum(line.startswith("object ") for line in lines)
    return count, lines[count + lines[0].startswith("objects ") : -1]


class Epochs:
    """What was known of all epochs at the last look: the committed states where the present one began, the names of those
    that went over into it and what it began with, its lines, the last life of the one before, and the transactions in it by
    their names, as they were asked and answered; and how many went over in all."""

    def __init__(self, program, path):
        self.program, self.path, self.states, self.last = program, path, [0] * len(OBJECTS), 0
        self.carried, self.first, self.lines, self.known, self.went = {}, {}, [], {}, 0

    def archived(self):
        """The histories of the epochs that ended since the last look, in their order."""
        folder = os.path.dirname(self.path)
        return sorted((path for path in glob.glob(f"{folder}/*-*.history") if life_of(path) > self.last), key=life_of)

    def name_of(self, number, life):
        """The name of the transaction of this number in the present epoch, whose last life so far is this one. One whose
        begin wasn't answered has none."""
        names = [f"{s}.{number}" for s in range(self.last + 1, life + 1) if f"{s}.{number}" in self.known]
        return self.carried.get(number) or (names or [f"?{life}.{number}"])[0]

    def named(self, life):
        """What each transaction of the present epoch did there, and its ends, by its name."""
        return {self.name_of(number, life): did for number, did in events(self.lines).items()}

    def committed_states(self):
        """The states after all that has committed in the present epoch."""
        return counted(self.states, [done for done, ends in events(self.lines).values() if ends == ["commit"]])

    def held_at(self, life):
        """At each object the transactions with an operation there, and the operation, in their order."""
        there = {x: [] for x in range(len(OBJECTS))}
        for words in (line.split() for line in self.lines):
            if words[0] == "op":
                there[int(words[3])].append((self.name_of(int(words[2]), life), int(words[4])))
        return there

    # ---- a look

    def looked(self, life, held):
        """What is there after a service whose last life was at most this one, before which these were maybe prepared: of
        each transaction what it did and its ends, in the last epoch that it was in; and what isn't as it has to be."""
        there, wrong = {}, []
        count, present = parts_of(told(self.program, "history", self.path))
        for path in self.archived():
            with open(path, encoding="utf-8") as file:
                objects, lines = parts_of(file.read().splitlines())
            if objects == count and path == self.archived()[-1] and lines == present[: len(lines)]:
                # It was killed behind the archive and before the next epoch, which has more objects.
                os.remove(path)
                continue
            wrong += self.take(lines, life_of(path), there, held)
            self.begin_next(life_of(path))
        wrong += self.take(present, life, there, held)
        return there, wrong

    def take(self, lines, life, there, held):
        """The epoch has these lines now: what isn't as it has to be. What was there at the last look is there, and what was
        open then isn't any more, but for what was held."""
        before, self.lines = self.lines, lines
        if lines[: len(before)] != before:
            yield f"of {len(before)} events that were in the file some are gone or others"
        yield from self.differences_of_first()
        named = self.named(life)
        for number in events(before):
            ends = named[self.name_of(number, life)][1]
            if len(ends) != 1 and (ends or self.name_of(number, life) not in held):
                yield f"transaction {self.name_of(number, life)} of an earlier life has the ends {ends}"
        there.update(named)

    def begin_next(self, life):
        """This epoch, whose last life was this one, is over: what is open goes over into the next one."""
        there = events(self.lines)
        of_open = [number for number, (_, ends) in sorted(there.items()) if not ends]
        names = {number: self.name_of(number, life) for number in of_open}
        self.states = self.committed_states()
        self.first = orders_of(line for line in self.lines if line.startswith("op ") and int(line.split()[2]) in names)
        self.first = renumbered(self.first, {number: place for place, number in enumerate(of_open)})
        self.carried, self.lines, self.last = {place: names[number] for place, number in enumerate(of_open)}, [], life
        self.went += len(of_open)

    def differences_of_first(self):
        """What the epoch began with otherwise than with what went over: the begins, and then what each did, and what was
        done at each object, in its order."""
        count = len(self.carried) + sum(len(done) for (word, _), done in self.first.items() if word == "by")
        begins, done = self.lines[: len(self.carried)], self.lines[len(self.carried) : count]
        if begins != [f"begin 0 {number}" for number in self.carried] or orders_of(done) != self.first:
            yield f"{self.carried} went over with {self.first}, and the epoch begins with {self.lines[:count]}"

    def forget(self, life):
        """Of transactions that aren't in the present epoch nothing more is to be known."""
        there = self.named(life)
        self.known = {name: t for name, t in self.known.items() if name in there}


def orders_of(lines):
    """What these operations are, by each transaction and at each object, in their order."""
    orders = {}
    for _, _, t, x, k in (line.split() for line in lines):
        orders.setdefault(("by", int(t)), []).append((int(x), int(k)))
        orders.setdefault(("at", int(x)), []).append((int(t), int(k)))
    return orders


def renumbered(orders, numbers):
    """The same where the transactions have these numbers."""
    by = {("by", numbers[t]): done for (word, t), done in orders.items() if word == "by"}
    at = {("at", x): [(numbers[t], k) for t, k in done] for (word, x), done in orders.items() if word == "at"}
    return by | at
