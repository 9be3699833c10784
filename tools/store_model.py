"""A slow model of a store that is served: what a line is answered (tools/line_model.py says what it asks).

It is written from docs/formats.md and docs/theory.md and shares nothing with the program. For each line it works out
from the whole history, anew, who is open, what survives, what a transaction sees and who is in its way. Of a deferred
object it keeps the serial state; so it is a model of types whose texts relate no two states. Of an object in escrow it
goes through all fronts of what each transaction did, and through all numbers that such fronts may leave.

Where an epoch ends, all that is open goes over if each yes is strong, and else what is prepared. The next one begins with
what survives of that, in an order that the model leaves open: whoever looks at a history tells it the one that was found.
What is kept of keys has numbers, 1, 2, 3 and so on. Where an epoch ends, only what has one of the last numbers stays.
"""
import collections
import dataclasses

from line_model import Fault, form_of, line_asked
from type_model import Number

MOST_OPEN, MOST_TOLD = 1024, 65_536
# How many objects a text may have that doesn't say it.
FEW = 256
# How many of the last outcomes stay at least, by default.
STAYING = 1_000_000


class Seen:
    """What a history says: who began, committed and is open, and which operations survive."""

    def __init__(self, events):
        self.begun, self.committed, self.aborted, self.stands = 0, [], set(), []
        for event in events:
            self.take(*event)
        self.ended = self.aborted | set(self.committed)

    def take(self, word, t, *rest):
        if word == "begin":
            self.begun += 1
        elif word == "op":
            self.stands.append((t, *rest))
        elif word == "commit":
            self.committed.append(t)
        elif word == "abort":
            self.aborted.add(t)
            self.strike(t, len(self.by(t)))
        elif word == "rollback":
            self.strike(t, rest[0])

    def strike(self, t, count):
        """The last operations of a transaction survive no more."""
        left = len(self.by(t)) - count
        kept = []
        for entry in self.stands:
            if entry[0] != t or left > 0:
                kept.append(entry)
                left -= entry[0] == t
        self.stands = kept

    def by(self, t):
        return [entry for entry in self.stands if entry[0] == t]

    def is_open(self, t):
        return t < self.begun and t not in self.ended

    def open_ones(self):
        return [t for t in range(self.begun) if t not in self.ended]

    def at(self, x, t):
        """The operations of a transaction that survive at an object."""
        return [k for u, y, k in self.stands if u == t and y == x]

    def serial(self, x):
        return [k for t in self.committed for k in self.at(x, t)]


@dataclasses.dataclass(frozen=True)
class Prepared:
    """A transaction that is prepared: its key, the life and the number by which its client knows it, until when that waits,
    and its number in the history of this epoch."""
    key: str
    name: tuple
    until: int
    number: int


@dataclasses.dataclass(frozen=True)
class Outcome:
    """What is kept of a key: the replies of its transaction, or None where it was aborted; how many events there were when
    that was decided; and which it was of all that were ever kept, of which the first is 1."""
    replies: list | None
    at: int
    number: int


class Model:
    """A store in a file: the states where the epoch began, its whole history, how many of these events are answered as
    durable, and the number of its life; who is prepared, in that order; what is kept of keys, those of which nothing is any
    more, the number of the next outcome, and how many of the last stay at least. Of those that an earlier life began there
    are the names, by their numbers. The epoch began with the first events, and with all that was open or only with what was
    prepared. An object is its kind, the place of its type, and where it has one its name."""

    def __init__(self, objects, types):
        self.objects, self.types = objects, types
        self.starts, self.events, self.durable = [types[place].initial for _, place, *_ in objects], [], 0
        self.life, self.prepared = 0, []
        self.keys, self.gone, self.next, self.staying = {}, [], 1, STAYING
        self.carried, self.first, self.all_went = {}, 0, True

    def type_of(self, x):
        return self.types[self.objects[x][1]]

    def number_of(self, x):
        """The number of an object that is asked for; of a name that none has that of no object."""
        names = list(map(name_of, self.objects))
        return x if isinstance(x, int) else names.index(x) if x in names else len(names)

    def is_strong(self):
        """Whether each yes is strong, so that all that is open goes over where the epoch ends."""
        return all(self.types[place].is_strong(kind) for kind, place, *_ in self.objects)

    def name_of(self, t):
        """The name by which its client knows an open transaction: one that went over keeps that of the life that began it."""
        return self.carried.get(t, (self.life, t))

    def open_by(self, s, name):
        """The number of the open transaction of this name, or none."""
        return next((t for t in s.open_ones() if name == self.name_of(t)), None)

    def held(self, t):
        """The transaction of this number as it is prepared, or none."""
        return next((p for p in self.prepared if p.number == t), None)

    def is_prepared(self, t):
        return self.held(t) is not None

    def unprepared(self):
        """Those that are open and aren't prepared."""
        return [t for t in Seen(self.events).open_ones() if not self.is_prepared(t)]

    def view(self, s, x, t):
        """What a transaction sees at an object."""
        if self.objects[x][0] == "undo":
            return [k for _, y, k in s.stands if y == x]
        return s.serial(x) + s.at(x, t)

    def kept(self, s, x):
        return self.type_of(x).run(self.starts[x], self.view(s, x, None))

    def serial(self, s, x):
        return self.type_of(x).run(self.starts[x], s.serial(x))

    def committed(self, s, x):
        """The state of an object where all that is open is left out."""
        if self.objects[x][0] != "undo":
            return self.serial(s, x)
        return self.type_of(x).run(self.starts[x], [k for t, y, k in s.stands if y == x and not s.is_open(t)])

    def number(self, s, x, t, k):
        """An object in escrow, where a transaction did this operation too."""
        own = {t: []}
        for u in {u for u, y, _ in s.stands if y == x and s.is_open(u)}:
            own[u] = s.at(x, u)
        return Number(self.type_of(x), self.serial(s, x), {**own, t: own[t] + [k]})

    def blocker(self, s, x, t, k):
        """Who holds the earliest operation that this one conflicts with; or, in escrow, that keeps the transaction from
        this one, first of those who do so alone; or none."""
        kind, conflicts = self.objects[x][0], self.type_of(x).conflicts
        held = [(u, q) for u, y, q in s.stands if y == x and u != t and s.is_open(u)]
        if kind != "escrow":
            return next((u for u, q in held if (kind, k, q) in conflicts), None)
        number = self.number(s, x, t, k)
        keepers = number.keepers(t)
        held = [u for u, _ in held if u in keepers]
        return next((u for u in held if number.keeps_alone(u, t)), held[0] if held else None)

    def event_of_call(self, s, t, x, call):
        state = self.type_of(x).run(self.starts[x], self.view(s, x, t))
        of_call = self.type_of(x).operations(call, state)
        first = of_call[0][0] if isinstance(of_call[0], tuple) else of_call[0]
        legal = [k for k in of_call if self.type_of(x).step(state, k) is not None]
        free = [k for k in legal if self.blocker(s, x, t, k) is None]
        if free:
            return "op", t, x, free[0]
        if legal:
            return "busy", t, x, first, self.blocker(s, x, t, legal[0])
        return "none", t, x, first

    def refusal(self, s, verb, *rest):
        """Why the store refuses this, or none."""
        if verb == "begin":
            return "TooManyOpen" if len(s.open_ones()) >= MOST_OPEN else None
        if verb in ("kept", "find"):
            return "NoObject" if rest[0] >= len(self.objects) else None
        if verb not in ("call", "would", "commit", "abort", "rollback"):
            return None
        name, *rest = rest
        t = self.open_by(s, name)
        if t is None or self.is_prepared(t):
            return "NotOpen" if t is None else "Prepared"
        if verb == "rollback":
            return None if 0 < rest[0] <= len(s.by(t)) else "BadRollback"
        if verb in ("call", "would") and rest[0] >= len(self.objects):
            return "NoObject"
        return "NoCall" if verb in ("call", "would") and not self.type_of(rest[0]).operations(rest[1]) else None

    def peeked(self, s, calls):
        """What these calls are answered to a transaction that only reads."""
        replies = []
        for place, (x, call) in enumerate(calls):
            if x >= len(self.objects):
                return "refused NoObject"
            of, state = self.type_of(x), self.committed(s, x)
            of_call = of.operations(call, state)
            if not of_call or not all(map(of.is_still, of_call)):
                return "refused Changes" if of_call else "refused NoCall"
            legal = [k for k in of_call if of.step(state, k) is not None]
            if not legal:
                return f"none {place}"
            replies.append(of.reply(legal[0]))
        return self.seen(s, replies)

    def seen(self, s, words):
        """These words were seen now."""
        return " ".join([f"seen {self.life}.{len(s.committed)}", *map(str, words)])

    def called(self, t, x, call):
        """A call is made; the words of what it is answered."""
        s = Seen(self.events)
        if refused := self.refusal(s, "call", (self.life, t), x, call):
            return ["refused", refused]
        self.events.append(self.event_of_call(s, t, x, call))
        return self.told(self.events[-1]).split(" ")

    def attempted(self, s, calls):
        """A whole transaction makes these calls; what it is answered."""
        if refused := self.refusal(s, "begin"):
            return f"refused {refused}"
        t, replies = s.begun, []
        self.events.append(("begin", t))
        for place, (x, call) in enumerate(calls):
            word, *rest = self.called(t, x, call)
            if word != "reply":
                self.events.append(("abort", t))
                return " ".join([word, str(place), *rest])
            replies += rest
        self.events.append(("commit", t))
        self.durable = len(self.events)
        return " ".join(["done", *replies])

    def under_key(self, verb, *rest):
        """What is asked under a key is answered each time, and done once. Whose commit was done before is aborted."""
        key = rest[1] if verb == "commit" else rest[0]
        if refused := {"prepared": "KeyPrepared", "aborted": "Aborted"}.get(self.state(key)):
            self.durable = len(self.events)
            return f"refused {refused}"
        if key in self.keys:
            if verb == "commit" and not self.refusal(Seen(self.events), "abort", rest[0]):
                self.events.append(("abort", self.open_by(Seen(self.events), rest[0])))
            self.durable = len(self.events)
            return "ok" if verb == "commit" else " ".join(["done", *self.keys[key].replies])
        if verb == "commit":
            refused = self.refusal(Seen(self.events), "commit", rest[0])
            answer = f"refused {refused}" if refused else self.done(Seen(self.events), "commit", rest[0])[0]
        else:
            answer = self.attempted(Seen(self.events), list(zip(rest[1::2], rest[2::2])))
        word, *replies = answer.split(" ")
        if word in ("ok", "done"):
            self.keep(key, replies)
        return answer

    def keep(self, key, replies):
        """What became of the transaction of a key is kept."""
        self.keys[key] = Outcome(replies, len(self.events), self.next)
        self.next += 1

    def let_go(self):
        """Of keys after which as many others were kept as stay at least nothing is kept any more."""
        self.gone += [key for key, kept in self.keys.items() if kept.number < self.next - self.staying]
        self.keys = {key: kept for key, kept in self.keys.items() if kept.number >= self.next - self.staying}

    def under(self, key):
        """Who is prepared under a key, or none."""
        return next((p for p in self.prepared if p.key == key), None)

    def state(self, key):
        """What became of the transaction of a key."""
        if self.under(key) or key not in self.keys:
            return "prepared" if self.under(key) else "unknown"
        return "aborted" if self.keys[key].replies is None else "committed"

    def prepare(self, s, name, key, until):
        """An open transaction is prepared under a key. It is durable then."""
        t = self.open_by(s, name)
        if t is None or self.is_prepared(t):
            return "refused NotOpen" if t is None else "ok" if self.under(key) == self.held(t) else "refused Prepared"
        if self.state(key) != "unknown":
            return "refused " + {"prepared": "KeyPrepared"}.get(self.state(key), self.state(key).capitalize())
        self.prepared.append(Prepared(key, name, until, t))
        self.durable = len(self.events)
        return "ok"

    def decide(self, key, how):
        """The transaction that is prepared under a key ends; where nobody has the key an abort is kept. It is durable then."""
        state, p = self.state(key), self.under(key)
        if state in ("committed", "aborted"):
            return "ok" if state.startswith(how) else "refused Decided"
        if p:
            self.events.append((how, p.number))
            self.prepared.remove(p)
        elif how == "commit":
            return "refused Unknown"
        self.keep(key, [] if how == "commit" else None)
        self.durable = len(self.events)
        return "ok"

    def known(self, key):
        """What is known of a key. It is durable then."""
        self.durable = len(self.events)
        kept = self.keys.get(key)
        return " ".join([self.state(key), *(kept and kept.replies or [])])

    def cut(self, count):
        """Only the first events are there."""
        del self.events[count:]
        self.next = min([self.next, *(kept.number for kept in self.keys.values() if kept.at > count)])
        self.keys = {key: kept for key, kept in self.keys.items() if kept.at <= count}

    def told(self, event):
        """What a call is answered that makes this event."""
        if event[0] == "op":
            return f"reply {self.type_of(event[2]).reply(event[3])}"
        return "busy {}.{}".format(*self.name_of(event[4])) if event[0] == "busy" else "none"

    def line_of_prepared(self, p):
        """Its key, its name and until when it waits, and the objects at which it holds operations."""
        there = sorted({x for t, x, _ in Seen(self.events).stands if t == p.number})
        return " ".join([p.key, "{}.{}".format(*p.name), str(p.until), *map(str, there)])

    def listed(self, verb, *rest):
        """The lines of an answer of several."""
        if verb == "objects":
            return list(map(object_line, self.objects))
        if verb == "types":
            return [line for type_ in self.types for line in type_.text.split("\n")]
        if verb == "prepared":
            return list(map(self.line_of_prepared, self.prepared))
        return [line_of(event) for event in self.events[rest[0] :][: min(rest[1], MOST_TOLD)]]

    def done(self, s, verb, *rest):
        """The lines of the answer to what isn't refused; what is asked is done."""
        if verb == "events":
            self.durable = len(self.events)
        if verb in ("objects", "types", "events", "prepared"):
            return self.listed(verb, *rest) + ["ok"]
        if verb == "stats":
            counts = f"events {len(self.events)} begun {s.begun} open {len(s.open_ones())} prepared {len(self.prepared)}"
            return [f"ok {counts}"]
        if verb in ("prepare", "decide"):
            return [self.prepare(s, *rest) if verb == "prepare" else self.decide(*rest)]
        if verb == "find":
            return [f"ok {rest[0]}"]
        if verb == "committed":
            is_there = all(x < len(self.objects) for x in rest)
            return [self.seen(s, [self.committed(s, x) for x in rest]) if is_there else "refused NoObject"]
        if verb in ("commit KEY", "do KEY"):
            return [self.under_key(verb.removesuffix(" KEY"), *rest)]
        if verb == "outcome":
            return [self.known(rest[0])]
        if verb in ("peek", "do"):
            return [{"peek": self.peeked, "do": self.attempted}[verb](s, list(zip(rest[::2], rest[1::2])))]
        if verb == "kept":
            return [f"ok {self.kept(s, rest[0])}"]
        if verb == "begin":
            self.events.append(("begin", s.begun))
            return [f"ok {self.life}.{s.begun}"]
        t, *rest = self.open_by(s, rest[0]), *rest[1:]
        event = self.event_of_call(s, t, *rest) if verb in ("call", "would") else (verb, t, *rest)
        if verb != "would":
            self.events.append(event)
        if verb == "commit":
            self.durable = len(self.events)
        return [self.told(event) if verb in ("call", "would") else "ok"]

    def answer(self, line):
        """The lines of the answer, each after the tag."""
        tag, request = line_asked(line)
        if isinstance(request, Fault):
            return [f"{tag} fault {request}\n"]
        if request == ["end"]:
            return [f"{tag} ok\n"]
        s = Seen(self.events)
        forms = "-" + form_of(request[0], len(request) - 1)
        request = [self.number_of(word) if form in "om" else word for form, word in zip(forms, request)]
        refused = self.refusal(s, *request)
        lines = [f"refused {refused}"] if refused else self.done(s, *request)
        return [f"{tag} {line}\n" for line in lines]

    def abort_all(self):
        """What is open and isn't prepared is aborted."""
        self.events += [("abort", t) for t in self.unprepared()]

    def opened(self, staying=STAYING):
        """The file is opened by a service that lets so many of the last outcomes stay at least. Of what is open it knows who
        is prepared, by the name that was asked for then."""
        self.abort_all()
        self.staying = staying
        self.durable, self.life = len(self.events), self.life + 1
        self.carried = {p.number: p.name for p in self.prepared}

    def stopped(self):
        """The input has ended without an end: the epoch goes on where the file is opened again."""
        self.abort_all()
        self.durable = len(self.events)

    def ended(self):
        """The end was asked for: what goes over is what is prepared."""
        self.abort_all()
        self.renewed()

    def renewed(self):
        """Another epoch begins, at the committed states. What goes over begins there too, and does again what survives of
        it, in the order in which that was done, as far as one is kept."""
        self.all_went = self.is_strong()
        if not self.all_went:
            self.abort_all()
        s = Seen(self.events)
        numbers = {t: number for number, t in enumerate(s.open_ones())}
        self.starts = [self.committed(s, x) for x in range(len(self.objects))]
        self.carried = {number: self.name_of(t) for t, number in numbers.items()}
        self.events = [("begin", number) for number in numbers.values()]
        self.events += [("op", numbers[t], x, k) for t, x, k in s.stands if t in numbers]
        self.prepared = [dataclasses.replace(p, number=numbers[p.number]) for p in self.prepared]
        self.first = self.durable = len(self.events)
        self.life += 1
        self.keys = {key: dataclasses.replace(kept, at=0) for key, kept in self.keys.items()}
        self.let_go()

    def takes_order(self, lines):
        """Whether these lines are those of the first events, in another order that keeps what is to be kept: from now on
        the epoch began with that one."""
        first = self.events[: self.first]
        events = dict(zip(map(line_of, first), first))
        told = [events.get(line) for line in lines[: self.first]]
        if None in told or self.kept_orders(told) != self.kept_orders(first):
            return False
        self.events[: self.first] = told
        return True

    def kept_orders(self, first):
        """What is kept of the order of these events: the begins come first, in their order; then what is done at each object
        is in order, and where all that was open went over what each transaction does."""
        count = sum(word == "begin" for word, *_ in first)
        orders = collections.defaultdict(list, begins=first[:count])
        for _, t, *rest in first[count:]:
            orders["at", *rest[:1]].append((t, rest))
            if self.all_went:
                orders["by", t].append(rest)
        return orders

    def extended(self, objects, types):
        """Another epoch begins, with more objects, whose places are those of these types: the types that the file has
        are there once."""
        self.renewed()
        places = []
        for type_ in types:
            known = [other.text for other in self.types]
            places.append(known.index(type_.text) if type_.text in known else len(known))
            self.types += [type_] * (type_.text not in known)
        self.starts += [types[place].initial for _, place, *_ in objects]
        self.objects += [(kind, places[place], *name) for kind, place, *name in objects]

    def history(self):
        lines = [*object_lines(self.objects), *map(line_of, self.events), "end"]
        return "".join(line + "\n" for line in lines)

    def audit(self):
        s = Seen(self.events)
        serial = [f"# serial {x} {self.serial(s, x)}" for x in range(len(self.objects))]
        return "".join(line + "\n" for line in ["# audit yes", *[f"# commit {t}" for t in s.committed], *serial])


def size_lines(objects):
    """How many objects a text of these may have, which it says where that is more than 256, or one has a name."""
    size = max(len(objects), *(place + 1 for _, place, *_ in objects))
    return [f"objects {size}"] * (size > FEW or any(map(name_of, objects)))


def name_of(of):
    """The name of an object, or none."""
    return of[2] if len(of) > 2 else None


def object_line(of):
    """The line of an object."""
    return " ".join(["object", *map(str, of)])


def object_lines(objects):
    """How a history of these objects begins."""
    return size_lines(objects) + list(map(object_line, objects))


def line_of(event):
    """The line of an event of worker 0. An operation with an amount has it behind its place."""
    words = [word for part in event[1:] for word in (part if isinstance(part, tuple) else (part,))]
    return " ".join(map(str, [event[0], 0, *words]))
