"""A slow model of workers whose turns are drawn, over the model of a store.

It is written from docs/formats.md and shares nothing with the program. PCG32 is written from its own description.
"""
from store_model import Model, Seen, line_of, object_lines

REFUSALS = {"NotOpen": 1, "NoObject": 2, "NoCall": 3, "TooManyOpen": 4, "HistoryFull": 5, "NoMemory": 6}
WORD, LONG = (1 << 32) - 1, (1 << 64) - 1


class Words:
    """PCG32: a state of 64 bits, and of each state a word of 32."""

    def __init__(self, seed):
        self.state = (seed + 1) & LONG
        self.step()

    def step(self):
        self.state = (self.state * 6364136223846793005 + 1) & LONG

    def next(self):
        state = self.state
        self.step()
        word, turn = ((state >> 18 ^ state) >> 27) & WORD, state >> 59
        return (word >> turn | word << (-turn & 31)) & WORD


class Worker:
    """The jobs of a worker, each a list of an object and a call; what came of those that are done; and the try that it
    is at: how many there were, its transaction, how many calls are answered, and whether it is to be aborted, and why."""

    def __init__(self, jobs, tries):
        self.jobs, self.tries, self.outcomes = jobs, tries, []
        self.begins_job()

    def begins_job(self):
        self.tried = 0
        self.begins_try()

    def begins_try(self):
        self.t, self.answered, self.is_broken, self.refused = None, 0, False, None

    def is_at_work(self):
        return len(self.outcomes) < len(self.jobs)

    def command(self):
        """What it asks at its turn."""
        calls = self.jobs[len(self.outcomes)]
        if self.t is None:
            return ("begin",)
        if self.is_broken:
            return "abort", self.t
        if self.answered < len(calls):
            return "call", self.t, *calls[self.answered]
        return "commit", self.t

    def ends_job(self, outcome):
        self.outcomes.append(outcome)
        self.begins_job()

    def takes_event(self, event):
        """What was asked is done."""
        word = event[0]
        if word == "begin":
            self.t = event[1]
        elif word == "op":
            self.answered += 1
        elif word in ("busy", "none"):
            self.is_broken = True
        elif word == "commit":
            self.ends_job(f"committed {self.t}")
        elif self.refused:
            self.ends_job(self.refused)
        else:
            self.tried += 1
            self.begins_try()
            if self.tried == self.tries:
                self.ends_job("gaveup")

    def takes_refusal(self, refusal):
        """What was asked is refused: the job is, after an abort where it had begun."""
        self.refused = f"refused {REFUSALS[refusal]} {refusal}"
        if self.t is None:
            self.ends_job(self.refused)
        else:
            self.is_broken = True


class Work:
    """Workers at a store of so many events: each event with its worker. Memory may be refused for one begin or call,
    which comes after so many others."""

    def __init__(self, objects, types, most, jobs, tries, room=None):
        self.model, self.most, self.room = Model(objects, types), most, room
        self.workers, self.by = [Worker(each, tries) for each in jobs], []

    def is_full(self, s, verb):
        room = {"begin": 2, "call": 1}.get(verb, 0)
        return room and len(self.model.events) + len(s.open_ones()) + room > self.most

    def is_starved(self, verb):
        if self.room is None or verb not in ("begin", "call"):
            return False
        self.room -= 1
        return self.room == -1

    def turn(self, w):
        """Worker w asks one command."""
        worker, s = self.workers[w], Seen(self.model.events)
        verb, *words = worker.command()
        given = [(self.model.life, words[0]), *words[1:]] if words else []
        starved = "NoMemory" * self.is_starved(verb)
        if refused := starved or self.model.refusal(s, verb, *given) or "HistoryFull" * bool(self.is_full(s, verb)):
            worker.takes_refusal(refused)
        else:
            self.model.done(s, verb, *given)
            self.by.append(w)
            worker.takes_event(self.model.events[-1])

    def draw(self, seed):
        """All turns, by the words of a seed."""
        words = Words(seed)
        while going := [w for w, worker in enumerate(self.workers) if worker.is_at_work()]:
            self.turn(going[words.next() % len(going)])

    def text(self):
        """What is written of it. No transaction is open at the end."""
        s = Seen(self.model.events)
        lines = object_lines(self.model.objects)
        for w, event in zip(self.by, self.model.events):
            word, _, rest = line_of(event).split(" ", 2)
            lines.append(f"{word} {w} {rest}")
        kept = [f"# kept {x} {self.model.kept(s, x)}" for x in range(len(self.model.objects))]
        jobs = [f"# job {w} {i} {outcome}" for w, worker in enumerate(self.workers) for i, outcome in enumerate(worker.outcomes)]
        return "\n".join([*lines, "end", *kept, ""]) + self.model.audit() + "".join(f"{line}\n" for line in jobs)
