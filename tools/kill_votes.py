"""What tools/kill_serve asks of transactions that are prepared, and what a service then has to say of them.

A vote is a transaction that was asked to be prepared under a key. Threads share the votes. Where a service is killed a vote
that was asked and not answered is there or not, and so is a decision; the next service says which, and from then on it is
so, as long as the key is kept (tools/kill_keys.py).
"""
import threading

from kill_keys import Old

OBJECTS = ["undo", "undo", "undo", "intentions", "escrow"]
CALLS = ["inc:1", "dec:1"]
STEPS = [1, -1]
FULL = 200
# The operation that an object excludes while another transaction holds one: of these counters the other one under undo,
# the same one under intentions. In escrow it depends on the number.
EXCLUDED = {"undo": [1, 0], "intentions": [0, 1]}
# How many votes wait for a decision at most.
WAITING = 4
ENDED = {"commit": "committed", "abort": "aborted"}


class Gone(Exception):
    """The process is gone."""


class Wrong(Exception):
    """An answer that may not come."""


class Transaction:
    """What was asked of a transaction, and what was answered."""

    def __init__(self):
        self.calls, self.replies, self.asked, self.ended = [], [], None, None


class Vote:
    """A transaction that was asked to be prepared: its key, its name, until when its client waits, whether that was answered,
    whether others may decide it, which decisions were asked in this life, and the one that was answered."""

    def __init__(self, key, name, t, until):
        self.key, self.name, self.t, self.until = key, name, t, until
        self.is_answered, self.is_offered = False, False
        self.asked, self.decided = set(), None


def events(lines):
    """Each transaction's operations and its ends, by the history."""
    there = {}
    for words in (line.split() for line in lines):
        if words[0] in ("begin", "op", "commit", "abort"):
            t = there.setdefault(int(words[2]), ([], []))
            if words[0] == "op":
                t[0].append((int(words[3]), int(words[4])))
            elif words[0] != "begin":
                t[1].append(words[0])
    return there


def objects_of(operations):
    """The objects of these operations, as a line tells them."""
    return [str(x) for x in sorted({x for x, _ in operations})]


def counted(states, committed):
    """The states after the operations of these transactions."""
    states = list(states)
    for operations in committed:
        for x, k in operations:
            states[x] += STEPS[k]
    return states


class Votes:
    """All votes: those of which more is to be known, and how many others were decided, under which keys."""

    def __init__(self, keys):
        self.lock, self.open, self.keys, self.count, self.order = threading.Lock(), [], keys, 0, []
        self.decided, self.probed = 0, 0

    def __str__(self):
        kept = len([vote for vote in self.open if vote.is_answered])
        return f"{self.count} votes of which {self.decided} are decided and {kept} wait, {self.probed} calls kept out"

    # ---- what clients ask

    def vote(self, service, name, t, source):
        """A transaction is prepared; now and then by who can't be, before or after."""
        with self.lock:
            self.count += 1
            vote = Vote(f"v:{self.count}", name, t, source.randrange(1 << 32))
            is_crowded = len([other for other in self.open if other.is_answered]) >= WAITING
        if source.randrange(16) == 0:
            self.vote_of_a_ghost(service, vote)
            return
        t.asked = "vote"
        with self.lock:
            self.open.append(vote)
        for _ in range(source.choice([1, 1, 1, 2])):
            expect(service, f"prepare {name} {vote.key} {vote.until}", ["ok"])
            vote.is_answered = True
        vote.is_offered = True
        if is_crowded or source.randrange(3) == 0:
            self.decide(service, vote, source)

    def vote_of_a_ghost(self, service, vote):
        """Nobody has the key where it is decided: then nobody is prepared under it."""
        expect(service, f"decide {vote.key} abort", ["ok"])
        with self.lock:
            self.count_decided(vote.key, "abort")
        try:
            expect(service, f"prepare {vote.name} {vote.key} {vote.until}", ["refused", "Aborted"], key=vote.key)
            expect(service, f"decide {vote.key} commit", ["refused", "Decided"], key=vote.key)
        except Old:
            pass
        vote.t.asked = "abort"
        expect(service, f"abort {vote.name}", ["ok"])
        vote.t.ended = "abort"

    def decide_one(self, service, source):
        """Some vote is decided, or only asked what can't be while nobody decided it."""
        with self.lock:
            waiting = [vote for vote in self.open if vote.is_offered]
        if not waiting:
            return
        vote = source.choice(waiting)
        if source.randrange(2):
            self.decide(service, vote, source)
            return
        # Another may decide it meanwhile.
        expect(service, f"call {vote.name} 0 inc:1", ["refused", "Prepared"], ["refused", "NotOpen"])
        expect(service, f"abort {vote.name}", ["refused", "Prepared"], ["refused", "NotOpen"])
        try:
            expect(service, f"outcome {vote.key}", ["prepared"], ["committed"], ["aborted"], key=vote.key)
            answers = [["refused", "KeyPrepared"], ["done"], ["refused", "Aborted"]]
            expect(service, f"do ={vote.key} 0 inc:1", *answers, key=vote.key)
        except Old:
            pass  # many came behind its decision

    def decide(self, service, vote, source):
        """A vote is decided; another may decide it otherwise, and then one of the two is refused."""
        how = source.choice(["commit", "commit", "abort"])
        with self.lock:
            vote.asked.add(how)
        try:
            answer = expect(service, f"decide {vote.key} {how}", ["ok"], ["refused", "Decided"], key=vote.key)
        except Old:
            return  # another one decided it, and many came behind
        came = how if answer == ["ok"] else {"commit": "abort", "abort": "commit"}[how]
        with self.lock:
            if came not in vote.asked or vote.decided not in (None, came):
                raise Wrong(f"{vote.key} is decided as {came}, and {vote.asked} was asked and {vote.decided} answered")
            self.end(vote, came)

    def end(self, vote, how):
        """It is known how a vote ended."""
        vote.decided = vote.t.ended = how
        if vote in self.open:
            self.open.remove(vote)
            self.count_decided(vote.key, how)

    def count_decided(self, key, how):
        self.decided += 1
        self.keys.know(key, ENDED[how])

    # ---- what is found

    def differences(self, service, there):
        """What a service says otherwise of who is prepared, and of votes that were maybe decided, where this is in the history.
        It comes first in a service."""
        told = service.lines("prepared")[:-1]
        by_key = {vote.key: vote for vote in self.open}
        for words in told:
            vote = by_key.get(words[0])
            if vote is None or words != [vote.key, vote.name, str(vote.until), *objects_of(vote.t.replies)]:
                yield f"{words} is prepared, which wasn't asked, or is decided"
            elif there.get(vote.name) != (vote.t.replies, []):
                yield f"{words} is prepared, and of {vote.t.replies} the history has {there.get(vote.name)}"
        keys = [words[0] for words in told]
        if (stayed := [key for key in self.order if key in keys]) != keys[: len(stayed)]:
            yield f"{keys} are prepared, and these were in the order {self.order}"
        for vote in list(self.open):
            if vote.key in keys:
                vote.is_answered, vote.is_offered, vote.asked = True, True, set()
                self.keys.forget(vote.key)
            else:
                yield from self.settled(vote, service.ask(f"outcome {vote.key}"), there.get(vote.name))
        self.order = keys

    def settled(self, vote, answer, found):
        """A vote that isn't prepared was decided, or was never prepared."""
        how = {word: how for how, word in ENDED.items()}.get(answer[0])
        if answer == ["unknown"] and vote.key in self.keys.stale and found and len(found[1]) == 1:
            how = found[1][0]  # it was decided, and its key is gone
        if how is None and (answer != ["unknown"] or vote.is_answered):
            yield f"{vote.key} is {answer} and not prepared, and {vote.is_answered and 'ok'} was answered"
        elif how is not None and (how not in vote.asked or found != (vote.t.replies, [how])):
            yield f"{vote.key} is {answer} with {found}, and {vote.asked} was asked for {vote.t.replies}"
        if how is None:
            self.open.remove(vote)
            vote.t.ended = "abort"
        else:
            self.end(vote, how)

    def held(self):
        """The names of those that may be prepared: no restart ends them."""
        return {vote.name for vote in self.open}

    def differences_of_history(self, there):
        """What the history says otherwise of votes, where a service was killed or has ended."""
        for vote in self.open:
            done, ends = there.get(vote.name, ([], []))
            if vote.is_answered and (done != vote.t.replies or ends not in [[], *[[how] for how in vote.asked]]):
                yield f"{vote.key} is prepared with {vote.t.replies}, {vote.asked} was asked, and it has {done} {ends}"

    def keep_out(self, service, there, states, begun):
        """Who is prepared keeps out whom it kept out, where this was done at each object."""
        votes = {vote.name: vote for vote in self.open}
        seen = counted(states, [vote.t.replies for vote in self.open])
        for x, kind in enumerate(OBJECTS):
            held = [(votes[name], k) for name, k in there[x] if name in votes]
            for k in EXCLUDED.get(kind, []):
                state = (seen if kind == "undo" else states)[x] + STEPS[k]
                first = next((vote for vote, other in held if EXCLUDED[kind][other] == k), None)
                if first and 0 <= state <= FULL:
                    name, t = begun()
                    t.asked = "abort"
                    expect(service, f"call {name} {x} {CALLS[k]}", ["busy", first.name])
                    expect(service, f"abort {name}", ["ok"])
                    t.ended, self.probed = "abort", self.probed + 1


def expect(service, words, *answers, key=None):
    """What is asked, where this key can't be gone, has one of these answers, which comes back."""
    answer = service.ask(words, key)
    if answer not in answers:
        raise Wrong(f"{words}: {answer}, and not {answers}")
    return answer
