"""The keys that tools/kill_serve asks, and what a service has to know of them.

Each line that may keep what became of a key is counted as it is written. So of each key it is known how many outcomes came
behind it at most. While these are fewer than stay at least, a service knows the key, and clients ask it again. Else an
epoch's end may have let it go, and only the next service is asked whether it did. A key of which nothing is known is free,
and is used for other work.
"""
# How many of the last outcomes stay at least, of one service after another.
STAYING = [1_000_000, 40, 300, 0, 1_000_000, 10, 100]
# How many keys of each sort a service is asked for.
MOST = 100


class Old(Exception):
    """So many outcomes came behind a key that it may be gone."""


class Keys:
    """How many of the last outcomes stay at least; how many lines that may keep one were written, and of each key the number of
    that by which something was kept of it; those that some service may have let go; of those that are kept the word of what
    became of them; those that are free; those that were asked since the last look, with their transactions; those that are
    asked again; and how many were found to be gone. Threads share them: what is counted is counted under the lock of the pipe."""

    def __init__(self):
        self.staying, self.count, self.places, self.stale = STAYING[0], 0, {}, set()
        self.known, self.free, self.asked, self.committed, self.went = {}, [], [], [], 0

    # ---- what clients ask

    def write(self, words, key):
        """This line is about to be written. Where it needs that something is known of a key, that isn't old."""
        if key is not None and self.is_old(key):
            raise Old
        verb, *rest = words.split(" ")
        for kept in {"commit": rest[1:], "decide": rest[:1]}.get(verb, []):
            self.count += 1
            self.places.setdefault(kept, self.count)

    def is_old(self, key):
        """Whether so many outcomes may have come behind this key that it may be gone."""
        return key in self.stale or key in self.places and self.count - self.places[key] >= self.staying

    def drawn(self, name, t, source):
        """A key for a transaction: one that committed, by which its work isn't to be done, a free one that was used before, or a
        new one."""
        draw = source.randrange(16)
        if draw < 2 and self.committed:
            t.asked = "again"
            return source.choice(self.committed)
        key = f"k:{name}"
        if draw == 2 and self.free:
            try:
                key = self.free.pop()
            except IndexError:
                pass  # another thread took the last one
        self.asked.append((key, name, t))
        return key

    def know(self, key, word):
        """This became of the key's transaction."""
        self.known[key] = word
        if word == "committed":
            self.committed.append(key)

    # ---- what is found

    def forget(self, key):
        """Nothing is kept of this key."""
        self.known.pop(key, None)
        self.places.pop(key, None)
        self.stale.discard(key)

    def set_free(self, key):
        self.forget(key)
        self.free.append(key)

    def looked(self, is_committed):
        """A service is over. Those that were asked are sorted by what became of their transactions."""
        self.stale |= {key for key in self.places if self.is_old(key)}
        for key, name, t in self.asked:
            if is_committed(name, t):
                self.known[key] = "committed"
            else:
                self.set_free(key)
        self.asked = []
        self.committed = [key for key, word in self.known.items() if word == "committed" and key not in self.stale]

    def differences(self, service, source):
        """What a service says otherwise of keys. Those that it let go are free."""
        young = [key for key in self.known if key not in self.stale]
        old = [key for key in self.known if key in self.stale]
        for keys in young, old, list(self.free):
            for key in source.sample(keys, min(len(keys), MOST)):
                wanted, answer = [self.known.get(key, "unknown")], service.ask(f"outcome {key}")
                if answer == ["unknown"] and key in self.stale:
                    self.went += 1
                    self.set_free(key)
                elif answer != wanted:
                    yield f"key {key} is {answer}, and {wanted} was expected"
