"""Clients work at random, while the server and its store are killed: what was answered is there, keys were done once, and all epochs
are those of transactions one after another.

CROWD_SECONDS, CROWD_CLIENTS and CROWD_OBJECTS say how large it is: over the program 200 clients for a minute at 1,000 objects.
"""
import collections
import glob
import http.client
import os
import random
import sqlite3
import subprocess
import threading
import time
import unittest

from served import IS_FAKE, PROGRAM, served, until

SECONDS = float(os.environ.get("CROWD_SECONDS", "6" if IS_FAKE else "60"))
CLIENTS = int(os.environ.get("CROWD_CLIENTS", "8" if IS_FAKE else "200"))
OBJECTS = int(os.environ.get("CROWD_OBJECTS", "16" if IS_FAKE else "1000"))
NUMBER = "number n\nmax 4294967295\ninitial 0\ntake any\ngive any\nend\n"


class Crowd(unittest.TestCase):
    def test_nothing_that_was_answered_is_lost(self):
        with served("--history", "100000", "--most-open", "1024", "--epoch-drain", "1") as one:
            one.add("seats", "undo", *[f"s/{n}" for n in range(OBJECTS // 2)])
            self.assertEqual(one.put("/v1/types/n", NUMBER).status, 201)
            names = [f"n/{n}" for n in range(OBJECTS // 2)]
            self.assertEqual(one.post("/v1/objects", {"objects": [{"name": name, "type": "n", "recovery": "escrow"} for name in names]}).status, 201)
            end = time.monotonic() + SECONDS
            clients = [Client(one, number, end) for number in range(CLIENTS)]
            self.disturb(one, end)
            for client in clients:
                client.join()
            until(lambda: one.get("/readyz").status == 200)
            until(lambda: not one.get("/v1/prepared").json["prepared"])
            for client in clients:
                client.settle()
            self.assertEqual([fault for client in clients for fault in client.faults], [])
            self.look(one, clients, names)
            one.end()
            self.assertTrue(audit(one.data).startswith("# audit yes"))

    def disturb(self, one, end):
        """Kills, and ends epochs."""
        source = random.Random(1)
        while time.monotonic() + 2 < end:
            time.sleep(0.3 + 2 * source.random())
            try:
                what = source.random()
                if what < 0.25:
                    one.kill()
                    one.start()
                elif what < 0.8:
                    one.kill_store()
                else:
                    one.put(f"/v1/objects/more/{time.monotonic_ns()}", {"type": "n", "recovery": "escrow"})
            except (TypeError, ProcessLookupError, OSError, http.client.HTTPException):
                pass  # it is being started

    def look(self, one, clients, names):
        """The numbers are what was done for sure, and perhaps what isn't known."""
        sure, least, most = collections.Counter(), collections.Counter(), collections.Counter()
        for client in clients:
            for effects in client.sure:
                add(sure, effects)
            for effects in client.unknown:
                add(least, {name: amount for name, amount in effects.items() if amount < 0})
                add(most, {name: amount for name, amount in effects.items() if amount > 0})
        states = {told["name"]: told["state"] for told in one.get("/v1/snapshot?prefix=n/").json["objects"]}
        for name in names:
            self.assertTrue(sure[name] + least[name] <= states[name] <= sure[name] + most[name], (name, sure[name], least[name], most[name], states[name]))
        counts = [sum(len(getattr(client, word)) for client in clients) for word in ("sure", "unknown", "replies")]
        print(f"{counts[0]} commits are sure, {counts[1]} aren't known, {counts[2]} keys of attempts", flush=True)
        self.assertGreater(counts[0], 10)


def add(counter, effects):
    for name, amount in effects.items():
        counter[name] += amount


def audit(folder):
    """What the program says of all epochs; of the fake of the last one."""
    def asked(*words):
        return subprocess.run([PROGRAM, *words], cwd=folder, capture_output=True, text=True, check=True).stdout
    if IS_FAKE:
        return asked("audit", "--database", "store.db")
    with open(os.path.join(folder, "last.history"), "w", encoding="ascii") as file:
        file.write(asked("history", "store.db"))
    histories = sorted(glob.glob(os.path.join(folder, "archive", "*.history")), key=lambda path: int(path.rsplit("-", 1)[1].split(".")[0]))
    with sqlite3.connect(os.path.join(folder, "store.db")) as opened:
        texts = [text for (text,) in opened.execute("SELECT text FROM type ORDER BY number")]
    types = [os.path.join(folder, f"{place}.type") for place in range(len(texts))]
    for path, text in zip(types, texts):
        with open(path, "w", encoding="ascii") as file:
            file.write(text if isinstance(text, str) else text.decode())
    first, *others = without_beginnings([*histories, os.path.join(folder, "last.history")])
    return asked("audit", first, *[word for path in others for word in ("--then", path)], *types)


def without_beginnings(paths):
    """The histories but for those whose epoch went on: the store was killed between its archive and the next epoch, and the next
    history begins with the same events."""
    texts = []
    for path in paths:
        with open(path, encoding="ascii") as file:
            texts.append(file.read())
    return [path for path, text, then in zip(paths, texts, [*texts[1:], ""]) if not then.startswith(text.removesuffix("end\n"))]


def effects_of(calls, replies):
    """How much calls moved the numbers, by their replies."""
    effects = collections.Counter()
    for (name, call), reply in zip(calls, replies):
        word, _, amount = call.partition(":")
        if reply == "ok" and word in ("give", "take"):
            effects[name] += int(amount) if word == "give" else -int(amount)
    return effects


class Client(threading.Thread):
    """One of the crowd: what its transactions that committed for sure did to the numbers, and what others did perhaps."""

    def __init__(self, one, number, end):
        super().__init__(daemon=True)
        self.one, self.number, self.end, self.source, self.count = one, number, end, random.Random(number), 0
        self.sure, self.unknown, self.replies, self.unsettled, self.faults = [], [], {}, {}, []
        self.start()

    def run(self):
        while time.monotonic() < self.end:
            self.count += 1
            self.source.choice([self.attempts, self.attempts, self.transacts, self.transacts_under_a_key, self.holds, self.prepares])()

    def key(self):
        return f"c{self.number}:{self.count}"

    def numbers(self):
        """Calls at two numbers."""
        names = self.source.sample(range(OBJECTS // 2), 2)
        return [(f"n/{name}", self.source.choice(["give:1", "give:2", "give:3", "take:1"])) for name in names]

    def seats(self):
        return [(f"s/{name}", self.source.choice(["hold:1", "hold:2", "release:1", "free"])) for name in self.source.sample(range(OBJECTS // 2), 2)]

    def asked(self, method, path, body=None, headers=None):
        """The answer, or nothing where the server is away."""
        try:
            return self.one.ask(method, path, body if body is not None else "", headers)
        except (OSError, ValueError, http.client.HTTPException):
            time.sleep(0.05)
            return None

    def asked_until(self, ends, *words):
        """The answer whose status is one of these, if it comes in time; it is asked again and again."""
        while time.monotonic() < self.end + 5:
            answer = self.asked(*words)
            if answer and answer.status in ends:
                return answer
            time.sleep(self.source.random() / 5)
        return None

    # ---- what it does

    def attempts(self):
        """Under a key it is asked until it is done, and at times once more."""
        calls, key = self.numbers() + self.seats()[: self.source.randrange(2)], self.key()
        words = ("POST", "/v1/attempts", {"calls": asked_of(calls), "wait": 2}, {"Idempotency-Key": key})
        self.unsettled[key] = calls
        for _ in range(5):
            answer = self.asked(*words)
            if answer and answer.status == 200:
                self.is_done(key, answer.json["replies"])
                break
        if key in self.replies and self.source.random() < 0.3:
            again = self.asked(*words)
            if again and again.status == 200 and again.json["replies"] != self.replies[key]:
                self.faults.append((key, self.replies[key], again.json))

    def is_done(self, key, replies):
        calls = self.unsettled.pop(key)
        self.replies[key] = replies
        self.sure.append(effects_of(calls, replies))

    def begun(self, calls):
        """The path of a transaction that has made these calls, and what it did, if it has."""
        begun = self.asked("POST", "/v1/transactions", {"idle": 3})
        if begun is None or begun.status != 201:
            return None, None
        path = f"/v1/transactions/{begun.json['id']}"
        answer = self.asked("POST", path + "/calls", {"calls": asked_of(calls), "wait": 1})
        if answer and answer.status == 200:
            return path, effects_of(calls, answer.json["replies"])
        self.asked("POST", path + "/abort")
        return None, None

    def transacts(self):
        """Without a key what isn't answered isn't known."""
        path, effects = self.begun(self.numbers())
        if path is None:
            return
        answer = self.asked("POST", path + "/commit")
        if answer and answer.status == 200:
            self.sure.append(effects)
        elif answer is None or answer.status not in (404, 410):
            self.unknown.append(effects)

    def transacts_under_a_key(self):
        path, effects = self.begun(self.numbers())
        if path is None:
            return
        self.unsettled[self.key()] = effects
        answer = self.asked_until((200, 410), "POST", path + "/commit", None, {"Idempotency-Key": self.key()})
        if answer:
            self.settled(self.key(), answer.status == 200)

    def prepares(self):
        """One is decided, or left for whoever aborts it."""
        path, effects = self.begun(self.numbers())
        if path is None:
            return
        self.unsettled[self.key()] = effects
        answer = self.asked_until((200, 404, 410), "POST", path + "/prepare", {"key": self.key(), "for": 4})
        outcome = self.source.choice(["commit", "commit", "abort", None])
        if answer is None or answer.status != 200 or outcome is None:
            return
        answer = self.asked_until((200, 409), "PUT", f"/v1/decisions/{self.key()}", {"outcome": outcome})
        if answer:
            self.settled(self.key(), answer.json["outcome"] == "committed")

    def settled(self, key, is_committed):
        effects = self.unsettled.pop(key)
        if is_committed:
            self.sure.append(effects)

    def holds(self):
        """Seats are held and let go in any order, so that some wait for one another; only the audit looks at them."""
        path, _ = self.begun(self.seats())
        if path:
            self.asked("POST", path + self.source.choice(["/commit", "/abort"]))

    # ---- what became of it

    def settle(self):
        """What wasn't answered is known by its key, and what was is there as it was answered."""
        for key in list(self.unsettled):
            told = self.one.get(f"/v1/decisions/{key}")
            if told.status == 404 or told.json["outcome"] == "aborted":
                self.unsettled.pop(key)
            elif isinstance(self.unsettled[key], list):
                self.is_done(key, told.json["replies"])
            else:
                self.settled(key, told.json["outcome"] == "committed")
        for key in self.source.sample(sorted(self.replies), min(len(self.replies), 20)):
            told = self.one.get(f"/v1/decisions/{key}").json
            if told != {"key": key, "outcome": "committed", "replies": self.replies[key]}:
                self.faults.append((key, self.replies[key], told))


def asked_of(calls):
    return [{"object": name, "call": call} for name, call in calls]


if __name__ == "__main__":
    unittest.main()
