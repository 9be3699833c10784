#!/usr/bin/env python3
"""booking.py PROGRAM DATABASE: sixteen guests in threads book at one `colock serve`, each the first seat that is free.

Make the database first: `colock create seats.db seats.objects seats.type`, where seats.type is what `colock make
seats 3` writes, and seats.objects has the two lines `object undo 0` and `end`.
"""
import queue
import random
import subprocess
import sys
import threading
import time

SEATS = [1, 2, 3]


class Store:
    """The one client of a store: requests of many threads go through one pipe."""

    def __init__(self, program, database):
        self.process = subprocess.Popen([program, "serve", database], stdin=subprocess.PIPE, stdout=subprocess.PIPE, text=True)
        self.lock, self.waiting, self.count = threading.Lock(), {}, 0
        if not self.process.stdout.readline().startswith("colock 5 "):
            sys.exit("no store")
        threading.Thread(target=self.read, daemon=True).start()

    def read(self):
        for line in self.process.stdout:
            tag, *words = line.split()
            self.waiting.pop(tag).put(words)
        for box in list(self.waiting.values()):
            box.put(["gone"])

    def ask(self, *words):
        """The words of the answer; a commit's comes when it is durable."""
        with self.lock:
            self.count += 1
            tag, box = f"r{self.count}", queue.Queue()
            self.waiting[tag] = box
            self.process.stdin.write(" ".join((tag, *words)) + "\n")
            self.process.stdin.flush()
        return box.get(timeout=60)


def book(store, name, booked):
    """Books the first seat that is free."""
    for seat in SEATS:
        while True:
            word, t = store.ask("begin")
            if word == "busy":
                # the epoch is full, and the next one begins soon
                time.sleep(0.01)
                continue
            answer = store.ask("call", t, "0", f"hold:{seat}")
            if answer == ["reply", "ok"] and store.ask("call", t, "0", f"book:{seat}") == ["reply", "ok"]:
                if store.ask("commit", t) == ["ok"]:
                    booked.append((seat, name))
                return
            store.ask("abort", t)
            if answer == ["reply", "taken"]:
                break
            time.sleep(random.random() / 1000)


def main():
    store, booked = Store(*sys.argv[1:3]), []
    threads = [threading.Thread(target=book, args=(store, f"guest {n}", booked)) for n in range(16)]
    for thread in threads:
        thread.start()
    for thread in threads:
        thread.join()
    if store.ask("end") != ["ok"]:
        sys.exit("the store didn't end")
    for seat, _ in sorted(booked):
        print(f"{seat}: booked")
    sys.exit(store.process.wait())


main()
