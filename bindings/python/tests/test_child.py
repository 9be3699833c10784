"""What holds of a store in a file alone."""
import gc
import os
import shutil
import signal
import socket
import subprocess
import sys
import time
import unittest
from unittest import mock

from executed import Executed
import support
from support import FIVE, SOON, TWO, Run, Timed, asleep, folder_of, id_of, is_running, pid_of, program, until

import colock
from colock import Kind, Store, Type, _opening

COUNTER = Type.counter(1000, [1])
# This many seconds an answer may take, where a test has none come: a program has to start in less.
LIMIT = 2.0


class Files(unittest.TestCase):
    def setUp(self):
        self.folder = folder_of(self)
        self.path = os.path.join(self.folder, "test.db")

    def open(self, *arguments, **options):
        """The store of this test's folder."""
        store = Store.open(self.path, *arguments, program=program(), **options)
        self.addCleanup(support.closed, store)
        return store

    def kill(self, store):
        """The program is killed, and it is seen."""
        os.kill(pid_of(store), signal.SIGKILL)
        until(lambda: store._backend._connection.lost is not None, "the loss")

    def up(self, store, count=1):
        """Counts object 0 up, each time in a transaction; their ids."""
        ids = []
        for _ in range(count):
            with store.begin() as t:
                t.call(0, "inc:1").executed()
            ids.append(t.id)
        return ids


class Opening(Files):
    def test_made_and_opened_again(self):
        types = [COUNTER, Type.counter(1000, [1], Kind.INTENTIONS), COUNTER]
        with self.open(types, create=True) as store:
            self.up(store, 3)
            self.assertEqual([store.kept(x) for x in range(3)], [3, 0, 0])
        with self.open(types, create=True) as store:
            self.assertEqual((store.kept(0), store.events()), (3, []))
            self.up(store)
        with self.open() as store:
            self.assertEqual((store.kept(0), store._backend.types[1].kind), (4, Kind.INTENTIONS))

    def test_types_of_each_source(self):
        bare = "".join(line + "\n" for line in TWO.splitlines() if not line.startswith("conflict"))

        def step(state, operation):
            return {"put": state + 1, "get": state - 1}[operation[0]] if 0 <= state + (1 if operation[0] == "put" else -1) <= 3 else None

        types = [
            Type(TWO), Type.with_made_tables(bare), Type.account(5, [1, 2]), Type.counter(5, [1]), Type.set(["-a", "b"]),
            Type.semiqueue(["-x", "y"], 2), Type.from_steps("box", 0, [("put", "ok"), ("get", "ok")], step),
        ]
        types += [Type.account(5, [1, 2], Kind.INTENTIONS), types[0], Type(FIVE, Kind.ESCROW), Type.counter(5, [1, 2], Kind.ESCROW)]
        types.append(Type.from_steps("box", 2, [("put", "ok"), ("get", "ok")], step, Kind.ESCROW))
        types += [Type.number(1_000_000, [250]), Type(support.PURSE, Kind.ESCROW)]
        with self.open(types, create=True) as store:
            made = store._backend.types
            self.assertEqual([of._compared() for of in made], [of._compared() for of in types])
            self.assertIs(made[0], made[8])
            with store.begin() as t:
                self.assertEqual(t.call(4, "insert:-a"), Executed(0, "ok"))
                self.assertEqual([t.call(6, "get"), t.call(6, "put")], [colock.Illegal(), Executed(0, "ok")])
                self.assertEqual((t.call(12, "give:250"), t.call(13, "take:17")), (Executed(2, "ok"), Executed(2, "ok", 17)))
            self.assertEqual([store.kept(x) for x in (9, 10, 11, 12, 13)], [3, 0, 2, 250, 483])

    def test_other_objects(self):
        self.open([COUNTER, Type(TWO)], create=True).close()
        plain = TWO.replace("conflict undo 0 1\n", "conflict undo 0 0\nconflict undo 0 1\n")
        for objects, part in [
            ([COUNTER], "2 objects, and 1"),
            ([COUNTER] * 3, "2 objects, and 3"),
            ([Type.counter(1000, [1], Kind.INTENTIONS), Type(TWO)], "object 0: the kind of recovery"),
            ([Type.counter(1000, [1], Kind.ESCROW), Type(TWO)], "object 0: the kind of recovery"),
            ([Type.counter(999, [1]), Type(TWO)], "object 0: the number of states"),
            ([COUNTER, COUNTER], "object 1: the name"),
            ([COUNTER, Type(TWO.replace("op give ok", "op give no"))], "object 1: the operations"),
            ([COUNTER, Type(plain)], "object 1: the conflicts"),
        ]:
            for create in (False, True):
                with self.assertRaises(colock.OtherObjects) as raised:
                    self.open(objects, create=create)
                self.assertIn(part, str(raised.exception))
        self.open([COUNTER, Type(TWO)]).close()

    def test_what_cant_be_opened(self):
        with self.assertRaises(colock.CannotOpen) as raised:
            self.open()
        self.assertIn("no such file", raised.exception.words)
        with open(self.path, "w", encoding="ascii") as file:
            file.write("not a database\n")
        with self.assertRaises(colock.CannotOpen) as raised:
            self.open([COUNTER], create=True)
        self.assertIn("not a store", raised.exception.words)
        os.remove(self.path)
        with self.open([COUNTER], create=True):
            with self.assertRaises(colock.CannotOpen) as raised:
                self.open()
            self.assertIn("in use", raised.exception.words)
        with self.assertRaises(colock.CannotOpen):
            self.open(archive=os.path.join(self.path, "folder"))
        for wrong in ({"create": True}, {"limit": 0}, {"limit": -1.0}):
            self.assertRaises(ValueError, self.open, **wrong)
        for number in (-1, 1 << 32):
            self.assertRaises(OverflowError, self.open, drain=number)
            self.assertRaises(OverflowError, self.open, outcomes=number)
        for wrong in ({"drain": "1"}, {"outcomes": "1"}, {"outcomes": 1.0}):
            self.assertRaises(TypeError, self.open, **wrong)

    def test_no_program(self):
        gone = os.path.join(self.folder, "gone")
        with self.assertRaises(colock.CannotOpen) as raised:
            Store.open(self.path, [COUNTER], create=True, program=gone)
        self.assertIn(gone, raised.exception.words)
        with mock.patch.dict(os.environ, {"COLOCK": gone}):
            with self.assertRaises(colock.CannotOpen) as raised:
                Store.open(self.path)
            self.assertIn("COLOCK", raised.exception.words)
        with mock.patch.dict(os.environ, {"COLOCK": "", "PATH": self.folder}), mock.patch("colock._program.PROGRAM", "no-colock"):
            with self.assertRaises(colock.CannotOpen) as raised:
                Store.open(self.path)
            self.assertIn("COLOCK of the environment isn't set", raised.exception.words)

    def test_the_program_of_the_environment(self):
        with mock.patch.dict(os.environ, {"COLOCK": program()}):
            with Store.open(self.path, [COUNTER], create=True) as store:
                self.up(store)

    def test_options_are_handed_over(self):
        plain = _opening.Opening("/a.db", None, False, None, False, None, None, None, 60.0)
        self.assertEqual(_opening._words("/bin/colock", plain), ["/bin/colock", "serve", "/a.db"])
        words = ["/bin/colock", "serve", "--fast", "--archive", "/old", "--drain", "0", "--outcomes", "0", "/a.db"]
        self.assertEqual(_opening._words("/bin/colock", plain._replace(archive="/old", fast=True, drain=0, outcomes=0)), words)
        words = ["/bin/colock", "serve", "--outcomes", "4294967295", "/a.db"]
        self.assertEqual(_opening._words("/bin/colock", plain._replace(outcomes=(1 << 32) - 1)), words)

    def test_options(self):
        archive = os.path.join(self.folder, "deep", "archive")
        with self.open([COUNTER], create=True, archive=archive, fast=True, drain=0, outcomes=0) as store:
            self.up(store)
        self.assertEqual(os.listdir(archive), [f"{id_of(self.path)}-1.history"])

    def test_in_memory_only(self):
        with self.open([COUNTER], create=True) as store:
            for act in (store.forgotten_count, lambda: store.forget(1), store.forget_when_full, store.take_events, lambda: store.follow([]), store.renew, store.abort_all, lambda: store.begin(1)):
                self.assertRaises(colock.InMemoryOnly, act)
            self.assertRaises(colock.InMemoryOnly, store.retry, lambda t: None, worker=1)

    def test_many_events(self):
        with self.open([Type(TWO)], create=True, fast=True) as store:
            with store.begin() as t:
                for _ in range(100):
                    t.call(0, "take")
            # more than one answer has: the most of one is cut down for this
            with mock.patch("colock._asking.MOST_TOLD", 40):
                events = store.events(1)
        self.assertEqual((len(events), str(events[0]), str(events[-1])), (101, "op 0 0 0 0", "commit 0 0"))

    def test_a_close_between_two_answers(self):
        store = self.open([Type(TWO)], create=True, fast=True, limit=LIMIT)
        with store.begin() as t:
            for _ in range(100):
                t.call(0, "take")
        connection = store._backend._connection
        wait, pipe, strangers = connection.wait, connection._process.stdin.fileno(), []

        def wait_and_close(slot):
            """Behind the first answer another thread closes the store, and sockets get the numbers of its pipe."""
            answer = wait(slot)
            if slot.is_list and not strangers:
                Run(store.close).result()
                strangers.extend(end for _ in range(8) for end in socket.socketpair())
            return answer

        with mock.patch("colock._asking.MOST_TOLD", 40), mock.patch.object(store._backend, "answer", wait_and_close):
            self.assertRaises(colock.ClosedError, store.events)
        self.assertIn(pipe, [end.fileno() for end in strangers])
        for end in strangers:
            self.addCleanup(end.close)
            end.setblocking(False)
            self.assertRaises(BlockingIOError, end.recv, 100)


class Outcomes(Files):
    def killed(self, store):
        """The program is killed, and the store closed."""
        self.kill(store)
        support.closed(store)

    def test_the_life_before(self):
        store = self.open([COUNTER], create=True)
        ids = self.up(store, 2)
        held = store.begin()
        held.call(0, "inc:1")
        ids += self.up(store)  # durable with what is open
        self.killed(store)
        with self.open() as store:
            self.assertEqual([store.committed(id) for id in [*ids, held.id]], [True, True, True, False])
            # a number that was lost, and one that this life gives again
            lost = f"{held.id.split('.')[0]}.4"
            again = self.up(store)[0]
            self.assertEqual((again.split(".")[1], store.committed(again), store.committed(lost)), ("4", True, False))
            self.assertEqual([store.committed(id) for id in ids], [True, True, True])
            # an id of this life whose number was given before it
            self.assertIsNone(store.committed(f"{again.split('.')[0]}.0"))

    def test_nothing_durable(self):
        store = self.open([COUNTER], create=True)
        t = store.begin()
        t.call(0, "inc:1")
        self.killed(store)
        with self.open() as store:
            self.assertEqual((store.committed(t.id), store.kept(0)), (False, 0))

    def test_earlier_lives(self):
        store = self.open([COUNTER], create=True)
        first = self.up(store)[0]
        self.killed(store)
        store = self.open()
        second = self.up(store)[0]
        self.killed(store)
        with self.open() as store:
            # of the one before the last it isn't certain whose the number is
            self.assertEqual([store.committed(id) for id in (first, second)], [None, True])
        with self.open() as store:
            self.assertEqual([store.committed(id) for id in (first, second, self.up(store)[0])], [None, None, True])

    def test_by_the_archive(self):
        archive = os.path.join(self.folder, "archive")
        with self.open([COUNTER], create=True, archive=archive) as store:
            ids = self.up(store, 2)
            t = store.begin()
            t.abort()
        for _ in range(2):
            with self.open(archive=archive) as store:
                told = [store.committed(id) for id in [*ids, t.id]]
                self.assertEqual(told, [True, True, False])
                self.assertIsNone(store.committed(f"{t.id}7"))
        with self.open() as store:
            self.assertIsNone(store.committed(ids[0]))

    def test_archives_of_other_stores(self):
        archive = os.path.join(self.folder, "archive")
        for name, commits, options in [("a", True, {"archive": archive}), ("b", False, {"archive": archive}), ("c", True, {})]:
            with Store.open(os.path.join(self.folder, name), [COUNTER], create=True, program=program(), **options) as store:
                t = store.begin()
                (t.commit if commits else t.abort)()
                self.assertEqual(t.id, "1.0")
        # the epoch of each ended in life 1, and is kept of two of them
        paths = [os.path.join(self.folder, name) for name in "abc"]
        self.assertEqual(sorted(os.listdir(archive)), sorted(f"{id_of(path)}-1.history" for path in paths[:2]))
        shutil.copy(os.path.join(archive, f"{id_of(paths[0])}-1.history"), os.path.join(archive, "1.history"))
        told = []
        for path in paths:
            with Store.open(path, program=program(), archive=archive) as store:
                told.append(store.committed("1.0"))
        self.assertEqual(told, [True, False, None])

    def test_earlier_lives_of_an_archived_epoch(self):
        archive = os.path.join(self.folder, "archive")
        store = self.open([COUNTER], create=True, archive=archive)
        t = store.begin()
        t.abort()
        early = [*self.up(store), t.id, *self.up(store)]
        self.killed(store)
        with self.open(archive=archive) as store:
            late = self.up(store)[0]
            self.assertEqual([store.committed(id) for id in early], [True, False, True])
        # the epoch had two lives, and its history has the name of the second
        self.assertEqual(os.listdir(archive), [f"{id_of(self.path)}-2.history"])
        with self.open(archive=archive) as store:
            self.assertEqual((late, store.committed(late), store.committed("2.9")), ("2.3", True, None))
            self.assertEqual([store.committed(id) for id in [*early, "1.9"]], [None] * 4)

    def test_commits_in_flight(self):
        store = self.open([COUNTER], create=True)
        ids = self.up(store, 2)
        begun = [store.begin() for _ in range(2)]
        for t in begun:
            t.call(0, "inc:1")
        os.kill(pid_of(store), signal.SIGSTOP)
        runs = [Run(t.commit) for t in begun] + [Run(store.kept, 0)]
        until(lambda: len(store._backend._connection._requests) == 3, "the requests")
        os.kill(pid_of(store), signal.SIGKILL)
        for t, run in zip(begun, runs):
            with self.assertRaises(colock.OutcomeUnknown) as raised:
                run.result()
            self.assertEqual(raised.exception.id, t.id)
        self.assertRaises(colock.ConnectionLost, runs[2].result)
        for act in (store.begin, lambda: store.kept(0), begun[0].commit, store.events, lambda: store.committed(ids[0]), lambda: begun[0].call(0, "inc:1"), store.close):
            self.assertRaises(colock.ConnectionLost, act)
        with self.open() as store:
            # the program was stopped before it could read them
            self.assertEqual([store.committed(t.id) for t in begun], [False, False])
            self.assertEqual(([store.committed(id) for id in ids], store.kept(0)), ([True, True], 2))

    def work(self, store, told, unknown):
        """Commits until the program is gone; the ids of what was answered, and of what isn't known."""
        try:
            while True:
                with store.begin() as t:
                    t.call(0, "take").executed()
                told.append(t.id)
        except colock.OutcomeUnknown as error:
            unknown.append(error.id)
        except (colock.ConnectionLost, colock.ClosedError):
            pass  # the program is gone, and by then the store may be closed too

    @unittest.skipIf(support.QUICK, "it takes seconds")
    def test_killed_at_any_moment(self):
        self.open([Type(TWO)], create=True).close()
        unknown_count = 0
        for turn in range(6):
            store, told, unknown = self.open(), [], []
            runs = [Run(self.work, store, told, unknown) for _ in range(8)]
            until(lambda told=told: told, "a commit")
            time.sleep(0.01 * turn)
            self.killed(store)
            for run in runs:
                run.result()
            with self.open() as store:
                outcomes = [store.committed(id) for id in unknown]
                self.assertNotIn(None, outcomes)
                self.assertEqual([store.committed(id) for id in told], [True] * len(told))
                there = {event.transaction for event in store.events() if event.kind == colock.EventKind.COMMIT}
                committed = told + [id for id, outcome in zip(unknown, outcomes) if outcome]
                self.assertEqual({int(id.split(".")[1]) for id in committed}, there)
            unknown_count += len(unknown)
        self.assertGreater(unknown_count, 0)


class Losses(Files):
    def test_sleepers_are_woken(self):
        store = self.open([Type(TWO)], create=True)
        t, u = store.begin(), store.begin()
        t.call(0, "take")
        waiting = Run(u.call, 0, "give", 600)
        asleep(store, 1)
        os.kill(pid_of(store), signal.SIGKILL)
        with self.assertRaises(colock.ConnectionLost) as raised:
            waiting.result()
        self.assertIn("SIGKILL", raised.exception.words)

    def test_an_answer_that_doesnt_come(self):
        self.open([COUNTER], create=True).close()
        store = self.open(limit=LIMIT)
        os.kill(pid_of(store), signal.SIGSTOP)
        with Timed() as timed:
            self.assertRaises(colock.ConnectionLost, store.begin)
        self.assertTrue(LIMIT <= timed.seconds < 10, timed.seconds)
        until(lambda: not is_running(pid_of(store)), "the end of the program")

    def test_a_file_that_is_taken_away(self):
        archive = os.path.join(self.folder, "archive")
        store = self.open([COUNTER], create=True, archive=archive)
        self.up(store)
        with open(os.path.join(archive, f"{id_of(self.path)}-1.history"), "w", encoding="ascii") as file:
            file.write("end\n")
        with self.assertRaises(colock.ConnectionLost) as raised:
            store.close()
        self.assertIn("file exists", raised.exception.words)
        store.close()
        with self.open() as store:
            self.assertEqual(store.kept(0), 1)

    def test_without_a_close(self):
        store = Store.open(self.path, [COUNTER], create=True, program=program())
        self.up(store)
        pid = pid_of(store)
        del store
        gc.collect()
        until(lambda: not is_running(pid), "the end of the program")
        with self.open() as store:
            # the epoch goes on, so that its events tell what became of the commit
            self.assertEqual((store.kept(0), len(store.events()), store.committed("1.0")), (1, 3, True))

    def test_close_ends_the_program(self):
        store = self.open([COUNTER], create=True)
        store.begin()
        store.close()
        self.assertFalse(is_running(pid_of(store)))
        self.assertEqual(store._backend._connection.lost, None)

    def test_a_close_of_what_is_lost_says_so(self):
        store = self.open([COUNTER], create=True)
        self.up(store)
        self.kill(store)
        with self.assertRaises(colock.ConnectionLost) as raised:
            store.close()
        self.assertIn("SIGKILL", raised.exception.words)
        store.close()

    def test_a_with_of_what_is_lost_says_so(self):
        for raised, told in [
            (None, colock.ConnectionLost), (SystemExit(0), colock.ConnectionLost), (ValueError(), colock.ConnectionLost),
            # what says it already, or more than it
            (colock.OutcomeUnknown("1.0"), colock.OutcomeUnknown), (colock.ConnectionLost("so"), colock.ConnectionLost),
        ]:
            with self.assertRaises(told) as seen:
                with self.open([COUNTER], create=True) as store:
                    self.kill(store)
                    if raised is not None:
                        raise raised
            if raised is not None:
                self.assertIs(seen.exception if isinstance(raised, told) else seen.exception.__context__, raised)


CLIENT = """
import os, signal, sys, time
import colock
signal.signal(signal.SIGINT, signal.default_int_handler)  # who runs the tests may ignore it
store = colock.Store.open({path!r}, program={program!r})
t = store.begin()
t.call(0, "inc:1")
"""


class Processes(Files):
    """Clients in processes of their own."""

    def client(self, code):
        """A process that has opened the store, and begun a transaction that counts up."""
        self.open([COUNTER], create=True).close()
        package = os.path.dirname(os.path.dirname(os.path.abspath(colock.__file__)))
        environment = {**os.environ, "PYTHONPATH": package}
        process = subprocess.Popen(
            [sys.executable, "-c", CLIENT.format(path=self.path, program=program()) + code],
            stdin=subprocess.PIPE, stdout=subprocess.PIPE, text=True, env=environment, start_new_session=True,
        )
        self.addCleanup(process.stdin.close)
        self.addCleanup(process.stdout.close)
        self.addCleanup(process.wait)
        self.addCleanup(process.kill)
        return process

    def test_ctrl_c(self):
        client = self.client(
            "try:\n    print('ready', flush=True)\n    time.sleep(60)\n"
            "except KeyboardInterrupt:\n    time.sleep(0.2)\n    t.commit()\n    store.close()\n    print('committed', flush=True)\n"
        )
        self.assertEqual(client.stdout.readline(), "ready\n")
        os.killpg(client.pid, signal.SIGINT)
        self.assertEqual(client.stdout.readline(), "committed\n")
        with self.open() as store:
            self.assertEqual(store.kept(0), 1)

    def test_a_term_to_the_group(self):
        client = self.client(
            "def stop(*_):\n    raise SystemExit\n"
            "signal.signal(signal.SIGTERM, stop)\n"
            "try:\n    print('ready', flush=True)\n    time.sleep(60)\n"
            "except SystemExit:\n    time.sleep(0.2)\n    t.commit()\n    store.close()\n    print('committed', flush=True)\n"
        )
        self.assertEqual(client.stdout.readline(), "ready\n")
        os.killpg(client.pid, signal.SIGTERM)
        self.assertEqual(client.stdout.readline(), "committed\n")
        with self.open() as store:
            self.assertEqual((store.kept(0), store.events()), (1, []))

    def test_ctrl_c_in_a_wait(self):
        client = self.client(
            "u = store.begin()\n"
            "try:\n    print('ready', flush=True)\n    u.call(0, 'dec:1', wait=60)\n"
            "except KeyboardInterrupt:\n    t.commit()\n    u.call(0, 'inc:1')\n    u.commit()\n    store.close()\n    print('committed', flush=True)\n"
        )
        self.assertEqual(client.stdout.readline(), "ready\n")
        time.sleep(0.2)
        os.killpg(client.pid, signal.SIGINT)
        self.assertEqual(client.stdout.readline(), "committed\n")
        with self.open() as store:
            self.assertEqual(store.kept(0), 2)

    @unittest.skipUnless(hasattr(os, "fork"), "it needs fork")
    def test_a_fork_keeps_no_pipe(self):
        client = self.client(
            "served = store._backend._connection._process.pid\n"
            "if os.fork():\n    os._exit(0)\n"
            "try:\n    store.begin()\nexcept colock.ClosedError:\n    print('closed', served, flush=True)\n"
            "store.close()\nsys.stdin.read()\n"
        )
        words = client.stdout.readline().split()
        self.assertEqual(words[0], "closed")
        # the fork goes on, and the program ends all the same, since its client is gone
        until(lambda: not is_running(int(words[1])), "the end of the program")
        self.assertEqual(client.wait(SOON), 0)
        with self.open() as store:
            self.assertEqual(store.kept(0), 0)

    @unittest.skipUnless(hasattr(os, "fork"), "it needs fork")
    def test_the_parent_of_a_fork_goes_on(self):
        client = self.client(
            "child = os.fork()\n"
            "if child == 0:\n    os._exit(7)\n"
            "os.waitpid(child, 0)\nt.commit()\nstore.close()\nprint('committed', flush=True)\n"
        )
        self.assertEqual(client.stdout.readline(), "committed\n")


if __name__ == "__main__":
    unittest.main()
