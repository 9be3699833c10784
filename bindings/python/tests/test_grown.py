"""Objects of a store in a file: their names, and those that are added while it serves."""
import os
import random
import signal
import subprocess
import tempfile
import threading
import time
import unittest
from unittest import mock

import support
from support import FIVE, LONG, SOON, TWO, Fakes, Run, Timed, folder_of, pid_of, program, until

import colock
from colock import Kind, Store, Type

COUNTER, SEAT = Type.counter(1000, [1]), Type.seats(1)
# From 0 to 5, at 3.
STOCK = Type(FIVE, Kind.ESCROW)
# This many seconds an answer may take, where a test has none come: a program has to start in less.
LIMIT = 2.0


def up(store, x, name="inc:1"):
    store.transact(lambda t: t.expect(x, name, "ok"))


def names(store):
    return [store.name_of(x) for x in range(len(store.stats().busy))]


class Files(unittest.TestCase):
    def setUp(self):
        support.quietly()
        self.folder = folder_of(self)
        self.path = os.path.join(self.folder, "test.db")

    def open(self, *arguments, **options):
        store = Store.open(self.path, *arguments, program=program(), **options)
        self.addCleanup(support.closed, store)
        return store

    def command(self, *words):
        return subprocess.run([program(), *words], capture_output=True, text=True, check=True).stdout


class Names(Files):
    def test_of_a_file_that_is_made(self):
        with self.open([("A/1", SEAT), COUNTER, ("b.C-d:_", SEAT)], create=True) as store:
            self.assertEqual((names(store), store.find("A/1"), store.find("b.C-d:_")), (["A/1", None, "b.C-d:_"], 0, 2))
            with store.begin() as t:
                t.expect("b.C-d:_", "hold:1", "ok")
                self.assertEqual(t.would("A/1", "hold:1").expected("ok").reply, "ok")
                self.assertEqual(t.call_op(1, store.call_number(1, "inc:1"), wait=LONG).executed().reply, "ok")
                self.assertRaises(colock.NoObject, t.call, "C", "hold:1")
            self.assertEqual(([store.kept(x) for x in ("A/1", 1, "b.C-d:_")], store.name_of(3)), ([0, 1, 1], None))
        self.assertEqual(self.command("history", self.path), "objects 3\nobject undo 0 A/1\nobject undo 1\nobject undo 0 b.C-d:_\nend\n")

    def test_of_a_file_that_is_opened(self):
        self.open({"A1": SEAT, "A2": SEAT}, create=True).close()
        with self.open() as store:
            up(store, "A2", "hold:1")
            for name in ("A3", "a1", "", "1", "A1 "):
                with self.assertRaises(colock.NoObject) as raised:
                    store.kept(name)
                self.assertEqual(raised.exception.name, name)
            self.assertEqual((store.kept(1), names(store), store.find("A1")), (1, ["A1", "A2"], 0))
        self.open({"A1": SEAT, "A2": SEAT}).close()

    def test_other_names(self):
        self.open([("A1", SEAT), SEAT], create=True).close()
        for objects, words in [
            ({"A2": SEAT, "A1": SEAT}, "object 0: it is A1 in the file, and A2 is given"),
            ([SEAT, SEAT], "object 0: it is A1 in the file, and nameless is given"),
            ([("A1", SEAT), ("A2", SEAT)], "object 1: it is nameless in the file, and A2 is given"),
        ]:
            with self.assertRaises(colock.OtherObjects) as raised:
                self.open(objects)
            self.assertEqual(str(raised.exception), words)

    def test_names_that_are_none(self):
        self.assertRaises(colock.BadName, self.open, {"A 1": SEAT}, create=True)
        self.assertRaises(colock.NameTaken, self.open, [("A", SEAT), ("A", SEAT)], create=True)
        self.assertRaises(colock.TooManyObjects, self.open, [SEAT] * 65_537, create=True)
        self.assertFalse(os.path.exists(self.path))

    def test_of_a_file_that_a_command_has_extended(self):
        self.open([SEAT], create=True).close()
        for name, text in [("more", "objects 2\nobject undo 0 B1\nobject undo 0\nend\n"), ("seat", self.command("make", "seats", "1"))]:
            with open(os.path.join(self.folder, name), "w", encoding="ascii") as file:
                file.write(text)
        self.command("extend", self.path, os.path.join(self.folder, "more"), os.path.join(self.folder, "seat"))
        with self.open([SEAT, ("B1", SEAT), SEAT]) as store:
            up(store, "B1", "hold:1")
            self.assertEqual((names(store), store.kept(1), store.kept(2)), ([None, "B1", None], 1, 0))

    def test_archives_of_named_objects(self):
        archive = os.path.join(self.folder, "archive")
        with self.open({"a": COUNTER}, create=True, archive=archive) as store:
            with store.begin() as t:
                t.expect("a", "inc:1", "ok")
        with self.open(archive=archive) as store:
            self.assertEqual((t.id, store.committed(t.id), store.committed("1.1")), ("1.0", True, None))

    def test_a_hall(self):
        hall = [f"R{row}-{seat}" for row in range(1, 41) for seat in range(1, 76)]
        with self.open(dict.fromkeys(hall, SEAT), create=True) as store:
            for name in (hall[0], hall[256], hall[-1]):
                up(store, name, "hold:1")
        with self.open() as store:
            self.assertEqual([store.find(name) for name in hall], list(range(3_000)))
            self.assertEqual([store.kept(x) for x in (0, 1, 256, 2_998, 2_999)], [1, 0, 1, 0, 1])
            self.assertEqual(store.extend({f"B{seat}": SEAT for seat in range(1_000)}), 3_000)
            up(store, "B999", "hold:1")
            self.assertEqual((store.kept(3_999), store.kept("R1-1"), store.name_of(3_000)), (1, 1, "B0"))


class Extended(Files):
    def test_old_objects_keep_their_states_and_new_ones_begin(self):
        store = self.open([COUNTER, ("s", STOCK)], create=True)
        up(store, 0)
        up(store, "s", "take:2")
        self.assertEqual(store.extend([("t", STOCK), COUNTER, ("u", SEAT)]), 2)
        self.assertEqual(([store.kept(x) for x in range(5)], store.events()), ([1, 1, 3, 0, 0], []))
        self.assertEqual((names(store), store.stats().busy, store.stats().commits), ([None, "s", "t", None, "u"], (0,) * 5, 2))
        with store.begin() as t:
            self.assertEqual(t.id, "2.0")
            t.expect("t", "give:1", "ok")
            t.expect(3, "inc:1", "ok")
            self.assertRaises(colock.NoObject, t.call, 5, "inc:1")
        self.assertEqual(store.extend({"v": Type(TWO)}), 5)
        self.assertEqual([store.committed("1.0"), store.committed("2.0"), store.committed("3.0")], [None] * 3)
        up(store, "v", "take")
        store.close()
        with self.open([COUNTER, ("s", STOCK), ("t", STOCK), COUNTER, ("u", SEAT), ("v", Type(TWO))]) as store:
            self.assertEqual([store.kept(x) for x in range(6)], [1, 1, 4, 1, 0, 0])

    def test_types_of_each_source(self):
        def step(state, operation):
            return {"put": 1, "get": 0}[operation[0]] if state == (operation[0] == "get") else None

        types = [
            Type(TWO), Type.account(5, [1, 2]), Type.set(["-a", "b"]), Type.from_steps("box", 0, [("put", "ok"), ("get", "ok")], step),
            STOCK, Type.number(1_000_000, [250]), Type(support.PURSE, Kind.ESCROW), COUNTER,
        ]
        with self.open([COUNTER], create=True) as store:
            self.assertEqual(store.extend(types), 1)
        with self.open([COUNTER, *types]) as store, store.begin() as t:
            self.assertEqual([t.call(x, call).executed().reply for x, call in [(3, "insert:-a"), (4, "put"), (7, "take:17")]], ["ok"] * 3)
        # the file has a text of a type once
        with self.open() as store:
            self.assertIs(store._backend.types[0], store._backend.types[8])

    def test_calls_wait_at_new_objects(self):
        store = self.open([STOCK], create=True)
        store.extend([COUNTER])
        first = store.begin()
        first.expect(1, "inc:1", "ok")
        waiting = Run(lambda: store.retry(lambda t: t.call(1, "dec:1", wait=LONG).executed().reply, tries=1))
        support.asleep(store, 1)
        first.commit()
        self.assertEqual((waiting.result(), store.kept(1)), ("ok", 0))

    def test_it_waits_until_what_is_open_has_ended(self):
        """Where a yes is one-way, as in the tests after this."""
        store = self.open([COUNTER, support.one_way()], create=True, drain=600)
        first, second = store.begin(), store.begin()
        extending = Run(store.extend, {"b": COUNTER})
        until(lambda: store._backend._connection._late, "the wait")
        beginning = Run(store.begin)
        for t in (first, second):
            # others are answered before
            t.expect(0, "inc:1", "ok")
            self.assertTrue(extending.is_alive() and beginning.is_alive())
            self.assertRaises(colock.NoObject, store.kept, "b")
            t.commit()
        self.assertEqual((extending.result(), store.kept(0), store.kept("b")), (2, 2, 0))
        with beginning.result() as t:
            t.expect("b", "inc:1", "ok")
        self.assertEqual((t.id, store.stats().aborts, store.stats().commits), ("2.0", 0, 3))

    def test_a_wait_beyond_the_limit(self):
        """The limit is of answers, and not of what an extension waits for."""
        store = self.open([COUNTER, support.one_way()], create=True, drain=600, limit=LIMIT)
        t = store.begin()
        t.expect(0, "inc:1", "ok")
        extending = Run(store.extend, {"b": COUNTER})
        time.sleep(1.5 * LIMIT)
        self.assertTrue(extending.is_alive())
        self.assertRaises(colock.TimedOut, store.begin)
        t.commit()
        self.assertEqual((extending.result(), store.kept("b"), store.kept(0)), (2, 0, 1))

    def test_who_is_gone_isnt_waited_for(self):
        store = self.open([COUNTER, support.one_way()], create=True, drain=600)
        store.begin().call(0, "inc:1")
        self.assertEqual((store.extend([COUNTER]), store.kept(0)), (2, 0))
        # and who goes while it waits
        t = store.begin()
        t.expect(0, "inc:1", "ok")
        extending = Run(store.extend, [COUNTER])
        until(lambda: store._backend._connection._late, "the wait")
        del t
        self.assertEqual((extending.result(), store.kept(0), store.stats().aborts), (3, 0, 2))

    def test_no_time_for_what_is_open(self):
        store = self.open([COUNTER, support.one_way()], create=True, drain=0)
        t = store.begin()
        t.expect(0, "inc:1", "ok")
        self.assertEqual(store.extend({"b": COUNTER}), 2)
        self.assertRaises(colock.EpochEndedError, t.commit)

    def test_who_stays_open_is_aborted(self):
        """Nobody asks anything meanwhile, and who sleeps is woken."""
        store = self.open([COUNTER, support.one_way()], create=True, drain=1)
        holder, sleeper = store.begin(), store.begin()
        holder.expect(0, "inc:1", "ok")
        sleeping = Run(sleeper.call, 0, "dec:1", LONG)
        support.asleep(store, 1)
        with Timed() as timed:
            self.assertEqual(store.extend([COUNTER]), 2)
        self.assertTrue(0.5 < timed.seconds < 10, timed.seconds)
        self.assertRaises(colock.EpochEndedError, sleeping.result)
        self.assertRaises(colock.EpochEndedError, holder.commit)
        self.assertEqual((store.kept(0), store.stats().aborts, store.open_count()), (0, 2, 0))

    def test_two_at_once(self):
        store = self.open([COUNTER, support.one_way()], create=True, drain=600)
        t = store.begin()
        runs = [Run(store.extend, {name: SEAT, name + "2": COUNTER}) for name in "abc"]
        until(lambda: store._backend._connection._late, "the wait")
        t.expect(0, "inc:1", "ok")
        t.commit()
        firsts = [run.result() for run in runs]
        self.assertEqual(sorted(firsts), [2, 4, 6])
        for first, name in zip(firsts, "abc"):
            self.assertEqual((store.find(name), store.find(name + "2")), (first, first + 1))
            up(store, name + "2")
        self.assertEqual([store.kept(x) for x in range(8)], [1, 0, 0, 1, 0, 1, 0, 1])

    def test_others_work_meanwhile(self):
        wide, objects = Type.counter(1000, [1]), 12
        store = self.open({"0": wide}, create=True)

        def use():
            for x in range(objects):
                while True:
                    try:
                        number = store.find(str(x))
                        break
                    except colock.NoObject:
                        time.sleep(0.001)
                for _ in range(3):
                    store.retry(lambda t: t.expect(number, "inc:1", "ok", wait=LONG))
                self.assertEqual((number, store.name_of(x)), (x, str(x)))

        runs = [Run(use) for _ in range(6)]
        for x in range(1, objects):
            self.assertEqual(store.extend({str(x): wide}), x)
        for run in runs:
            run.result(60)
        self.assertEqual([store.kept(x) for x in range(objects)], [18] * objects)
        store.close()
        with self.open() as store:
            self.assertEqual((names(store), [store.kept(x) for x in range(objects)]), ([str(x) for x in range(objects)], [18] * objects))

    def test_what_is_refused(self):
        store = self.open({"a": COUNTER}, create=True)
        closed = Type.counter(2, [1])
        closed.close()
        with mock.patch.object(store._backend._connection, "made_late", side_effect=AssertionError):
            self.assertRaises(colock.NameTaken, store.extend, [("b", COUNTER), ("a", COUNTER)])
            self.assertRaises(colock.NameTaken, store.extend, [("b", COUNTER), ("b", COUNTER)])
            self.assertRaises(colock.BadName, store.extend, {"b c": COUNTER})
            self.assertRaises(colock.NoObjects, store.extend, [])
            self.assertRaises(colock.TooManyObjects, store.extend, [COUNTER] * 65_536)
            self.assertRaises(colock.ClosedError, store.extend, [closed])
            self.assertRaises(TypeError, store.extend, ["b"])
            self.assertRaises(ValueError, store.transact, lambda t: store.extend([COUNTER]))
        with self.assertRaises(colock.CannotExtend) as raised:
            store.extend([Type.counter(n, [1]) for n in range(1, 301)])
        self.assertIn("300 types have no room", raised.exception.words)
        self.assertEqual((names(store), store.extend({"b": COUNTER})), (["a"], 1))
        store.close()
        self.assertRaises(colock.ClosedError, store.extend, [COUNTER])

    def test_what_the_program_refuses(self):
        """Nothing changes, and nobody has to wait."""
        store = self.open({"a": COUNTER}, create=True, drain=600)
        t = store.begin()
        t.expect("a", "inc:1", "ok")
        for text, words in [(None, "more: cannot read"), ("object undo 0\nend", "more: line 2: Unterminated"), ("object undo 1\nend\n", "more: object 0: no type 1")]:
            listed = os.path.join(self.folder, "more")
            if text is not None:
                with open(listed, "w", encoding="ascii") as file:
                    file.write(text)
            with open(os.path.join(self.folder, "seat"), "w", encoding="ascii") as file:
                file.write(self.command("make", "seats", "1"))
            with mock.patch("colock._child.write_objects", return_value=[listed, os.path.join(self.folder, "seat")]):
                with self.assertRaises(colock.CannotExtend) as raised:
                    store.extend({"b": SEAT})
            self.assertTrue(raised.exception.words.endswith(words), raised.exception)
        t.commit()
        with store.begin() as t:
            self.assertEqual((t.id, store.kept("a"), names(store)), ("1.1", 1, ["a"]))
        for error in colock.CannotOpen("it is gone"), OSError(28, "it is gone"):
            with mock.patch("colock._object_files.told", side_effect=error), self.assertRaises(colock.CannotExtend) as raised:
                store.extend({"b": SEAT})
            self.assertIn("it is gone", raised.exception.words)
        self.assertEqual(store.extend({"b": SEAT}), 1)

    def test_what_was_committed_before(self):
        """The history of the epoch that an extension ends is in the archive."""
        store = self.open({"a": COUNTER}, create=True, archive=os.path.join(self.folder, "archive"))
        with store.begin() as t:
            t.expect("a", "inc:1", "ok")
        other = store.begin()
        other.abort()
        store.extend({"b": COUNTER})
        with store.begin() as u:
            u.expect("b", "inc:1", "ok")
        self.assertEqual([store.committed(id) for id in (t.id, other.id, u.id, "1.7", "2.7")], [True, False, True, None, None])
        self.assertEqual(str(store.events()[0]), "begin 0 0")

    def test_a_store_that_is_closed_meanwhile(self):
        store = self.open([COUNTER, support.one_way()], create=True, drain=600)
        t = store.begin()
        t.expect(0, "inc:1", "ok")
        extending = Run(store.extend, {"b": COUNTER})
        until(lambda: store._backend._connection._late, "the wait")
        store.close()
        self.assertEqual(extending.result(), 2)
        self.assertRaises(colock.ClosedError, t.commit)
        with self.open() as store:
            self.assertEqual((names(store), store.kept(0)), ([None, None, "b"], 0))

    def test_folders_with_spaces(self):
        spaced = os.path.join(self.folder, "a b")
        os.mkdir(spaced)
        store = self.open([COUNTER], create=True)
        with mock.patch.object(tempfile, "tempdir", spaced):
            self.assertEqual(store.extend([SEAT]), 1)
            with mock.patch("colock._object_files.PLACES", ("/tmp/not there",)), self.assertRaises(colock.CannotExtend) as raised:
                store.extend([SEAT])
        self.assertIn(spaced, raised.exception.words)
        self.assertEqual((os.listdir(spaced), store.extend([SEAT])), ([], 2))

    def test_nothing_is_left_of_the_files(self):
        room = os.path.join(self.folder, "room")
        os.mkdir(room)
        store = self.open([COUNTER], create=True)
        with mock.patch.object(tempfile, "tempdir", room):
            store.extend([SEAT, STOCK])
        self.assertEqual(os.listdir(room), [])

    def test_a_type_may_be_closed_afterwards(self):
        store, of = self.open([COUNTER], create=True), Type.counter(5, [1])
        store.extend({"b": of})
        of.close()
        first, second = store.begin(), store.begin()
        first.expect("b", "inc:1", "ok")
        waiting = Run(second.call, "b", "dec:1", LONG)
        support.asleep(store, 1)
        first.commit()
        self.assertEqual(waiting.result().executed().reply, "ok")

    def test_a_handler_that_raises(self):
        """What was asked goes on, and nothing is held."""
        store = self.open([COUNTER, support.one_way()], create=True, drain=600)
        t = store.begin()

        def interrupt(*_):
            raise KeyboardInterrupt

        before = signal.signal(signal.SIGALRM, interrupt)
        self.addCleanup(signal.signal, signal.SIGALRM, before)
        for _ in range(3):
            signal.setitimer(signal.ITIMER_REAL, 0.05)
            self.assertRaises(KeyboardInterrupt, store.extend, [COUNTER])
            t.expect(0, "inc:1", "ok")
        t.commit()
        until(lambda: len(store.stats().busy) == 5, "the objects")
        self.assertEqual((store.extend({"b": COUNTER}), [store.kept(x) for x in range(6)]), (5, [3, 0, 0, 0, 0, 0]))

    @unittest.skipIf(support.QUICK, "it takes seconds")
    def test_handlers_that_raise_at_any_moment(self):
        store = self.open([COUNTER], create=True)

        def interrupt(*_):
            raise KeyboardInterrupt

        before = signal.signal(signal.SIGALRM, interrupt)
        self.addCleanup(signal.signal, signal.SIGALRM, before)
        draws = random.Random(1)
        for x in range(60):
            try:
                signal.setitimer(signal.ITIMER_REAL, draws.uniform(0.0005, 0.03))
                store.extend({str(x): COUNTER})
                signal.setitimer(signal.ITIMER_REAL, 0)
            except KeyboardInterrupt:
                pass
            up(store, 0)
        until(lambda: not any(each.name == "colock extension" for each in threading.enumerate()), "the ends")
        found = names(store)[1:]
        self.assertEqual((len(set(found)), store.kept(0)), (len(found), 60))
        self.assertTrue(set(found) <= set(map(str, range(60))), found)
        store.close()
        with self.open() as store:
            self.assertEqual(names(store)[1:], found)

    def test_a_kill_while_one_waits(self):
        store = self.open([COUNTER, support.one_way()], create=True, drain=600)
        up(store, 0)
        t = store.begin()
        extending = Run(store.extend, {"b": COUNTER, "c": COUNTER})
        until(lambda: store._backend._connection._late, "the wait")
        t.expect(0, "inc:1", "ok")
        os.kill(pid_of(store), signal.SIGKILL)
        self.assertRaises(colock.ConnectionLost, extending.result)
        with self.open() as store:
            self.assertEqual((names(store), store.kept(0)), ([None, None], 1))

    @unittest.skipIf(support.QUICK, "it takes seconds")
    def test_kills_at_any_moment(self):
        """All of the objects are there, or none of them; and all where the client was told so."""
        self.open([COUNTER], create=True).close()
        draws, count, is_told = random.Random(2), 1, set()
        for turn in range(12):
            store = self.open()
            self.assertIn(len(names(store)), {count, count + 3} - is_told, turn)
            count, is_told = len(names(store)), set()
            extending = Run(store.extend, [(f"{turn}-{n}", COUNTER) for n in range(3)])
            time.sleep(draws.uniform(0, 0.03))
            os.kill(pid_of(store), signal.SIGKILL)
            try:
                self.assertEqual(extending.result(), count)
                is_told = {count}
            except colock.ConnectionLost:
                pass
            support.closed(store)


# A program that answers requests for more objects as a test likes.
ANSWERS = """
for tag, words in opened():
    if words[0] == "extend":
        say(f"{tag} %s\\n")
    elif words[0] == "begin":
        say(f"{tag} ok 5.0\\n")
    else:
        say(f"{tag} ok\\n")
"""


class Answers(Fakes):
    def refused(self, answer):
        store = self.open(ANSWERS % answer, limit=LIMIT if answer == "busy drain" else SOON)
        try:
            return store.extend([Type(TWO)])
        except colock.Error as error:
            return error

    def test_answers(self):
        self.assertEqual(self.refused("ok 1"), 1)
        for why in ("nowhere: cannot read", "/tmp/x: line 2: UnknownWord", "x: object 0: name taken"):
            error = self.refused("no " + why)
            self.assertEqual((type(error), error.words), (colock.CannotExtend, why))
        error = self.refused("no # object 3 no NotCommuting 1 0 2")
        self.assertEqual((type(error), error.reason, error.numbers), (colock.Refused, "NotCommuting", (1, 0, 2)))
        error = self.refused("no # object 3 no InitialOutside")
        self.assertEqual((type(error), error.reason, error.numbers), (colock.Refused, "InitialOutside", ()))
        for answer, kind in [("no TooLarge", colock.TooManyObjects), ("no no memory", colock.NoMemory), ("busy drain", colock.TimedOut), ("refused NoMemory", colock.NoMemory)]:
            self.assertIsInstance(self.refused(answer), kind)
        for answer in ("ok", "ok 2", "ok 01", "ok x", "busy 5.0", "none", "fault BadWords"):
            self.assertIsInstance(self.refused(answer), colock.ConnectionLost, answer)

    def test_a_late_answer_is_matched_by_its_tag(self):
        store = self.open("""
late = None
for tag, words in opened():
    if words[0] == "extend":
        late = tag
    elif words[0] == "kept":
        say(f"{tag} ok 7\\n" + (f"{late} ok 1\\n" if late else ""))
        late = None
    elif words[0] == "events":
        say(f"{tag} begin 0 0\\n{tag} begin 0 1\\n{tag} ok\\n")
    else:
        say(f"{tag} ok events 0 begun 0 open 0 prepared 0\\n")
""")
        for _ in range(2):
            store._backend.types[1:] = []
            extending = Run(store.extend, [Type(TWO)])
            until(lambda: store._backend._connection._late, "the wait")
            self.assertEqual(([store.event_count() for _ in range(3)], len(store.events())), ([0] * 3, 2))
            self.assertTrue(extending.is_alive())
            self.assertEqual((store.kept(0), extending.result()), (7, 1))

    def test_an_answer_that_nobody_asked_for(self):
        store = self.open("""
for tag, words in opened():
    if words[0] != "extend":
        say(f"x{tag} ok\\n")
""")
        self.assertRaises(colock.ConnectionLost, store.extend, [Type(TWO)])

    def test_a_program_that_is_silent(self):
        store = self.open("for tag, words in opened():\n    pass", limit=LIMIT)
        with Timed() as timed:
            self.assertRaises(colock.ConnectionLost, store.extend, [Type(TWO)])
        self.assertLess(timed.seconds, LIMIT + SOON)


if __name__ == "__main__":
    unittest.main()
