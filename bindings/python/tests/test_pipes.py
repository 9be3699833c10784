"""A store in a file whose program doesn't answer as it has to."""
import os
import unittest

from executed import Executed
import support
from support import LONG, SOON, Run, Timed, asleep, is_running, pid_of, until

import colock
from colock import Busy, Event, EventKind
from colock._operations import number_of

# This many seconds an answer may take, where a test has none come: a program has to start in less.
LIMIT = 3


class Amounts(support.Fakes):
    """A program that serves a purse."""

    type, kind = support.PURSE, "escrow"

    def answering(self, answers):
        """A program that answers so, by the words of a request."""
        return f"for tag, words in opened():\n    say({answers!r}[' '.join(words[:1] + words[3:])].format(tag).replace('|', '\\n') + '\\n')"

    def test_amounts_are_asked_and_told(self):
        told = {
            "begin": "{0} ok 5.0", "call take:17": "{0} reply ok", "call take:501": "{0} reply short", "call value": "{0} reply 483", "call take:100": "{0} reply ok",
            "would give:3": "{0} busy 5.7", "call take:18": "{0} refused NoCall", "end": "{0} ok",
            "events": "{0} op 0 0 0 2 17|{0} op 0 0 0 6 483|{0} op 0 0 0 0|{0} busy 0 1 0 6 0|{0} ok",
        }
        store = self.open(self.answering(told))
        t = store.begin()
        short = number_of(2, 501)
        self.assertEqual((t.call(0, "take:17"), t.call_op(0, short), t.call(0, "value")), (Executed(2, "ok", 17), Executed(3, "short", 501), Executed(6, "483", 483)))
        self.assertEqual((t.call(0, "take:100"), t.would(0, "give:3")), (Executed(0, "ok"), Busy(7)))
        # these aren't asked at all
        for name in ("take:0", "take:007", "take:10001", "take:any"):
            self.assertRaises(colock.NoCall, t.call, 0, name)
        self.assertRaises(colock.NoCall, t.call, 0, "take:18")
        wanted = [Event(EventKind.OP, 0, 0, 0, 2, 0, 17), Event(EventKind.OP, 0, 0, 0, 6, 0, 483), Event(EventKind.OP, 0, 0), Event(EventKind.BUSY, 0, 1, 0, 6)]
        self.assertEqual(store.events(), wanted)

    def test_wrong_amounts_are_no_answers(self):
        for call, answer in [("value", "reply 10001"), ("value", "reply n"), ("value", "reply 007"), ("take:17", "reply 17"), ("take:17", "reply full")]:
            store = self.open(self.answering({"begin": "{0} ok 5.0", f"call {call}": f"{{0}} {answer}"}))
            self.assertRaises(colock.ConnectionLost, store.begin().call, 0, call)
        for line in ("op 0 0 0 2 17 3", "op 0 0 0 2 x", "op 0 0 0", "busy 0 1 0 6 17 0", "none 0 1 0 6 17", "begin 0 0 17"):
            store = self.open(self.answering({"events": f"{{0}} {line}|{{0}} ok"}))
            self.assertRaises(colock.ConnectionLost, store.events)


@unittest.skipIf(support.QUICK, "it takes seconds, and is the same wherever the package is")
class Pipes(support.Fakes):
    """Programs that answer as they like."""

    def test_no_greeting(self):
        for body, words in [
            ("time.sleep(60)", "no answer within 0.4 seconds"),
            ("say('colock 5 5'); time.sleep(60)", "no answer within 0.4 seconds"),
        ]:
            with Timed() as timed:
                with self.assertRaises(colock.CannotOpen) as raised:
                    self.open(body, limit=0.4)
            self.assertIn(words, raised.exception.words)
            self.assertLess(timed.seconds, 10)

    def test_wrong_greetings(self):
        for greeting, words in [
            ("colock 1 5", "speaks version 1, and this package 5"), ("colock 2 5", "speaks version 2, and this package 5"),
            ("colock 3 5", "speaks version 3"), ("colock 4 5", "speaks version 4"), ("colock 6 5", "speaks version 6"), ("colock 5.1 5", "speaks version 5.1"), ("hello", "no greeting"), ("", "no greeting"),
            ("colock 5 05", "no greeting"), ("colock 5 5 ", "no greeting"), ("colock 5 \\xff", "no greeting"), ("t ok", "no greeting"),
        ]:
            with self.assertRaises(colock.CannotOpen) as raised:
                self.open(f"list(opened('{greeting}\\n'))")
            self.assertIn(words, raised.exception.words)

    def test_it_ends_at_once(self):
        for body, words in [
            ("sys.exit('it has no wish')", "it has no wish"), ("sys.exit(3)", "status 3"), ("os.kill(os.getpid(), 9)", "SIGKILL"),
            ("say('colock 5 5\\n'); sys.exit('then it ended')", "then it ended"),
        ]:
            with self.assertRaises(colock.CannotOpen) as raised:
                self.open(body)
            self.assertIn(words, raised.exception.words)

    def test_wrong_objects_and_types(self):
        for objects, types in [
            ("{0} object undo 1|{0} ok", "{0} type t|{0} |{0} ok"), ("{0} object redo 0|{0} ok", "{0} type t|{0} |{0} ok"),
            ("{0} object undo 0|{0} ok", "{0} type t|{0} |{0} ok"), ("{0} object undo 0|{0} ok", "{0} ok"),
            ("{0} fault UnknownVerb", ""), ("{0} refused NoObject", ""), ("x object undo 0|x ok", ""),
            # a type that isn't numeric
            ("{0} object escrow 0|{0} ok", "".join(f"{{0}} {line}|" for line in ("type t", "states 2", "initial 0", "op a b", "step 0 0 1", "step 1 0 1", "end", "")) + "{0} ok"),
        ]:
            answers = {"objects": objects + "|", "types": types + "|"}
            body = f"say('colock 5 5\\n')\nfor tag, words in requests():\n    say({answers!r}[words[0]].format(tag).replace('|', '\\n'))"
            with self.assertRaises(colock.CannotOpen):
                self.open(body)

    def lost(self, answer, act=lambda store: store.begin(), limit=SOON):
        """What a store says whose program answers so."""
        store = self.open(f"for tag, words in opened():\n    {answer}", limit)
        with Timed() as timed:
            with self.assertRaises(colock.ConnectionLost) as raised:
                act(store)
        self.assertLess(timed.seconds, 10)
        for again in (store.begin, lambda: store.kept(0)):
            self.assertRaises(colock.ConnectionLost, again)
        until(lambda: not is_running(pid_of(store)), "the end of the program")
        return raised.exception.words

    def test_wrong_answers(self):
        for answer in (
            "say('zz ok 5.0\\n')", "say(f'{tag}\\n')", "say(f'{tag} \\n')", "say(f'{tag} ok\\n')", "say(f'{tag} ok 5\\n')", "say(f'{tag} ok 5.x\\n')",
            "say(f'{tag} busy 5.0\\n')", "say(f'{tag} none\\n')", "say(f'{tag} refused Nothing\\n')", "say(f'{tag} fault BadWords\\n')",
            "say(f'{tag} ok 5.0')\n    sys.exit(0)", "say('\\xff\\xfe\\n')", "say('x' * 1_000_000)", "say(f'{tag}ok 5.0\\n')", "say(f'- fault TooLong\\n')",
        ):
            with self.subTest(answer):
                self.lost(answer)

    def test_half_a_list(self):
        for ending in ("sys.exit(0)", "say('x ok\\n')", "os.close(1)\n    time.sleep(60)"):
            self.lost(f"say(f'{{tag}} begin 0 0\\n')\n    {ending}", lambda store: store.events())

    def test_answers_to_nothing(self):
        # the second line is nobody's answer; it is seen at once, or by the next request
        self.lost("say(f'{tag} ok 5.0\\nx ok\\n')", lambda store: [store.begin() for _ in range(2)])

    def test_late_answers(self):
        self.assertIn(f"no answer within {LIMIT} seconds", self.lost("time.sleep(8)\n    say(f'{tag} ok 5.0\\n')", limit=LIMIT))

    def test_an_output_that_is_closed(self):
        self.lost("os.close(1)\n    time.sleep(60)")

    def test_an_input_that_is_closed(self):
        self.lost("say(f'{tag} ok 5.0\\n')\n    os.close(0)\n    time.sleep(60)", lambda store: [store.begin() for _ in range(3)], limit=LIMIT)

    def test_wrong_answers_to_other_requests(self):
        begun = "say(f'{tag} ok 5.0\\n' if words[0] == 'begin' else f'{tag} %s\\n')"
        for answer, act in [
            ("reply other", lambda store: store.begin().call(0, "take")),
            ("busy 5", lambda store: store.begin().call(0, "take")),
            ("ok", lambda store: store.begin().would(0, "take")),
            ("ok 1", lambda store: store.begin().abort()),
            ("none", lambda store: store.begin().rollback(1)),
            ("ok x", lambda store: store.kept(0)),
            ("ok events 1 begun 1 open 1", lambda store: store.open_count()),
            ("ok events  begun 1 open 1 prepared 0", lambda store: store.event_count()),
            ("begin 0", lambda store: store.events()),
            ("refused What", lambda store: store.events()),
        ]:
            with self.subTest(answer):
                more = "; say(f'{tag} ok\\n')" if answer == "begin 0" else ""
                self.lost(begun % answer + more, act)

    def test_refusals(self):
        kinds = ["TooManyOpen", "HistoryFull", "NoMemory", "NoObject"]
        store = self.open(f"kinds = {kinds}\nfor tag, words in opened():\n    say(f'{{tag}} refused {{kinds.pop(0)}}\\n')")
        for kind, act in [(colock.TooManyOpenError, store.begin), (colock.HistoryFullError, store.begin), (colock.NoMemory, store.begin), (colock.NoObject, lambda: store.kept(0))]:
            self.assertRaises(kind, act)

    def test_commits_that_arent_answered(self):
        for ending in ("sys.exit(0)", "time.sleep(60)", "say(f'{tag} what\\n')", "say(f'{tag} o')\n        sys.exit(0)"):
            body = f"for tag, words in opened():\n    if words[0] == 'commit':\n        {ending}\n    else:\n        say(f'{{tag}} ok 5.0\\n')"
            store = self.open(body, limit=LIMIT)
            t = store.begin()
            with self.assertRaises(colock.OutcomeUnknown) as raised:
                t.commit()
            self.assertEqual((raised.exception.id, type(raised.exception.__cause__)), ("5.0", colock.ConnectionLost))
            self.assertRaises(colock.ConnectionLost, t.commit)

    def test_outcome_unknown_isnt_tried_again(self):
        body = "for tag, words in opened():\n    if words[0] == 'commit':\n        sys.exit(0)\n    say(f'{tag} ok 5.0\\n')"
        tried = []
        self.assertRaises(colock.OutcomeUnknown, self.open(body).retry, tried.append)
        self.assertEqual(len(tried), 1)

    def test_an_end_that_isnt_answered(self):
        for ending in ("time.sleep(60)", "sys.exit('it went wrong')", "say(f'{tag} what\\n')", "say(f'{tag} ok\\n')\n    time.sleep(60)"):
            store = self.open(f"for tag, words in opened():\n    {ending}", limit=LIMIT)
            with Timed() as timed:
                if "ok" in ending:
                    store.close()
                else:
                    self.assertRaises(colock.ConnectionLost, store.close)
            self.assertLess(timed.seconds, 10)
            self.assertFalse(is_running(pid_of(store)))
            store.close()

    def test_a_full_epoch(self):
        body = "answers = ['busy drain', 'busy drain', 'ok 6.0', 'busy drain', 'ok 6.1']\nfor tag, words in opened():\n    say(f'{tag} {answers.pop(0) if words[0] == \"begin\" else \"ok\"}\\n')"
        store = self.open(body)
        t = store.begin()
        self.assertEqual((t.id, store.transact(lambda u: u.id)), ("6.0", "6.1"))
        for act in (lambda store: store.begin(), lambda store: store.transact(lambda t: None), lambda store: store.retry(lambda t: None)):
            store = self.open("for tag, words in opened():\n    say(f'{tag} busy drain\\n')", limit=LIMIT)
            self.assertRaises(colock.TimedOut, act, store)

    def test_a_new_epoch(self):
        body = (
            "answers = ['ok 5.0', 'ok 5.1', 'reply ok', 'busy 5.0', 'busy 5.0', 'ok 6.0', 'refused NotOpen', 'refused NotOpen', 'reply ok', 'ok', 'ok']\n"
            "for tag, words in opened():\n    say(f'{tag} {answers.pop(0)}\\n')"
        )
        store = self.open(body)
        t, u = store.begin(), store.begin()
        t.call(0, "take")
        self.assertEqual(u.call(0, "give"), Busy(0))
        waiting = Run(u.call, 0, "give", LONG)
        asleep(store, 2)
        v = store.begin()
        self.assertRaises(colock.EpochEndedError, waiting.result)
        for old in (t, u):
            for act in (lambda: old.call(0, "take"), old.commit, old.abort, lambda: old.rollback(1)):
                self.assertRaises(colock.EpochEndedError, act)
        self.assertEqual((v.id, v.call(0, "take")), ("6.0", Executed(0, "ok")))
        v.commit()
        self.assertEqual((store.stats().aborts, store.stats().commits), (2, 1))

    def outcomes(self, store, *ids):
        return [store.committed(id) for id in ids]

    def test_outcomes_over_epochs(self):
        found = ["begin 0 0", "commit 0 0", "begin 0 1", "op 0 1 0 0", "begin 0 2"]
        more = ["abort 0 1", "abort 0 2", "begin 0 3", "commit 0 3", "begin 0 4", "abort 0 4", "begin 0 5"]
        body = (
            f"events, life = {found + more}, 5\n"
            "sys.stderr.write('colock: nothing.db: 5 events, 2 aborted, 3 ms\\n')\nsys.stderr.flush()\n"
            "for tag, words in opened():\n"
            "    if words[0] == 'events':\n        say(''.join(f'{tag} {event}\\n' for event in events[int(words[1]):]) + f'{tag} ok\\n')\n"
            "    elif words[0] == 'committed':\n        say(f'{tag} seen {life}.0 0\\n')\n"
            "    else:\n        events, life = [], 6\n        say(f'{tag} ok 6.0\\n')\n"
        )
        archive = support.folder_of(self)
        path, id = os.path.join(archive, "nothing.db"), "00" * 15 + "ab"
        support.write_id(path, id)
        with open(f"{archive}/{id}-5.history", "w", encoding="ascii") as file:
            file.write("object undo 0\n" + "".join(line + "\n" for line in [*found, *more, "abort 0 5", "end"]))
        # another store's, of the same life
        with open(f"{archive}/{'00' * 16}-5.history", "w", encoding="ascii") as file:
            file.write("object undo 0\nend\n")
        for folder in (archive, None):
            store = self.open(body, path=path, archive=folder)
            # 0 to 2 are of the lives before; 3 was given again, to another than the one that was lost
            self.assertEqual(self.outcomes(store, "4.0", "4.1", "4.2", "4.3"), [True, False, False, False])
            self.assertEqual(self.outcomes(store, "5.3", "5.4", "5.5", "5.6", "5.0", "3.0", "6.0"), [True, False, None, None, None, None, None])
            store.begin()
            told = self.outcomes(store, "4.0", "4.1", "4.3", "5.3", "5.4", "5.5", "6.0", "3.0")
            self.assertEqual(told, [True, False, False, True, False, False, None, None] if folder else [None] * 8)

    def test_an_archive_without_an_id(self):
        folder = support.folder_of(self)
        for text in ("", "no database"):
            path = os.path.join(folder, "nothing.db")
            with open(path, "w", encoding="ascii") as file:
                file.write(text)
            with self.assertRaises(colock.CannotOpen) as raised:
                self.open("for tag, words in opened():\n    pass\n", path=path, archive=folder)
            self.assertIn("the id of the store can't be read", str(raised.exception))
        os.remove(path)
        support.write_id(path, "00" * 15)
        with self.assertRaises(colock.CannotOpen) as raised:
            self.open("for tag, words in opened():\n    pass\n", path=path, archive=folder)
        self.assertIn("the store has no id", str(raised.exception))

    def test_outcomes_without_the_line_of_what_was_found(self):
        store = self.open("for tag, words in opened():\n    say(f'{tag} begin 0 0\\n{tag} commit 0 0\\n{tag} ok\\n' if words[0] == 'events' else f'{tag} seen 5.0 0\\n')")
        self.assertEqual(self.outcomes(store, "4.0", "5.0"), [None, None])

    def test_an_epoch_that_ended_unseen(self):
        for verb, act in [("call", lambda t: t.call(0, "take")), ("commit", lambda t: t.commit()), ("rollback", lambda t: t.rollback(1)), ("abort", lambda t: t.abort())]:
            body = f"count = 0\nfor tag, words in opened():\n    say(f'{{tag}} refused NotOpen\\n' if words[0] in ('{verb}', 'call') else f'{{tag}} ok 5.{{count}}\\n')\n    count += 1"
            store = self.open(body)
            t, u = store.begin(), store.begin()
            self.assertRaises(colock.EpochEndedError, act, t)
            self.assertRaises(colock.EpochEndedError, u.call, 0, "take")

    def test_an_epoch_that_ends_is_tried_again(self):
        body = "answers = ['ok 5.0', 'refused NotOpen', 'ok 6.0', 'reply ok', 'ok']\nfor tag, words in opened():\n    say(f'{tag} {answers.pop(0) if answers else \"ok\"}\\n')"
        store, tried = self.open(body), []
        self.assertEqual(store.retry(lambda t: (tried.append(t.id), t.call(0, "take"))[1]), Executed(0, "ok"))
        self.assertEqual(tried, ["5.0", "6.0"])

    def test_a_commit_wakes_before_it_is_durable(self):
        # the commit is answered only when the next request has come: that of whom it woke
        body = (
            "answers = ['ok 5.0', 'ok 5.1', 'reply ok', 'busy 5.0']\n"
            "for tag, words in opened():\n"
            "    if words[0] == 'commit':\n        held = tag\n"
            "    elif words[0] == 'would':\n        say(f'{held} ok\\n{tag} reply ok\\n')\n"
            "    else:\n        say(f'{tag} {answers.pop(0) if answers else \"reply ok\"}\\n')\n"
        )
        store = self.open(body)
        t, u = store.begin(), store.begin()
        t.call(0, "take")
        waiting = Run(u.call, 0, "give", LONG)
        asleep(store, 1)
        t.commit()
        self.assertEqual((waiting.result(), store.stats().commits), (Executed(1, "ok"), 1))

    def test_a_rollback_that_overtakes_an_answer(self):
        # the rollback is sent while the busy answer is on its way, so the answer is of before it
        body = (
            "held = None\n"
            "for tag, words in opened():\n"
            "    if words[0] == 'call' and words[3] == 'give' and held is None:\n        held = tag\n"
            "    elif words[0] == 'rollback':\n        say(f'{held} busy 5.0\\n{tag} ok\\n')\n"
            "    elif words[0] == 'begin':\n        say(f'{tag} ok 5.{0 if held is None and not tag == \"4\" else 1}\\n')\n"
            "    else:\n        say(f'{tag} ' + ('ok' if words[0] in ('commit', 'end') else 'reply ok') + '\\n')\n"
        )
        store = self.open(body)
        t = store.begin()
        u = store.begin()
        self.assertEqual((t.id, u.id), ("5.0", "5.1"))
        t.call(0, "take")
        waiting = Run(u.call, 0, "give", LONG)
        until(lambda: len(store._backend._connection._requests) == 1, "the call")
        t.rollback(1)
        self.assertEqual((waiting.result(), store.stats().waits), (Executed(1, "ok"), 0))

    def test_a_blocker_that_isnt_open_here(self):
        # the program holds what the client believes ended: the wait ends at its limit all the same
        body = "for tag, words in opened():\n    say(f'{tag} ' + {'begin': 'ok 5.0', 'call': 'busy 5.9', 'would': 'busy 5.9'}.get(words[0], 'ok') + '\\n')"
        t = self.open(body).begin()
        with Timed() as timed:
            self.assertRaises(colock.TimedOut, Run(t.call, 0, "take", 0.3).result, 5)
        self.assertLess(timed.seconds, 5)
        t.abort()


if __name__ == "__main__":
    unittest.main()
