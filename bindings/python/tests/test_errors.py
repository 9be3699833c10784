"""By which kinds errors are caught, and the old names of some."""
import os
import pickle
import subprocess
import sys
import unittest
import warnings

from support import folder_of, program

import colock
from colock import _errors, _old_names

# What each error is, beside an `Error`.
KINDS = {
    "BadKey": ValueError, "BadMax": ValueError, "BadName": ValueError, "BadParameter": ValueError, "BadRollback": ValueError, "BadText": ValueError,
    "BusyError": colock.Retryable, "CannotExtend": OSError, "CannotOpen": OSError, "Changes": ValueError,
    "ClosedError": None, "ConnectionLost": ConnectionError,
    "DeadlockError": colock.Retryable, "EpochEndedError": colock.Retryable, "Error": None, "Forgotten": LookupError,
    "HistoryFullError": None, "IllegalError": None, "InMemoryOnly": NotImplementedError, "InUse": OSError,
    "KeyAborted": ValueError, "KeyCommitted": ValueError, "KeyDecided": ValueError, "KeyPrepared": ValueError, "KeyTaken": ValueError, "KeyUnknown": LookupError,
    "NameTaken": ValueError, "NeedsEscrow": ValueError, "NoCall": LookupError, "NoMemory": MemoryError, "NoObject": LookupError,
    "NoObjects": ValueError, "NoOperation": LookupError, "NoState": LookupError, "NotFollowedError": None,
    "NotMadeError": None, "NotOpenError": None, "OtherCalls": ValueError, "OtherObjects": ValueError, "OutcomeUnknown": ConnectionError, "PreparedError": None,
    "Refused": ValueError, "Retryable": None, "StillOpenError": None, "TimedOut": TimeoutError, "TooLarge": ValueError,
    "TooManyObjects": ValueError, "TooManyOpenError": None, "TooManyStates": ValueError, "UnexpectedError": None,
}
# One of each error that says more than words.
OF_PARTS = [
    colock.BadKey("a/b"), colock.BadName("A 1"), colock.BadText(3, colock.FaultKind.BadNumber), colock.BusyError(5), colock.CannotExtend("a.type: cannot read"), colock.CannotOpen("a.db: no such file"),
    colock.ConnectionLost("it is gone"), colock.DeadlockError(5), colock.IllegalError.at(2), colock.InUse("a.db: in use"),
    colock.BusyError(5, 3), colock.KeyAborted("a"), colock.KeyCommitted("a"), colock.KeyDecided("a"), colock.KeyPrepared("a"), colock.KeyTaken("a"), colock.KeyUnknown("a"),
    colock.NameTaken("A1"),
    colock.NoObject.named("A1"), colock.NotFollowedError(7),
    colock.OtherCalls("a"), colock.OutcomeUnknown("5.1"), colock.OutcomeUnknown.of_decision("a"), colock.OutcomeUnknown.of_prepare("5.1", "a"),
    colock.PreparedError("a"), colock.Refused("NotClosed", (0, 1)), colock.TooManyStates("inc", "ok"),
    colock.UnexpectedError("take:1", "short"),
]


class Kinds(unittest.TestCase):
    def test_each_is_of_its_kind(self):
        errors = {name for name in colock.__all__ if isinstance(getattr(colock, name), type) and issubclass(getattr(colock, name), Exception)}
        self.assertEqual(errors, set(KINDS))
        for name, kind in KINDS.items():
            error = getattr(colock, name)
            self.assertTrue(issubclass(error, colock.Error) and issubclass(error, kind or Exception), name)
            self.assertTrue(name.endswith("Error") or name == "Retryable" or kind is not colock.Retryable and kind is not None, name)

    def test_what_is_tried_again(self):
        tried = {name for name in KINDS if issubclass(getattr(colock, name), colock.Retryable)}
        self.assertEqual(tried, {"Retryable", "BusyError", "DeadlockError", "EpochEndedError", "TimedOut"})
        self.assertTrue(issubclass(colock.EpochEndedError, colock.NotOpenError) and issubclass(colock.InUse, colock.CannotOpen))

    def test_words_and_copies(self):
        for error in OF_PARTS:
            copied = pickle.loads(pickle.dumps(error))
            self.assertEqual((type(copied), copied.__dict__, str(copied)), (type(error), error.__dict__, str(error)))
        for kind in _errors.CODES.values():
            self.assertEqual(str(kind(kind.__doc__)), kind.__doc__)
        self.assertEqual(str(colock.ConnectionLost("it is gone")), "it is gone")
        self.assertEqual(str(colock.UnexpectedError("take:1", "short")), "take:1 was answered short")

    def test_what_isnt_there(self):
        type = colock.Type.counter(5, [1])
        with colock.Store([type], 100) as store, store.begin() as t:
            for act in (lambda: t.call(1, "inc:1"), lambda: t.call(0, "take"), lambda: type.step(9, 0), lambda: type.step(0, 9), lambda: store.kept(1)):
                self.assertRaises(LookupError, act)
            self.assertRaises(ValueError, t.rollback, 1)
            t.call(0, "inc:1")
            with store.begin() as other, self.assertRaises(TimeoutError):
                other.call(0, "dec:1", wait=0.0)


class OldNames(unittest.TestCase):
    def test_they_are_the_same_classes(self):
        for old, error in _old_names.RENAMED.items():
            with self.assertWarns(DeprecationWarning) as warned:
                self.assertIs(getattr(colock, old), error)
            self.assertIn(f"colock.{old} is colock.{error.__name__} now", str(warned.warning))
            self.assertEqual(warned.filename, __file__)
            self.assertNotIn(old, colock.__all__)

    def test_import_from(self):
        with self.assertWarns(DeprecationWarning):
            from colock import WasBusy
        self.assertIs(WasBusy, colock.BusyError)

    def test_no_name(self):
        with warnings.catch_warnings():
            warnings.simplefilter("error")
            with self.assertRaises(AttributeError) as raised:
                colock.Nothing
        self.assertEqual(str(raised.exception), "module 'colock' has no attribute 'Nothing'")

    def test_the_package_uses_none(self):
        words = [sys.executable, "-W", "error", "-c", "import colock; colock.Store([colock.Type.counter(5, [1])], 100).close()"]
        done = subprocess.run(words, capture_output=True, text=True, check=False)
        self.assertEqual((done.returncode, done.stdout + done.stderr), (0, ""))


class InUse(unittest.TestCase):
    def test_a_file_that_is_open(self):
        path = os.path.join(folder_of(self), "test.db")
        with colock.Store.open(path, [colock.Type.counter(5, [1])], create=True, program=program()):
            with self.assertRaises(colock.InUse) as raised:
                colock.Store.open(path, program=program())
        self.assertRegex(raised.exception.words, r"^colock: .*test\.db: in use$")

    def test_another_fault_isnt_it(self):
        path = os.path.join(folder_of(self), "in use")
        with self.assertRaises(colock.CannotOpen) as raised:
            colock.Store.open(path, program=program())
        self.assertIs(type(raised.exception), colock.CannotOpen)


if __name__ == "__main__":
    unittest.main()
