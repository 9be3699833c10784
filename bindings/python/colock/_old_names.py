"""The names that changed: the old ones stay for one version."""
import warnings
from typing import Dict, Type

from . import _errors

# what each is now
RENAMED: Dict[str, Type[_errors.Error]] = {
    "Closed": _errors.ClosedError,
    "ColockError": _errors.Error,
    "Deadlock": _errors.DeadlockError,
    "EpochEnded": _errors.EpochEndedError,
    "HistoryFull": _errors.HistoryFullError,
    "NotFollowed": _errors.NotFollowedError,
    "NotMade": _errors.NotMadeError,
    "NotOpen": _errors.NotOpenError,
    "StillOpen": _errors.StillOpenError,
    "TooManyOpen": _errors.TooManyOpenError,
    "WasBusy": _errors.BusyError,
    "WasIllegal": _errors.IllegalError,
}


def renamed(name: str) -> Type[_errors.Error]:
    """What has an old name, with a warning to whom asks the package for it. Raises `AttributeError` where nothing has it."""
    is_now = RENAMED.get(name)
    if is_now is None:
        raise AttributeError(f"module 'colock' has no attribute {name!r}")
    words = f"colock.{name} is colock.{is_now.__name__} now, and the old name goes with the next version"
    warnings.warn(words, DeprecationWarning, stacklevel=3)
    return is_now
