"""The process that serves a store, its pipe, and the requests that are in flight."""
import os
import re
import signal
import subprocess
import tempfile
import threading
from collections import deque
from typing import Any, Callable, Deque, Iterator, List, Optional, Tuple

from ._errors import CannotOpen, ConnectionLost
from ._outcomes import Opened

# A line of an answer is shorter: the longest tells of a prepared transaction at 65,536 objects.
LONGEST_LINE = 1 << 19
# How often who waits for a late answer asks something else: the program looks at its clock where a line comes.
SECONDS_BETWEEN_LOOKS = 0.2
# How long a program may take to end that has closed its output, or was killed.
SECONDS_TO_END = 1.0
# How much of what the program said is read.
MOST_SAID = 65_536
# What ends an answer of several lines but `ok`. A line of a prepared transaction may begin so too, by its key, and has more words.
NOT_LISTED = re.compile(rb"(?:refused|fault) [^ ]*")
FOUND = re.compile(rb": ([0-9]+) events, ([0-9]+) aborted, [0-9]+ ms$", re.MULTILINE)


def _itself(answer: bytes) -> bytes:
    """The answer, of which nothing is made."""
    return answer


class NoAnswer(Exception):
    """A line that isn't the answer which has to come next."""


class Slot:
    """A request, and its answer, for which any thread may wait, also again.

    Of a question `then` makes of the answer what it says. Where an exception comes before that is through, `cut` is called.
    Both are under the lock of the caller.
    """

    __slots__ = ("number", "line", "is_list", "lines", "answer", "written", "then", "cut", "_start", "_is_over", "_bells")

    def __init__(self, number: int, words: str, is_list: bool) -> None:
        tag = f"{number} "
        self.number, self.line, self.is_list = number, f"{tag}{words}\n".encode("ascii"), is_list
        # what its answers begin with; the greeting, which is number 0, has no tag
        self._start = tag.encode("ascii") if number else b""
        self.lines: List[bytes] = []
        # what comes after the tag of its last line; none where the connection was lost
        self.answer: Optional[bytes] = None
        # how many bytes were written, once they are
        self.written: List[int] = []
        self.then: Callable[[bytes], Any] = _itself
        self.cut: Optional[Callable[[], None]] = None
        self._is_over = False
        self._bells: List[threading.Lock] = []

    def take(self, line: bytes) -> bool:
        """Takes a line, and returns whether the answer is whole. Raises `NoAnswer`."""
        if not self.owns(line):
            raise NoAnswer(f"the answer {line[:80]!r} came, and not one behind {self._start!r}")
        rest = line[len(self._start) :]
        if self.is_list and rest != b"ok" and not NOT_LISTED.fullmatch(rest):
            self.lines.append(rest)
            return False
        self.answer = rest
        self.end()
        return True

    def owns(self, line: bytes) -> bool:
        """Whether a line is one of its answer."""
        return line.startswith(self._start)

    def forget(self) -> None:
        """It isn't a question any more, so that it keeps nothing alive."""
        self.then, self.cut = _itself, None

    def end(self) -> None:
        """The answer is there, or there will be none. A second time does nothing."""
        self._is_over = True
        for bell in self._bells:
            try:
                bell.release()
            except RuntimeError:
                pass  # it was rung before

    def wait(self, seconds: float) -> bool:
        """Waits for the answer, and returns whether it is there, or known not to come."""
        if self._is_over:
            return True
        bell = self._new_bell()
        # who ends it marks that first and rings then
        return self._is_over or bell.acquire(timeout=seconds) or self._is_over

    def _new_bell(self) -> threading.Lock:
        """What rings once it is over. Each wait has one of its own, so that one which is interrupted takes nothing from another."""
        bell = threading.Lock()
        bell.acquire()
        self._bells.append(bell)
        return bell


class LateSlot(Slot):
    """A request whose answer may come after those to later ones. Who waits for it does something from time to time."""

    __slots__ = ("meanwhile",)

    meanwhile: Callable[[], None]

    def wait(self, seconds: float) -> bool:
        """Waits for the answer however long that takes."""
        bell = self._new_bell()
        while not (self._is_over or bell.acquire(timeout=SECONDS_BETWEEN_LOOKS)):
            self.meanwhile()
        return True


class Connection:
    """A process that answers lines, in their order, but for some that may be late. Requests are put under a lock of the caller.

    A thread reads the answers. It takes no lock of the store, and knows nothing of it: where nobody has the store
    any more, the pipe is closed, and the process ends by itself.
    """

    def __init__(self, words: List[str], limit: float) -> None:
        """Starts the program. Raises `CannotOpen`."""
        self.limit, self._patience = limit, min(max(limit, 0.0), threading.TIMEOUT_MAX)
        self.on_loss: Callable[[], None] = _nothing
        # the reasons for which it isn't to be used any more, and the first of them
        self._reasons: Deque[str] = deque()
        self.lost: Optional[str] = None
        # whether its end was asked for, nothing is written any more, and nothing is answered any more
        self._is_ending = self._is_cut = self._is_over = False
        # how many requests were made
        self.count = 0
        # what is in flight, and what was put last, which may not be written
        self._requests: Deque[Slot] = deque()
        self._last: Optional[Slot] = None
        # the request whose answer is being read, and those whose answers are late
        self._head: Optional[Slot] = None
        self._late: Deque[Slot] = deque()
        self._said = tempfile.TemporaryFile()
        self._process = self._started(words)
        self._to, self._from = _ends(self._process)
        self.greeting = Slot(0, "", False)
        self._requests.append(self.greeting)
        self._reader = threading.Thread(target=self._read, name="colock reader", daemon=True)
        self._reader.start()

    def _started(self, words: List[str]) -> "subprocess.Popen[bytes]":
        """The program in a session of its own: so Ctrl-C doesn't end it before its client."""
        try:
            return subprocess.Popen(
                words, bufsize=0, stdin=subprocess.PIPE, stdout=subprocess.PIPE, stderr=self._said, start_new_session=True
            )
        except (OSError, ValueError) as error:
            self._said.close()
            raise CannotOpen(f"{words[0]} can't be started: {error}") from error

    # ---- requests

    def made(self, words: str, is_list: bool = False) -> Slot:
        """A request that isn't put yet."""
        self.count += 1
        return Slot(self.count, words, is_list)

    def made_late(self, words: str, meanwhile: Callable[[], None]) -> Slot:
        """A request that isn't put yet, whose answer may be late."""
        self.count += 1
        slot = LateSlot(self.count, words, False)
        slot.meanwhile = meanwhile
        return slot

    def put(self, slot: Slot) -> None:
        """Puts a request: those that were put before it are done before it. A second time does nothing.

        A signal handler may raise here at any place. `Slot.written` says then whether the program gets it.
        """
        if slot.written:
            return
        last = self._last
        if last is not None and not last.written:
            # it isn't in flight, since a signal handler came before
            _remove(self._requests, last)
        self._last = slot
        # it is in flight before it is looked whether all is over: who sees the end marks that first, and then ends all
        self._requests.append(slot)
        if self.lost is not None or self._is_over or self._is_cut:
            self._end_all()
            return
        try:
            # in one step of C, so no handler comes between; and a pipe takes a line of this length whole or not at all
            slot.written.extend(map(os.write, (self._to,), (slot.line,)))
        except OSError as error:
            if error.errno is None:
                raise  # a handler's, of a time that is over
            # where the program has ended the reader says why, with what it said
            self._reader.join(2 * SECONDS_TO_END)
            self.lose(f"the program takes no requests: {error}")

    def send(self, words: str, is_list: bool = False) -> Slot:
        """A request that is put."""
        slot = self.made(words, is_list)
        self.put(slot)
        return slot

    def wait(self, slot: Slot) -> bytes:
        """The answer to a request. Raises `ConnectionLost`."""
        if not slot.wait(self._patience):
            self.lose(f"no answer within {self.limit:g} seconds")
        if slot.answer is None:
            raise ConnectionLost(self.lost or "the end was asked for before")
        return slot.answer

    def lose(self, words: str) -> None:
        """The connection is lost: the process is killed, and whoever waits is woken. The first reason stays."""
        self._reasons.append(words)
        self.lost = self._reasons[0]
        self._process.kill()
        self._end_all()

    def _end_all(self) -> None:
        """What is in flight gets no answer. Where it is lost, whoever sleeps is woken."""
        for waiting in self._requests, self._late:
            while True:
                try:
                    slot = waiting.popleft()
                except IndexError:
                    break
                slot.end()
        if self.lost is not None:
            self.on_loss()

    # ---- the thread that reads

    def _read(self) -> None:
        """Reads answers until the output ends."""
        why: Optional[str] = None
        try:
            for line in self._lines():
                self._take(line)
        except NoAnswer as error:
            why = str(error)
        except OSError as error:
            why = f"the answers can't be read: {error}"
        self._end_reading(why)

    def _lines(self) -> Iterator[bytes]:
        rest = b""
        while True:
            chunk = os.read(self._from, 65_536)
            if not chunk:
                return
            *lines, rest = (rest + chunk).split(b"\n")
            yield from lines
            if len(rest) > LONGEST_LINE:
                raise NoAnswer(f"the line {rest[:80]!r} has no end")

    def _take(self, line: bytes) -> None:
        slot, self._head = self._head, None
        if slot is None:
            slot = self._asked(line)
        # it is the head also where the line isn't an answer, so that it is failed
        self._head = slot
        if slot.take(line):
            self._head = None

    def _asked(self, line: bytes) -> Slot:
        """The request that a line answers: one that is late, or the next one. Raises `NoAnswer` where nothing was asked."""
        late = next((slot for slot in list(self._late) if slot.owns(line)), None) if self._late else None
        if late is not None:
            _remove(self._late, late)
            return late
        while True:
            try:
                slot = self._requests.popleft()
            except IndexError:
                raise NoAnswer(f"the answer {line[:80]!r} came, and nothing was asked") from None
            if not isinstance(slot, LateSlot) or slot.owns(line):
                return slot
            self._late.append(slot)

    def _end_reading(self, why: Optional[str]) -> None:
        """No answer comes any more: the process is reaped, and what is in flight is failed."""
        if why is not None:
            self._process.kill()
        status = self._reaped()
        if not self._is_ending or self._head or self._requests or self._late or status or why:
            self._reasons.append(why or self._told_end(status))
            self.lost = self._reasons[0]
        self._is_over = True
        if self._head is not None:
            self._head.end()
        self._end_all()
        if self._process.stdout is not None:
            self._process.stdout.close()
        self._said.close()

    def _reaped(self) -> int:
        """The status of the process, which is killed where it doesn't end."""
        try:
            return self._process.wait(SECONDS_TO_END)
        except subprocess.TimeoutExpired:
            self._process.kill()
            return self._process.wait()

    def _told_end(self, status: int) -> str:
        said = self.said()
        if said:
            return said
        if status < 0:
            return f"the program was killed by signal {_signal_name(-status)}"
        return f"the program ended with status {status}"

    # ---- what the program said on standard error

    def _all_said(self) -> bytes:
        try:
            # read at a place, since the program writes on where the file is
            return os.pread(self._said.fileno(), MOST_SAID, 0)
        except (OSError, ValueError):
            return b""  # it is closed, since all is over

    def said(self) -> str:
        """What the program said, but for the line of what it found."""
        lines = [line for line in self._all_said().split(b"\n") if not FOUND.search(line)]
        return b"\n".join(lines).decode("utf-8", "replace").strip()

    def found(self) -> Optional[Opened]:
        """How many events the file had, and how many aborts were added; None where it isn't said."""
        found = FOUND.search(self._all_said())
        return Opened(int(found[1]), int(found[2])) if found else None

    # ---- the end

    def end(self) -> Slot:
        """The request for the end, which isn't put yet."""
        self._is_ending = True
        return self.made("end")

    def finish(self) -> None:
        """Waits until the process has ended, which is killed where it takes longer than the limit.

        What is put after this gets no answer. A second time only waits.
        """
        self._close_input()
        self._reader.join(self._patience)
        if self._reader.is_alive():
            self.lose(f"the program didn't end within {self.limit:g} seconds")
            self._reader.join()

    def _close_input(self) -> None:
        self._is_cut = True
        if self._process.stdin is not None:
            self._process.stdin.close()

    def let_go(self) -> None:
        """Nobody has the store any more: the end of the input makes the process end."""
        self._is_ending = True
        self._close_input()

    def after_fork(self) -> None:
        """The process is a fork: its ends of the pipe are closed, and the child isn't its own."""
        self.lost = self.lost or "the process is a fork of the one that opened the store"
        self._close_input()
        if self._process.stdout is not None:
            self._process.stdout.close()
        self._said.close()
        self._process.returncode = 0  # there is none to wait for


def _nothing() -> None:
    """A loss wakes nobody."""


def _remove(slots: Deque[Slot], slot: Slot) -> None:
    """Takes one out, where it is there."""
    try:
        slots.remove(slot)
    except ValueError:
        pass


def _ends(process: "subprocess.Popen[bytes]") -> Tuple[int, int]:
    """Where the process reads, and where it writes."""
    assert process.stdin is not None and process.stdout is not None
    return process.stdin.fileno(), process.stdout.fileno()


def _signal_name(number: int) -> str:
    try:
        return signal.Signals(number).name
    except ValueError:
        return str(number)
