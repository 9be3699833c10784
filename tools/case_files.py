"""Cases of commands, as the files of cases/ have them: cases/README.md says the form."""
import dataclasses
import glob
import itertools
import os
import re
import shlex

FOLDER = os.path.join(os.path.dirname(os.path.dirname(os.path.abspath(__file__))), "cases")

BLOCK = re.compile(r"^(?==== )", re.M)
PART = re.compile(r"^--- (.*)\n", re.M)
WORDS = re.compile(r"^\$ colock\b(.*)$", re.M)
SPELLED = re.compile(rb"\\(?:\n|x([0-9a-f]{2}))")


@dataclasses.dataclass(frozen=True)
class Expected:
    """What a stream is, or how it begins, or what it has; and how many of its lines begin with a text."""
    text: bytes = b""
    how: str = "is"
    lines: tuple = ()

    def differences(self, got):
        """How it is other than that."""
        there = got[: len(self.text)] if self.how == "begins" else got
        if self.how == "has":
            if self.text not in got:
                yield f"{got!r} has no {self.text!r}"
        elif there != self.text:
            pairs = itertools.zip_longest(there.splitlines(True), self.text.splitlines(True), fillvalue=b"")
            number, (line, wanted) = next((n, pair) for n, pair in enumerate(pairs, 1) if pair[0] != pair[1])
            yield f"line {number} is {line!r}, and not {wanted!r}"
        for count, start in self.lines:
            if (found := (b"\n" + got).count(b"\n" + start)) != count:
                yield f"{found} lines begin with {start!r}, and not {count}"


@dataclasses.dataclass(frozen=True)
class Case:
    """A command, its files, and what comes of it. The name says where it is, and the sentence what it is of."""
    name: str
    words: tuple
    files: dict
    out: Expected = Expected()
    err: Expected = Expected()
    status: int = 0
    sentence: str = ""


def shared(name):
    """A file that cases share."""
    with open(os.path.join(FOLDER, "files", name), "rb") as file:
        return file.read()


def spelled(text):
    """The bytes that a part spells."""
    return SPELLED.sub(lambda match: bytes.fromhex((match[1] or b"").decode()), text.encode())


def replaced(text, old, new):
    """A text with another part in place of one that it has."""
    if not old or old not in text:
        raise ValueError(f"there is no {old!r} to replace")
    return text.replace(old, new, 1)


def parts_of(block):
    """The files, the streams and the status of a block."""
    files, streams, status, last, old = {}, {"out": Expected(), "err": Expected()}, 0, "", b""
    parts = PART.split(block)[1:]
    for head, text in zip(parts[::2], map(spelled, parts[1::2])):
        name, _, rest = head.partition(" ")
        if rest.startswith("="):
            text, rest = shared(rest[1:].strip() or name), ""
        if name == "status":
            status = int(rest)
        elif name == "lines":
            streams["out"] = dataclasses.replace(streams["out"], lines=((int(rest), text),))
        elif name == "replace":
            old = text
        elif name == "by":
            files[last] = replaced(files[last], old, text)
        elif name in streams:
            streams[name] = Expected(text, rest or "is")
        else:
            files[name], last = text, name
    return files, streams, status


def cases_of(name):
    """The cases of a file of cases: a block has one for each of its commands."""
    with open(os.path.join(FOLDER, name), encoding="utf-8") as file:
        blocks = BLOCK.split(file.read())
    line = 1
    for block in blocks:
        text = block[:-1] if block.endswith("\n\n") else block
        for words in WORDS.findall(text) if text.startswith("=== ") else ():
            files, streams, status = parts_of(text)
            yield Case(f"cases/{name}:{line}", tuple(shlex.split(words)), files, streams["out"], streams["err"], status,
                       text[4:].partition("\n")[0])
        line += block.count("\n")


def case_of(name, sentence):
    """The one case of a file of cases with this sentence."""
    case, = [case for case in cases_of(name + ".cases") if case.sentence == sentence]
    return case


def all_cases():
    """The cases of all files of cases."""
    for path in sorted(glob.glob(os.path.join(FOLDER, "*.cases"))):
        yield from cases_of(os.path.basename(path))


# ---- sessions: several commands in one folder, one after another

COMMAND = re.compile(r"^\$ colock\b(.*)\n", re.M)


@dataclasses.dataclass(frozen=True)
class Step:
    """A command of a session: its words, its standard input, and what comes of it. Before that input it is given pieces, each
    with what it has told by the time when more is given."""
    words: tuple
    given: bytes
    out: Expected
    err: Expected
    status: int
    says: bool
    pieces: tuple = ()


@dataclasses.dataclass(frozen=True)
class Session:
    """Files, and commands in their folder. The name says where it is."""
    name: str
    files: dict
    steps: tuple


def texts_of(text):
    """The parts of a text by their names; one that names a shared file has its text."""
    split = PART.split(text)[1:]
    for head, part in zip(split[::2], split[1::2]):
        name, is_shared, other = head.partition(" =")
        yield name, shared(other.strip() or name) if is_shared else spelled(part)


def step_of(words, text):
    """The command with these words, and the parts after it."""
    parts = list(texts_of(text))
    status = next((int(name.split(" ")[1]) for name, _ in parts if name.startswith("status ")), 0)
    given, told, said = ([part for name, part in parts if name == asked] for asked in ("in", "out", "err"))
    pieces = tuple(zip(given[:-1], told[:-1]))
    return Step(tuple(shlex.split(words)), b"".join(given[len(pieces) :]), Expected(b"".join(told)), Expected(b"".join(said)), status,
                bool(said), pieces)


def all_sessions():
    """The sessions of all files of sessions."""
    for path in sorted(glob.glob(os.path.join(FOLDER, "*.sessions"))):
        with open(path, encoding="utf-8") as file:
            blocks = BLOCK.split(file.read())
        line = 1
        for block in blocks:
            if block.startswith("=== "):
                files, *steps = COMMAND.split(block[:-1] if block.endswith("\n\n") else block)
                name = f"cases/{os.path.basename(path)}:{line}"
                yield Session(name, dict(texts_of(files)), tuple(map(step_of, steps[::2], steps[1::2])))
            line += block.count("\n")
