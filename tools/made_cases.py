"""Cases that are worked out: types and texts as large as they may be, each beginning of a text, and what other cases
say of the same types and histories by another command."""
import dataclasses
import re

from case_files import Case, Expected, Session, Step, shared

COUNTER = {"ctr2.type": shared("ctr2.type")}
NO_FAULT = Expected(b"colock: no.type: cannot read\n")

# How a file of each command is read up to its first fault. A type file that isn't there comes after it.
READERS = {"run": ("run",), "audit": ("audit",), "work": ("work", "--workers", "{workers}"),
           "stress": ("work", "--workers", "{workers}")}


def lines(*texts):
    return "".join(f"{text}\n" for text in texts).encode()


# Types of 1,024 states.

SET_PAIRS = {"undo": [(0, 1), (0, 3), (1, 0), (1, 2), (2, 0), (3, 1)],
             "intentions": [(0, 1), (0, 3), (1, 0), (1, 2), (2, 1), (3, 0)]}


def set_steps(s, e):
    """The steps of element e in state s, which is the set of the elements whose bit is one in s."""
    bit, insert = 1 << e, 4 * e
    member = insert + 2 if s & bit else insert + 3
    return [f"step {s} {insert} {s | bit}", f"step {s} {insert + 1} {s & ~bit}", f"step {s} {member} {s}"]


def set_of_ten():
    """The set of ten elements. Of one element `insert` is 0, `delete` 1, `member` 2 for `true` and 3 for `false`."""
    ops = [f"op {op}" for e in "abcdefghij"
           for op in (f"insert:{e} ok", f"delete:{e} ok", f"member:{e} true", f"member:{e} false")]
    steps = [line for s in range(1024) for e in range(10) for line in set_steps(s, e)]
    pairs = [f"conflict {kind} {4 * e + p} {4 * e + q}" for kind, of_one in SET_PAIRS.items()
             for e in range(10) for p, q in of_one]
    return lines("type set", "states 1024", "initial 0", *ops, *steps, *pairs, "end")


def of_64_operations(*behind):
    """A type of the most states and operations."""
    return lines("type large", "states 1024", "initial 0", *(f"op call:{k} ok" for k in range(64)), *behind)


def largest():
    """Operation 63 is legal at the last state alone and leads to state 0. Each other one leads back everywhere."""
    steps = (f"step {s} {k} {s}" for s in range(1024) for k in range(63))
    return of_64_operations(*steps, "step 1023 63 0", "end")


def circle():
    """Operation k leads k states on, in a circle."""
    return of_64_operations(*(f"step {s} {k} {(s + k) % 1024}" for s in range(1024) for k in range(64)))


def countdown():
    """The one operation takes one away where there is one."""
    return lines("type down", "states 1024", "initial 1023", "op down down", *(f"step {t + 1} 0 {t}" for t in range(1023)))


def checked(name, kind, text, line):
    status = 0 if line.startswith("yes") else 1
    return Case(name, ("check", kind, "the.type"), {"the.type": text}, Expected(lines(line)), status=status)


def large_checks():
    text = set_of_ten()
    fewer = text.replace(b"conflict undo 0 1\n", b"", 1)
    yield Case("large: the set of ten is made", ("make", "set", "0", *"abcdefghij"), {}, Expected(text))
    yield checked("large: the set of ten in place", "undo", text, "yes strong")
    yield checked("large: the set of ten deferred", "intentions", text, "yes strong")
    yield checked("large: the set of ten with a pair less in place", "undo", fewer, "no NotCommuting 0 1 0")
    yield checked("large: the set of ten with a pair less deferred", "intentions", fewer, "yes strong")
    yield checked("large: the largest type", "intentions", largest(), "no NotCommuting 63 63 1023")


def large_tables():
    """The smaller number of a countdown allows fewer steps; all states of a circle look alike."""
    for name, text, related, conflicts in (
            ("countdown", countdown(), lambda s, t: s < t, ["conflict intentions 0 0"]),
            ("circle", circle(), lambda s, t: s != t, [])):
        pairs = (f"equi {s} {t}" for s in range(1024) for t in range(1024) if related(s, t))
        yield Case(f"large: the tables of the {name}", ("tables", "the.type"), {"the.type": text + lines("end")},
                   Expected(text + lines(*pairs, *conflicts, "end")))


# Texts with as much as there may be.

def many_begins():
    """The last of 1,025 begins is refused, since 1,024 transactions are open."""
    script = lines("max 2048", "object undo 0", *["begin"] * 1025, "end")
    begun, aborted = ([f"{word} 0 {t}" for t in range(1024)] for word in ("begin", "abort"))
    out = lines("object undo 0", *begun, "# refused 4 TooManyOpen", *aborted, "end", "# kept 0 0", "# audit yes",
                "# serial 0 0")
    return Case("large: 1,025 begins", ("run", "the.script", "ctr2.type"), {"the.script": script, **COUNTER}, Expected(out))


def full_and_open():
    """The end of one of 1,024 open transactions lets another begin, as long as the history has room for it and its end."""
    script = lines("max 2050", "object undo 0", *["begin"] * 1025, "commit 500", "begin", "begin", "abort 1024", "begin", "end")
    begun, aborted = ([f"{word} 0 {t}" for t in range(1024)] for word in ("begin", "abort"))
    out = lines("object undo 0", *begun, "# refused 4 TooManyOpen", "commit 0 500", "begin 0 1024", "# refused 4 TooManyOpen",
                "abort 0 1024", "# refused 5 HistoryFull", *aborted[:500], *aborted[501:], "end", "# kept 0 0", "# audit yes",
                "# commit 500", "# serial 0 0")
    return Case("large: as many open as may be, in a history that gets full", ("run", "the.script", "ctr2.type"),
                {"the.script": script, **COUNTER}, Expected(out))


def objects():
    """Of 257 objects the last is refused, and of one more than a text says."""
    worded = ("run",), ("work", "--workers", "1"), ("audit",), ("create", "a.db")
    for command, front in zip(worded, (["max 2"], ["max 2"], [], [])):
        for most, said in (256, []), (300, ["objects 300"]), (65_536, ["objects 65536"]):
            for count in (most, most + 1):
                text = lines(*said, *front, *(f"object undo {file % most}" for file in range(count)), "end")
                fault = Expected(lines(f"colock: the.text: line {len(said) + len(front) + most + 1}: OutOfRange"))
                err, status = (NO_FAULT, 3) if count == most else (fault, 2)
                yield Case(f"large: {command[0]} of {count} objects", (*command, "the.text", "no.type"), {"the.text": text},
                           err=err, status=status)


# Stores of more than 256 objects, each of a counter that goes up to 2.

COUNTS = (257, 300, 1_000, 65_536)
KINDS = ("undo", "intentions", "escrow")


def sized(size, objects):
    """How a text of these objects begins that may have so many, and says it where they are more than 256."""
    return [*[f"objects {size}"] * (size > 256), *objects]


def of_all_kinds(count):
    return [f"object {KINDS[x % 3]} 0" for x in range(count)]


def states_of(word, count, states):
    """A comment line for each object: those that aren't in a state of these are in state 0."""
    return [f"# {word} {x} {states.get(x, 0)}" for x in range(count)]


def judged(count, states, *commits):
    """The audit that says yes."""
    return ["# audit yes", *(f"# commit {t}" for t in commits), *states_of("serial", count, states)]


def run_of_many(count):
    """The first counts up at objects on both sides of 256 and at the last, and the second at the last, where it waits
    if the update there is deferred. There is no object behind the last."""
    objects, last = of_all_kinds(count), count - 1
    places = [*sorted({0, 255, 256} - {last}), last]
    waits = KINDS[last % 3] == "intentions"
    script = lines(f"objects {count}", "max 20", *objects, "begin", "begin", *(f"call 0 {x} inc:1" for x in places),
                   f"call 1 {last} inc:1", f"call 0 {count} inc:1", "commit 0", "commit 1", "end")
    states = {**dict.fromkeys(places, 1), last: 1 if waits else 2}
    answer = f"busy 0 1 {last} 0 0" if waits else f"op 0 1 {last} 0"
    out = lines(*sized(count, objects), "begin 0 0", "begin 0 1", *(f"op 0 0 {x} 0" for x in places), answer,
                "# refused 2 NoObject", "commit 0 0", "commit 0 1", "end", *states_of("kept", count, states),
                *judged(count, states, 0, 1))
    return Case(f"many: a run of {count} objects", ("run", "the.script", "ctr2.type"), {"the.script": script, **COUNTER},
                Expected(out))


def jobs_of_many(count):
    """One worker counts up at the first and the last object; then its second job gives up at the one in between."""
    objects, last, among = of_all_kinds(count), count - 1, count // 2
    jobs = lines(f"objects {count}", "max 20", *objects, "job 0", "do 0 inc:1", f"do {last} inc:1", "job 0", f"do {last} dec:1",
                 f"do {among} dec:1", "end")
    states = {0: 1, last: 1}
    out = lines(*sized(count, objects), "begin 0 0", "op 0 0 0 0", f"op 0 0 {last} 0", "commit 0 0", "begin 0 1",
                f"op 0 1 {last} 1", f"none 0 1 {among} 1", "abort 0 1", "end", *states_of("kept", count, states),
                *judged(count, states, 0), "# job 0 0 committed 0", "# job 0 1 gaveup")
    for words in (("work",), ("stress", "--seed", "7")):
        yield Case(f"many: jobs at {count} objects: {words[0]}", (*words, "--workers", "1", "--tries", "1", "the.jobs", "ctr2.type"),
                   {"the.jobs": jobs, **COUNTER}, Expected(out))


def far_places():
    """A type's place is above 255: what is written says how many objects it may have, the least number."""
    for size, places in (300, [256]), (257, [0, 256]), (65_536, [299, *[0] * 279]), (300, [256, *[0] * 299]), (256, [255, 0]):
        objects = [f"object undo {place}" for place in places]
        script = lines(f"objects {size}", "max 2", *objects, "end")
        count, states = len(objects), {}
        out = lines(*sized(max(count, *(place + 1 for place in places)), objects), "end", *states_of("kept", count, states),
                    *judged(count, states))
        yield Case(f"many: {count} objects of {max(places) + 1} types",
                   ("run", "the.script", *["ctr2.type"] * (max(places) + 1)), {"the.script": script, **COUNTER}, Expected(out))


def refused_at_the_last():
    """The type of the last of 300 objects isn't accepted, isn't there, or is a number, which is for escrow."""
    reason = Expected(lines("# object 299 no NotCommuting 1 0 0")), Expected(), 1
    number = Expected(), Expected(lines("colock: the.text: object 299: number needs escrow")), 2
    absent = Expected(), Expected(lines("colock: the.text: object 299: no type 2")), 2
    rows = ("less.type", 1, reason), ("credit.type", 1, number), ("less.type", 2, absent)
    for command, front in (("run",), ["max 2"]), (("work", "--workers", "1"), ["max 2"]), (("create", "a.db"), []):
        for name, place, (out, err, status) in rows:
            text = lines("objects 300", *front, *["object undo 0"] * 299, f"object undo {place}", "end")
            yield Case(f"many: {command[0]} of 300 objects, {name} at the last, place {place}",
                       (*command, "the.text", "ctr2.type", name), {"the.text": text, **COUNTER, name: shared(name)}, out, err, status)


def history_of_many(count, *events):
    return lines(*sized(count, of_all_kinds(count)), *events, "end")


def audits_of_many(count):
    """Audits of histories whose events are at the last objects, in their own order and in another, and one after another."""
    last, before = count - 1, count - 2
    name, words = f"many: an audit at {count} objects", ("audit", "a.history", "ctr2.type")
    two = history_of_many(count, "begin 0 0", "begin 0 1", f"op 0 0 {last} 0", f"op 0 1 {before} 0", "commit 0 0", "commit 0 1")
    down = history_of_many(count, "begin 3 0", f"op 3 0 {last} 1", "commit 3 0")
    behind = history_of_many(count, "begin 0 0", f"op 0 0 {last} 0", "commit 0 0", "begin 0 1", f"op 0 1 {last} 0", "commit 0 1")
    others = lines(*sized(count, [*of_all_kinds(count)[:-1], "object undo 1"]), "end")
    strange = history_of_many(count, "begin 0 0", f"op 0 0 {last} 0", "rollback 0 0 1", "rollback 0 0 1")
    beyond = lines(f"objects {count}", *of_all_kinds(last), "begin 0 0", f"op 0 0 {last} 0", "end")
    ordered = ("audit", "--order", "1,0", *words[1:])
    after = ("audit", "--then", "b.history", *words[1:])
    states = {last: 1, before: 1}
    for kind, asked, text, other, out, err, status in (
            ("yes", words, two, None, judged(count, states, 0, 1), [], 0),
            ("in another order", ordered, two, None, judged(count, states, 1, 0), [], 0),
            ("illegal", words, down, None, [f"# audit no IllegalOp 0 {last} 0"], [], 1),
            ("no event", words, strange, None, ["# audit no BadEvent 3"], [], 1),
            ("no object", words, beyond, None, ["# audit no BadEvent 1"], [], 1),
            ("an order that is none", ordered, behind, None, [], ["colock: a.history: order: 0 precedes 1"], 2),
            ("one after another", after, two, down, judged(count, {before: 1}, "0.0", "0.1", "1.0"), [], 0),
            ("the other way around", after, down, two, [f"# audit no IllegalOp 0.0 {last} 0"], [], 1),
            ("other objects", after, two, others, [], ["colock: b.history: not the objects of a.history"], 2)):
        files = {"a.history": text, **({"b.history": other} if other else {}), **COUNTER}
        yield Case(f"{name}: {kind}", asked, files, Expected(lines(*out)), Expected(lines(*err)), status)


def many():
    """All of these."""
    for count in COUNTS:
        yield run_of_many(count)
        yield from jobs_of_many(count)
        yield from audits_of_many(count)
    yield from far_places()
    yield from refused_at_the_last()


# The same in a file.

def does(words, out=(), given=()):
    """A command that does what it is to do."""
    return Step(tuple(words), lines(*given), Expected(lines(*out)), Expected(), 0, words[0] != "serve")


def refuses(words, fault):
    """A command whose words or texts have a fault."""
    return Step(tuple(words), lines(), Expected(), Expected(lines(f"colock: {fault}")), 2, True)


def served(life, *lines_and_answers):
    """Lines that are served in a life, each with its answer."""
    given, told = zip(*((f"a {line}", [f"a {told}" for told in answer]) for line, *answer in lines_and_answers))
    return does(["serve", "a.db"], [f"colock 5 {life}", *(line for answer in told for line in answer)], given)


def file_of_many(count):
    """A file of so many objects: it is made, served at its last object, served anew, and audited."""
    objects, last = of_all_kinds(count), count - 1
    empty = [*sized(count, objects), "end"]
    states = {0: 1, last: 2}
    first = served(1, ("begin", "ok 1.0"), ("call 1.0 0 inc:1", "reply ok"), (f"call 1.0 {last} inc:1", "reply ok"),
                   (f"call 1.0 {last} inc:1", "reply ok"), (f"call 1.0 {last} inc:1", "none"), (f"call 1.0 {count} inc:1", "refused NoObject"),
                   (f"would 1.0 {count} inc:1", "refused NoObject"), (f"kept {count}", "refused NoObject"), ("commit 1.0", "ok"),
                   (f"kept {last}", "ok 2"), ("begin", "ok 1.1"), (f"call 1.1 {last} dec:1", "reply ok"),
                   ("events 0 9", "begin 0 0", "op 0 0 0 0", f"op 0 0 {last} 0", f"op 0 0 {last} 0", f"none 0 0 {last} 0",
                    "commit 0 0", "begin 0 1", f"op 0 1 {last} 1", "ok"),
                   ("objects", *objects, "ok"), ("end", "ok"))
    second = served(3, (f"kept {last}", "ok 2"), ("kept 0", "ok 1"), ("kept 1", "ok 0"), ("stats", "ok events 0 begun 0 open 0 prepared 0"),
                    ("begin", "ok 3.0"), (f"call 3.0 {last} dec:1", "reply ok"), ("commit 3.0", "ok"), ("end", "ok"))
    steps = (does(["create", "a.db", "the.objects", "ctr2.type"]), does(["history", "a.db"], empty),
             does(["audit", "--database", "a.db"], judged(count, {})), first, does(["history", "a.db"], empty),
             does(["audit", "--database", "a.db"], judged(count, states)), second,
             does(["audit", "--database", "a.db"], judged(count, {0: 1, last: 1})))
    return Session(f"many: a file of {count} objects", {"the.objects": lines(*empty), **COUNTER}, steps)


def file_of_far_places():
    """A file of 300 types, whose one object is of the last. It says the least that it needs."""
    types = ["ctr2.type"] * 300
    text = lines("objects 65536", "object undo 299", "end")
    one = [line.decode() for line in COUNTER["ctr2.type"].splitlines()]
    steps = (does(["create", "a.db", "the.objects", *types]), does(["history", "a.db"], ["objects 300", "object undo 299", "end"]),
             does(["audit", "--database", "a.db"], judged(1, {})),
             served(1, ("objects", "object undo 299", "ok"), ("begin", "ok 1.0"), ("call 1.0 0 inc:1", "reply ok"), ("commit 1.0", "ok"),
                    ("types", *[*one, ""] * 300, "ok")))
    return Session("many: a file of 300 types", {"the.objects": text, **COUNTER}, steps)


def file_that_grows(count, more):
    """A file of so many objects, and then of more, up to which they are numbered."""
    old, new = of_all_kinds(count), of_all_kinds(more)
    total, every = count + more, [*old, *new]
    whole = [*sized(total, every), "end"]
    first = served(1, ("begin", "ok 1.0"), (f"call 1.0 {count - 1} inc:1", "reply ok"), (f"call 1.0 {count} inc:1", "refused NoObject"),
                   ("commit 1.0", "ok"))
    second = served(4, (f"kept {count - 1}", "ok 1"), (f"kept {count}", "ok 0"), ("begin", "ok 4.0"),
                    (f"call 4.0 {total - 1} inc:1", "reply ok"), (f"call 4.0 {total} inc:1", "refused NoObject"), ("commit 4.0", "ok"))
    steps = (does(["create", "a.db", "the.objects", "ctr2.type"]), first, does(["extend", "a.db", "more.objects", "ctr2.type"]),
             does(["history", "a.db"], whole), does(["audit", "--database", "a.db"], judged(total, {count - 1: 1})), second,
             does(["audit", "--database", "a.db"], judged(total, {count - 1: 1, total - 1: 1}, 0)))
    texts = {"the.objects": lines(*sized(count, old), "end"), "more.objects": lines(*sized(more, new), "end")}
    return Session(f"many: a file of {count} objects, and then of {total}", {**texts, **COUNTER}, steps)


def file_that_is_full():
    """A file of 65,535 objects, which may have one more, and no two more."""
    some = of_all_kinds(65_535)
    texts = {"the.objects": lines(*sized(65_535, some), "end"), "one.objects": lines("object undo 0", "end"),
             "two.objects": lines("object undo 0", "object undo 0", "end")}
    one = does(["extend", "a.db", "one.objects", "ctr2.type"])
    steps = (does(["create", "a.db", "the.objects", "ctr2.type"]), refuses(["extend", "a.db", "two.objects", "ctr2.type"], "TooLarge"), one,
             refuses(["extend", "a.db", "one.objects", "ctr2.type"], "TooLarge"),
             served(3, ("begin", "ok 3.0"), ("call 3.0 65535 inc:1", "reply ok"), ("call 3.0 65536 inc:1", "refused NoObject")))
    return Session("many: a file that is full", {**texts, **COUNTER}, steps)


def longest_requests():
    """Lines of requests about as long as they may be."""
    given = ["A" * 4_095, "\t" * 4_096, "a" * 4_096, "a " + "b" * 4_093, "a " + "b" * 4_094, "a begin"]
    faults = ["- fault BadTag", "- fault TooLong", "- fault TooLong", "a fault UnknownVerb", "- fault TooLong"]
    steps = (does(["create", "a.db", "the.objects", "ctr2.type"]), does(["serve", "a.db"], ["colock 5 1", *faults, "a ok 1.0"], given))
    return Session("longest: requests", {"the.objects": lines("object undo 0", "end"), **COUNTER}, steps)


def made_sessions():
    """Commands at a file, one after another."""
    grown = [file_that_grows(*counts) for counts in ((1, 1), (1, 300), (255, 1), (256, 1), (300, 300), (60_000, 5_536))]
    return [*map(file_of_many, COUNTS), file_of_far_places(), *grown, file_that_is_full(), longest_requests()]


# Beside other cases.

def until_end(text):
    """A text up to its line `end`: there may be comments behind it."""
    return text[: text.find(b"\nend\n") + 5]


def read_texts(case):
    """The texts of a case that are read line by line, each with the words that read one."""
    if not case.files or case.words[0] not in READERS or b": line " in case.err.text:
        return
    workers = re.search(r"--workers[ =](\d+)", " ".join(case.words))
    words = tuple(word.format(workers=workers and workers[1]) for word in READERS[case.words[0]])
    yield words, until_end([*case.files.values()][0])
    if case.out.text.startswith(b"object"):
        yield READERS["audit"], until_end(case.out.text)


def beginnings(cases):
    """Each proper beginning of a text lacks what is missing, or ends in a line without its end. Each is tried once."""
    tried = set()
    for case in cases:
        for words, text in read_texts(case):
            for size in range(len(text)):
                part = text[:size]
                if (words, part) in tried:
                    continue
                tried.add((words, part))
                fault = "Missing" if part == b"" or part.endswith(b"\n") else "Unterminated"
                line = part.count(b"\n") + 1
                err = lines(f"colock: the.text: line {line}: {fault}")
                yield Case(f"{case.name}: the first {size} bytes of what {words[0]} reads", (*words, "the.text", "no.type"),
                           {"the.text": part}, err=Expected(err), status=2)


def audited(case):
    """The audit of a history that a case writes says what the case says of it."""
    if case.out.text.startswith(b"object"):
        types = case.words[case.words.index([*case.files][0]) + 1 :]
        said = case.out.text[case.out.text.index(b"# audit ") :].partition(b"# job ")[0]
        yield Case(f"{case.name}: its history audited", ("audit", "a.history", *types),
                   {"a.history": case.out.text, **case.files}, Expected(said))


def run_too(case):
    """A script with one object of a type that is checked has the same verdict. `check` takes all processors for it,
    and `run` takes one thread."""
    if case.words[:1] == ("check",) and case.status in (0, 1):
        kind, path = case.words[1:]
        out = case.out.text.replace(b"no ", b"# object 0 no ", 1)
        expected = Expected(out) if case.status else Expected(lines(f"object {kind} 0", "end"), "begins")
        files = {"the.script": lines("max 2", f"object {kind} 0", "end"), path: case.files[path]}
        yield dataclasses.replace(case, name=f"{case.name}: run", words=("run", "the.script", path), files=files,
                                  out=expected)


def with_made(cases):
    """The cases, and those that are worked out."""
    begins = many_begins()
    all_there = [*cases, *large_checks(), *large_tables(), begins, full_and_open(), *objects(), *many()]
    beside = [made for case in all_there for make in (audited, run_too) for made in make(case)]
    return [*all_there, *beside, *beginnings([*cases, dataclasses.replace(begins, out=Expected())])]
