"""The type files at which is measured."""
import itertools
import os
import subprocess

import programs

ELEMENTS = "abcdefghij"


def text_of(lines):
    return "\n".join([*lines, "end", ""])


def set_calls(element):
    """The four operations of an element, as (call, reply, legal in a state of its bit, next bit)."""
    return [(f"insert:{element}", "ok", lambda bit: True, lambda bit: 1),
            (f"delete:{element}", "ok", lambda bit: True, lambda bit: 0),
            (f"member:{element}", "true", lambda bit: bit == 1, lambda bit: bit),
            (f"member:{element}", "false", lambda bit: bit == 0, lambda bit: bit)]


def end(calls, bit, first, second):
    for place in (first, second):
        if bit is None or not calls[place][2](bit):
            return None
        bit = calls[place][3](bit)
    return bit


def conflicts(kind):
    """The pairs of one element's operations whose condition fails at one of its two bits."""
    calls = set_calls("x")

    def fails(p, q, bit):
        held_first, requested_first = end(calls, bit, q, p), end(calls, bit, p, q)
        if kind == "undo":
            return held_first is not None and held_first != requested_first
        both = calls[p][2](bit) and calls[q][2](bit)
        return both and (held_first is None or held_first != requested_first)

    return [(p, q) for p, q in itertools.product(range(4), repeat=2)
            if any(fails(p, q, bit) for bit in (0, 1))]


def set_of(elements):
    """Four operations for each element: state s is the set of the elements whose bit is one in s."""
    states = 1 << len(elements)
    lines = ["type set", f"states {states}", "initial 0"]
    calls = [set_calls(element) for element in elements]
    lines += [f"op {call} {reply}" for of in calls for call, reply, _, _ in of]
    for s in range(states):
        for e, of in enumerate(calls):
            bit = s >> e & 1
            for k, (_, _, legal, following) in enumerate(of):
                if legal(bit):
                    lines.append(f"step {s} {4 * e + k} {s & ~(1 << e) | following(bit) << e}")
    for kind in programs.KINDS:
        pairs = [(4 * e + p, 4 * e + q) for e in range(len(elements)) for p, q in conflicts(kind)]
        lines += [f"conflict {kind} {p} {q}" for p, q in sorted(pairs)]
    return text_of(lines)


def set_of_ten():
    """40 operations and 1,024 states."""
    return set_of(ELEMENTS)


def timed():
    """The names and the texts of the types whose reading is timed."""
    yield "set of ten", set_of_ten()
    if programs.few(True, False):
        yield "largest", largest()


def largest():
    """Every line that a type file may have: each operation leads from each state to itself."""
    states, ops = range(1024), range(64)
    lines = ["type largest", "states 1024", "initial 0"]
    lines += [f"op call:{k} ok" for k in ops]
    lines += [f"step {s} {k} {s}" for s in states for k in ops]
    lines += [f"reach {s}" for s in states]
    lines += [f"equi {s} {t}" for s in states for t in states if s != t]
    for kind in programs.KINDS:
        lines += [f"conflict {kind} {p} {q}" for p in ops for q in ops]
    return text_of(lines)


def modulo():
    """A counter of 1,024 states that goes on with 0, and that nothing but itself is called at."""
    steps = [f"step {s} 0 {(s + 1) % 1024}" for s in range(1024)]
    return text_of(["type modulo", "states 1024", "initial 0", "op inc:1 ok"] + steps)


def of_one_state(name, ops, steps, pairs):
    """A type of one state, with these operations, the legal ones, and conflicts of both kinds."""
    lines = [f"type {name}", "states 1", "initial 0"] + [f"op {op}" for op in ops]
    lines += [f"step 0 {k} 0" for k in steps]
    lines += [f"conflict {kind} {p} {q}" for kind in programs.KINDS for p, q in pairs]
    return text_of(lines)


def names(calls):
    """This many calls, each with one operation."""
    return of_one_state(f"names{calls}", [f"call:{k} ok" for k in range(calls)], range(calls), [])


def replies(ops):
    """One call with this many operations, of which the last alone is legal."""
    return of_one_state(f"replies{ops}", [f"call reply:{k}" for k in range(ops)], [ops - 1], [])


def rival():
    """Two calls, of which one conflicts with itself."""
    return of_one_state("rival", ["shared ok", "alone ok"], [0, 1], [(1, 1)])


def made(family, greatest, amounts, initial=0):
    """What `colock make` makes of a family, beginning at a state."""
    words = [programs.built(), "make", family, str(greatest), *map(str, amounts)]
    text = subprocess.run(words, check=True, capture_output=True, text=True).stdout
    return text.replace("\ninitial 0\n", f"\ninitial {initial}\n")


def write_all(folder):
    """A file NAME.type for each type at which stores are timed."""
    texts = {"modulo": modulo(), "rival": rival(), "counter": made("counter", 1000, [1]), "account": made("account", 50, [1])}
    texts |= {f"names{calls}": names(calls) for calls in (1, 8, 64)}
    texts |= {f"replies{ops}": replies(ops) for ops in (1, 8, 64)}
    for name, text in texts.items():
        programs.written(folder, f"{name}.type", text)


def at(folder, name):
    return os.path.join(folder, f"{name}.type")
