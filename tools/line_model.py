"""What a line to a store that is served asks: a part of the model of such a store (tools/store_model.py), written from
docs/formats.md.
"""
import re

LONGEST, MOST_ASKED = 4_096, 64
# What comes after each verb: a transaction, an object, a number, a name, the name of an object, a key, a decision, or a
# key behind `=`; before a star what comes once or more. The last two verbs are those of requests under keys.
WORDS = {"begin": "", "call": "ton", "would": "ton", "commit": "t", "abort": "t", "rollback": "tx", "kept": "o",
         "objects": "", "types": "", "events": "xx", "stats": "", "end": "", "extend": "w*", "find": "m",
         "do": "on*", "peek": "on*", "committed": "o*", "outcome": "k", "prepare": "tkx", "decide": "kd", "prepared": "",
         "commit KEY": "tk", "do KEY": "=on*"}


class Fault(Exception):
    """Why a line is no request."""


def is_name(word):
    return re.fullmatch(r"[a-z0-9_:-]{1,32}", word) is not None


def is_object_name(word):
    return re.fullmatch(r"[a-zA-Z0-9_:./-]{1,64}", word) is not None


def is_key(word):
    return re.fullmatch(r"[a-zA-Z0-9_:.-]{1,64}", word) is not None


def object_asked(word):
    """An object by its number, or by its name, which is a text."""
    if word.startswith("@") and is_object_name(word[1:]):
        return word[1:]
    return number(word)


def number(word):
    if not re.fullmatch(r"0|[1-9][0-9]{0,9}", word) or int(word) >= 1 << 32:
        raise Fault("BadNumber")
    return int(word)


def transaction(word):
    life, point, behind = word.partition(".")
    if not point:
        raise Fault("BadNumber")
    return number(life), number(behind)


def form_of(verb, count):
    """What so many words after a verb are, or as many as may be there."""
    form = WORDS[verb]
    if not form.endswith("*"):
        return form
    first = form.startswith("=")
    return form[:first] + form[first:-1] * max(1, min((count - first) // len(form[first:-1]), MOST_ASKED))


def verb_of(words):
    """The verb, by whether there is a key."""
    is_keyed = words[0] == "commit" and len(words) == 3 or words[0] == "do" and words[1:] and words[1].startswith("=")
    return f"{words[0]} KEY" if is_keyed else words[0]


def asked(words):
    """The verb and what comes after it."""
    if not words or words[0] not in WORDS or " " in words[0]:
        raise Fault("UnknownVerb")
    if words[0] == "extend":
        if len(words) < 3:
            raise Fault("BadWords")
        return words
    verb = verb_of(words)
    form = form_of(verb, len(words) - 1)
    tests = {"n": is_name, "m": is_object_name, "k": is_key, "=": lambda word: is_key(word[1:]),
             "d": lambda word: word in ("commit", "abort")}
    if len(words) != len(form) + 1 or any(f in tests and not tests[f](word) for f, word in zip(form, words[1:])):
        raise Fault("BadWords")
    read = {"t": transaction, "x": number, "o": object_asked, "n": str, "m": str, "k": str, "d": str,
            "=": lambda word: word[1:]}
    return [verb] + [read[f](word) for f, word in zip(form, words[1:])]


def line_asked(line):
    """The tag, and what is asked or a fault."""
    if len(line) + 1 > LONGEST:
        return "-", Fault("TooLong")
    if any(byte < 32 or byte > 126 for byte in line):
        return "-", Fault("NotAscii")
    tag, *words = line.decode().split(" ")
    if not is_name(tag):
        return "-", Fault("BadTag")
    try:
        return tag, asked(words)
    except Fault as fault:
        return tag, fault
