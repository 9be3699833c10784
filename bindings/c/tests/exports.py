#!/usr/bin/env python3
"""exports.py [--plant]: whether the header, and the tables of Rust and of Python, are those of the library.

What the library exports is read in crates/colock_c/src and crates/library_calls/src: each `extern "C"` function and
each `repr(C)` struct, whose sizes and offsets follow from it. Compared with the header are the names and parameters of
each call, the fields of each struct with their sizes and offsets as cc has them, the codes and their words, the kinds of
faults and of recovery, the checker's refusals, the version, and the names that libcolock.so and libcolock.a give.
(bindings/declare makes the declarations of Rust and Python of the header.) Compared with Rust and Python are the kinds,
the refusals, and what a code raises. A line for each difference, and status 1 where there is one. With --plant faults
are planted in what is read, each of which has to be found.
"""
import functools
import glob
import os
import re
import subprocess
import sys
import tempfile

BINDINGS = os.path.join(os.path.dirname(os.path.abspath(__file__)), "..", "..")
CRATE = os.environ.get("COLOCK_CRATE", os.path.join(BINDINGS, "..", "crates", "colock_c"))
CALLS = os.path.join(CRATE, "..", "library_calls")
FAULTS = os.path.join(BINDINGS, "..", "crates", "line_text", "src", "fault.rt")
BUILD = os.path.join(BINDINGS, "c", "build")
PATHS = {
    "header": os.path.join(BINDINGS, "c", "colock.h"),
    "rust types": os.path.join(BINDINGS, "rust", "colock", "src", "types.rs"),
    "rust errors": os.path.join(BINDINGS, "rust", "colock", "src", "error.rs"),
    "types": os.path.join(BINDINGS, "python", "colock", "_types.py"),
    "errors": os.path.join(BINDINGS, "python", "colock", "_errors.py"),
    "make": os.path.join(BINDINGS, "c", "Makefile"),
}
# What is never wrong with a line of the text of a type.
OF_NO_TYPE = ("NoMemory", "TwiceName")
STRUCTS = ["handle", "answer", "fault", "shape", "outcome", "event"]
# what the header has in place of the one handle
HANDLES = ["type", "store", "held"]
SIZES = {"bool": 1, "u8": 1, "u32": 4, "u64": 8, "usize": 8, "pointer": 8}


def without_comments(text):
    return re.sub(r"/\*.*?\*/", " ", re.sub(r"//[^\n]*", " ", text), flags=re.S)


def pieces(text):
    """The pieces between commas, without those that are empty."""
    return [piece.strip() for piece in text.split(",") if piece.strip()]


# ---- the library

def source():
    """The text of the crate, and of the one of what its exports do, without comments."""
    texts = []
    for path in sorted(path for crate in (CRATE, CALLS) for path in glob.glob(os.path.join(crate, "src", "*.rt"))):
        with open(path, encoding="utf-8") as file:
            texts.append(file.read())
    return without_comments("\n".join(texts))


def exported_parameters(kind):
    """A parameter of an export, as C has it: a reference is a pointer, a slice a pointer and a count."""
    names = {"Slot": "handle", "ColockAnswer": "answer", "ColockFault": "fault", "ColockShape": "shape", "ColockOutcome": "outcome", "ColockEvent": "event"}
    match = re.fullmatch(r"&(mut )?\[(\w+)\]", kind)
    if match:
        return [("" if match[1] else "const ") + names.get(match[2], match[2]) + "*", "usize"]
    match = re.fullmatch(r"&(mut )?(\w+)", kind)
    if match:
        return [("" if match[1] else "const ") + names.get(match[2], match[2]) + "*"]
    return [kind]


def exported_calls(text):
    calls = {}
    for name, parameters, result in re.findall(r'pub extern "C" fn (\w+)\(([^)]*)\)(?: -> (\w+))?', text):
        kinds = [piece.split(":", 1)[1].strip() for piece in pieces(parameters)]
        calls[name] = [part for kind in kinds if kind != "Global" for part in exported_parameters(kind)] + [result]
    return calls


def exported_structs(text):
    """The fields of each struct that crosses: ghost fields and the allocator have no size."""
    found = dict(re.findall(r"#\[repr\(C\)\](?:\s*#\[[^\]]*\])*\s*pub struct (\w+) \{(.*?)\n\}", text, re.S))
    structs = {}
    for name in STRUCTS[1:]:
        fields = re.findall(r"(\w+): (\w+),", found["Colock" + name.capitalize()])
        structs[name] = fields
    live = re.findall(r"(?:pub )?(\w+): (bool|Handle),", re.sub(r"ghost [^\n]*", "", found["Slot"]))
    at = re.findall(r"(\w+): \*mut u8", found["Handle"])
    structs["handle"] = [(field, kind) for field, kind in live if kind == "bool"] + [(field, "pointer") for field in at]
    return structs


def layout(fields):
    """The size, and the offset and size of each field, by the rules of C."""
    offset, most, places = 0, 1, []
    for _, kind in fields:
        size = SIZES[kind]
        offset = -(-offset // size) * size
        places.append((offset, size))
        offset, most = offset + size, max(most, size)
    return -(-offset // most) * most, places


def numbered(text, enum):
    """The variants of an enum with their numbers."""
    body = re.search(rf"pub enum {enum} \{{(.*?)\n\}}", text, re.S)[1]
    return {name: int(number) for name, number in re.findall(r"(\w+) = (\d+),", body)}


def upper(name):
    """A variant's name as C has it."""
    return "OK" if name == "Done" else re.sub(r"(?<=[a-z])(?=[A-Z])", "_", name).upper()


def by_number(found):
    """What a pattern found of numbers and names, by the names as C has them."""
    return {upper(name): int(number) for number, name in found}


def exported():
    text = source()
    with open(FAULTS, encoding="utf-8") as file:
        faults = {upper(name): n for name, n in numbered(without_comments(file.read()), "FaultKind").items() if name not in OF_NO_TYPE}
    return {
        "calls": exported_calls(text),
        "structs": {name: layout(fields) for name, fields in exported_structs(text).items()},
        "fields": {name: [field for field, _ in fields] for name, fields in exported_structs(text).items()},
        "codes": {upper(name): n for name, n in numbered(text, "Code").items()},
        "faults": faults,
        "kinds": by_number(re.findall(r"(\d+) => Some\(Kind::(\w+)\)", text)),
        "refusals": {upper(name): int(n) for name, n in re.findall(r"CheckRefusal::(\w+)(?: \{[^}]*\})? => refusal_of\((\d+),", text)},
        "version": int(re.search(r"const VERSION: u32 = (\d+);", text)[1]),
    }


# ---- what is said of it

def header_parameter(text):
    kinds = {"uint8_t": "u8", "uint32_t": "u32", "uint64_t": "u64", "size_t": "usize", "char": "u8", **dict.fromkeys(HANDLES, "handle")}
    match = re.fullmatch(r"(const )?(?:struct )?(?:colock_)?(\w+) (\*?)\w+", text)
    return (match[1] or "") + kinds.get(match[2], match[2]) + match[3]


def run(words):
    done = subprocess.run(words, capture_output=True, text=True, check=False)
    if done.returncode:
        raise ValueError(f"{words[0]}: {done.stderr}")
    return done.stdout


def written(path, text):
    with open(path, "w", encoding="utf-8") as file:
        file.write(text)


def structs_of(plain):
    """The names of the structs of a header without comments, and of their fields."""
    found = re.findall(r"typedef struct colock_(\w+) \{(.*?)\}", plain, re.S)
    return {name: re.findall(r"(\w+);", body) for name, body in found}


@functools.lru_cache
def layouts_of(text):
    """The structs of a header as cc lays them out: the size of each, and the offset and the size of each field."""
    # what comes before the calls repeats their parameters
    text = re.sub(r"#ifdef __GNUC__\n.*?\n#endif\n", "", text, flags=re.S)
    lines = []
    for name, fields in structs_of(without_comments(text)).items():
        struct = f"colock_{name}"
        lines.append(f'printf("{name} %zu", sizeof({struct}));')
        lines += [f'printf(" %zu %zu", offsetof({struct}, {field}), sizeof((({struct} *)0)->{field}));' for field in fields]
        lines.append('puts("");')
    with tempfile.TemporaryDirectory() as folder:
        source, program = os.path.join(folder, "layout.c"), os.path.join(folder, "layout")
        written(os.path.join(folder, "colock.h"), text)
        written(source, '#include "colock.h"\n#include <stdio.h>\nint main(void) {\n' + "\n".join(lines) + "\n}\n")
        run([os.environ.get("CC", "cc"), "-Wall", "-Werror", source, "-o", program])
        told = [line.split() for line in run([program]).splitlines()]
    return {name: (int(size), list(zip(map(int, places[::2]), map(int, places[1::2])))) for name, size, *places in told}


def of_header(text):
    plain = without_comments(text)
    calls = {}
    for result, name, parameters in re.findall(r"^(\w+) (colock_\w+)\(([^)]*)\);", plain, re.M):
        kinds = [] if parameters == "void" else [header_parameter(" ".join(p.split())) for p in pieces(parameters)]
        calls[name] = kinds + [header_parameter(result + " x")]
    enums = {name: dict(re.findall(r"COLOCK_(\w+) = (\d+)", body)) for name, body in re.findall(r"typedef enum colock_(\w+) \{(.*?)\}", plain, re.S)}
    fields = {name: [field.rstrip("_") for field in fields] for name, fields in structs_of(plain).items()}
    numbers = lambda enum: {name: int(number) for name, number in enums[enum].items()}
    return {
        "calls": calls, "structs": layouts_of(text), "fields": fields, "codes": numbers("code"), "faults": numbers("fault_kind"),
        "kinds": numbers("kind"), "refusals": numbers("refusal"),
        "version": int(re.search(r"#define COLOCK_VERSION (\d+)", plain)[1]),
    }


def of_rust(types, errors):
    return {
        "kinds": {upper(name): n for name, n in numbered(without_comments(types), "Kind").items()},
        "refusals": by_number(re.findall(r"(\d+) => CheckRefusal::(\w+)", errors)),
    }


def of_python(types, errors):
    return {
        "raised": {upper(name): int(n) for n, name in re.findall(r"^    (\d+): (\w+?)(?:Error)?,$", errors, re.M)},
        "faults": {upper(name): int(n) for name, n in re.findall(r"^    (\w+) = (\d+)$", errors, re.M)},
        "kinds": {name: int(n) for name, n in re.findall(r"^    ([A-Z]+) = (\d+)$", types, re.M)},
        "refusals": by_number(re.findall(r"(\d+): \(\"(\w+)\", \d\)", errors)),
    }


# ---- comparing

def unequal(who, what, told, wanted):
    """A line for each key at which two dictionaries differ, and for two other values that do."""
    if isinstance(told, dict):
        for key in sorted(set(told) | set(wanted)):
            if told.get(key) != wanted.get(key):
                yield f"{who}, {what} {key}: {told.get(key)}, and the library {wanted.get(key)}"
    elif told != wanted:
        yield f"{who}, {what}: {told}, and the library {wanted}"


def for_header(wanted):
    """The library as the header declares it, which has two handles of one layout."""
    told = dict(wanted)
    for what in ("structs", "fields"):
        handle = wanted[what]["handle"]
        told[what] = {"type": handle, "store": handle, **{name: part for name, part in wanted[what].items() if name != "handle"}}
    return told


def for_python(wanted):
    """The library as Python raises its codes."""
    raised = dict(wanted["codes"])
    for name in ("OK", "IN_USE", "BAD_TEXT", "REFUSED", "BAD_KIND", "NOT_FRESH", "NOT_LEGAL", "NO_ROOM"):
        raised.pop(name)  # what isn't raised by its code alone, or can't come
    raised["CLOSED"] = raised.pop("NOT_HELD")
    return {**wanted, "raised": raised}


def names_of(words):
    return {line.split()[-1] for line in run(words).splitlines() if re.search(r" [TDBRVW] \w", line)}


def differences(texts, wanted):
    """How the texts differ from the library."""
    compared = {
        "the header": (of_header(texts["header"]), for_header(wanted)),
        "Rust": (of_rust(texts["rust types"], texts["rust errors"]), wanted),
        "Python": (of_python(texts["types"], texts["errors"]), for_python(wanted)),
    }
    for who, (told, library) in compared.items():
        for what, part in told.items():
            yield from unequal(who, what, part, library[what])
    abi = int(re.search(r"^ABI = (\d+)$", texts["make"], re.M)[1])
    yield from unequal("the Makefile", "ABI", abi, wanted["version"])
    yield from word_differences(texts, wanted["codes"])
    yield from null_differences(texts["header"], wanted["calls"])


def null_differences(text, calls):
    """Calls that have a count, and of which the header takes no NULL."""
    guarded = re.findall(r"^COLOCK_BEFORE_\((\w+),", text, re.M)
    yield from (f"the header, {name}: nothing takes a NULL with a count of 0" for name, kinds in calls.items() if "usize" in kinds and name not in guarded)


def words_of_header(text):
    """The words of each code by colock_strerror."""
    return dict(re.findall(r'case COLOCK_(\w+): return "(.*?)";', text))


def words_of_rust(text):
    """The words of the errors of Rust that say nothing more, by the names of codes."""
    body = text.partition("impl fmt::Display for Error {")[2].partition("\n}\n")[0]
    return {upper(name): words for name, words in re.findall(r'Error::(\w+) => f\.write_str\("(.*?)"\)', body)}


def word_differences(texts, codes):
    """Codes without words, and those of which Rust has others."""
    told, rust = words_of_header(texts["header"]), words_of_rust(texts["rust errors"])
    yield from (f"the header, colock_strerror: no words of {name}" for name in codes if name not in told)
    yield from (f"colock_strerror, {name}: {words}, and Rust {rust[name]}" for name, words in told.items() if rust.get(name, words) != words)
    if not set(rust) & set(told):
        yield "no words of errors are found in Rust"


def binary_differences(wanted):
    names = set(wanted["calls"])
    for words in (["nm", "-D", "--defined-only", os.path.join(BUILD, "libcolock.so")], ["nm", "-g", "--defined-only", os.path.join(BUILD, "libcolock.a")]):
        there = names_of(words)
        if there != names:
            yield f"{words[-1]}: too many {sorted(there - names)}, too few {sorted(names - there)}"


PLANTS = [
    ("header", "uint64_t max_events", "uint32_t max_events"),
    ("header", "uint32_t colock_renew(colock_store *store);", ""),
    ("header", "colock_store_extend(colock_store *store, colock_store *added);", "colock_store_extend(colock_store *store);"),
    ("header", "COLOCK_CHANGES = 27", "COLOCK_CHANGES = 28"),
    ("header", "COLOCK_MISSING = 8", "COLOCK_MISSING = 18"),
    ("header", "COLOCK_ESCROW = 2", "COLOCK_ESCROW = 3"),
    ("header", "COLOCK_NOT_NUMERIC = 5", "COLOCK_NOT_NUMERIC = 6"),
    ("header", "uint64_t op;\n    uint32_t object;", "uint32_t object;\n    uint64_t op;"),
    ("header", "    uint32_t worker;\n", "    uint8_t worker;\n"),
    ("header", "    uint32_t reserved;\n", ""),
    ("header", "uint32_t object,\n                        uint64_t call", "uint32_t object,\n                        uint8_t call"),
    ("header", "bool live_;\n    void *at_;\n} colock_type;", "uint64_t live_;\n    void *at_;\n} colock_type;"),
    ("header", "    void *at_;\n} colock_store;", "} colock_store;"),
    ("header", "COLOCK_VERSION 3", "COLOCK_VERSION 2"),
    ("header", "colock_abort(colock_store *store, uint8_t worker, uint64_t transaction)", "colock_abort(colock_store *store, uint64_t transaction, uint8_t worker)"),
    ("header", "const colock_event *events, size_t events_count, uint64_t *made);", "colock_event *events, size_t events_count, uint64_t *made);"),
    ("header", "colock_snapshot(colock_store *store, uint64_t *states, size_t states_count, uint64_t *commits);", "colock_snapshot(colock_store *store, uint64_t *states, uint64_t *commits);"),
    ("header", "    uint64_t at;\n", "    uint32_t at;\n"),
    ("header", "uint64_t *operations, size_t operations_count,\n                        colock_outcome *outcome);", "const uint64_t *operations, size_t operations_count,\n                        colock_outcome *outcome);"),
    ("header", "COLOCK_BEFORE_(colock_would,", "COLOCK_BEFORE_(colock_would_op,"),
    ("rust types", "    Escrow = 2,", "    Escrow = 3,"),
    ("header", 'return "a store of no object"', 'return "no object"'),
    ("rust errors", '"these events were forgotten"', '"they were forgotten"'),
    ("rust errors", "5 => CheckRefusal::NotNumeric", "6 => CheckRefusal::NotNumeric"),
    ("types", "    ESCROW = 2", "    ESCROW = 3"),
    ("errors", '5: ("NotNumeric", 2)', '6: ("NotNumeric", 2)'),
    ("errors", "    17: StillOpenError,", "    17: NotMadeError,"),
    ("errors", "    Missing = 8", "    Missing = 9"),
    ("make", "ABI = 3", "ABI = 2"),
]


def planted(texts, wanted):
    """The planted faults that aren't found."""
    for name, old, new in PLANTS:
        if texts[name].count(old) != 1:
            yield f"{name}: `{old}` isn't there once"
        elif not list(differences({**texts, name: texts[name].replace(old, new)}, wanted)):
            yield f"{name}: `{new}` isn't found"


def main():
    texts = {}
    for name, path in PATHS.items():
        with open(path, encoding="utf-8") as file:
            texts[name] = file.read()
    wanted = exported()
    found = list(differences(texts, wanted)) + list(binary_differences(wanted))
    if sys.argv[1:] == ["--plant"]:
        found += planted(texts, wanted)
        print(f"{len(PLANTS)} planted differences")
    print(*found, f"{len(wanted['calls'])} exports, {len(wanted['structs'])} structs, {len(wanted['codes'])} codes: {len(found)} differences", sep="\n")
    sys.exit(1 if found else 0)


main()
