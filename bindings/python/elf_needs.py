"""What a shared object or a program needs to run: a machine, libraries, and versions of the C library, by its ELF file.

    python elf_needs.py FILE..    writes the platform of a wheel that has these files
"""
import re
import struct
import sys
from typing import Dict, Iterator, List, NamedTuple, Optional, Set, Tuple

MACHINES = {62: "x86_64", 183: "aarch64"}
# What each Linux with this C library has.
EVERYWHERE = re.compile(r"(libc|libm|libpthread|libdl|librt|libgcc_s|ld-linux-x86-64|ld-linux-aarch64)\.so\.\d+")
# The oldest that a wheel is named by; a Python from 3.9 on runs on no older one.
OLDEST = (2, 17)
# Versions that are no numbers, and where they came.
NAMED = {"GLIBC_ABI_DT_RELR": (2, 36)}

DYNAMIC, VERSIONS = 6, 0x6FFFFFFE
NEEDED = 1


class NotElf(Exception):
    """A file that isn't an ELF file of 64 bits, lowest byte first, for a known machine."""


class Needs(NamedTuple):
    """What a file needs."""

    machine: str
    libraries: Set[str]
    # by library the names of versions of its symbols
    versions: Dict[str, Set[str]]


class Section(NamedTuple):
    """A section: its kind, where it is, how long it is, and the number of the section of its texts."""

    kind: int
    start: int
    size: int
    link: int


def needs_of(content: bytes) -> Needs:
    """What the file of this content needs. Raises `NotElf`."""
    try:
        machine, sections = _machine(content), _sections(content)
        libraries = {name for section in sections if section.kind == DYNAMIC for name in _libraries(content, sections, section)}
        versions: Dict[str, Set[str]] = {}
        for section in sections:
            if section.kind == VERSIONS:
                versions.update(_versions(content, sections, section))
    except (struct.error, IndexError, ValueError) as error:
        raise NotElf(f"the ELF file can't be read: {error}") from error
    return Needs(machine, libraries, versions)


def _machine(content: bytes) -> str:
    # of 64 bits, and lowest byte first
    if content[:6] != b"\x7fELF\x02\x01":
        raise NotElf("it isn't an ELF file of 64 bits")
    number = struct.unpack_from("<H", content, 18)[0]
    if number not in MACHINES:
        raise NotElf(f"it is for the machine {number}, which isn't known here")
    return MACHINES[number]


def _sections(content: bytes) -> List[Section]:
    table = struct.unpack_from("<Q", content, 40)[0]
    size, count = struct.unpack_from("<HH", content, 58)
    headers = (struct.unpack_from("<IIQQQQI", content, table + place * size) for place in range(count))
    return [Section(kind, start, length, link) for _, kind, _, _, start, length, link in headers]


def _text(content: bytes, sections: List[Section], section: Section, place: int) -> str:
    """The text at a place among the texts of a section."""
    start = sections[section.link].start + place
    return content[start : content.index(b"\0", start)].decode("utf-8")


def _libraries(content: bytes, sections: List[Section], section: Section) -> Iterator[str]:
    for tag, value in struct.iter_unpack("<qQ", content[section.start : section.start + section.size]):
        if tag == NEEDED:
            yield _text(content, sections, section, value)


def _versions(content: bytes, sections: List[Section], section: Section) -> Iterator[Tuple[str, Set[str]]]:
    """Each library that has versions, with the names of those that are needed."""
    at, after = section.start, -1
    while after:
        _, count, file, first, after = struct.unpack_from("<HHIII", content, at)
        names, place = set(), at + first
        for _ in range(count):
            _, _, _, name, step = struct.unpack_from("<IHHII", content, place)
            names.add(_text(content, sections, section, name))
            place += step
        yield _text(content, sections, section, file), names
        at += after


def _oldest(needs: Needs) -> Optional[Tuple[int, int]]:
    """The oldest C library that is enough; None where that can't be said."""
    if not all(map(EVERYWHERE.fullmatch, needs.libraries)):
        return None
    oldest = OLDEST
    for name in set().union(*needs.versions.values()):
        version = _version(name)
        if version is None:
            return None
        oldest = max(oldest, version)
    return oldest


def _version(name: str) -> Optional[Tuple[int, int]]:
    """The C library in which a version of symbols came; None where it isn't known."""
    words = re.fullmatch(r"GLIBC_(\d+)\.(\d+)(\.\d+)?", name)
    if words:
        return int(words[1]), int(words[2])
    # of libgcc_s those that are older than all of these
    return OLDEST if re.fullmatch(r"GCC_[34]\.[\d.]+", name) else NAMED.get(name)


def platform_of(contents: List[bytes]) -> str:
    """The platform of a wheel with these files, as in its name. Raises `NotElf`.

    It is `manylinux_A_B_MACHINE` where the C library A.B is all that is needed, else `linux_MACHINE`, which is for
    machines as the one that made it.
    """
    needs = list(map(needs_of, contents))
    machines = {of.machine for of in needs}
    if len(machines) != 1:
        raise NotElf(f"the files are for {' and '.join(sorted(machines))}")
    oldest = list(map(_oldest, needs))
    known = [version for version in oldest if version is not None]
    if len(known) < len(oldest):
        return f"linux_{machines.pop()}"
    return "manylinux_{}_{}_{}".format(*max(known), machines.pop())


def main() -> None:
    contents = []
    for path in sys.argv[1:]:
        with open(path, "rb") as file:
            contents.append(file.read())
    print(platform_of(contents))


if __name__ == "__main__":
    main()
