"""The checksums at the ends of the pages of a store's file, which SQLite doesn't write."""
import struct


def checksum(page):
    """What the last eight bytes of a page have to be."""
    first = second = 0
    words = struct.unpack(f"<{len(page) // 4 - 2}I", page[:-8])
    for one, other in zip(words[::2], words[1::2]):
        first = first + one + second & 0xFFFFFFFF
        second = second + other + first & 0xFFFFFFFF
    return struct.pack("<2I", first, second)


def seal(path):
    """Gives each page of a file its checksum, which SQLite doesn't write."""
    with open(path, "r+b") as file:
        pages = iter(lambda: file.read(4096), b"")
        sealed = b"".join(page[:-8] + checksum(page) for page in pages)
        file.seek(0)
        file.write(sealed)
