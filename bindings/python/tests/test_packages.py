"""What the wheel and the source distribution have, and what a wheel is named."""
import base64
import csv
import hashlib
import os
import shutil
import stat
import subprocess
import sys
import tarfile
import unittest
import zipfile
from unittest import mock

from support import folder_of

from colock import _library

SOURCE = os.path.join(os.path.dirname(os.path.abspath(__file__)), "..")
sys.path.insert(0, SOURCE)

import build_backend  # noqa: E402
import elf_needs  # noqa: E402

# a file for Linux, which is taken for the program too
LIBRARY = os.path.realpath(os.environ.get("COLOCK_LIBRARY") or os.path.join(os.path.dirname(_library.__file__), "libcolock.so"))


def content_of(path):
    with open(path, "rb") as file:
        return file.read()


class Packages(unittest.TestCase):
    def setUp(self):
        self.folder = folder_of(self)
        named = mock.patch.dict(os.environ, {"COLOCK_LIBRARY": LIBRARY, "COLOCK": LIBRARY})
        named.start()
        self.addCleanup(named.stop)

    def wheel(self, settings=None, make=build_backend.build_wheel):
        """The wheel that is made, as a zip file."""
        file = zipfile.ZipFile(os.path.join(self.folder, make(self.folder, settings)))
        self.addCleanup(file.close)
        return file

    def tree(self):
        """A copy of the folder of the package by itself."""
        tree = os.path.join(folder_of(self), "python")
        shutil.copytree(SOURCE, tree, ignore=shutil.ignore_patterns("__pycache__", "colock.db", "libcolock.so", ".mypy_cache"))
        return tree

    def of_backend(self, tree, hook, **environment):
        """What a hook of the backend in a folder returns, in a process of its own."""
        words = [sys.executable, "-c", f"import build_backend; print(build_backend.{hook}({self.folder!r}))"]
        done = subprocess.run(words, cwd=tree, env={**os.environ, "COLOCK": "", "COLOCK_LIBRARY": "", "PYTHONPATH": "", **environment}, capture_output=True, text=True, check=False)
        return done.stdout.strip() if done.returncode == 0 else done.stderr

    def test_a_wheel(self):
        wheel = self.wheel()
        names = wheel.namelist()
        for name in ("colock/__init__.py", "colock/py.typed", "colock/libcolock.so", "colock/colock"):
            self.assertIn(name, names)
        self.assertEqual((wheel.read("colock/libcolock.so"), wheel.read("colock/colock")), 2 * (content_of(LIBRARY),))
        self.assertTrue(wheel.getinfo("colock/colock").external_attr >> 16 & stat.S_IXUSR)
        self.assertRegex(os.path.basename(wheel.filename), r"^colock-[0-9.]+-py3-none-(manylinux_2_[0-9]+|linux)_(x86_64|aarch64)\.whl$")

    def test_the_record(self):
        wheel = self.wheel()
        record = next(name for name in wheel.namelist() if name.endswith("RECORD"))
        rows = list(csv.reader(wheel.read(record).decode().splitlines()))
        self.assertEqual([row[0] for row in rows], wheel.namelist())
        for name, digest, size in rows[:-1]:
            content = wheel.read(name)
            told = "sha256=" + base64.urlsafe_b64encode(hashlib.sha256(content).digest()).rstrip(b"=").decode()
            self.assertEqual((digest, int(size)), (told, len(content)))

    def test_metadata(self):
        wheel = self.wheel()
        metadata = wheel.read(next(name for name in wheel.namelist() if name.endswith("METADATA"))).decode()
        head, _, body = metadata.partition("\n\n")
        for line in ("Name: colock", "Requires-Python: >=3.9", "Description-Content-Type: text/markdown", "Classifier: Typing :: Typed"):
            self.assertIn(line, head.splitlines())
        self.assertNotIn("License", head)
        self.assertEqual(body, content_of(os.path.join(SOURCE, "README.md")).decode())
        alone = build_backend.prepare_metadata_for_build_wheel(self.folder)
        self.assertEqual(content_of(os.path.join(self.folder, alone, "METADATA")).decode(), metadata)

    def test_a_source_distribution_makes_the_same_wheel(self):
        wheel = content_of(self.wheel().filename)
        with tarfile.open(os.path.join(self.folder, build_backend.build_sdist(self.folder))) as tar:
            self.assertEqual(len({name.split("/")[0] for name in tar.getnames()}), 1)
            tar.extractall(self.folder)
        tree = os.path.join(self.folder, f"colock-{build_backend._version()}")
        self.assertEqual(content_of(os.path.join(self.folder, self.of_backend(tree, "build_wheel"))), wheel)

    def test_nothing_is_left_out_in_silence(self):
        tree = self.tree()
        for hook in ("build_wheel", "build_sdist", "build_editable"):
            self.assertIn("libcolock.so isn't there: `make library` in bindings/c makes it", self.of_backend(tree, hook))
            told = self.of_backend(tree, hook, COLOCK_LIBRARY=LIBRARY)
            self.assertRegex(told, r"^colock: .*colock isn't there: .*--config-settings program=none")
        self.assertEqual(os.listdir(self.folder), [])

    def test_without_the_program(self):
        wheel = self.wheel({"program": "none"})
        self.assertNotIn("colock/colock", wheel.namelist())
        self.assertIn("colock/libcolock.so", wheel.namelist())

    def test_what_is_no_program(self):
        with mock.patch.dict(os.environ, {"COLOCK": __file__}), self.assertRaises(SystemExit) as raised:
            self.wheel()
        self.assertIn("isn't an ELF file", str(raised.exception))

    def test_an_editable_install(self):
        tree = self.tree()
        for library in (LIBRARY, shutil.copy(LIBRARY, os.path.join(self.folder, "another.so"))):
            told = self.of_backend(tree, "build_editable", COLOCK_LIBRARY=library, COLOCK=LIBRARY)
            with zipfile.ZipFile(os.path.join(self.folder, told)) as wheel:
                self.assertEqual([name for name in wheel.namelist() if "dist-info" not in name], ["colock.pth"])
                self.assertEqual(os.path.realpath(wheel.read("colock.pth").decode().strip()), os.path.realpath(tree))
            self.assertEqual(os.readlink(os.path.join(tree, "colock", "libcolock.so")), library)
        self.assertEqual(os.readlink(os.path.join(tree, "colock", "colock")), LIBRARY)


class Platforms(unittest.TestCase):
    """What a wheel is named by what its files need."""

    def named(self, *needs):
        with mock.patch.object(elf_needs, "needs_of", side_effect=needs):
            return elf_needs.platform_of(list(needs))

    def test_the_newest_version_counts(self):
        for versions, platform in [
            ({"GLIBC_2.2.5", "GLIBC_2.34", "GLIBC_2.9"}, "manylinux_2_34_x86_64"),
            ({"GLIBC_2.2.5"}, "manylinux_2_17_x86_64"),
            ({"GLIBC_2.4", "GLIBC_ABI_DT_RELR"}, "manylinux_2_36_x86_64"),
            ({"GLIBC_PRIVATE"}, "linux_x86_64"),
        ]:
            self.assertEqual(self.named(elf_needs.Needs("x86_64", {"libc.so.6"}, {"libc.so.6": versions})), platform)

    def test_several_files(self):
        def one(library, version, machine="x86_64"):
            return elf_needs.Needs(machine, {library}, {library: {version}})

        self.assertEqual(self.named(one("libc.so.6", "GLIBC_2.28"), one("libm.so.6", "GLIBC_2.29")), "manylinux_2_29_x86_64")
        self.assertEqual(self.named(one("libc.so.6", "GLIBC_2.28"), one("libz.so.1", "ZLIB_1.2")), "linux_x86_64")
        self.assertEqual(self.named(one("libgcc_s.so.1", "GCC_3.3.1"), one("libc.so.6", "GLIBC_2.34")), "manylinux_2_34_x86_64")
        self.assertEqual(self.named(one("libgcc_s.so.1", "GCC_14.0.0")), "linux_x86_64")
        # one that is linked statically needs nothing
        self.assertEqual(self.named(elf_needs.Needs("aarch64", set(), {})), "manylinux_2_17_aarch64")
        with self.assertRaises(elf_needs.NotElf):
            self.named(one("libc.so.6", "GLIBC_2.28"), one("libc.so.6", "GLIBC_2.28", "aarch64"))

    def test_a_file(self):
        content = content_of(LIBRARY)
        needs = elf_needs.needs_of(content)
        self.assertTrue(needs.libraries <= {"libc.so.6", "libm.so.6"}, needs)
        self.assertTrue(all(name.startswith("GLIBC_") for names in needs.versions.values() for name in names), needs)

    def test_other_files(self):
        content = content_of(LIBRARY)
        bits, order, machine = (bytearray(content) for _ in range(3))
        bits[4], order[5], machine[18] = 1, 2, 243
        for wrong in (b"", b"#!/bin/sh\n", content[:63], content[: len(content) // 2], bytes(bits), bytes(order), bytes(machine)):
            self.assertRaises(elf_needs.NotElf, elf_needs.needs_of, wrong)


if __name__ == "__main__":
    unittest.main()
