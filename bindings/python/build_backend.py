"""Makes the wheel of the package, a source distribution, and the wheel of an editable install. Nothing is fetched.

Each takes two files along that aren't made here: the shared object of `make library` in bindings/c, and the program
`colock`. COLOCK_LIBRARY and COLOCK of the environment name others than those of the repository. A wheel without the
program, in which a store in memory works and one in a file says what is missing, is made only where it is asked for:
by `--config-settings program=none`.
"""
import base64
import gzip
import hashlib
import io
import os
import re
import stat
import tarfile
import zipfile

import elf_needs

FOLDER = os.path.dirname(os.path.abspath(__file__))
PACKAGE = os.path.join(FOLDER, "colock")
# by its name in the package: what names it in the environment, where it is in the repository, and what makes it
NATIVE = {
    "libcolock.so": ("COLOCK_LIBRARY", "../c/build/libcolock.so", "`make library` in bindings/c makes it"),
    "colock": ("COLOCK", "../../crates/colock/out/colock", "`tools/build` makes it, or go without it by `--config-settings program=none`"),
}
# Where a source distribution has them.
TAKEN = "native"
# What a source distribution has beside the package.
SOURCES = ["README.md", "build_backend.py", "elf_needs.py", "pyproject.toml"]
# 1 January 1980, the first day of a zip file: the same content makes the same file.
DATE = 315_532_800
WHEEL = "Wheel-Version: 1.0\nGenerator: colock build_backend\nRoot-Is-Purelib: false\nTag: {tag}\n"


def _read(path):
    with open(path, "rb") as file:
        return file.read()


def _text(name):
    return _read(os.path.join(FOLDER, name)).decode("utf-8")


# ---- metadata

def _version():
    return re.search(r'^__version__ = "(.*)"$', _text("colock/__init__.py"), re.MULTILINE)[1]


def _said(name):
    """A text of pyproject.toml."""
    return re.search(rf'^{name} = "(.*)"$', _text("pyproject.toml"), re.MULTILINE)[1]


def _list_of(name):
    """A list of texts of pyproject.toml."""
    return re.findall(r'"([^"]*)"', re.search(rf"^{name} = \[(.*?)\]$", _text("pyproject.toml"), re.MULTILINE | re.DOTALL)[1])


def _metadata():
    lines = [
        "Metadata-Version: 2.1",
        f"Name: {_said('name')}",
        f"Version: {_version()}",
        f"Summary: {_said('description')}",
        f"Keywords: {','.join(_list_of('keywords'))}",
        *(f"Classifier: {of}" for of in _list_of("classifiers")),
        f"Requires-Python: {_said('requires-python')}",
        "Description-Content-Type: text/markdown",
    ]
    return ("\n".join(lines) + "\n\n" + _text(_said("readme"))).encode("utf-8")


# ---- what is taken along

def _native(config_settings):
    """The paths of the files that aren't made here, by their names in the package."""
    goes_without = (config_settings or {}).get("program") == "none"
    return {name: _native_path(name) for name in NATIVE if not (goes_without and name == "colock")}


def _native_path(name):
    variable, place, maker = NATIVE[name]
    named = os.environ.get(variable)
    paths = [named] if named else [os.path.join(FOLDER, TAKEN, name), os.path.normpath(os.path.join(FOLDER, place))]
    for path in paths:
        if os.path.isfile(path):
            return os.path.abspath(path)
    raise SystemExit(f"colock: {paths[-1]} isn't there: {maker}, and {variable} of the environment names another")


def _tag(native):
    """The tag of a wheel with these files: any Python 3, on what they can run on."""
    try:
        return f"py3-none-{elf_needs.platform_of(list(map(_read, native.values())))}"
    except elf_needs.NotElf as error:
        raise SystemExit(f"colock: {' or '.join(native.values())}: {error}") from error


def _modules():
    """The files of the package that are here, by their names."""
    names = [name for name in sorted(os.listdir(PACKAGE)) if name.endswith((".py", ".typed"))]
    return {f"colock/{name}": os.path.join(PACKAGE, name) for name in names}


# ---- wheels

def _write_wheel(folder, tag, contents):
    """Writes a wheel, and returns its name. A file whose name is here too may be executed."""
    stem, info = f"colock-{_version()}", f"colock-{_version()}.dist-info"
    contents = {**contents, f"{info}/METADATA": _metadata(), f"{info}/WHEEL": WHEEL.format(tag=tag).encode()}
    record = "".join(f"{name},sha256={_digest(content)},{len(content)}\n" for name, content in contents.items())
    contents[f"{info}/RECORD"] = (record + f"{info}/RECORD,,\n").encode()
    with zipfile.ZipFile(os.path.join(folder, f"{stem}-{tag}.whl"), "w", zipfile.ZIP_DEFLATED) as file:
        for name, content in contents.items():
            file.writestr(_entry(name), content, zipfile.ZIP_DEFLATED)
    return f"{stem}-{tag}.whl"


def _mode(name):
    return 0o755 if os.path.basename(name) in NATIVE else 0o644


def _entry(name):
    entry = zipfile.ZipInfo(name)
    entry.external_attr = (stat.S_IFREG | _mode(name)) << 16
    return entry


def _digest(content):
    return base64.urlsafe_b64encode(hashlib.sha256(content).digest()).rstrip(b"=").decode()


def build_wheel(wheel_directory, config_settings=None, metadata_directory=None):
    """Writes the wheel, and returns its name."""
    native = _native(config_settings)
    files = {**_modules(), **{f"colock/{name}": path for name, path in native.items()}}
    return _write_wheel(wheel_directory, _tag(native), {name: _read(path) for name, path in files.items()})


def build_editable(wheel_directory, config_settings=None, metadata_directory=None):
    """Writes a wheel by which the package of this folder is used as it is here, and returns the wheel's name.

    Links beside the modules name the shared object and the program, so that those that are made anew are used, too.
    """
    native = _native(config_settings)
    for name in NATIVE:
        link = os.path.join(PACKAGE, name)
        if os.path.lexists(link):
            os.remove(link)
        if name in native:
            os.symlink(native[name], link)
    return _write_wheel(wheel_directory, _tag(native), {"colock.pth": (FOLDER + "\n").encode()})


def prepare_metadata_for_build_wheel(metadata_directory, config_settings=None):
    """Writes what a wheel will say of itself, and returns the name of its folder."""
    info = f"colock-{_version()}.dist-info"
    os.mkdir(os.path.join(metadata_directory, info))
    with open(os.path.join(metadata_directory, info, "METADATA"), "wb") as file:
        file.write(_metadata())
    return info


prepare_metadata_for_build_editable = prepare_metadata_for_build_wheel


# ---- the source distribution

def build_sdist(sdist_directory, config_settings=None):
    """Writes the source distribution, of which a wheel can be made without the repository, and returns its name."""
    paths = {**_modules(), **{name: os.path.join(FOLDER, name) for name in SOURCES}}
    paths.update({f"{TAKEN}/{name}": path for name, path in _native(config_settings).items()})
    contents = {"PKG-INFO": _metadata(), **{name: _read(path) for name, path in paths.items()}}
    stem = f"colock-{_version()}"
    with open(os.path.join(sdist_directory, f"{stem}.tar.gz"), "wb") as file:
        with gzip.GzipFile("", "wb", fileobj=file, mtime=DATE) as packed, tarfile.open(fileobj=packed, mode="w", format=tarfile.PAX_FORMAT) as tar:
            for name, content in contents.items():
                tar.addfile(_member(f"{stem}/{name}", content), io.BytesIO(content))
    return f"{stem}.tar.gz"


def _member(name, content):
    member = tarfile.TarInfo(name)
    member.size, member.mode, member.mtime = len(content), _mode(name), DATE
    return member
