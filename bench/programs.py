"""The programs that are measured, and those beside them: where they are, how they are built, and what they print."""
import os
import shutil
import subprocess
import sys

HERE = os.path.dirname(os.path.abspath(__file__))
ROOT = os.path.dirname(HERE)
C = os.path.join(ROOT, "bindings", "c")
KINDS = ("undo", "intentions")

# Where `bench/run each` keeps the programs that are built, once for all measures.
SHARED = os.environ.get("BENCH_EACH")


def few(usual, least):
    """A count, or the least one where `bench/run each` looks whether measures run."""
    return least if SHARED else usual


# How rustc and cargo optimize, and cargo's name for that. To compile takes most of the time of `bench/run each`.
OPTIMIZED = few(["-O", "-C", "codegen-units=1"], [])
RELEASE, RELEASED = few((["--release"], "release"), ([], "debug"))

# How many commands a run has where nothing else is said, and how often programs take turns.
COMMANDS = few(200_000, 2_000)
TURNS = few(5, 1)


# What `bench/store` uses, as a line of crates.txt says it.
STORE_USES = "benches: type_table type_text table_checker object_trait undo_manager intentions_manager objects store anyhow\n"


def built():
    """The program `colock`, which is proved where that hasn't been done. COLOCK names another one."""
    named = os.environ.get("COLOCK")
    return os.path.abspath(named) if named else run_once(ROOT, "colock")


def run_once(root, crate):
    """The program of a crate below this folder, after a run of it, for which it is proved."""
    folder = os.path.join(root, "crates", crate)
    subprocess.run(["rt", "run"], cwd=folder, capture_output=True, check=False)
    return os.path.join(folder, "out", crate)


def store_in_rattle(folder):
    """The program of `bench/store`, a crate in a copy of the repository's. BENCHES names another one.

    It promises nothing, so the gate doesn't prove it: its files aren't named `.rt`, of which the gate passes over none.
    """
    named = os.environ.get("BENCHES")
    if named:
        return os.path.abspath(named)
    room = os.path.join(folder, "room")
    shutil.copytree(os.path.join(ROOT, "crates"), os.path.join(room, "crates"), ignore=shutil.ignore_patterns("incremental", "must-fail"))
    shutil.copy(os.path.join(ROOT, "HANDLES"), room)
    with open(os.path.join(ROOT, "crates.txt"), encoding="utf-8") as listed:
        written(room, "crates.txt", listed.read() + STORE_USES)
    sources = os.path.join(room, "crates", "benches", "src")
    os.makedirs(sources)
    for name in os.listdir(os.path.join(HERE, "store")):
        shutil.copy(os.path.join(HERE, "store", name), os.path.join(sources, name.replace(".rattle", ".rt")))
    return run_once(room, "benches")


def compiled(folder, name, *words):
    """The program of this name, which a compiler makes by these words."""
    path = os.path.join(SHARED or folder, name)
    if not (SHARED and os.path.exists(path)):
        subprocess.run([*words, "-o", path], check=True)
    return path


def plain(folder, name, source=None, *flags):
    """A plain Rust program, compiled as one unit and for the processors for which ours are."""
    words = ["rustc", *OPTIMIZED, "-C", "target-cpu=x86-64-v2", "--edition", "2024", "--check-cfg", "cfg(pausing, slower)", *flags]
    return compiled(folder, name, *words, os.path.join(HERE, source or f"{name}.rs"))


def library():
    """The folder of `libcolock.a`. COLOCK_LIB_DIR names another one."""
    named = os.environ.get("COLOCK_LIB_DIR")
    if named:
        return os.path.abspath(named)
    subprocess.run(["make", "--quiet", "library"], cwd=C, check=True)
    return os.path.join(C, "build")


def library_of_rust(folder):
    """The program of `bench/library`."""
    environment = {**os.environ, "COLOCK_LIB_DIR": library()}
    target = os.path.join(SHARED or folder, "target")
    subprocess.run(["cargo", "build", "--quiet", *RELEASE, "--offline", "--target-dir", target],
                   cwd=os.path.join(HERE, "library"), env=environment, check=True)
    return os.path.join(target, RELEASED, "library")


def library_of_c(folder, name="library"):
    """The program of `bench/library.c`, or of another such file."""
    words = ["cc", "-O2", "-Wall", "-Wextra", *few([], ["-DFEW"]), os.path.join(HERE, f"{name}.c"), f"-I{C}"]
    return compiled(folder, f"{name}_c", *words, os.path.join(library(), "libcolock.a"))


def printed(words):
    """What a program prints: lines of a name and a value."""
    text = subprocess.run([*map(str, words)], check=True, capture_output=True, text=True).stdout
    return dict(line.split(" ", 1) for line in text.split("\n") if line)


def least(commands, keys=("refused", "kept", "history")):
    """The least nanoseconds of each command, by turns. What came of their runs must be the same."""
    seen = [[printed(words) for words in commands] for _ in range(TURNS)]
    outcomes = [[told[key] for key in keys] for turn in seen for told in turn]
    if any(outcome != outcomes[0] for outcome in outcomes):
        sys.exit(f"{' '.join(map(str, commands[0]))}: the programs differ: {outcomes}")
    return [min(int(turn[place]["nanoseconds"]) for turn in seen) for place in range(len(commands))]


def written(folder, name, text):
    """A file of this text."""
    path = os.path.join(folder, name)
    with open(path, "w", encoding="ascii") as file:
        file.write(text)
    return path
