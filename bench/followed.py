"""Stores that follow the histories of a plain program, and events of them that were changed."""
import os
import re
import subprocess
import sys
import tempfile

import programs

TEXTS = os.path.join(programs.ROOT, "crates", "test_support", "src", "type_texts.rt")
BATCH = 1000

# The worked types that the checker accepts, by kind.
TYPES = {
    "undo": ("COUNTER", "COUNTER_OF_FOUR", "SEMIQUEUE", "ONE_WAY"),
    "intentions": ("COUNTER", "COUNTER_OF_FOUR", "SEMIQUEUE", "TWIN", "COUNTER_FROM_ONE"),
}


def write_types(folder):
    """Writes the worked types, each into a file of its name."""
    with open(TEXTS, encoding="ascii") as file:
        texts = dict(re.findall(r'pub (?:const|static) (\w+): &str =\s*"([^"]*)";', file.read()))
    for name in {name for names in TYPES.values() for name in names}:
        with open(os.path.join(folder, name), "w", encoding="ascii") as file:
            file.write(texts[name])


def follow_batch(folder, both, kind, seed, histories):
    """Lets stores follow this many histories of a seed: how many changed events were made."""
    library, plain = both
    types = [os.path.join(folder, name) for name in TYPES[kind]]
    numbers = os.path.join(folder, "numbers")
    with open(numbers, "wb") as file:
        subprocess.run([plain, kind, str(seed), str(histories), *types], check=True, stdout=file)
    run = subprocess.run([library, "followed", kind, numbers, *types], capture_output=True, text=True)
    words = run.stdout.split()
    if run.returncode or words[:4] != ["histories", str(histories), "changed", str(histories)]:
        sys.exit(f"{kind}, seed {seed}: {run.stdout}{run.stderr}")
    return int(words[-1])


def follow_kind(folder, both, kind, histories):
    """Lets stores of a kind follow this many histories, and prints what came of them."""
    batches = [min(BATCH, histories - at) for at in range(0, histories, BATCH)]
    made = sum(follow_batch(folder, both, kind, seed, count) for seed, count in enumerate(batches))
    print(f"{kind}: {histories:,} histories followed; of as many changed events {made:,} made by a command, "
          f"{histories - made:,} by none", flush=True)
    return made


def main(histories):
    halves = {"undo": histories - histories // 2, "intentions": histories // 2}
    with tempfile.TemporaryDirectory() as folder:
        write_types(folder)
        both = programs.library_of_rust(folder), programs.plain(folder, "plain_follow", "plain_follow/main.rs")
        made = sum(follow_kind(folder, both, kind, count) for kind, count in halves.items())
    print(f"both: {histories:,} histories followed; {made:,} changed events made by a command, "
          f"{histories - made:,} by none")
