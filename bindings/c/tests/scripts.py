#!/usr/bin/env python3
"""scripts.py COLOCK COUNT SEED RUNNER..: random scripts by `colock run` and by each runner.

COLOCK is the program. A runner is a program that takes `SCRIPT TYPE..` and writes what `colock run` writes up
to the kept states. The types are those of examples, and some of families, and numbers of any amount; those to which the
checker says yes for escrow are in escrow, too. A line for each difference, and status 1 where there is one.
"""
import os
import random
import re
import subprocess
import sys
import tempfile

EXAMPLES = os.path.join(os.path.dirname(os.path.abspath(__file__)), "..", "..", "..", "examples")
TYPES = [os.path.join(EXAMPLES, name + ".type") for name in ("ctr2", "tickets", "credit", "places", "pool", "stock", "seats", "queue", "cents", "purse")]
# a number so small that it is short and full now and then
SMALL = "number small\nmax 20\ninitial 9\ntake 3\ntake any\ngive any\natleast 5\nvalue\nend\n"
# families, by the words of `colock make`
FAMILIES = ["counter 9 1 3", "counter 30 1 2 5", "account 6 1 4", "set 0 a", "semiqueue 4 a", "semiqueue 1 a b", "stock 9 1 3", "queue 3 a b", "seats 2"]


def made_types(program, folder):
    """The paths of types of the families, each of which begins in the middle of its states, and of the small number."""
    path = os.path.join(folder, "small.type")
    with open(path, "w", encoding="ascii") as file:
        file.write(SMALL)
    yield path
    for number, words in enumerate(FAMILIES):
        text = subprocess.run([program, "make", *words.split()], capture_output=True, text=True, check=True).stdout
        middle = int(re.search(r"^states (\d+)$", text, re.M)[1]) // 2
        path = os.path.join(folder, f"{number}.type")
        with open(path, "w", encoding="ascii") as file:
            file.write(re.sub(r"^initial 0$", f"initial {middle}", text, flags=re.M))
        yield path


def kinds_of(program, path):
    """The kinds of recovery for which the checker says yes to a type."""
    checked = {kind: subprocess.run([program, "check", kind, path], capture_output=True, check=False).returncode for kind in ("undo", "intentions", "escrow")}
    return [kind for kind, status in checked.items() if status == 0]


def calls_of(path):
    """The names of the calls of a type, each once; with any amount those with some, of which a few are none."""
    with open(path, encoding="ascii") as file:
        lines = [line.split() for line in file if not line.startswith("#")]
    if lines[0][0] != "number":
        return list(dict.fromkeys(words[1] for words in lines if words[0] == "op"))
    greatest = int(lines[1][1])
    some = [1, 2, 3, 7, greatest // 3, greatest, 0, greatest + 1, "007", "any"]
    names = []
    for word, *amount in lines[3:-1]:
        names += [f"{word}:{k}" for k in (some if amount == ["any"] else amount)] or [word]
    return list(dict.fromkeys(names))


def script(drawn, calls, kinds):
    """The text of a random script over types, of which there are these calls and kinds."""
    objects = [drawn.randrange(len(calls)) for _ in range(drawn.randint(1, 5))]
    count = drawn.choice([10, 60, 300])
    lines = [f"max {drawn.choice([2, 20, count, 4 * count])}"]
    lines += [f"object {drawn.choice(kinds[f])} {f}" for f in objects]
    begun = 0
    for _ in range(count):
        t = drawn.randint(max(0, begun - 5), begun) if drawn.random() < 0.97 else drawn.randint(0, begun + 9)
        x = drawn.randrange(len(objects))
        part = drawn.random()
        if part < 0.15:
            lines.append("begin")
            begun += 1
        elif part < 0.75:
            name = drawn.choice(calls[objects[x]]) if drawn.random() < 0.95 else "no:such"
            lines.append(f"call {t} {x if drawn.random() < 0.97 else x + 9} {name}")
        elif part < 0.85:
            lines.append(f"commit {t}")
        elif part < 0.92:
            lines.append(f"abort {t}")
        else:
            lines.append(f"rollback {t} {drawn.randint(0, 3)}")
    return "\n".join(lines + ["end", ""])


def written(words):
    """What a program writes, up to the audit."""
    done = subprocess.run(words, capture_output=True, text=True, timeout=60, check=False)
    if done.returncode:
        return f"status {done.returncode}: {done.stderr}"
    return done.stdout.split("# audit")[0]


def differences(program, count, seed, runners):
    """Random scripts, and how each runner does otherwise than the program."""
    drawn = random.Random(seed)
    with tempfile.TemporaryDirectory() as folder:
        types = [*TYPES, *made_types(program, folder)]
        calls, kinds = [calls_of(path) for path in types], [kinds_of(program, path) for path in types]
        if not any("escrow" in of for of in kinds):
            raise ValueError("the checker says yes to no type for escrow")
        path = os.path.join(folder, "script")
        for number in range(count):
            with open(path, "w", encoding="ascii") as file:
                file.write(script(drawn, calls, kinds))
            wanted = written([program, "run", path, *types])
            for runner in runners:
                told = runner(path, types) if callable(runner) else written([runner, path, *types])
                if told != wanted:
                    yield f"script {number} of seed {seed}: {runner} writes\n{told}\nand not\n{wanted}"


def main():
    program, count, seed, runners = sys.argv[1], int(sys.argv[2]), int(sys.argv[3]), sys.argv[4:]
    found = 0
    for difference in differences(program, count, seed, runners):
        found += 1
        print(difference)
    print(f"{count} random scripts by {len(runners)} runners: {found} differences")
    sys.exit(1 if found else 0)


if __name__ == "__main__":
    main()
