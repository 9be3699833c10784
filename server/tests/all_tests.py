"""Runs modules of tests side by side, each in a process of its own, and prints what failed.

    python3 all_tests.py [MODULE..]

JOBS says how many at once: most of them wait most of the time. The crowd, which takes what there is, comes last and alone.
"""
import concurrent.futures
import os
import subprocess
import sys
import time

MODULES = ["test_failures", "test_page", "test_http", "test_decisions", "test_epochs", "test_transactions", "test_routes", "test_tokens", "test_pages",
           "test_curl"]
ALONE = ["test_crowd"]
HERE = os.path.dirname(os.path.abspath(__file__))
JOBS = int(os.environ.get("JOBS", "4"))


def run(module):
    """Whether all tests of a module passed."""
    start = time.monotonic()
    told = subprocess.run([sys.executable, "-m", "unittest", "-b", module], cwd=HERE, capture_output=True, text=True, check=False)
    words = "passed" if told.returncode == 0 else "FAILED"
    last = told.stderr.strip().splitlines()[-1:] or [""]
    print(f"{module}: {words}, {last[0]}, {time.monotonic() - start:.0f} s", flush=True)
    if told.returncode != 0:
        print(told.stdout, told.stderr, sep="", flush=True)
    return told.returncode == 0


def main(modules):
    together = [module for module in modules or MODULES + ALONE if module not in ALONE]
    alone = [module for module in modules or MODULES + ALONE if module in ALONE]
    with concurrent.futures.ThreadPoolExecutor(JOBS) as pool:
        passed = list(pool.map(run, together))
    passed += [run(module) for module in alone]
    return 0 if all(passed) else 1


if __name__ == "__main__":
    sys.exit(main(sys.argv[1:]))
