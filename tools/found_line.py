"""The line on standard error by which `colock serve` says what it found in the file that it opened."""
import re

LINE = re.compile(rb"colock: [^\n]*: (\d+) events, (\d+) aborted, \d+ ms\n")


def behind(said):
    """What is said after the line, where it is there, and all of it where it isn't."""
    line = LINE.match(said)
    return said[line.end() :] if line else said
