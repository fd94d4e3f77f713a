"""The stored lines of crates/replay and their answers. Two scripts write them: each its own, and leaves the other's.

Lines that begin with a letter stand first and are those of tools/vectors.py; lines that begin with a digit are those of
tools/manifest_vectors.py.
"""
import os

FOLDER = os.path.join(os.path.dirname(os.path.dirname(os.path.abspath(__file__))), "crates", "replay")
NAMES = ("stdin", "stdout")


def has_letter(row):
    """Whether the line of a row, a line and its answer, begins with a letter."""
    return row[0][0].isalpha()


def read(name):
    with open(os.path.join(FOLDER, name), newline="\n") as f:
        return f.read().splitlines()


def write(name, lines):
    with open(os.path.join(FOLDER, name), "w", newline="\n") as f:
        f.write("".join(line + "\n" for line in lines))


def put(lines, answers):
    """Puts these lines, all of one script, and their answers in the place of those that it wrote before."""
    rows = list(zip(lines, answers))
    assert len(rows) == len(lines) == len(answers) and len(set(map(has_letter, rows))) == 1
    others = [row for row in zip(*map(read, NAMES)) if has_letter(row) != has_letter(rows[0])]
    rows = rows + others if has_letter(rows[0]) else others + rows
    for name, column in zip(NAMES, zip(*rows)):
        write(name, column)
