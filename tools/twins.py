#!/usr/bin/env python3
"""Lists functions of crates/*/src that differ only in names, numbers and types: tools/twins.py [FOLDER]

Bodies are compared after each name has become the number of its first appearance and each number 0; bodies of fewer than
18 tokens, which are one call or one test, are left out. The last line counts the groups and the functions in them.
"""
import glob
import os
import re
import sys

WORDS = {"let", "mut", "if", "else", "match", "return", "while", "loop", "for", "in", "as", "break", "continue", "true", "false", "Ok", "Err", "Some", "None"}


def functions(path):
    """The functions of a file, each as its name and its body."""
    lines = [re.sub(r"//.*", "", line) for line in open(path, encoding="utf-8").read().split("\n")]
    for i, line in enumerate(lines):
        found = re.match(r"( *)(?:pub(?:\([a-z]+\))? )?(?:extern \"C\" )?fn (\w+)", line)
        if not found:
            continue
        end = found.group(1) + "}"
        last = next((j for j in range(i, len(lines)) if lines[j] == end), None)
        start = next((j for j in range(i, len(lines)) if lines[j].rstrip().endswith("{")), None)
        if last and start is not None and start < last:
            yield found.group(2), "\n".join(lines[start + 1 : last])


def shape(body):
    """The body without its names, numbers and strings."""
    seen = {}
    tokens = []
    for token in re.findall(r"\"[^\"]*\"|\w+|[^\w\s]", body):
        if token[0].isdigit() or token[0] == '"':
            tokens.append("0")
        elif token in WORDS or not re.match(r"\w", token):
            tokens.append(token)
        else:
            tokens.append("n%d" % seen.setdefault(token, len(seen)))
    return tokens


def main():
    root = sys.argv[1] if len(sys.argv) > 1 else os.path.join(os.path.dirname(__file__), "..")
    groups = {}
    for path in sorted(glob.glob(os.path.join(root, "crates/*/src/*.rt"))):
        crate = path.split("/crates/")[1].split("/")[0]
        for name, body in functions(path):
            tokens = shape(body)
            if len(tokens) >= 18:
                groups.setdefault(" ".join(tokens), []).append("%s::%s" % (crate, name))
    twins = [names for names in groups.values() if len(names) > 1]
    for names in twins:
        print("  ".join(names))
    print("%d groups, %d functions" % (len(twins), sum(map(len, twins))))


if __name__ == "__main__":
    main()
