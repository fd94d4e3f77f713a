#!/usr/bin/env python3
"""Turns the repository's own names to the spelling of today's Rattle: words of definitions and lemmas in snake case.

    tools/port_names.py [ROOT]     at the root of a checkout, once, right after the toolchain's port.py

A word that begins with a small letter and has a capital after a small letter, a digit or an apostrophe is respelled
(`readSpan` to `read_span`, `upTo-within` to `up_to-within`) wherever it stands in crates/: definitions, laws, proofs,
clauses, comments and must-fail edits. Types, modules and constructors begin with a capital and stay. It says which new
spellings were words before, which have to be looked at.
"""
import collections
import glob
import os
import re
import sys

root = sys.argv[1] if len(sys.argv) > 1 else "."
files = []
for pattern in ("specs/**/*.antt", "proofs/**/*.antt", "src/**/*.rt", "must-fail/*.edit"):
    files += glob.glob(os.path.join(glob.escape(root), "crates", "*", pattern), recursive=True)
# laws whose name would fall together with that of the definition that they are about
apart = [
    ("format/proofs/Pairwise.antt", "in_order", "in_order-ascends"),
    ("state_io/proofs/Neighbours.antt", "in_order", "in_order-texts"),
    ("questions/proofs/Numbers.antt", "in_a_row", "in_a_row-parts"),
    ("state_slots/proofs/Agree.antt", "same_set", "same_set-lists"),
    ("state_slots/proofs/Whole.antt", "same_set", "same_set-lists"),
    ("state_manifest/proofs/Ends.antt", "end_fits", "end_fits-slot"),
]
word = re.compile(r"(?<![A-Za-z0-9_'\"])[a-z][A-Za-z0-9_']*")
capital = re.compile(r"(?<=[a-z0-9'])([A-Z])")
sunk = re.compile(r"(?<=[a-z0-9'_])([A-Z])(?=[A-Z][a-z])")


def snake(w):
    w = sunk.sub(lambda m: "_" + m.group(1).lower(), w)
    while capital.search(w):
        w = capital.sub(lambda m: "_" + m.group(1).lower(), w, count=1)
    return w


seen = collections.Counter()
texts = {}
for f in files:
    with open(f, encoding="utf-8") as source:
        texts[f] = source.read()
    for end, old, new in apart:
        if f.endswith("/" + end):
            texts[f] = re.sub(r"(?<![\w-])%s(?![\w-])" % old, new, texts[f])
    seen.update(word.findall(texts[f]))
turned = {w: snake(w) for w in seen if capital.search(w)}
for f, text in texts.items():
    new = word.sub(lambda m: turned.get(m.group(0), m.group(0)), text)
    if new != text:
        with open(f, "w", encoding="utf-8") as out:
            out.write(new)
print("%d words turned" % len(turned))
for w, s in sorted(turned.items()):
    if s in seen:
        print("look: %s is now %s, which stood before" % (w, s))
    if list(turned.values()).count(s) > 1:
        print("look: two words are now %s" % s)
