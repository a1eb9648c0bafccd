#!/usr/bin/env python3
"""Spells the names of goals and of a proof's steps as today's check does: a name of the source keeps its underscores.

usage: python3 tools/respell_goals.py        at the top of the repository, after tools/respell.py
"""
import os
import re

WORDS = ["in_default", "In_default", "in_ok", "in_err", "In_ok", "In_err", "invariant_of", "slice_bounds", "offset_bounds",
         "nonzero_div", "nonzero_rem", "type_inv", "well_formed", "way_copy_out", "range_from", "range_to", "from_residual"]
WORDS += ["overflow_" + w for w in ("add", "sub", "mul", "shl", "shr", "cast", "neg", "step")]
TOKEN = re.compile(r"[A-Za-z][\w'·-]*-[\w'·-]*")


def walk(ends):
    for folder, dirs, names in os.walk("crates"):
        dirs[:] = sorted(d for d in dirs if d != "out")
        for name in sorted(names):
            if name.endswith(ends):
                yield os.path.join(folder, name)


def main():
    source = set(WORDS)
    for path in walk(".rt"):
        with open(path, encoding="utf-8") as f:
            source |= set(re.findall(r"\b[a-z][a-z0-9]*(?:_[a-z0-9]+)+\b", f.read()))
    longest = sorted(source, key=lambda w: (-len(w), w))
    dashed = {}
    for word in longest:
        dashed.setdefault(word.replace("_", "-"), word)
    rule = re.compile(r"(?<![\w])(" + "|".join(sorted(map(re.escape, dashed), key=len, reverse=True)) + r")(?![\w'])")
    seen = set()
    for path in walk(".antt"):
        if "/proofs/" not in path or not re.search(r"/(Answers|Invariants|Proof)\.antt$", path):
            continue
        with open(path, encoding="utf-8") as f:
            text = f.read()

        def one(m):
            new = rule.sub(lambda k: dashed[k.group(1)], m.group(0))
            if new != m.group(0):
                seen.add((m.group(0), new))
            return new

        new = TOKEN.sub(one, text)
        if new != text:
            with open(path, "w", encoding="utf-8") as f:
                f.write(new)
    for a, b in sorted(seen):
        print(a, "->", b)


main()
