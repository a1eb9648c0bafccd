#!/usr/bin/env python3
"""Brings the names of definitions and lemmas to one spelling: words in snake case, types in camel case.

usage: python3 tools/respell.py        at the top of the repository, right after the kit's port.py

The names are those that the .antt files of crates/ declare. They are turned where antt stands: in .antt files,
in the ghost lines and clauses of .rt files, and in the texts of must-fail edits. Names that a check makes
(goals, steps of a proof) keep their form.
"""
import os
import re
import sys

SIGNATURE = re.compile(r"^\s*(?:(?:abbrev|unfoldable|pub|infix\w* \d+) )*([^\s:(){}λ.,;«»]+)(?: [^\s:]+)* ?:(?!=) ")
DECLARED = re.compile(r"^\s*(?:pub )?(?:data|record) ([A-Za-z][^\s:({]*)")
GOAL = re.compile(r": (?:goal|given|need)\.")
TOKEN = re.compile(r"[^\s(){}\[\],;.«»\"|λ∷⌜⌝]+")
# names that would fall together with a field of the same crate
OTHER = {"last-tick": "latest_tick", "last-seq": "latest_seq"}


def files(ends):
    for folder, dirs, names in os.walk("crates"):
        dirs[:] = sorted(d for d in dirs if d != "out")
        for name in sorted(names):
            if name.endswith(ends):
                yield os.path.join(folder, name)


def spelled(name):
    if name in OTHER:
        return OTHER[name]
    if name[0].isupper():
        return "".join(p[:1].upper() + p[1:] for p in name.split("-"))
    name = re.sub(r"(?<=[a-z0-9])([A-Z])", lambda m: "_" + m.group(1).lower(), name)
    return name.replace("-", "_")


def declared():
    """The names that are declared, and among them the fields of records."""
    found, fields, goals = set(), set(), set()
    for path in files((".antt",)):
        record = None
        for line in open(path, encoding="utf-8"):
            text = line.strip()
            if not text or text.startswith("--") or text.startswith("use "):
                continue
            depth = len(line) - len(line.lstrip())
            if record is not None and depth <= record:
                record = None
            m = DECLARED.match(line)
            if m:
                found.add(m.group(1))
                if "record" in line.split(m.group(1))[0]:
                    record = depth
                continue
            m = SIGNATURE.match(line)
            if m and GOAL.search(line):
                goals.add(m.group(1))
            elif m:
                found.add(m.group(1))
                if record is not None:
                    fields.add(m.group(1))
    turned = {n for n in found - goals if n[0].isalpha() and ("-" in n or (n[0].islower() and re.search("[a-z][A-Z]", n)))}
    return {n: spelled(n) for n in turned}, fields


def modules(text):
    """The modules that a file's imports name."""
    return {a or b for a, b in re.findall(r"^\s*(?:ghost )?use \S*?(?:\.([A-Z]\w*)| as (\w+));?$", text, re.M)}


def turn(text, names, said, path, fields, known=()):
    def one(m):
        name = m.group(0)
        if name not in names:
            return name
        before = text[m.start() - 1] if m.start() else " "
        if before == "." and re.search(r"[\w»)'′]$", text[: m.start() - 1] or " "):
            owner = re.search(r"[\w']+(?=\.$)", text[: m.start()])
            if name not in fields and not (owner and owner.group(0) in known):
                said.append(f"{path}: kept .{name}")
                return name
        return names[name]

    return TOKEN.sub(one, text)


def antt_lines(text):
    """Which lines of a .rt file are antt: ghost items, and clauses up to the body."""
    inside, depth = False, 0
    for line in text.split("\n"):
        head = line.strip()
        if head.startswith("//"):
            yield False
            continue
        starts = re.match(r"(ghost|requires|ensures)\b", head) is not None
        if starts or inside:
            depth += line.count("{") - line.count("}")
            inside = depth > 0
            if not inside:
                depth = 0
            yield True
        else:
            yield re.search(r"\bghost \w+:", head) is not None


def main():
    if not os.path.isdir("crates"):
        sys.exit("no crates/ here")
    names, fields = declared()
    both = {}
    for name, new in names.items():
        both.setdefault(new, []).append(name)
    for new, old in sorted(both.items()):
        if len(old) > 1:
            print("fall together:", new, sorted(old))
    said = []
    for path in files((".antt", ".rt", ".edit")):
        with open(path, encoding="utf-8") as f:
            text = before = f.read()
        text = re.sub("«([a-z]+)-([a-z]+)»", lambda m: m.group(1) + "_" + m.group(2), text)
        if path.endswith(".antt"):
            new = turn(text, names, said, path, fields, modules(text))
        elif path.endswith(".edit"):
            # an edit speaks of a source by its code, too: only names with a dash are antt's for sure
            new = turn(text, {n: s for n, s in names.items() if "-" in n}, said, path, fields)
        else:
            lines = text.split("\n")
            new = "\n".join(turn(l, names, said, path, fields) if antt else l for l, antt in zip(lines, antt_lines(text)))
        if new != before:
            with open(path, "w", encoding="utf-8") as f:
                f.write(new)
    for line in said:
        print(line)
    print(len(names), "names turned")


main()
