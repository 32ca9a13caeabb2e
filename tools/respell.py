#!/usr/bin/env python3
"""Brings the repository's own names in specs/, proofs/ and clauses to the library's spelling.

Run it once from the repository's root, right after the library's own script has brought the rest over: python3 tools/respell.py
With --list it changes nothing, and prints each name with its new spelling.
Definitions, lemmas and fields become snake case: `ductsKeep` is `ducts_keep`. A dash stays where it joins two names, as in
`between-append`, where `between` is a definition; in other names it becomes `_`. Names of Rust source, texts in quotes, and the
names of goals, which the prover makes, stay as they are.
"""
import re
import subprocess
import sys
from pathlib import Path

WORD = re.compile(r'"(?:[^"\\\n]|\\.)*"|[A-Za-z_][A-Za-z0-9_\'′-]*')
CAMEL = re.compile(r"[a-z][a-z0-9_]*[A-Z]\w*$")
SIGNATURE = re.compile(r"^ {0,2}(?:(?:pattern|unfoldable|abbrev|pub) )*([a-z][A-Za-z0-9_'′-]*) :", re.M)
# names of goals and of what answers them
GOAL = re.compile(r"(returns|loop|invariant|decreases|overflow|bounds|slice_bounds|ducts-(init|preserved))(-|$)|.*-requires$")
# list functions of the library that lemmas of ours begin with
LIBRARY = {"length", "set", "drop", "take", "cond", "map", "and"}
# the library's own names that are spelled with a capital
KEPT = {"cases_Bool"}
# lemmas that would get the name of the definition that they speak of
APART = {
    "as-plan": "as_plan_lem",
    "is-way": "is_way_lem",
    "leads-on": "leads_on_lem",
    "none_seen": "none_seen_lem",
}


def snake(name):
    return re.sub(r"(?<=[a-z0-9])([A-Z])", lambda m: "_" + m[1].lower(), name)


def sources():
    listed = subprocess.run(["git", "ls-files", "crates"], capture_output=True, text=True, check=True).stdout.split()
    return [Path(f) for f in listed if f.endswith((".rt", ".antt")) and Path(f).exists()]


def renamings(files):
    """The new spelling of each name that changes."""
    texts = {f: f.read_text(encoding="utf-8") for f in files}
    defined, functions, words = set(), set(), set()
    for f, text in texts.items():
        words |= {m[0] for m in WORD.finditer(text) if m[0][0] != '"'}
        if f.suffix == ".antt":
            found = set(SIGNATURE.findall(text))
            defined |= found
            if f.parts[2] == "specs":
                functions |= {n for n in found if "-" not in n}
    new = {}
    for name in words:
        if name in KEPT or GOAL.match(name):
            continue
        if CAMEL.match(name):
            new[name] = snake(name)
        elif "-" in name and name in defined:
            head = name.split("-")[0]
            if head not in functions and head not in LIBRARY or CAMEL.match(head):
                new[name] = snake(name.replace("-", "_"))
        elif name.endswith("′"):
            new[name] = name.replace("′", "'")
    new |= {n: to for n, to in APART.items() if n in words}
    return new, words


def fall_together(new, words):
    """New spellings that another name has, or that two names get."""
    seen = {}
    for name, to in sorted(new.items()):
        if to in words and to not in new:
            yield f"{name} -> {to}, which stands already"
        if to in seen:
            yield f"{name} and {seen[to]} -> {to}"
        seen[to] = name


def main():
    files = sources()
    new, words = renamings(files)
    if "--list" in sys.argv:
        for name, to in sorted(new.items()):
            print(f"{name} -> {to}")
    for line in fall_together(new, words):
        print("look:", line)
    if "--list" in sys.argv:
        return
    for f in files:
        text = f.read_text(encoding="utf-8")
        f.write_text(WORD.sub(lambda m: new.get(m[0], m[0]), text), encoding="utf-8")


main()
