#!/usr/bin/env python3
"""Brings this repository's own definitions and lemmas to today's spelling: words in snake case, types in camel case.

Run once, at the top, right after the kit's own port.py. It goes by whole names in the .antt files of specs/ and
proofs/, and in clauses and `ghost use` lines of .rt files; names of functions of src/, strings and inputs stay.
Goals and steps that the check names (`returns-..`, `loop-..`) are not this repository's names, and stay too.
"""
import glob
import re
import sys

# A dash stays where a lemma is named after the left side of its equation: these are the outer calls.
OUTER = {"length", "take", "over", "lowered", "raised"}
# English that begins like one of those
WORDS = {"over-front", "lowered-fits", "lowered-some", "raised-fits", "raised-none", "raised-some"}
GOALS = re.compile(r"^(returns|loop|invariant|decreases|then|else|in|if|overflow|bounds|the)-|-(requires|init|preserved|smaller)$")
# one definition whose name is a type
TYPES = {"Reads-back": "ReadsBack"}
# A constructor of a `data`, on a line of its own
MADE = re.compile(r"^  (?:pub )?([a-z][\w'-]*) : .*")
DEFINED = re.compile(r"^\s*(?:unfoldable |abbrev )?(?:pub )?(?:unfoldable |abbrev )?(?:record |data )?([A-Za-z][\w'-]*)\s*[:({]")


def snake(name):
    if name in TYPES:
        return TYPES[name]
    if name[0].isupper():
        return name
    out = re.sub(r"(?<=[a-z0-9])([A-Z])", lambda m: "_" + m.group(1).lower(), name)
    if "-" in out and (out.split("-")[0] not in OUTER or name in WORDS):
        out = out.replace("-", "_")
    return out


def main():
    antt = sorted(glob.glob("crates/*/specs/**/*.antt", recursive=True) + glob.glob("crates/*/proofs/**/*.antt", recursive=True))
    rt = sorted(glob.glob("crates/*/src/**/*.rt", recursive=True))
    table = {}
    for path in antt:
        in_data = False
        for line in open(path, encoding="utf-8"):
            if re.match(r"\S", line):
                in_data = bool(re.match(r"(?:pub )?data ", line))
            found = MADE.match(line) if in_data else DEFINED.match(line)
            answers = path.endswith(("/Answers.antt", "/Invariants.antt"))
            if found and not (answers and GOALS.search(found.group(1))):
                name = found.group(1)
                if snake(name) != name:
                    table[name] = snake(name)
    taken = {}
    for old, new in table.items():
        taken.setdefault(new, []).append(old)
    clash = {new: olds for new, olds in taken.items() if len(olds) > 1}
    if clash:
        sys.exit(f"names fall together: {clash}")
    one = re.compile(r"(?<![\w'.-])(" + "|".join(sorted(map(re.escape, table), key=len, reverse=True)) + r")(?![\w'-])")

    def turned(text):
        return one.sub(lambda m: table[m.group(1)], text)

    for path in antt:
        text = open(path, encoding="utf-8").read()
        new = turned(text)
        if new != text:
            open(path, "w", encoding="utf-8").write(new)
    for path in rt:
        lines = open(path, encoding="utf-8").read().split("\n")
        new = [turned(line) if re.match(r"\s*(ghost use|requires|ensures|ghost )", line) else line for line in lines]
        if new != lines:
            open(path, "w", encoding="utf-8").write("\n".join(new))
    for old in sorted(table):
        print(f"{old} -> {table[old]}")


main()
