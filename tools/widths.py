#!/usr/bin/env python3
"""Names the lines of definitions (specs/) and of clauses that are longer than 110 columns; the gate wants none.
Who believes what is proved reads these, and a line that long is hard to read: it is broken at an arrow or a
cross. Proofs are left out, since nobody need read them, and so are lines with a long text in quotes, which
can't be broken.

Usage: tools/widths.py
"""
import collections
import glob
import os
import re
import sys

TOP = os.path.dirname(os.path.dirname(os.path.abspath(__file__)))
MOST = 110
CLAUSE = re.compile(r"\s*(ensures|requires|ghost (?!use ))\b")
# imports and comments are not broken
UNBROKEN = ("use ", "ghost use ", "pub use ", "--", "//")
QUOTED = re.compile(r'"(?:[^"\\]|\\.)*"')


def in_clauses(lines):
    """Of each line of a file of code whether it is of a clause, from its first word to the end of its braces."""
    depth = 0
    for line in lines:
        is_clause = bool(depth or CLAUSE.match(line))
        if is_clause:
            depth = max(0, depth + line.count("{") - line.count("}"))
        yield is_clause


def is_too_long(line):
    has_long_text = any(len(it) > MOST - 10 for it in QUOTED.findall(line))
    return len(line) > MOST and not line.lstrip().startswith(UNBROKEN) and not has_long_text


def main():
    counts = collections.Counter()
    for folder, kind in (("src", "clauses"), ("specs", "definitions")):
        for path in sorted(glob.glob(f"{TOP}/crates/*/{folder}/**/*.*t", recursive=True)):
            with open(path, encoding="utf-8") as it:
                lines = it.read().split("\n")
            counted = in_clauses(lines) if folder == "src" else [True] * len(lines)
            for number, (line, is_counted) in enumerate(zip(lines, counted), 1):
                if is_counted and is_too_long(line):
                    counts[kind] += 1
                    print(f"{os.path.relpath(path, TOP)}:{number}: {len(line)}")
    print(f"longer than {MOST} columns: {counts['clauses']} clauses, {counts['definitions']} definitions")
    sys.exit(bool(counts))


main()
