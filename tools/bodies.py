#!/usr/bin/env python3
"""Counts what bodies say for a proof's sake alone: calls of laws; calls of `keeps`, which says what an object
keeps; calls whose result is thrown away, under a name or without (`let _count = plan.step_count();`; one that
may refuse, with `?`, is called for its refusal); and calls of functions that change nothing and give nothing.
There are to be none: a proof cites the lemma of a law by its name, and has what an object keeps from the
object's type, or from a call whose result the body uses. The method `keeps` itself looks at a part of its
object, and is not counted. A `prove!` costs nothing when it runs: they are counted apart.

Usage: tools/bodies.py
"""
import glob
import os
import re
import sys

os.chdir(os.path.dirname(os.path.dirname(os.path.abspath(__file__))))
LAW_FILES = ("laws.rt", "run_laws.rt", "class_laws.rt")
HEAD = re.compile(r"^ *(?:pub(?:\([a-z]+\))? )?(?:const )?(?:final )?fn (\w+)((?:.|\n)*?)(?:;|\{)$", re.M)

sources = {path: open(path, encoding="utf-8").read() for path in sorted(glob.glob("crates/*/src/**/*.rt", recursive=True))}
laws = {
    name
    for path, text in sources.items()
    if os.path.basename(path) in LAW_FILES
    for name in re.findall(r"^(?:pub )?fn (\w+)\(\)$", text, re.M)
}
# Functions of which none of that name is handed anything that it could change, those that give a value,
# and those that give none.
changing, giving, silent = set(), set(), set()
for text in sources.values():
    for name, head in HEAD.findall(text):
        signature = re.split(r"^ *(?:requires|ensures)", head, maxsplit=1, flags=re.M)[0]
        if "&mut" in signature or re.search(r"\(\s*(?:mut )?self\b", signature):
            changing.add(name)
        (giving if "->" in signature else silent).add(name)
found, proved = [], 0
for path, text in sources.items():
    if "_tests/" in path:
        continue
    inside = None
    for number, line in enumerate(text.split("\n"), 1):
        at = f"{path}:{number}"
        inside = next(iter(re.findall(r"^ *(?:pub(?:\([a-z]+\))? )?fn (\w+)", line)), inside)
        if inside == "keeps":
            continue
        called = re.match(r"\s+(?:\w+(?:\.|::))*(\w+)\((.*)\);$", line)
        thrown = re.match(r"\s+let _(?:\w+)? = (?:\w+(?:\.|::))*(\w+)\((.*)\);$", line)
        if re.match(r"\s+prove!\(", line):
            proved += 1
        elif called and called[1] in laws:
            found.append(f"{at}: calls the law {called[1]}")
        elif called and called[1] == "keeps":
            found.append(f"{at}: {line.strip()}")
        elif called and called[1] in silent and called[1] not in changing:
            found.append(f"{at}: {line.strip()}")
        elif thrown and (thrown[1] in giving - changing or re.match(r"\s+let _\w+ = ", line)):
            found.append(f"{at}: {line.strip()}")
for line in found:
    print(line, file=sys.stderr)
print(f"bodies: {len(laws)} laws, {len(found)} statements for a proof alone, {proved} of `prove!`")
sys.exit(1 if found or not laws else 0)
