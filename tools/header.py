#!/usr/bin/env python3
"""Compares what crates/fints_c/include/fints.h declares with what crates/fints_c/src exports, call by call and argument by
argument. Nothing else does: the prover reads no C, and cc no Rattle.

Usage: tools/header.py"""

import glob
import re
import sys

HEADER = "crates/fints_c/include/fints.h"
# how an argument of a call crosses to C
CROSSES = {
    "Global": [],
    "&[u8]": ["const uint8_t *{}", "size_t {}_size"],
    "&[usize]": ["const size_t *{}", "size_t {}_count"],
    "&mut [u8]": ["uint8_t *{}", "size_t {}_size"],
    "&mut usize": ["size_t *{}"],
    "u32": ["uint32_t {}"],
}


def exports():
    found = {}
    for path in sorted(glob.glob("crates/fints_c/src/**/*.rt", recursive=True)):
        with open(path, encoding="utf-8") as it:
            text = it.read()
        marks = text.count("#[unsafe(no_mangle)]")
        calls = re.findall(r'#\[unsafe\(no_mangle\)\]\npub extern "C" fn (\w+)\(([^)]*)\) -> (\w+)\n', text)
        if len(calls) != marks:
            sys.exit(f"header: {path}: an export is written in another form")
        for name, arguments, result in calls:
            parts = [it.split(": ", 1) for it in re.split(r",\s*", arguments.strip()) if it]
            words = [form.format(arg) for arg, kind in parts for form in CROSSES[kind]]
            found[name] = (CROSSES[result][0].split()[0], words)
    return found


def declared():
    with open(HEADER, encoding="utf-8") as it:
        text = re.sub(r"/\*.*?\*/", "", it.read(), flags=re.S)
    calls = re.findall(r"FINTS_CALL\s+(\w+)\s+(\w+)\(([^)]*)\);", text)
    return {name: (result, [" ".join(it.split()) for it in words.split(",")]) for result, name, words in calls}


def main():
    ours, theirs = exports(), declared()
    for name in sorted({*ours, *theirs}):
        if ours.get(name) != theirs.get(name):
            sys.exit(f"header: {name}: exported is {ours.get(name)}, declared is {theirs.get(name)}")
    print(f"{len(ours)} calls are declared as they are exported")


main()
