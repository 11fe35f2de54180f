#!/usr/bin/env python3
"""Tries the must-fail edits of crates, several in one check. A function is proved by its own contract and the
contracts of what it calls, so an edit of another function neither helps nor harms. So edits of different
functions are checked together, and each of these functions has to be refused for itself, not for what it calls.
An edit that isn't refused so is tried by itself, by `rt must-fail`, whose verdict counts.

A refusal that comes only because a proof file names what the edit took away, or answers a goal that is
no longer one, says nothing of the contract: it counts as NOT REFUSED.

The further edits of a crate are in must-fail/CRATE.edits. Each begins with a line `edit: NAME`, and its other
lines are those of an .edit file. An empty line comes before the next one.

The crates must be checked before (`rt check`). The tool works in a copy, which it removes.

Usage: tools/edits-together.py [--gate] [--at-once N] [--only WORD] [CRATE..]
       no crate: all that have edits; --gate: the edits of the gate, crates/CRATE/must-fail/NAME.edit, instead;
       --at-once 1: each by `rt must-fail`
"""
import argparse
import glob
import os
import re
import shutil
import subprocess
import sys
import tempfile

TOP = os.path.dirname(os.path.dirname(os.path.abspath(__file__)))
# What a line of a function says where it is not refused for itself.
FOR_ANOTHER = re.compile(r": (no proof|not proved)(: it (calls|passes|waits)|; it waits)")
# What a proof file's line says where it names what the edit took away, or answers what is no goal now.
LOST_NAME = re.compile(r"has no field|is not in scope|has no `|was not admitted|Unit \{0\}")
# What rt says of such a refusal.
SAYS_LITTLE = "only because a proof file names"


def read(path):
    with open(path, encoding="utf-8", newline="") as it:
        return it.read()


def write(path, text):
    with open(path, "w", encoding="utf-8", newline="") as it:
        it.write(text)


class Edit:
    """One must-fail edit: pairs of a file, an old and a new text, each a line."""

    def __init__(self, name, text, folder):
        self.name, self.text, self.folder = name, text, folder
        self.pairs, file, old = [], None, None
        for line in text.split("\n"):
            if line.startswith("file: "):
                file = line[len("file: ") :].strip()
            elif line.startswith("old: "):
                old = line[len("old: ") :]
            elif line.startswith("new:") and old is not None:
                self.pairs.append((file, old, line[len("new:") :].removeprefix(" ")))
                old = None
        self.places = self.functions()

    def apply(self, texts):
        """The texts with the edit, or None where an old text doesn't stand once."""
        texts = dict(texts)
        for file, old, new in self.pairs:
            if file not in texts:
                texts[file] = read(f"{self.folder}/{file}")
            if texts[file].count(old) != 1:
                return None
            texts[file] = texts[file].replace(old, new)
        return texts

    def functions(self):
        """The functions that the edit changes, as module and name; None where it changes more."""
        found, texts = set(), {}
        for file, old, new in self.pairs:
            text = texts.get(file) or read(f"{self.folder}/{file}")
            if text.count(old) != 1 or not file.startswith("src/"):
                return None
            at = text.index(old)
            ends = [at + (len(old) - len(old.lstrip())), at + len(old.rstrip()) - 1]
            names = {function_at(text, end) for end in ends}
            if None in names or re.search(r"\bfn \w", old) or re.search(r"\bfn \w", new):
                return None
            module = re.sub(r"(/mod)?\.rt$", "", file[len("src/") :]).replace("/", "::")
            found |= {(module, name) for name in names}
            texts[file] = text.replace(old, new)
        return found


def function_at(text, at):
    """The name of the function whose body stands at this place of the text."""
    name = None
    for head in re.finditer(r"^ *(?:pub(?:\([a-z]+\))? )?(?:const )?fn (\w+)", text, re.M):
        indent = re.match(r" *", head[0])[0]
        body = re.compile(rf"^{indent}\{{$|^.*\{{$", re.M).search(text, head.start())
        end = re.compile(rf"^{indent}\}}$", re.M).search(text, head.start())
        if body and end and body.end() <= at < end.start():
            name = head[1]
    return name


def batches(edits, most):
    """Edits of different functions that can be applied together."""
    left = [it for it in edits if it.places]
    while left:
        taken, places, texts = [], set(), {}
        for edit in left:
            applied = None if places & edit.places else edit.apply(texts)
            if applied is not None and len(taken) < most:
                taken, places, texts = [*taken, edit], places | edit.places, applied
        left = [it for it in left if it not in taken]
        yield taken, texts


def refusals(crate, said):
    """What is said of each function that is refused for itself, by module and name."""
    found = {}
    for line in said.split("\n"):
        told = re.match(rf"fn {crate}::(\S+): (not proved|no proof|could not tell)", line)
        if told and not FOR_ANOTHER.search(line):
            found[told[1]] = line
    return found


def refused(edit, found):
    """Whether each function of the edit is among those that are refused, itself or by a closure."""
    for module, name in edit.places:
        inside = module + "::" if module not in ("lib", "main") else ""
        paths = [it for it in found if it.startswith(inside)]
        parts = [it[len(inside) :].split("+")[0].split("::") for it in paths]
        if not any(it[-1] == name or "fn" in it and name in it for it in parts):
            return False
    return True


def only_names(edit, said):
    """Whether all that is said against the edit's functions is that a proof file names what is gone."""
    lines = [it for it in said.split("\n") if re.match(r"(note: )?\S+:\d+:\d+:", it)]
    for module, name in edit.places:
        mine = [it for it in lines if f"proofs/{module.replace('::', '/')}/" in it and f"/{name}/" in it]
        source = [it for it in lines if f"src/{module.replace('::', '/')}.rt" in it]
        if not mine or source or any(not LOST_NAME.search(it) for it in mine):
            return False
    return True


def check(room, crate, texts):
    """What a check of the crate says with these texts in place of its own."""
    folder, were = f"{room}/crates/{crate}", {}
    for file, text in texts.items():
        were[file] = read(f"{folder}/{file}")
        write(f"{folder}/{file}", text)
    try:
        ran = subprocess.run(["rt", "check", "--jobs", "1"], cwd=folder, capture_output=True, text=True, errors="replace", stdin=subprocess.DEVNULL)
    finally:
        for file, text in were.items():
            write(f"{folder}/{file}", text)
    return ran.stdout + ran.stderr


def tried_alone(room, crate, edits):
    """Tries these by rt must-fail; the number of those that were not refused."""
    into = f"{room}/crates/{crate}/must-fail"
    os.makedirs(into)
    for edit in edits:
        write(f"{into}/{edit.name}.edit", edit.text)
    ran = subprocess.run(["rt", "must-fail", crate], cwd=room, stdout=subprocess.PIPE, text=True, errors="replace", stdin=subprocess.DEVNULL)
    shutil.rmtree(into)
    told = [it.removeprefix("rt: ") for it in ran.stdout.split("\n") if it.removeprefix("rt: ").startswith("must-fail ")]
    print(*told or ran.stdout.split("\n"), sep="\n", flush=True)
    good = [": refused, as it must be" in it and SAYS_LITTLE not in it for it in told]
    return len(good) - sum(good) + max(0, len(edits) - len(told))


def try_crate(room, crate, named, most):
    """Tries a crate's edits; how many were refused, and how many were not."""
    edits = [Edit(name, text, f"{room}/crates/{crate}") for name, text in named]
    alone, passed, lost = [it for it in edits if most == 1 or not it.places], 0, 0
    for taken, texts in batches([it for it in edits if it not in alone], most):
        said = check(room, crate, texts)
        found = refusals(crate, said)
        for edit in taken:
            if not refused(edit, found):
                alone.append(edit)
            elif only_names(edit, said):
                lost += 1
                print(f"{crate}/{edit.name}: NOT REFUSED: only because a proof file names what the edit took away", flush=True)
            else:
                passed += 1
                print(f"{crate}/{edit.name}: refused, with {len(taken) - 1} others", flush=True)
    failed = tried_alone(room, crate, alone) if alone else 0
    return passed + len(alone) - failed, failed + lost


def read_edits(gate):
    """The edits of the gate or the further ones, as a crate, a name and a text each."""
    if gate:
        for path in sorted(glob.glob(f"{TOP}/crates/*/must-fail/*.edit")):
            yield path.split("/")[-3], os.path.basename(path).removesuffix(".edit"), read(path)
        return
    for path in sorted(glob.glob(f"{TOP}/must-fail/*.edits")):
        first, *rest = re.split(r"^edit: (.+)\n", read(path), flags=re.M)
        names, texts = rest[::2], rest[1::2]
        if first or len(set(names)) < len(names):
            sys.exit(f"{path}: it must begin with `edit: NAME`, and no name may come twice")
        for name, text in zip(names, texts):
            yield os.path.basename(path).removesuffix(".edits"), name, text.rstrip("\n") + "\n"


def copy_to(room, crates):
    """Copies the repository without its edits; what was proved of other crates is left out."""

    def left_out(folder, names):
        name = os.path.basename(os.path.dirname(folder))
        proved = ["incremental"] * (os.path.basename(folder) == "out" and name not in crates)
        return [it for it in names if it in ("must-fail", *proved)]

    for name in ("crates.txt", "HANDLES"):
        shutil.copy2(f"{TOP}/{name}", room)
    shutil.copytree(f"{TOP}/crates", f"{room}/crates", symlinks=True, ignore=left_out)


def main():
    words = argparse.ArgumentParser(description=__doc__, formatter_class=argparse.RawDescriptionHelpFormatter)
    words.add_argument("--gate", action="store_true")
    words.add_argument("--at-once", type=int, default=12, metavar="N")
    words.add_argument("--only", default="", metavar="WORD")
    words.add_argument("crates", nargs="*", metavar="CRATE")
    given = words.parse_args()
    edits = [it for it in read_edits(given.gate) if given.only in f"{it[0]}/{it[1]}"]
    crates = given.crates or sorted({it[0] for it in edits})
    unknown = set(crates) - {it[0] for it in edits}
    if unknown or not crates:
        sys.exit(f"there is no such edit{' of ' if unknown else ''}{', '.join(sorted(unknown))}")
    passed = failed = 0
    with tempfile.TemporaryDirectory(prefix="edits-") as room:
        copy_to(room, crates)
        for crate in crates:
            good, bad = try_crate(room, crate, [it[1:] for it in edits if it[0] == crate], given.at_once)
            passed, failed = passed + good, failed + bad
    print(f"{passed} passed, {failed} failed")
    return 1 if failed else 0


if __name__ == "__main__":
    sys.exit(main())
