#!/usr/bin/env python3
"""What must be believed: the lines of definitions that the contracts of public calls reach, crate by crate.

tools/believe.py           a table: lines of definitions in specs/, and those that public contracts reach
tools/believe.py --apart   the spec files of which public contracts reach nothing, and those that they reach in part
tools/believe.py --doubles the names that stand for two things or more, of those that public contracts reach
tools/believe.py NAME..    the same table for what these definitions alone reach, as Headline
tools/believe.py --files NAME..   the spec files that these definitions reach, with the lines in each
tools/believe.py --beside NAME..  what else is read beside these: types and constants of the code, and words of the
                           kit's library, each with where it is
tools/believe.py --map     the tables of docs/map.md; --write puts them there, --check says whether they are there
--bare                     with any of these: lines without the comments
--words                    with any of these: the words of the definitions, which hang on no width, in place of lines

A definition's lines are its signature, its equations and the comment above it. The contracts of laws
and the files of laws are left out: what a law says is proved, so nobody need believe it. A type's lines are those
of its item in the code with its docstring, a constant's too.
"""
import collections
import glob
import os
import re
import sys

TOP = os.path.dirname(os.path.dirname(os.path.abspath(__file__)))
WORD = re.compile(r"[A-Za-z_][\w'-]*")
START = re.compile(r"^(?:(?:pub|abbrev|unfoldable|opaque) )*(?:record |data )?(?:pub )?([A-Za-z_][\w'-]*|◌\S+◌)(?: .*)?:")


MAP = f"{TOP}/docs/map.md"
MARKS = "<!-- printed by tools/believe.py --write -->", "<!-- end -->"
STATEMENTS = [
    ("the headline, of a capture, an order table and a script that were loaded", ["Headline"]),
    ("what `judge` prints, from the bytes of the capture, the order table and the message on", ["IsVerdictOf"]),
    ("the same of a message after another one and the answer to that", ["IsVerdictAfter"]),
    ("what `audit` prints, from the bytes of its inputs on", ["IsAuditOf", "IsOwnAuditOf"]),
    ("what `draft` prints, from the bytes of its inputs on", ["IsDraftOf"]),
    ("what `show` prints of a message, from its bytes on", ["IsShownMessage"]),
    ("what a certificate promises, and when it is closed", ["IsClosedCertificate", "KeepsPromise", "EachIsPermitted"]),
    ("what `run` prints, from the texts of its inputs on", ["IsRunOf"]),
    ("what `draw` prints, from the texts of its inputs on", ["IsDrawnOf", "IsPictureOf"]),
    ("what `check`, `explain` and `certify` print, from the texts of their inputs on", ["IsToldOf"]),
    ("all that the commands print", ["IsShowOf", "IsShownMessage", "IsVerdictOf", "IsVerdictAfter", "IsRunOf", "IsToldOf",
        "IsVerifiedOf", "IsDrawnOf", "IsPictureOf", "IsAuditOf", "IsOwnAuditOf", "IsDraftOf"]),
]


class Definition:
    def __init__(self, crate, file, name):
        self.crate, self.file, self.name, self.lines, self.text = crate, file, name, 0, ""


def imports(text, begin):
    """The names that a text takes from spec files, each with where it stands; and the files under other names."""
    names, files = {}, {}
    for at in re.finditer(begin + r"use Rattle\.(fints_\w+)\.specs\.([\w.]+?)(?:\.\{([^}]*)\}| as (\w+));?$", text, re.M):
        crate, path, taken, other = at.groups()
        if path.startswith("declared"):
            continue
        if other:
            files[other] = (crate, path)
        for name in (taken or "").split(","):
            first, _, then = name.strip().partition(" as ")
            names[then or first] = (crate, path, first)
    return names, files


def read_specs(bare):
    definitions, scopes = {}, {}
    for path in sorted(glob.glob(f"{TOP}/crates/*/specs/*.antt")):
        crate, file = path.split("/")[-3], os.path.basename(path)[:-5]
        # what is in the files of laws is proved
        if file == "Lib" or file.endswith("Laws"):
            continue
        with open(path, encoding="utf-8") as it:
            text = it.read()
        scopes[crate, file] = imports(text, "")
        current, comment = None, []
        for line in text.split("\n")[1:]:
            if not line.strip() or line.startswith(("use ", "pub use ")):
                comment = []
                continue
            if line.startswith("--"):
                comment.append(line)
                continue
            start = START.match(line)
            if start and not line.startswith(" ") and (crate, file, start[1]) not in definitions:
                current = definitions[crate, file, start[1]] = Definition(crate, file, start[1])
                current.lines += 0 if bare else len(comment)
            comment = []
            if current:
                current.lines += 1
                current.text += line + "\n"
    return definitions, scopes


def found(text, scope, at, definitions):
    """The definitions that a text names."""
    names, files = scope
    for word in set(WORD.findall(text)):
        key = names.get(word) or (*at, word)
        if key in definitions:
            yield key
    for name in {name for _, _, name in definitions if name.startswith("◌")}:
        key = names.get(name) or (*at, name)
        if key in definitions and name.strip("◌") in text.split():
            yield key
    for other, name in set(re.findall(r"\b(\w+)\.([\w'-]+)", text)):
        if other in files and (*files[other], name) in definitions:
            yield (*files[other], name)


def exported(crate):
    """The names and the modules that the crate hands out."""
    with open(f"{TOP}/crates/{crate}/src/lib.rt", encoding="utf-8") as it:
        text = it.read()
    names = set()
    for taken in re.findall(r"^pub use [\w:]+::(?:\{([^}]*)\}|\w+);", text, re.M):
        names |= set(WORD.findall(taken))
    names |= set(re.findall(r"^pub use [\w:]+::(\w+);", text, re.M))
    return names, set(re.findall(r"^pub mod (\w+);", text, re.M))


def public_clauses(text, names, is_public):
    """The contracts of public functions and traits, and what the models of public types say. What
    a model proves, as its invariant, is seen by nobody outside."""
    text = re.sub(r"^ *ghost use [^\n]*;\n", "", text, flags=re.M)
    proved = r"invariant|inverse|inverse_ok|laws|total|matches_\w+|respects_eq"
    text = re.sub(rf"^ *ghost (?:{proved}) = \{{.*?\}};\n", "", text, flags=re.M | re.S)
    for item in re.split(r"\n\n(?=\S)", text):
        head = next((it for it in item.split("\n") if re.match(r"(pub(\(crate\))? |unsafe |extern \"C\" )*(fn|impl|trait|struct|enum)\b", it)), "")
        free = re.match(r"(?:pub(?:\(crate\))? |unsafe |extern \"C\" )*fn (\w+)", head)
        if free:
            # C sees each call that it may link, whatever the crate hands out.
            if head.startswith('pub extern "C" fn'):
                yield re.split(r"^\{$", item, maxsplit=1, flags=re.M)[0]
            if head.startswith("pub fn") and (is_public or free[1] in names):
                yield re.split(r"^\{$", item, maxsplit=1, flags=re.M)[0]
            continue
        called = set(WORD.findall(head.split("{")[0]))
        if not is_public and not called & names:
            continue
        if "struct " in head or "enum " in head or " trait " in head:
            yield item
            continue
        own = head.startswith("impl") and " for " in head
        for function in re.split(r"^ *(?=(?:pub(?:\(crate\))? )?fn )", item, flags=re.M):
            if own or function.startswith("pub fn") or not re.match(r"(pub(\(crate\))? )?fn ", function):
                yield re.split(r"^ *\{$", function, maxsplit=1, flags=re.M)[0]


def roots(definitions):
    for path in sorted(glob.glob(f"{TOP}/crates/*/src/**/*.rt", recursive=True)):
        crate, module = os.path.relpath(path, f"{TOP}/crates").split("/")[0], os.path.basename(path)[:-3]
        if "law" in module or crate.endswith("_tests") or not os.path.exists(f"{TOP}/crates/{crate}/src/lib.rt"):
            continue
        with open(path, encoding="utf-8") as it:
            text = it.read()
        scope = imports(text, "ghost ")
        names, modules = exported(crate)
        for clause in public_clauses(text, names, module in modules):
            yield from found(clause, scope, (crate, ""), definitions)


def reached_from(roots, definitions, scopes):
    left, reached = list(set(roots)), set()
    while left:
        key = left.pop()
        if key not in reached:
            reached.add(key)
            left += found(definitions[key].text, scopes[key[:2]], key[:2], definitions)
    return reached


def of_names(names, definitions):
    """The definitions of these names."""
    found = [key for key in definitions if key[2] in names]
    missing = set(names) - {key[2] for key in found}
    if missing:
        sys.exit(f"believe: no definition {', '.join(sorted(missing))}")
    return found


# ---- What is read beside the definitions.


def code_items():
    """The types and constants of the code: for each crate, module and name the lines of the item, and its text."""
    items = {}
    for path in glob.glob(f"{TOP}/crates/*/src/**/*.rt", recursive=True):
        crate = os.path.relpath(path, f"{TOP}/crates").split("/")[0]
        module = os.path.relpath(path, f"{TOP}/crates/{crate}/src")[:-3].replace("/", ".")
        with open(path, encoding="utf-8") as it:
            text = it.read()
        # of a type with a model a contract sees the model's value only
        modelled = set(re.findall(r"^impl(?:<[^>]*>)? Model for (\w+)", text, re.M))
        for item in re.split(r"\n\n(?=\S)", text):
            code = [line for line in item.strip("\n").split("\n") if not line.lstrip().startswith("//!")]
            for head in re.finditer(r"^(?:pub(?:\([a-z]+\))? )?(?:struct|enum|const) (\w+)", item, re.M):
                start = item[:head.start()].count("\n")
                if head[1] in modelled:
                    continue
                body = code if head[0].split()[-2] != "const" else const_lines(item.split("\n"), start)
                items[crate, module, head[1]] = body
    return items


def const_lines(lines, start):
    """The lines of a constant of a list of them: its comment and its item."""
    first = start
    while first > 0 and lines[first - 1].startswith(("//", "#[")):
        first -= 1
    last = start
    while last < len(lines) - 1 and not lines[last].rstrip().endswith(";"):
        last += 1
    return lines[first:last + 1]


def taken_names(text):
    """The names that a spec file takes from elsewhere than definitions: of the code, and of the kit's library."""
    code, library = {}, {}
    for at in re.finditer(r"^(?:pub )?use Rattle\.([\w.]+?)(?:\.\{([^}]*)\}| as (\w+));?$", text, re.M):
        path, taken, other = at.groups()
        parts = path.split(".")
        for name in (taken or "").split(","):
            first, _, then = name.strip().partition(" as ")
            if parts[0].startswith("fints_"):
                if "declared" in parts:
                    module = parts[parts.index("declared") + 1:]
                    code[then or first] = parts[0], module, first
            elif first:
                library[then or first] = ".".join(parts), first
        if other and parts[0].startswith("fints_") and "declared" in parts:
            code[other] = parts[0], parts[parts.index("declared") + 1:], ""
    return code, library


def words_in(text):
    """The words and the operators of a text."""
    bare = "\n".join(line for line in text.split("\n") if not line.startswith("--"))
    return set(WORD.findall(bare)) | set(re.findall(r"\S+", bare))


def uses(name, words):
    """Whether a name is one of the words; an operator is named with places."""
    return all(part in words for part in name.split("◌") if part) if "◌" in name else name in words


def code_key(items, crate, module, name):
    """The item of the code that an imported name is, or belongs to."""
    for end in range(len(module), 0, -1):
        for last in (name, *reversed(module[end:])):
            if (crate, ".".join(module[:end]), last) in items:
                return crate, ".".join(module[:end]), last
    return None


def beside(reached, definitions):
    """The items of the code and the words of the library that the definitions reach."""
    items, by_name = code_items(), collections.defaultdict(list)
    for key in items:
        by_name[key[2]].append(key)
    code, library = set(), {}
    for crate, file in {key[:2] for key in reached}:
        with open(f"{TOP}/crates/{crate}/specs/{file}.antt", encoding="utf-8") as it:
            own, kit = taken_names(it.read())
        words = set().union(*(words_in(definitions[key].text) for key in reached if key[:2] == (crate, file)))
        for name, (owner, module, first) in own.items():
            if uses(name, words) and (key := code_key(items, owner, module, first)):
                code.add(key)
        library |= {first: path for name, (path, first) in kit.items() if uses(name, words)}
    left = list(code)
    while left:
        crate, _, name = key = left.pop()
        for word in set(WORD.findall("\n".join(line for line in items[key] if not line.lstrip().startswith("//")))):
            for other in by_name.get(word, []):
                if other[0] == crate and other not in code and word != name:
                    code.add(other)
                    left.append(other)
    return {key: items[key] for key in code}, library


def print_beside(reached, definitions, bare):
    """Prints what is read beside the definitions."""
    code, library = beside(reached, definitions)
    for kind, is_const in (("types", False), ("constants", True)):
        own = {key: lines for key, lines in code.items() if (key[2] == key[2].upper()) == is_const}
        print(f"{kind}: {len(own)}, {sum(size_of(lines, bare) for lines in own.values())} lines")
        for (crate, module, name), lines in sorted(own.items()):
            print(f"  {name} crates/{crate}/src/{module.replace('.', '/')}.rt {size_of(lines, bare)}")
    print(f"words of the kit's library: {len(library)}")
    by_file = collections.defaultdict(list)
    for name, path in library.items():
        by_file[path].append(name)
    for path, names in sorted(by_file.items()):
        print(f"  {path}: {' '.join(sorted(names))}")


def size_of(lines, bare):
    """How many lines an item of the code has."""
    return sum(bool(line.strip()) and not (bare and line.lstrip().startswith("//")) for line in lines)


# ---- The tables of docs/map.md.


def map_text():
    """The tables: by crate, and by statement."""
    (full, scopes), (bare, bare_scopes) = read_specs(False), read_specs(True)
    reached = reached_from(roots(full), full, scopes)
    lines = ["| Crate | Lines of definitions | Reached by public contracts | Without comments |", "|---|---|---|---|"]
    totals = [0, 0, 0]
    for crate in sorted({key[0] for key in full}):
        row = [
            sum(it.lines for key, it in full.items() if key[0] == crate),
            sum(full[key].lines for key in reached if key[0] == crate),
            sum(bare[key].lines for key in reached if key[0] == crate),
        ]
        totals = [a + b for a, b in zip(totals, row)]
        lines.append(f"| `{crate}` | {' | '.join(map(str, row))} |")
    lines += [f"| all | {' | '.join(map(str, totals))} |", ""]
    lines += ["| Statement | Definition | Lines | Without comments | Words | Types beside | Constants beside |"]
    lines += ["|---|---|---|---|---|---|---|"]
    for what, names in STATEMENTS:
        own = reached_from(of_names(names, full), full, scopes)
        code, _ = beside(own, full)
        consts = [key for key in code if key[2] == key[2].upper()]
        row = [
            sum(full[key].lines for key in own),
            sum(bare[key].lines for key in own),
            sum(len(bare[key].text.split()) for key in own),
            f"{len(code) - len(consts)} ({sum(size_of(code[key], False) for key in code if key not in consts)} lines)",
            len(consts),
        ]
        lines.append(f"| {what} | {', '.join(f'`{name}`' for name in names)} | {' | '.join(map(str, row))} |")
    return "\n".join(lines) + "\n"


def with_map(text):
    """The page with these tables in it."""
    first, last = MARKS
    front, rest = text.split(first, 1)
    return f"{front}{first}\n\n{map_text()}\n{last}{rest.split(last, 1)[1]}"


def keep_map():
    """Writes the tables into the page, or says whether they are there."""
    with open(MAP, encoding="utf-8") as it:
        text = it.read()
    wanted = with_map(text)
    if "--write" in sys.argv:
        with open(MAP, "w", encoding="utf-8") as it:
            it.write(wanted)
    elif text != wanted:
        sys.exit("believe: the tables of docs/map.md are not those of tools/believe.py --write")


def main():
    if "--map" in sys.argv:
        print(map_text(), end="")
        return
    if "--write" in sys.argv or "--check" in sys.argv:
        keep_map()
        return
    definitions, scopes = read_specs("--bare" in sys.argv)
    names = [it for it in sys.argv[1:] if not it.startswith("--")]
    reached = reached_from(of_names(names, definitions) if names else roots(definitions), definitions, scopes)
    if "--beside" in sys.argv:
        print_beside(reached, definitions, "--bare" in sys.argv)
        return
    if "--files" in sys.argv:
        files = collections.Counter()
        for key in reached:
            files[key[:2]] += definitions[key].lines
        for (crate, file), count in sorted(files.items()):
            print(f"crates/{crate}/specs/{file}.antt {count}")
        print(f"{len(files)} files, {sum(files.values())} lines")
        return
    if "--apart" in sys.argv:
        by_file = collections.defaultdict(list)
        for key, it in definitions.items():
            by_file[key[:2]].append((key in reached, it.name))
        for (crate, file), names in by_file.items():
            apart = [name for is_reached, name in names if not is_reached]
            if apart:
                print(f"{crate}/specs/{file}.antt: {'all' if len(apart) == len(names) else ' '.join(apart)}")
        return
    if "--doubles" in sys.argv:
        by_name = collections.defaultdict(list)
        for crate, file, name in sorted(reached):
            by_name[name].append(f"{crate}/{file}")
        for name, places in sorted(by_name.items()):
            if len(places) > 1:
                print(f"{name}: {', '.join(places)}")
        return
    lines, believed = collections.Counter(), collections.Counter()
    for key, it in definitions.items():
        size = len(it.text.split()) if "--words" in sys.argv else it.lines
        lines[it.crate] += size
        believed[it.crate] += size * (key in reached)
    by = f"these: {', '.join(names)}" if names else "public contracts"
    what = "Words" if "--words" in sys.argv else "Lines"
    print(f"| Crate | {what} of definitions | Reached by {by} |\n|---|---|---|")
    for crate in sorted(lines):
        print(f"| `{crate}` | {lines[crate]} | {believed[crate]} |")
    print(f"| all | {sum(lines.values())} | {sum(believed.values())} |")


main()
