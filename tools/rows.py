#!/usr/bin/env python3
"""Runs the built program on the examples of this repository, part by part:

rows      the rows of rows/GROUP.md
tables    the rows of the tables in rows/tables/
pages     the commands of README.md, docs/client.md and docs/testers.md
listings  whether each file that docs/library.md shows is that file, or has that part

rows/README.md says what a row and a table are. The tool prints what differs, how many passed and failed of
each part, and last their sum. A part without any row is a failure.

Usage: tools/rows.py [--program PATH] [--threads N] [--only WORD] [PART..]
"""
import argparse
import difflib
import os
import pathlib
import re
import shutil
import subprocess
import sys
import tempfile
import tomllib
from collections.abc import Callable
from concurrent.futures import ThreadPoolExecutor
from functools import partial
from typing import NamedTuple

TOP = pathlib.Path(__file__).resolve().parent.parent
ROWS = TOP / "rows"
TABLES = ROWS / "tables"
SECONDS = 60  # a run that takes longer has failed


class Ran(NamedTuple):
    """What came of a run: its status and both streams."""

    status: int
    out: bytes
    err: bytes


class Row(NamedTuple):
    """A row: its words, what must come of them, and the inputs that are written beside it, by their names."""

    words: list
    want: Ran
    inputs: dict


class Job(NamedTuple):
    """A check: its name, and a call that returns what differs, or an empty text."""

    name: str
    check: Callable


# ---- How a row is written.

NO_FEED = "⟨no line feed⟩"
STATUS = re.compile(r"\[(\d+)\]")
CONFUSING = re.compile(r"! |!$|```|\[\d+\]$")
WORD = re.compile(r" (?:\$'((?:[^'\\]|\\x[0-9a-f]{2})*)'|'([^']*)'|([\w@%+=:,./-]+))", re.ASCII)
HEADING = re.compile(r"## (\S+)\n\n")
INPUT = re.compile(r"```([\w.-]+)\n((?:(?!```).*\n)*)```\n\n")
RUN = re.compile(r"```\n\$ fints(.*)\n((?:(?!```).*\n)*)```\n(?:\n|\Z)")


def words_of(line):
    """The words of a command. Each is bare, or in '..', or in $'..' with bytes as \\xHH."""
    words, at = [], 0
    while at < len(line):
        found = WORD.match(line, at)
        if not found:
            raise ValueError(f"this is no word:{line[at:]}")
        coded, quoted, bare = found.groups()
        if coded is not None:
            words.append(os.fsdecode(re.sub(rb"\\x(..)", lambda it: bytes.fromhex(it[1].decode()), coded.encode())))
        else:
            words.append(bare if quoted is None else quoted)
        at = found.end()
    return words


def stream_of(lines):
    """The bytes that these lines of a block are: ⟨HH⟩ is a byte."""
    text = "".join(f"{it}\n" for it in lines).removesuffix(f"{NO_FEED}\n")
    pieces = re.split(r"⟨([0-9a-f]{2})⟩", text)
    if "⟨" in "".join(pieces):
        raise ValueError(f"⟨ that begins no byte: {text[:200]}")
    return b"".join(bytes.fromhex(it) if i % 2 else it.encode() for i, it in enumerate(pieces))


def ran_of(block):
    """What the lines of a block say must come of its command."""
    lines = block.split("\n")[:-1]
    last = STATUS.fullmatch(lines[-1]) if lines else None
    status = int(last[1]) if last else 0
    lines = lines[:-1] if last else lines
    is_error = lambda line: line == "!" or line.startswith("! ")
    out = stream_of(it for it in lines if not is_error(it))
    return Ran(status, out, stream_of(it[2:] for it in lines if is_error(it)))


def as_bytes(text):
    """A text with each byte as ⟨HH⟩."""
    return "".join(f"⟨{it:02x}⟩" for it in text.encode("utf-8", "surrogateescape"))


def as_lines(stream):
    """A stream as the lines of a block, without a prefix."""
    is_plain = lambda it: it == "\n" or it.isprintable() and it != "⟨"
    text = "".join(it if is_plain(it) else as_bytes(it) for it in stream.decode("utf-8", "surrogateescape"))
    text = re.sub(r" (?=\n|\Z)", as_bytes(" "), text)
    return (text + ("" if text.endswith("\n") else NO_FEED + "\n")).split("\n")[:-1] if text else []


def block_of(ran):
    """The block's lines that say what came of a run."""
    out = [as_bytes(it[0]) + it[1:] if CONFUSING.match(it) else it for it in as_lines(ran.out)]
    err = [f"! {it}".rstrip() for it in as_lines(ran.err)]
    return out + err + ([f"[{ran.status}]"] if ran.status else [])


def differing(want, got):
    """How two lists of lines differ."""
    return "\n".join(difflib.unified_diff(want, got, "wanted", "printed", lineterm="", n=1))


# ---- The rows.


def read_row(text, at):
    """The row that begins at a place of a text: its name, the row, and where it ends."""
    if not (heading := HEADING.match(text, at)):
        raise ValueError("this is not the heading of a row")
    at, inputs = heading.end(), {}
    while found := INPUT.match(text, at):
        if found[1] in inputs:
            raise ValueError(f"two inputs are named {found[1]}")
        inputs[found[1]] = stream_of(found[2].split("\n")[:-1])
        at = found.end()
    if not (found := RUN.match(text, at)):
        raise ValueError(f"{heading[1]}: this is not a run")
    return heading[1], Row(words_of(found[1]), ran_of(found[2]), inputs), found.end()


def read_group(path):
    """The rows of a file, by their names GROUP/ROW."""
    text, rows = path.read_bytes().decode(), {}
    head = re.search(r"^## ", text, re.M)
    at = head.start() if head else len(text)
    while at < len(text):
        try:
            name, row, end = read_row(text, at)
            if f"{path.stem}/{name}" in rows:
                raise ValueError(f"there are two rows {name}")
        except ValueError as fault:
            sys.exit(f"rows: {path}, line {text.count(chr(10), 0, at) + 1}: {fault}")
        rows[f"{path.stem}/{name}"], at = row, end
    if not rows:
        sys.exit(f"rows: {path} has no row")
    return rows


def read_rows():
    """All rows, by their names. Each folder of inputs must be a row's."""
    rows = {}
    for path in sorted(ROWS.glob("*.md")):
        if path.name != "README.md":
            rows |= read_group(path)
    for group in ROWS.iterdir():
        if group.is_dir() and group.name not in ("inputs", "tables"):
            for folder in group.iterdir():
                if f"{group.name}/{folder.name}" not in rows:
                    sys.exit(f"rows: {folder} is the folder of no row")
    return rows


def lay_out(room, rows):
    """Copies the inputs into a room, where each row has a folder rows/GROUP/ROW to run in."""
    for name in ("rows", "examples"):
        shutil.copytree(TOP / name, room / name)
    for name, row in rows.items():
        folder = room / "rows" / name
        folder.mkdir(parents=True, exist_ok=True)
        for file, data in row.inputs.items():
            if (folder / file).exists():
                sys.exit(f"rows: {name} has {file} in its folder, too")
            (folder / file).write_bytes(data)


def run(command, folder):
    """Runs a command on empty input."""
    ran = subprocess.run(command, cwd=folder, stdin=subprocess.DEVNULL, capture_output=True, timeout=SECONDS)
    return Ran(ran.returncode, ran.stdout, ran.stderr)


def rows_part(program, room):
    """The rows of rows/GROUP.md."""
    rows = read_rows()
    lay_out(room, rows)

    def check(row, folder):
        """Runs a row in its folder."""
        ran = run([program, *row.words], folder)
        return "" if ran == row.want else differing(block_of(row.want), block_of(ran))

    return [Job(name, partial(check, row, room / "rows" / name)) for name, row in rows.items()]


# ---- The tables.


def repeated(piece):
    """Copies of a piece; in each, `#` is the copy's number."""
    first, last = int(piece[1] or 1), int(piece[2])
    return "".join(piece[3].replace("#", str(i)) for i in range(first, last + 1))


def text_of(part):
    """The text that a row's part means: of copies of copies, the inner ones are made first."""
    while "⟨" in part or "⟩" in part:
        part, made = re.subn(r"⟨(?:(\d+)-)?(\d+) ([^⟨⟩]*)⟩", repeated, part)
        if made == 0:
            raise ValueError(f"a bracket without its other one: {part[:200]}")
    return part.replace("⏎", "\n")


def is_told(wanted, ran):
    """Whether the run ended and printed as is wanted."""
    status, out, err = ran.status, ran.out.decode(), ran.err.decode()
    if wanted == "read":
        return status in (0, 1) and not err
    if wanted.startswith("error: "):
        return (status, out, err) == (5 if wanted.startswith("error: read ") else 3, "", text_of(wanted) + "\n")
    text = text_of(wanted.removeprefix(".. ")) + "\n"
    if wanted.startswith(("why: ", "note: ")):
        breaks = any(line.startswith("why: ") for line in text.splitlines())
        return (status, err) == (int(breaks), text) and bool(out)
    breaks = any(line.startswith(("invalid", "findings ", "broken ")) for line in text.splitlines())
    good = out.endswith(f"\n{text}") if wanted.startswith(".. ") else out == text
    return good and (status, err) == (int(breaks), "")


def read_table(path):
    """The rows of a file of tables: the words, the text, what is wanted, and the row's line."""
    with path.open("rb") as it:
        file = tomllib.load(it)
    for table in file["table"]:
        words = table.get("words") or file["words"]
        for row in table["rows"].splitlines():
            wanted, _, part = row.partition(" | ")
            if wanted != "read":
                wanted = file.get("told", "") + wanted + table.get("place", "")
            yield words, text_of(table.get("before", "") + part + table.get("after", "")), wanted, row


def tables_part(program, room):
    """The rows of the tables in rows/tables/."""
    jobs = []

    def check(number, words, text, wanted):
        """Runs the program on a row's text."""
        file = room / f"text-{number}"
        file.write_text(text, encoding="utf-8", newline="")
        ran = run([program, *(str(file) if it == "TEXT" else it for it in words)], TABLES)
        told = f"wanted: {wanted}\nstatus {ran.status}, printed: {(ran.err or ran.out)[-200:]!r}"
        return "" if is_told(wanted, ran) else told

    for path in sorted(TABLES.glob("*.toml")):
        before = len(jobs)
        for words, text, wanted, row in read_table(path):
            call = partial(check, len(jobs), words, text, wanted)
            jobs.append(Job(f"tables/{path.name}: {row[:200]}", call))
        if len(jobs) == before:
            sys.exit(f"tables: {path} holds no row")
    return jobs


# ---- The pages.


PAGES = ("README.md", "docs/client.md", "docs/testers.md")
# What a page's reader has, and which file of the rows it is here.
OWN = {"client.log": "audit/log-of-hbci4java/h4j.log", "proxy.har": "audit/har-of-a-proxy/h4j.har"}
BLOCK = re.compile(r"^```.*\n((?:(?!```).*\n)*)```\n|^((?:    .*\n)+)", re.M)
COMMAND = re.compile(r"fints |for ")
BUILDS = re.compile(r"rt ci$|\(cd crates/fints && rt run ")
# A command in a line, without `FILE` for a file and `..` for further words.
INLINE = re.compile(r"`(fints (?![^`]*(?:FILE|\.\.))[^`]*--[^`]*)`")


def commands_of(text):
    """The commands of a page: of each its line, and what the page shows of it, or None. A block that begins with `$ `
    is a command of one line and what it prints. What another block prints is in the next one, after "prints"."""
    commands, end = [], 0
    for block in BLOCK.finditer(text):
        body = block[1] if block[2] is None else re.sub(r"^    ", "", block[2], flags=re.M)
        line = text.count("\n", 0, block.start()) + (2 if block[2] is None else 1)
        between, end = text[end : block.start()].strip(), block.end()
        first, _, rest = body.partition("\n")
        if first.startswith("$ "):
            commands.append((line, first[2:], rest.rstrip("\n")))
        elif COMMAND.match(body):
            commands.append((line, body, None))
        elif between == "prints" and commands and commands[-1][2] is None:
            commands[-1] = (*commands[-1][:2], body.rstrip("\n"))
        elif not BUILDS.match(body):
            raise ValueError(f"line {line}: this is no command, nor what one prints")
    prose = BLOCK.sub(lambda it: "\n" * it[0].count("\n"), text)
    commands += [(prose.count("\n", 0, it.start()) + 1, it[1], None) for it in INLINE.finditer(prose)]
    return sorted(commands, key=lambda it: it[0])


def pages_part(program, room):
    """The commands of the pages, in a copy of `examples` with the files that a reader has. Of `rt try` only standard
    output is shown: on the other stream rt says what it does."""
    shutil.copytree(TOP / "examples", room / "examples")
    for name, row in OWN.items():
        shutil.copy(ROWS / row, room / name)
    (room / "bin").mkdir()
    (room / "bin" / "fints").symlink_to(program)

    def check(command, shown):
        """Runs a command as a shell does, with both streams in one. One of whose output nothing is shown is a report."""
        tries = command.startswith("(cd crates/fints && rt try ")
        errors = subprocess.DEVNULL if tries else subprocess.STDOUT
        env = {**os.environ, "PATH": f"{room / 'bin'}:{os.environ['PATH']}"}
        ran = subprocess.run(
            ["bash", "-c", command],
            cwd=TOP if tries else room,
            env=env,
            stdin=subprocess.DEVNULL,
            stdout=subprocess.PIPE,
            stderr=errors,
            timeout=None if tries else SECONDS,
        )
        got = ran.stdout.decode("utf-8", "surrogateescape").rstrip("\n")
        if shown is None:
            return "" if ran.returncode in (0, 1) else f"status {ran.returncode}, printed: {got[-200:]!r}"
        return "" if got == shown else differing(shown.split("\n"), got.split("\n"))

    jobs = []
    for page in PAGES:
        try:
            commands = commands_of((TOP / page).read_text(encoding="utf-8"))
        except ValueError as fault:
            sys.exit(f"pages: {page}, {fault}")
        for line, command, shown in commands:
            name = f"{page}, line {line}: {command.partition(chr(10))[0]}"
            jobs.append(Job(name, partial(check, command, shown)))
    return jobs


def listings_part(program, room):
    """The listings of docs/library.md: a line `PATH`, whole: or `PATH`, of it: and the next block."""
    text = (TOP / "docs" / "library.md").read_text(encoding="utf-8")
    listing = r"^`(crates/[^`]+)`, (whole|of it):.*\n(?:(?!```).*\n)*?```.*\n((?:.*\n)*?)```\n"

    def check(path, how, shown):
        """Compares a file with what is shown of it."""
        file = (TOP / path).read_text(encoding="utf-8").rstrip("\n")
        good = shown and (shown == file if how == "whole" else shown in file)
        return "" if good else "the file is not what is shown"

    found = re.findall(listing, text, re.M)
    return [Job(f"docs/library.md: {path}", partial(check, path, how, body.removesuffix("\n"))) for path, how, body in found]


PARTS = {"rows": rows_part, "tables": tables_part, "pages": pages_part, "listings": listings_part}


def is_passed(job):
    """Does a check, and prints what differs."""
    try:
        differs = job.check()
    except (OSError, ValueError, subprocess.TimeoutExpired) as fault:
        differs = str(fault)
    if differs:
        print(f"{job.name}:\n" + "".join(f"  {it}\n" for it in differs.split("\n")), end="", file=sys.stderr)
    return not differs


def run_part(name, program, lanes, only):
    """Does the checks of a part; how many passed and failed."""
    with tempfile.TemporaryDirectory(prefix="rows-") as room:
        jobs = PARTS[name](program, pathlib.Path(room))
        if not jobs:
            print(f"{name}: there is no row", file=sys.stderr)
            return 0, 1
        picked = [it for it in jobs if only in it.name]
        # The pages' commands run one after another: they work in one folder.
        passed = sum((map if name == "pages" else lanes.map)(is_passed, picked))
    print(f"{name}: {passed} passed, {len(picked) - passed} failed", flush=True)
    return passed, len(picked) - passed


def main():
    """Runs the parts that are named, or all."""
    words = argparse.ArgumentParser(description=__doc__, formatter_class=argparse.RawDescriptionHelpFormatter)
    words.add_argument("--program", default=TOP / "crates" / "fints" / "out" / "fints", metavar="PATH")
    words.add_argument("--threads", type=int, default=os.cpu_count(), metavar="N")
    words.add_argument("--only", default="", metavar="WORD", help="only the rows with this in their name")
    words.add_argument("parts", nargs="*", metavar="PART", help=f"of {', '.join(PARTS)}; none: all")
    given = words.parse_args()
    program = os.path.abspath(given.program)
    if not os.access(program, os.X_OK):
        sys.exit(f"rows: {given.program} isn't built")
    unknown = [it for it in given.parts if it not in PARTS]
    if unknown:
        sys.exit(f"rows: there is no part {unknown[0]}")
    with ThreadPoolExecutor(given.threads) as lanes:
        counts = [run_part(it, program, lanes, given.only) for it in given.parts or PARTS]
    passed, failed = (sum(it) for it in zip(*counts))
    print(f"{passed} passed, {failed} failed")
    return failed > 0 or passed == 0


if __name__ == "__main__":
    sys.exit(main())
