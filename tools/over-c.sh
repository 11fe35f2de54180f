#!/usr/bin/env bash
# Runs the rows of rows/ over the library for C: builds it, compiles tools/over_c.c with it, and compares what comes of each
# row that has a call with what the row says: the status, the text, and from status 2 on the line of the refusal. Rows
# that have no call are counted: those with hints, of drafts, pictures and records, and of files that can't be read. Fewer
# than LEAST that are run are a failure. In each of these calls allocations are refused, and where valgrind is installed,
# it looks on at one row of each call. Then it runs the commands for C and Python of docs/library.md, and the outboxes in
# Go and Java where they are installed. With BY_RATTLE=1 it links what Rattle's own compiler built.
set -euo pipefail
cd "$(dirname "$0")/.."
if ! command -v "${CC:-cc}" >/dev/null; then
    echo "over-c: there is no C compiler"
    exit 0
fi
tools/header.py
tools/build-archive.sh
library=crates/fints_c/out/${BY_RATTLE:+by-rattle/}libfints.a
room=$(mktemp -d)
trap 'rm -rf "$room"' EXIT
# It asks the system for what C programs have, and for nothing else.
known=' free malloc memcmp memcpy memmove memset realloc '
for name in $(nm --undefined-only -j "$library" 2>/dev/null | grep -v ':$' | grep -v '^rattle_' | sort -u); do
    [[ $known = *" $name "* ]] || { echo "over-c: the library asks for $name" >&2; exit 1; }
done
"${CC:-cc}" -std=c11 -O1 -g -Wall -Wextra -Wno-missing-field-initializers -Werror -Icrates/fints_c/include \
    -Wl,--wrap=malloc,--wrap=realloc,--wrap=free -o "$room/over_c" tools/over_c.c "$library"
PYTHONPATH=tools PYTHONDONTWRITEBYTECODE=1 python3 - "$room/over_c" "$room" <<'END'
import pathlib
import shutil
import sys
from concurrent.futures import ThreadPoolExecutor

import rows

program, room = sys.argv[1], pathlib.Path(sys.argv[2]) / "rows"
LEAST = 300
NO_CALL = (75, 77)
# A row of each call, for valgrind.
WATCHED = ("dialogue/show show/message-sealed dialogue/judge-transfer judge/order-and-the-end audit/decoupled"
           " audit/broken-off dialogue/check dialogue/explain certify/fork dialogue/verify run/fork").split()
room.mkdir()
all_rows = rows.read_rows()
rows.lay_out(room, all_rows)


def differs(name):
    """What comes of a row differs from what it says so; None where it has no call."""
    row = all_rows[name]
    ran = rows.run([program, *row.words], room / "rows" / name)
    if ran.status in NO_CALL:
        return None
    with_less = rows.run(["env", "FINTS_REFUSE=1", program, *row.words], room / "rows" / name)
    if with_less != ran:
        return f"over-c: {name}: with allocations refused {with_less}, and not {ran}"
    want = row.want
    is_refused = want.status > 1
    text = (want.err if is_refused else want.out, ran.err if is_refused else ran.out)
    return "" if ran.status == want.status and text[0] == text[1] else f"over-c: {name}: {ran}, and not {want}"


def over_limit(option, size):
    """What comes of an input that is one byte too long, where it isn't the program's refusal."""
    paths = {"--params": "examples/c.fints", "--orders": "examples/orders-all.toml", "--message": "examples/balance.msg"}
    (room / "long").write_bytes(b" " * (size + 1))
    words = [it for pair in {**paths, option: str(room / "long")}.items() for it in pair]
    ran = rows.run([program, "judge", *words], room)
    good = (ran.status, ran.err) == (5, f"error: read {option}\n".encode())
    return "" if good else f"over-c: {size + 1} bytes of {option}: {ran}"


def is_unclean(name):
    """What valgrind says of a row's call, where it finds something."""
    words = ["valgrind", "-q", "--leak-check=full", "--error-exitcode=99", program, *all_rows[name].words]
    ran = rows.run(words, room / "rows" / name)
    return f"over-c: {name}: valgrind says {ran.err}" if ran.status == 99 else ""


names = [it for it in all_rows if not it.startswith(("usage/", "help/"))]
with ThreadPoolExecutor(4) as pool:
    found = list(pool.map(differs, names))
found += [over_limit("--params", 4_194_304), over_limit("--orders", 1_048_576), over_limit("--message", 4_194_304)]
if shutil.which("valgrind"):
    found += map(is_unclean, WATCHED)
else:
    print("over-c: valgrind isn't installed, so it looks on at no call")
wrong = [it for it in found if it]
print("".join(f"{it}\n" for it in wrong), end="", file=sys.stderr)
passed, left = found.count(""), found.count(None)
print(f"over-c: {passed} passed, {len(wrong)} failed, {left} have no call")
sys.exit(bool(wrong) or passed < LEAST)
END
mkdir -p out
PYTHONDONTWRITEBYTECODE=1 python3 - <<'END'
import re
import shutil
import subprocess
import sys

page = open("docs/library.md", encoding="utf-8").read()
section = page.split("## From C", 1)[1].split("\n# ", 1)[0]


def run(command):
    """What a shell prints for a command, with both streams in one."""
    return subprocess.run(command, shell=True, stdout=subprocess.PIPE, stderr=subprocess.STDOUT, text=True).stdout


failed = count = 0
for block in re.findall(r"```\n(.*?)```\n", section, re.S):
    command, _, shown = block.partition("\n") if block.startswith("$ ") else (block, "", "")
    command = command.removeprefix("$ ").replace("tools/build-archive.sh\n", "")
    printed, count = run(command), count + 1
    if printed != shown:
        failed += 1
        print(f"over-c: {command}\nprints\n{printed}", file=sys.stderr)

FILES = "examples/c.fints examples/orders-all.toml examples/unsigned.msg"
wanted = run(f"out/outbox {FILES}")
JAVA = "java --add-modules jdk.incubator.foreign --enable-native-access=ALL-UNNAMED examples/java/Outbox.java"
others = {"go": f"go run examples/go/outbox.go {FILES}", "java": f"{JAVA} examples/python/out/libfints.so {FILES}"}
for name, command in others.items():
    version = run("java --version") if name == "java" else ""
    if not shutil.which(name) or name == "java" and not version.startswith("openjdk 17"):
        print(f"over-c: {name} isn't installed, or in another version, so its outbox isn't run")
        continue
    printed, count = run(f"{command} 2>/dev/null"), count + 1
    if printed != wanted:
        failed += 1
        print(f"over-c: {command}\nprints\n{printed}", file=sys.stderr)
print(f"over-c: {count - failed} commands passed, {failed} failed")
sys.exit(failed > 0)
END
