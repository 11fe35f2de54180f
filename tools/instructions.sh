#!/usr/bin/env bash
# Counts the instructions of runs by callgrind, and compares them with those that docs/performance.md gives
# under "Instructions". More than its mark is a failure; where a run has no mark, more than a tenth over its
# figure is. So is more than 2.2 times as many for twice the input. Unlike times, instructions depend on no
# other work on the machine. Where valgrind isn't installed it says so, and compares nothing.
# Usage: tools/instructions.sh [PROGRAM]
set -euo pipefail
cd "$(dirname "$0")/.."
program=$PWD/${1:-crates/fints/out/fints}
if ! command -v valgrind >/dev/null; then
    echo "instructions: valgrind isn't installed, so nothing is counted"
    exit 0
fi
if [ ! -x "$program" ]; then
    echo "instructions: $program isn't built" >&2
    exit 1
fi
room=$(mktemp -d)
trap 'rm -rf "$room"' EXIT
PYTHONPATH=tools PYTHONDONTWRITEBYTECODE=1 python3 - "$program" "$room" <<'END'
import re
import sys

import cost

program, folder = sys.argv[1:]
page = open("docs/performance.md", encoding="utf-8").read()
told = page.split("### Instructions\n", 1)[1].split("```\n")[1]
room = cost.Room(program, folder)
runs = {label: words for label, _, _, words in cost.measured(room)}
MOST_TIMES = 2.2
failed, counted = 0, {}
for label, count, figure, mark in re.findall(r"(?m)^(\w.*?) {2,}([\d,]+) \w+ +([\d.]+)(?: +([\d.]+))?$", told):
    count = int(count.replace(",", ""))
    millions = counted[label, count] = room.instructions(runs[label](count))
    most = float(mark) if mark else 1.1 * float(figure)
    half = counted.get((label, count // 2))
    wrong = [f"over {most:.1f}"] * (millions > most) + ["over twice"] * bool(half and millions > MOST_TIMES * half)
    failed += bool(wrong)
    print(f"{label:58} {count:10,} {millions:8.1f} million {', '.join(wrong)}".rstrip(), flush=True)
print(f"instructions: {failed} over what docs/performance.md allows")
sys.exit(failed > 0)
END
