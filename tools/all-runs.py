#!/usr/bin/env python3
"""Compares what the built program says of all runs of small scripts with the runs themselves.

For each script of tools/small_scripts.toml, each choice of its listed values and each list of its
listed answers, `run` makes the messages and `judge` names what each breaks by itself; what it breaks
behind the message before and the answer between, P11, is found here, in their bytes and codes. What
was seen so must be what `check` prints: the rules broken in each step, its greatest number and its
greatest size. These figures as a certificate must be valid where nothing is broken, and else invalid.
And each case that `explain` prints must be a run whose last message breaks what it is a case of; of
P11 the reason that `check --hints` tells must name the step that this run sends last but one, and the
branch that leads on from there. One script more has 10,200 messages in a row, the last 201 with
numbers that P2 refuses. Of further scripts, which break nothing, the certificate must be valid, and
with any figure one less, or none, invalid. And of scripts with long fields the run with the longest
values must have the figures that `check` prints.

The last line tells how many scripts passed and failed.
"""
import functools
import itertools
import os
import re
import subprocess
import sys
import tempfile
import tomllib
from concurrent.futures import ThreadPoolExecutor

TOP = os.path.dirname(os.path.dirname(os.path.abspath(__file__)))
PROGRAM = f"{TOP}/crates/fints/out/fints"
RULES = 12
ITEM = re.compile(rb"@(\d+)@|((?:\?.|[^+:'?])*)", re.S)
MESSAGE = re.compile(rb"message (\d+) step (\S+) size (\d+)\n")
REASON = re.compile(r'^why: (\S+): step "(\S+)" submits .*, and (?:branch (\d+)|the default) of it leads here', re.M)


def ran(*words):
    """The program, once it has run; a refusal ends the whole."""
    it = subprocess.run([PROGRAM, *words], stdin=subprocess.DEVNULL, capture_output=True, timeout=600)
    if it.returncode > 1:
        sys.exit(f"all-runs: fints {' '.join(words)}: status {it.returncode}: {it.stderr.decode()}")
    return it


def fints(*words):
    """What the program prints on standard output."""
    return ran(*words).stdout


def write(path, text):
    with open(path, "wb") as it:
        it.write(text if isinstance(text, bytes) else text.encode())
    return path


def expanded(text, words):
    """The text with the meaning of each word between two `#`."""
    return "".join(words[part] if i % 2 else part for i, part in enumerate(text.split("#")))


def value_of(word):
    part, _, count = word.partition("~")
    return part.encode("latin-1") * int(count or 1)


def case_text(names, values, answers):
    lines = ["fints-case 1", *(f"field {name} {value.hex() or '-'}" for name, value in zip(names, values))]
    return "\n".join([*lines, *(f"answer {it.replace('+', ' ')}" for it in answers)]) + "\n"


def answers_of(case):
    """The answers of a case, each by its codes."""
    return [line.split()[1:] for line in case.splitlines() if line.startswith("answer ")]


def segments(text):
    """The segments of a text: elements of items, by their values."""
    at, elements = 0, [[]]
    while at < len(text):
        item = ITEM.match(text, at)
        end = item.end() + int(item[1] or 0)
        value = text[item.end() : end] if item[1] else re.sub(rb"\?(.)", rb"\1", item[2], flags=re.S)
        elements[-1].append(value)
        if text[end : end + 1] == b"+":
            elements.append([])
        elif text[end : end + 1] == b"'":
            yield elements
            elements = [[]]
        at = end + 1


@functools.cache
def told(message):
    """Whether a message submits an order, and whether it sends a TAN for one or ends the dialogue."""
    outer = list(segments(message))
    inner = [it for data in outer if data[0][0] == b"HNVSD" for it in segments(data[1][0])]
    kinds = {it[0][0] for it in outer + inner}
    processes = {it[1][0] for it in outer + inner if it[0][0] == b"HKTAN" and it[1:]}
    return b"4" in processes, b"2" in processes or b"HKEND" in kinds


class Script:
    """A script with its capture and its order table, in files of a room of its own."""

    def __init__(self, room, capture, orders, text):
        self.room, self.judged = room, {}
        self.names = ["dialog", *(it["name"] for it in tomllib.loads(text).get("field", []))]
        self.branches = {it["name"]: it.get("branches", []) for it in tomllib.loads(text)["step"]}
        self.steps = list(self.branches)
        self.tables = ["--orders", write(f"{room}/orders.toml", orders)]
        self.params = ["--params", write(f"{room}/capture.fints", capture)]
        self.script = ["--script", write(f"{room}/script.toml", text)]

    def ask(self, command, *words):
        return fints(command, *self.params, *self.tables, *self.script, *words).decode()

    def reasons(self):
        """Of each reason of P11: the step, the one before it, and the branch that leads on from there."""
        words = [*self.params, *self.tables, *self.script, "--hints"]
        return [it.groups() for it in REASON.finditer(ran("check", *words).stderr.decode())]

    def fired(self, step, codes):
        """The branch of a step that these codes fire, from 1; none for the default."""
        for number, branch in enumerate(self.branches[step], 1):
            if any(re.fullmatch(branch["on"].replace("*", "."), code) for code in codes):
                return str(number)
        return None

    def run(self, case):
        """The messages of a run: number, step, bytes."""
        text = fints("run", *self.tables, *self.script, "--case", write(f"{self.room}/run.case", case))
        at = 0
        while at < len(text):
            head = MESSAGE.match(text, at)
            end = head.end() + int(head[3])
            yield int(head[1]), head[2].decode(), text[head.end() : end]
            at = end + 1

    def judge(self, message):
        """The rules that a message breaks, each with its name and its segment."""
        if message not in self.judged:
            file = write(f"{self.room}/{len(self.judged)}.message", message)
            lines = fints("judge", *self.params, *self.tables, "--message", file).decode().splitlines()
            self.judged[message] = {(it.split()[0], it.split()[1], int(it.split()[3])) for it in lines[:-1]}
        return self.judged[message]

    def judged_run(self, case):
        """The messages of a run, each with what it breaks: by itself, and behind the one before it
        and the answer between them."""
        submitted = False
        for (number, step, message), codes in zip(self.run(case), [[], *answers_of(case)]):
            broken = self.judge(message)
            submits, releases = told(message)
            if submitted and "0030" in codes and not releases:
                broken = broken | {("P11", "release", 0)}
            yield number, step, message, broken
            submitted = submits


class Seen:
    """What the messages of runs broke, and the greatest figures of each step."""

    def __init__(self, script):
        self.script, self.findings, self.figures, self.runs = script, set(), {}, 0

    def add(self, case):
        self.runs += 1
        for number, step, message, broken in self.script.judged_run(case):
            old = self.figures.get(step, (0, 0))
            self.figures[step] = max(old[0], number), max(old[1], len(message))
            self.findings |= {(step, *it) for it in broken}

    def certificate(self):
        """The certificate with the greatest figures that the runs show."""
        yield "fints-cert 2"
        for step in self.script.steps:
            figures = self.figures.get(step)
            yield f"step {step} {figures[0]} {figures[1]}" if figures else f"step {step} -"

    def report(self):
        """The report on a script whose runs show this."""
        for step in self.script.steps:
            figures = self.figures.get(step)
            yield f"step {step} number {figures[0]} size {figures[1]}" if figures else f"step {step} unreached"
        place = self.script.steps.index
        for step, rule, name, segment in sorted(self.findings, key=lambda it: (place(it[0]), int(it[1][1:]), it[3])):
            yield f"broken {step} {rule} {name} segment {segment}"
        yield f"findings {len(self.findings)}" if self.findings else "clean"


def breaks(script, head, case):
    """Whether the last message of a case's run breaks what is in the case's head."""
    step, rule, name, segment = re.match(r"case \d+ (\S+) (P\d+) (\S+) segment (\d+)", head).groups()
    *_, (_, last, _, broken) = script.judged_run(case)
    return last == step and (rule, name, int(segment)) in broken


def left(script, case):
    """What the reason of a finding of P11 should name, by the run of its case."""
    *_, (_, before, _), (_, step, _) = script.run(case)
    return step, before, script.fired(before, answers_of(case)[-1])


def compared(script, seen, label):
    """Whether `check`, `verify` and `explain` say what was seen."""
    report = "".join(f"{line}\n" for line in seen.report())
    checked, explained = script.ask("check"), script.ask("explain")
    if checked != report:
        print(f"all-runs: {label}: check prints\n{checked}and the runs show\n{report}", file=sys.stderr)
        return False
    if is_valid(script, seen.certificate()) == bool(seen.findings):
        print(f"all-runs: {label}: verify says something else of the figures", file=sys.stderr)
        return False
    parts = re.split(r"^(?=case )", explained, flags=re.M)
    cases = [it.split("\n", 1) for it in parts[1:]]
    good = parts[0] == report and len(cases) == len(seen.findings) and all(breaks(script, *it) for it in cases)
    if not good:
        print(f"all-runs: {label}: explain prints a case that breaks another rule, or none", file=sys.stderr)
    if script.reasons() != [left(script, case) for head, case in cases if " P11 " in head]:
        print(f"all-runs: {label}: a reason of P11 names another step, or another branch, than its case", file=sys.stderr)
        return False
    return good


def small(data, row, room):
    """Looks at all runs of a small script."""
    text = data["head"] + row.get("fields", "") + "]\nstep = [" + expanded(row["steps"], data["words"]) + "]\n"
    script = Script(room, data["banks"][row["bank"]], data["orders"], text)
    values = {**data["values"], **row.get("values", {})}
    listed = [[value_of(word) for word in values[name]] for name in script.names]
    seen = Seen(script)
    for chosen in itertools.product(*listed):
        for count in range(row["most"] + 1):
            for answers in itertools.product(row["answers"], repeat=count):
                seen.add(case_text(script.names, chosen, answers))
    return compared(script, seen, row["steps"]), seen


def ladder(data, room):
    """Looks at the longest run of 200 steps, each of which is sent 51 times."""
    rung = 'segments = [{kind = "HKEND", version = 1, elements = ["$dialog"]}], repeat = 51, branches = [{on = "0***", to = "again"}]'
    steps = [f'{{name = "s{n}", {rung}, default = "s{n + 1}"}}' for n in range(1, 200)]
    script = Script(room, data["banks"]["c1"], data["orders"], f'step = [{", ".join(steps)}, {{name = "s200", {rung}}}]\n')
    seen = Seen(script)
    seen.add(case_text(["dialog"], [b"?" * 30], (["0010"] * 50 + ["9010"]) * 200))
    return compared(script, seen, "200 steps"), seen


def is_valid(script, lines):
    file = write(f"{script.room}/run.cert", "\n".join([*lines, ""]))
    return script.ask("verify", "--cert", file) == "valid\n"


def lesser(line):
    """The lines of a certificate in the place of this one, each with less."""
    word, name, number, size = line.split()
    yield f"{word} {name} -"
    yield f"{word} {name} {number} {int(size) - 1}"
    if int(number) > 1:
        yield f"{word} {name} {int(number) - 1} {size}"


def clean(data, row, repeat, room):
    """Whether the certificate of a script that breaks nothing has the least figures."""
    steps = expanded(row["steps"].replace("@", str(repeat)), data["words"])
    text = data["head"] + "]\nstep = [" + steps + "]\n"
    script = Script(room, data["banks"][row.get("bank", "c1")], data["orders"], text)
    lines = script.ask("certify").splitlines()
    sent = [i for i, line in enumerate(lines) if i and not line.endswith(" -")]
    below = ([*lines[:i], it, *lines[i + 1 :]] for i in sent for it in lesser(lines[i]))
    good = len(sent) == row["sent"] and is_valid(script, lines) and not any(is_valid(script, it) for it in below)
    if not good:
        print(f"all-runs: the certificate of {steps} isn't the least", file=sys.stderr)
    return good


def written(text):
    """The text as the standard spells it in an item."""
    return re.sub(r"([+:'?@])", r"?\1", text)


def longest(field):
    """A value of a field than which none is written longer."""
    if "max" in field:
        return {"digits": b"9", "plain": b"Z", "text": b"?", "bin": b"\xff"}[field["class"]] * field["max"]
    if field["class"] == "oneof":
        return max(field["values"], key=lambda it: len(written(it))).encode("latin-1")
    return max((":".join(map(written, it)) for it in field["values"]), key=len).encode("latin-1")


def wide(data, text, sealed, room):
    """Whether the run of a script with the longest values has the figures that are printed."""
    text = data["wide"]["seal"] + "\n" + text + (", sealed = true" if sealed else "") + data["wide"]["rest"]
    script = Script(room, data["banks"]["c1"], data["orders"], text)
    seen = Seen(script)
    values = [b"?" * 30, *(longest(it) for it in tomllib.loads(text).get("field", []))]
    seen.add(case_text(script.names, values, ["0000"] * 10))
    number, size = seen.figures["end"]
    good = number == 11 and script.ask("check").startswith(f"step end number 11 size {size}\n")
    if not good:
        print(f"all-runs: the longest values don't give the figures of {text}", file=sys.stderr)
    return good


def main():
    if not os.access(PROGRAM, os.X_OK):
        sys.exit("all-runs: crates/fints/out/fints isn't built")
    with open(f"{TOP}/tools/small_scripts.toml", "rb") as it:
        data = tomllib.load(it)
    with tempfile.TemporaryDirectory() as room, ThreadPoolExecutor(os.cpu_count()) as lanes:
        rooms = (tempfile.mkdtemp(dir=room) for _ in itertools.count())
        looked = [lanes.submit(ladder, data, next(rooms))]
        looked += [lanes.submit(small, data, row, next(rooms)) for row in data["script"]]
        certified = [lanes.submit(clean, data, row, repeat, next(rooms)) for row in data["clean"]["scripts"] for repeat in data["clean"]["repeats"]]
        certified += [lanes.submit(wide, data, text, sealed, next(rooms)) for text in data["wide"]["scripts"] for sealed in (False, True)]
        results = [it.result() for it in looked]
        goods = [good for good, _ in results] + [it.result() for it in certified]
    rules = {finding[1] for _, seen in results for finding in seen.findings}
    print(f"all-runs: {sum(seen.runs for _, seen in results)} runs, {len(rules)} rules broken", file=sys.stderr)
    print(f"{sum(goods)} passed, {len(goods) - sum(goods)} failed")
    return 0 if all(goods) and len(rules) == RULES else 1


if __name__ == "__main__":
    sys.exit(main())
