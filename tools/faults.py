#!/usr/bin/env python3
"""Runs the built program where a machine fails it, and on families of inputs with known answers.

1. memory: each growth is refused in turn, alone and with all behind it (tools/refuse.c). The program
   says `error: memory`, or exactly what it says with memory enough.
2. output: the output takes so many bytes and no more, and standard error takes none (tools/cut.c).
3. files: each read of each option's file fails in turn, reads give a byte each, and files stand at
   their limit and one byte past it.
4. prefixes: the first bytes of a capture.
5. families: scripts whose sizes, numbers and findings are known by a formula, and the scripts of
   rows with other names.
6. calls: growths are refused in the tests of single calls, as the gate leaves them built
   (crates/NAME/out/NAME_tests). Each ends well, or for want of memory: an answer that a test holds
   against a value from outside is that value or tells that memory ran out, and never another.

Where a command asks for more than 3,000 growths, the first 300, the last 50 and 250 between them are
refused; of a test the first 40, the last 10 and 20 between them. Each run or comparison counts. It prints what failed, with the command, and last how many
passed and failed; the inputs that it made are kept where one did.

Usage: tools/faults.py [--program PATH] [--tests FOLDER] [--threads N] [--only WORD] [PART..]
"""
import argparse
import errno
import glob
import json
import os
import re
import shlex
import shutil
import subprocess
import sys
import tempfile
import threading
import time
import tomllib
from concurrent.futures import ThreadPoolExecutor
from pathlib import Path
from typing import NamedTuple

from rows import Ran, lay_out, read_rows

TOP = os.path.dirname(os.path.dirname(os.path.abspath(__file__)))
INPUTS = f"{TOP}/rows/inputs"
MOST_CAPTURE, MOST_TEXT = 4_194_304, 1_048_576
SECONDS = 60  # no run takes so long
MOST_TOLD = 40  # failures that are told whole
MEMORY = b"error: memory\n"


WANT = Ran(4, b"", MEMORY)


class Run(NamedTuple):
    """A run of the program: its words, the folder, and what must come of it."""

    words: list
    folder: str
    want: Ran


def content(path):
    with open(path, "rb") as it:
        return it.read()


def write(path, text):
    with open(path, "wb") as it:
        it.write(text if isinstance(text, bytes) else text.encode())
    return path


# The runs of rows/GROUP.md, by their names GROUP/ROW.
RUNS = {}


def row(name):
    """The run of a row."""
    return RUNS[name]


class Lab:
    """The program, the libraries that are preloaded, the lanes, and the count of what passed."""

    def __init__(self, program, tests, room, threads, only):
        self.program, self.tests, self.room, self.only = program, tests, room, only
        self.lanes = ThreadPoolExecutor(threads)
        self.own = threading.local()
        self.running, self.lock = {}, threading.Lock()
        self.passed, self.failed = 0, 0
        self.preloaded = {}
        for name in ("refuse", "cut"):
            self.preloaded[name] = f"{room}/{name}.so"
            words = [os.environ.get("CC", "cc"), "-O2", "-shared", "-fPIC", "-o", self.preloaded[name], f"{TOP}/tools/{name}.c"]
            subprocess.run(words, check=True)
        threading.Thread(target=self.watch, daemon=True).start()

    def watch(self):
        """Ends what runs for too long."""
        while True:
            time.sleep(1)
            with self.lock:
                late = [it for it, since in self.running.items() if time.monotonic() - since > SECONDS]
            for it in late:
                it.kill()

    def run(self, words, folder, library=None, **variables):
        """Runs the program, with a library that is preloaded and its variables."""
        return self.call([self.program, *words], folder, library, variables)

    def call(self, command, folder, library=None, variables=None):
        if not hasattr(self.own, "files"):
            self.own.files = [tempfile.TemporaryFile(dir=self.room) for _ in range(2)]
        for it in self.own.files:
            it.seek(0)
            it.truncate()
        out, err = self.own.files
        env = dict(os.environ)
        if library:
            env |= {"LD_PRELOAD": self.preloaded[library], **{k: str(v) for k, v in (variables or {}).items()}}
        process = subprocess.Popen(command, cwd=folder, env=env, stdin=subprocess.DEVNULL, stdout=out, stderr=err)
        with self.lock:
            self.running[process] = time.monotonic()
        status = process.wait()
        with self.lock:
            del self.running[process]
        return Ran(status, *(os.pread(it.fileno(), os.fstat(it.fileno()).st_size, 0) for it in (out, err)))

    def note(self, good, what, folder, command, library=None, variables=None):
        """Counts a run or comparison, and tells how to repeat one that failed."""
        with self.lock:
            self.passed, self.failed = self.passed + bool(good), self.failed + (not good)
            told = not good and self.failed <= MOST_TOLD
        if told:
            settings = {**({"LD_PRELOAD": self.preloaded[library]} if library else {}), **(variables or {})}
            words = [f"{k}={shlex.quote(str(v))}" for k, v in settings.items()] + [shlex.join(command)]
            sys.stderr.write(f"faults: {what}\n  cd {shlex.quote(folder)} && {' '.join(words)}\n")

    def hold(self, label, wanted, words, folder, library=None, **variables):
        """Runs the program, and holds what comes of it against what is wanted: one answer or several."""
        ran = self.run(words, folder, library, **variables)
        answers = [wanted] if isinstance(wanted, Ran) else wanted
        good = ran in answers
        what = "" if good else f"{label}: {shown(ran)}, wanted is {' or '.join(map(shown, answers))}"
        self.note(good, what, folder, [self.program, *words], library, variables)
        return good

    def each(self, jobs):
        """Does all of these, side by side."""
        for it in [self.lanes.submit(job) for job in jobs]:
            it.result()


def shown(ran):
    short = lambda text: repr(text if len(text) <= 200 else text[:120] + b" .. " + text[-60:])[1:]
    return f"status {ran.status}, output {short(ran.out)}, error {short(ran.err)}"


def later(call, *words, **named):
    return lambda: call(*words, **named)


# 1. Memory.


def in_all_commands(lab):
    """The runs in which each growth is refused, by labels: each command on each of five inputs, and
    those that tell of P11 on a sixth."""
    ended = row("check/end-of-a-dialogue")
    fork = row("check/fork")
    second = row("run/fork").want.out.split(b"message 2 step done size 55\n")[1][:-1]
    message = write(f"{lab.room}/second.msg", second)
    once = Ran(0, b"message 1 step end size 55\n" + content(f"{INPUTS}/end.msg") + b"\n", b"")
    permitted = Ran(0, b"permitted\n", b"")
    c1, orders = ["--params", "c1.fints"], ["--orders", "orders.toml"]
    groups = {
        "one-end": [
            row("report/no-words"),
            row("show/bank-without-accounts"),
            row("judge/end-of-a-dialogue"),
            Run(["run", *orders, "--script", "end.toml", "--case", "no-answer.case"], INPUTS, once),
            ended,
            *map(row, ("explain/end-of-a-dialogue", "certify/end-of-a-dialogue", "verify/end")),
        ],
        "second-account": [
            row("show/two-accounts"),
            row("show/message-sealed"),
            *(row(f"{it}/second-account") for it in "judge run check explain certify verify".split()),
        ],
        "fork": [
            Run(["judge", *c1, *orders, "--message", message], INPUTS, permitted),
            row("run/fork"),
            fork,
            Run(["explain", *fork.words[1:]], fork.folder, fork.want),
            row("certify/fork"),
            row("verify/fork"),
            row("draw/fork"),
        ],
        "certificates": [
            row("judge/message-of-a-kilobyte"),
            row("run/again-up-to-three-messages"),
            *(row(f"{it}/repeated-nine-times") for it in "check certify verify".split()),
            row("explain/repeated-ten-times"),
            row("certify/forty-steps-of-many-ways"),
        ],
        "release": [
            *(row(f"explain/{it}") for it in ("order-without-its-release", "release-before-procedure")),
            *(row(f"{it}/order-and-end") for it in ("certify", "verify")),
        ],
        "dialogue": [
            *(row(f"dialogue/{it}") for it in "show judge-transfer run run-message-4 check".split()),
            *(row(f"dialogue/{it}") for it in "explain explain-second-signature certify verify".split()),
            row("draw/second-signature"),
            *(row(it) for it in ("audit/decoupled", "draft/released", "draft/released-case")),
        ],
    }
    return {f"{group}: {(run.words or ['report'])[0]}, {os.path.basename(run.folder)}": run for group, runs in groups.items() for run in runs}


def refused_places(count, all_up_to=3000, first=300, between=250, last=50):
    """Which growths are refused of so many."""
    if count <= all_up_to:
        return list(range(1, count + 1))
    some = [first + (count - first - last) * i // (between + 1) for i in range(1, between + 1)]
    return sorted({*range(1, first + 1), *some, *range(count - last + 1, count + 1)})


def growths(lab, label, run):
    """How many growths a run asks for, with memory enough."""
    file = tempfile.mktemp(dir=lab.room)
    lab.hold(f"{label}, with memory enough", run.want, run.words, run.folder)
    lab.hold(f"{label}, counted", run.want, run.words, run.folder, "refuse", REFUSE_COUNT=file)
    count = int(content(file)) if os.path.exists(file) else 0
    lab.note(count, f"{label}: no growth is asked for", run.folder, [lab.program, *run.words])
    return count


def hinted(ran):
    """What may come of a refusal with a hint: memory may lack before the refusal, or for the hint alone."""
    return [WANT, ran._replace(err=ran.err.split(b"\n")[0] + b"\n"), ran]


MISSING = b"note: memory ran out, so reasons and notes are missing\n"


def reasoned(ran):
    """What may come of an answer with reasons and notes: memory may lack before the answer, or for these."""
    others = [it for it in ran.err.splitlines(keepends=True) if re.match(rb"note: \d+ messages \(", it)]
    return [WANT, ran, ran._replace(err=b"".join(others) + MISSING)]


def memory(lab):
    runs = in_all_commands(lab)
    refusals = "capture-cut orders-key-misspelt script-branch-step-misspelt case-tan-with-a-letter cert-step-twice"
    runs |= {f"hints: {it}": row(f"hints/{it}") for it in refusals.split()}
    answers = "audit/reasons judge/notes-after-the-reasons draw/second-signature-hints explain/reasons-of-all-beside-one-case"
    runs |= {f"reasons: {it}": row(it) for it in answers.split()}
    runs = {label: run for label, run in runs.items() if lab.only in label}
    counts = dict(zip(runs, lab.lanes.map(lambda it: growths(lab, *it), runs.items())))

    def jobs():
        for label, run in runs.items():
            kind = label.partition(":")[0]
            wanted = {"hints": hinted, "reasons": reasoned}.get(kind, lambda ran: [WANT, ran])(run.want)
            for n in refused_places(counts[label]):
                for rest in (0, 1):
                    answers = WANT if n == 1 else wanted
                    what = f"{label}: growth {n} of {counts[label]} refused{' and all behind it' if rest else ''}"
                    how = {"REFUSE_AT": n, "REFUSE_ALL": rest}
                    yield later(lab.hold, what, answers, run.words, run.folder, "refuse", **how)

    lab.each(jobs())
    few, most = min(counts.values(), default=0), max(counts.values(), default=0)
    print(f"faults: {len(counts)} commands ask for {few} to {most} growths each", file=sys.stderr)


# 2. The output.


def output(lab):
    run = row("check/end-of-a-dialogue")
    text = run.want.out
    lab.note(len(text) == 32, f"the report has {len(text)} bytes, wanted are 32", run.folder, [lab.program, *run.words])

    def jobs():
        for k in range(32):
            cut = Ran(5, text[:k], b"error: write\n")
            yield later(lab.hold, f"the output takes {k} bytes", cut, run.words, run.folder, "cut", CUT_WRITE=1, CUT_AFTER=k)
        for how in ("byte", "half"):
            yield later(lab.hold, f"the output takes a part ({how})", run.want, run.words, run.folder, "cut", CUT_WRITE=1, CUT_HOW=how)
        yield later(lab.hold, "a signal interrupts the output", run.want, run.words, run.folder, "cut", CUT_WRITE=1, CUT_AT=1, CUT_HOW="fail", CUT_ERRNO=errno.EINTR)
        cut = Ran(5, b"", b"error: write\n")
        yield later(lab.hold, "signals interrupt each write", cut, run.words, run.folder, "cut", CUT_WRITE=1, CUT_HOW="fail", CUT_ERRNO=errno.EINTR)
        yield later(by_shell, ">&-", run, Ran(5, b"", b"error: write\n"))
        yield later(by_shell, ">/dev/full", run, Ran(5, b"", b"error: write\n"))
        yield later(by_shell, "| true", run, Ran(0, b"", b"error: write\n5\n"), '(sleep 0.2; "$0" "$@"; echo $? >&2)')
        names = "check/end-of-a-dialogue check/second-account dialogue/run check/cut-capture check/no-such-params usage/unknown-command"
        for name in names.split():
            it = row(name)
            silent = it.want._replace(err=b"")
            yield later(lab.hold, f"{name}: a signal interrupts standard error", it.want, it.words, it.folder, "cut", CUT_WRITE=2, CUT_AT=1, CUT_HOW="fail", CUT_ERRNO=errno.EINTR)
            yield later(by_shell, "2>&-", it, silent)
            yield later(by_shell, "2>/dev/full", it, silent)
            yield later(lab.hold, f"{name}: standard error fails", silent, it.words, it.folder, "cut", CUT_WRITE=2, CUT_HOW="fail")
            for k in (1, 10):
                part = it.want._replace(err=it.want.err[:k])
                yield later(lab.hold, f"{name}: standard error takes {k} bytes", part, it.words, it.folder, "cut", CUT_WRITE=2, CUT_AFTER=k)
        both = {"LD_PRELOAD": f"{lab.preloaded['refuse']} {lab.preloaded['cut']}", "REFUSE_AT": 1, "REFUSE_ALL": 1}
        what = "no memory, and standard error fails"
        yield later(lab.hold, what, WANT._replace(err=b""), run.words, run.folder, "cut", CUT_WRITE=2, CUT_HOW="fail", **both)

    def by_shell(where, it, wanted, call='exec "$0" "$@"'):
        command = ["sh", "-c", f"{call} {where}", lab.program, *it.words]
        ran = lab.call(command, it.folder)
        lab.note(ran == wanted, f"with {where}: {shown(ran)}, wanted is {shown(wanted)}", it.folder, command)

    lab.each(jobs())


# 3. Files.


def options(run):
    """The options of a run that name a file, each with its path."""
    pairs = zip(run.words, run.words[1:])
    return [(word, path) for word, path in pairs if word.startswith("--") and word != "--message" or (word, run.words[0]) == ("--message", "judge")]


def unread(option):
    return Ran(5, b"", f"error: read {option}\n".encode())


def reads_fail(lab, run, option, path):
    """Each read of an option's file fails in turn; and they give a part of what is asked for."""
    label = f"{run.words[0]} {option}"
    file = tempfile.mktemp(dir=lab.room)
    lab.hold(f"{label}: counted", run.want, run.words, run.folder, "cut", CUT_READ=path, CUT_COUNT=file)
    count = int(content(file)) if os.path.exists(file) else 0
    lab.note(count >= 2, f"{label}: {count} reads, wanted are 2 at least", run.folder, [lab.program, *run.words])
    for n in range(1, count + 1):
        what = f"{label}: read {n} of {count} fails"
        lab.hold(what, unread(option), run.words, run.folder, "cut", CUT_READ=path, CUT_AT=n, CUT_HOW="fail")
        what = f"{label}: a signal interrupts read {n} of {count}"
        lab.hold(what, run.want, run.words, run.folder, "cut", CUT_READ=path, CUT_AT=n, CUT_HOW="fail", CUT_ERRNO=errno.EINTR)
    for how in ("byte", "half"):
        lab.hold(f"{label}: reads give a part ({how})", run.want, run.words, run.folder, "cut", CUT_READ=path, CUT_HOW=how)
        lab.hold(f"{label}: the first read gives a part ({how})", run.want, run.words, run.folder, "cut", CUT_READ=path, CUT_HOW=how, CUT_AT=1)
    # The system's library takes it for a read that filled its room, so what is behind may be refused.
    variables = {"CUT_READ": path, "CUT_HOW": "more", "CUT_AT": 1}
    ran = lab.run(run.words, run.folder, "cut", **variables)
    good = ran == run.want or ran.status in (3, 5) and not ran.out
    what = f"{label}: the first read claims more than it has room for: {shown(ran)}"
    lab.note(good, what, run.folder, [lab.program, *run.words], "cut", variables)


def at_limit(option, path, size):
    """The file of an option, made longer: where its syntax lets it, by what changes no meaning."""
    text = content(path)
    if option == "--params":
        segment = b"HIXYZ:1:1+" + b"x" * 9_989 + b"'"
        text += segment * ((size - len(text)) // len(segment))
        return text + b"\n" * (size - len(text))
    if option == "--dialogue":
        return text + b"\n" * (size - len(text))
    if option in ("--orders", "--script"):
        return text + b"#" * (size - len(text))
    return text + b"x" * (size - len(text))


def lengths(lab, run, option, path):
    """A file of exactly its limit isn't unread, and one of one byte more is."""
    limit = MOST_CAPTURE if option in ("--params", "--message", "--dialogue") else MOST_TEXT
    where = f"{lab.room}/{run.words[0]}{option}"
    words = [where if it == path else it for it in run.words]
    write(where, at_limit(option, f"{run.folder}/{path}", limit))
    ran = lab.run(words, run.folder)
    plain = option in ("--params", "--orders", "--script", "--dialogue")
    good = ran == run.want if plain else ran.status == 3 and not ran.out
    what = f"{run.words[0]} {option} of {limit} bytes: {shown(ran)}, wanted is {shown(run.want) if plain else 'status 3 and no output'}"
    lab.note(good, what, run.folder, [lab.program, *words])
    longer = f"{where}.longer"
    write(longer, content(where) + (b"\n" if option == "--params" else b"x"))
    words = [longer if it == where else it for it in words]
    lab.hold(f"{run.words[0]} {option} of {limit + 1} bytes", unread(option), words, run.folder)


def files(lab):
    names = "show judge-transfer run check explain certify verify".split()
    runs = [*(row(f"dialogue/{name}") for name in names)]
    runs += map(row, ("draw/second-signature", "audit/decoupled", "draft/released"))
    asked = [(run, *it) for run in runs for it in options(run)]
    lab.each(later(call, lab, *it) for it in asked for call in (reads_fail, lengths))


# 4. The first bytes of a capture.


def capture_fault(n):
    """What is refused in the first bytes of capture C1, whose first segment ends with byte 41."""
    if n == 0:
        return "NoBankParameters"
    if n <= 40:
        return "Incomplete at 0"
    if n <= 42:
        return "NoPinParameters"
    return "Incomplete at 42" if n <= 91 else None


def prefixes(lab):
    c1 = content(f"{INPUTS}/c1.fints")
    whole = row("show/bank-without-accounts").want
    lab.note(len(c1) == 93, f"capture C1 has {len(c1)} bytes, wanted are 93", INPUTS, ["wc", "-c", "c1.fints"])

    def show(label, text, fault):
        file = write(f"{lab.room}/{label.replace(' ', '-')}.fints", text)
        wanted = Ran(3, b"", f"error: params {fault}\n".encode()) if fault else whole
        lab.hold(label, wanted, ["show", "--params", file], lab.room)

    odd = [(b"HIXYZ:1:1+@999999999@abc'", "Incomplete at 0"), (b"HIXYZ:1:1+@1234567890@a'", "BadBinary at 10")]
    jobs = [later(show, f"the first {n} bytes of C1", c1[:n], capture_fault(n)) for n in range(94)]
    jobs += [later(show, f"binary item {i + 1}", *it) for i, it in enumerate(odd)]
    lab.each(jobs)


# 5. Families.

ENDS = 'segments = [{kind = "HKEND", version = 1, elements = ["$dialog"%s]}]\n'


def padded(lab, m):
    """A message that ends the dialogue and has up to so many digits more, at a bank of a kilobyte."""
    text = f'[[field]]\nname = "pad"\nclass = "digits"\nmin = 0\nmax = {m}\n[[step]]\nname = "end"\n' + ENDS % ', "$pad"'
    step = f"step end number 1 size {56 + m}\n"
    found = "clean\n" if 56 + m <= 1024 else "broken end P3 size segment 0\nfindings 1\n"
    check(lab, f"pad-{m}", "kilobyte.fints", text, Ran(0 if 56 + m <= 1024 else 1, (step + found).encode(), b""))


def many_ways(lab, n):
    """So many steps, each with a branch to the next one and to the one behind that."""
    step = lambda i: f"step w{i} number {i} size {55 if i == 1 else 171 + 2 * len(str(i))}\n"
    told = "".join(map(step, range(1, n + 1))) + "clean\n"
    check(lab, f"ways-{n}", "c1.fints", ways(n), Ran(0, told.encode(), b""))


def ways(n):
    """The script of so many steps with these branches."""
    text = ""
    for i in range(1, n + 1):
        told = [f'{{on = "{on}", to = "w{to}"}}' for on, to in (("0***", i + 1), ("3***", i + 2)) if to <= n]
        text += f'[[step]]\nname = "w{i}"\nbranches = [{", ".join(told)}]\n' + ENDS % ""
    return text


def drawn_ways(lab, n):
    """Its picture."""
    lines = ["digraph fints {", "  node [shape=box];", '  "stop" [shape=doublecircle];']
    for i in range(1, n + 1):
        size = 55 if i == 1 else 171 + 2 * len(str(i))
        lines.append(f'  "w{i}" [label="w{i}\\nHKEND:1\\nnumber {i} size {size}"];')
        lines += [f'  "w{i}" -> "w{i + 1}" [label="0*** (0000)"];'] if i < n else []
        lines += [f'  "w{i}" -> "w{i + 2}" [label="3*** (3000)"];'] if i + 1 < n else []
        lines.append(f'  "w{i}" -> "stop" [label="default ({"1000" if i < n else "0000"})", style=dashed];')
    script = write(f"{lab.room}/drawn-{n}.toml", ways(n))
    lab.hold(f"drawn {n}", Ran(0, ("\n".join(lines) + "\n}\n").encode(), b""), ["draw", "--script", script], INPUTS)


def check(lab, label, capture, text, wanted):
    script = write(f"{lab.room}/{label}.toml", text)
    lab.hold(label, wanted, ["check", "--params", capture, "--orders", "orders.toml", "--script", script], INPUTS)


def toml(value):
    """A value as it is written in TOML."""
    if isinstance(value, bool):
        return "true" if value else "false"
    if isinstance(value, dict):
        return "{" + ", ".join(f"{key} = {toml(it)}" for key, it in value.items()) + "}"
    if isinstance(value, list):
        return "[" + ", ".join(map(toml, value)) + "]"
    return json.dumps(value, ensure_ascii=False).replace("\x7f", "\\u007f")


def renamed(script):
    """The script with an x behind each name of a field, a signer and a step."""
    new = lambda name: name if name in ("dialog", "again", "stop") else f"{name}x"

    def elements(value):
        if isinstance(value, list):
            return [elements(it) for it in value]
        return f"${new(value[1:])}" if value.startswith("$") else value

    def table(old, lists):
        it = {**old, "name": new(old["name"])}
        return it | {key: elements(it[key]) for key in lists if key in it}

    def step(old):
        it = table(old, ())
        it["segments"] = [{**one, "elements": elements(one.get("elements", []))} for one in it["segments"]]
        it["signers"] = [new(one) for one in it.get("signers", [])]
        it["branches"] = [{**one, "to": new(one["to"])} for one in it.get("branches", [])]
        return it | ({"default": new(it["default"])} if "default" in it else {})

    made = {"field": [table(it, ()) for it in script.get("field", [])]}
    made["signer"] = [table(it, ("head", "end")) for it in script.get("signer", [])]
    made["step"] = [step(it) for it in script["step"]]
    return made | ({"seal": elements(script["seal"])} if "seal" in script else {})


def other_names(lab, name):
    """The report of a row's script with other names is the row's report with these names."""
    run = row(name)
    path = run.words[run.words.index("--script") + 1]
    made = renamed(tomllib.loads(content(f"{run.folder}/{path}").decode()))
    text = "".join(f"{key} = {toml(value)}\n" for key, value in made.items())
    script = write(f"{lab.room}/{name.replace('/', '-')}.toml", text)
    told = re.sub(rb"^(step|broken) (\S+)", rb"\1 \2x", run.want.out, flags=re.M)
    words = [script if it == path else it for it in run.words]
    noted = re.sub(rb'step "([^"]+)"', rb'step "\1x"', run.want.err)
    lab.hold(f"{name} with other names", run.want._replace(out=told, err=noted), words, run.folder)


def families(lab):
    names = [it for it in RUNS if it.startswith(("check/", "dialogue/check"))]
    told = [it for it in names if row(it).want.status <= 1]
    lab.note(len(told) >= 30, f"only {len(told)} rows of check have a report", f"{TOP}/rows", ["cat", "check.md", "dialogue.md"])
    jobs = [later(padded, lab, m) for m in range(1201)] + [later(many_ways, lab, n) for n in (*range(1, 201), 500, 999, 1000)]
    jobs += [later(drawn_ways, lab, n) for n in (1, 2, 3, 40, 1000)]
    lab.each(jobs + [later(other_names, lab, it) for it in told])


# 6. The tests of single calls.

# How a test tells that memory ran out: by the error that it gives, or by an answer that it shows
# beside the one that it wants; and one asserts that an answer is there.
WANTS_MEMORY = re.compile(rb"^error: .*(Memory|AllocError|AllocFailed)|^  left: .*[Mm]emory|\.is_ok_and\(", re.M)


def ends_well(ran):
    return ran.status == 0 and ran.out.endswith(b"test result: ok\n") and not ran.err


def one_test(lab, program, test):
    """Growths are refused in a test, alone and with all behind them."""
    folder, command = os.path.dirname(os.path.dirname(program)), [program, test]
    label = f"{os.path.basename(folder)}, {test}"
    file = tempfile.mktemp(dir=lab.room)
    ran = lab.call(command, folder, "refuse", {"REFUSE_COUNT": file})
    lab.note(ends_well(ran), f"{label}, counted: {shown(ran)}", folder, command)
    count = int(content(file)) if os.path.exists(file) else 0
    for n in refused_places(count, 70, 40, 20, 10):
        for rest in (0, 1):
            how = {"REFUSE_AT": n, "REFUSE_ALL": rest}
            ran = lab.call(command, folder, "refuse", how)
            good = ends_well(ran) or ran.status != 0 and WANTS_MEMORY.search(ran.err)
            what = f"{label}: growth {n} of {count} refused{' and all behind it' if rest else ''}: {shown(ran)}"
            lab.note(good, what, folder, command, "refuse", how)


def calls(lab):
    # Not those of whole commands: what they show are statuses, and part 1 tries commands.
    programs = sorted(set(glob.glob(f"{lab.tests}/*/out/*_tests_tests")) - {f"{lab.tests}/fints_cli_tests/out/fints_cli_tests_tests"})
    lab.note(programs, "no tests are built", lab.tests, ["ls"])
    jobs = []
    for program in programs:
        listed = lab.call([program, "--list"], os.path.dirname(program)).out.decode().splitlines()
        jobs += [later(one_test, lab, program, it[:-6]) for it in listed if it.endswith(": test")]
    lab.each(jobs)


PARTS = {"memory": memory, "output": output, "files": files, "prefixes": prefixes, "families": families, "calls": calls}


def main():
    words = argparse.ArgumentParser(description="Runs the built program where a machine fails it.")
    words.add_argument("--program", default=os.environ.get("FINTS", f"{TOP}/crates/fints/out/fints"))
    words.add_argument("--tests", default=f"{TOP}/crates", help="the folder of the crates whose tests are built")
    words.add_argument("--threads", type=int, default=os.cpu_count())
    words.add_argument("--only", default="", metavar="WORD", help="of the part memory only the runs with this in their label")
    words.add_argument("part", nargs="*", help=f"of {', '.join(PARTS)}; none: all")
    asked = words.parse_args()
    program = os.path.abspath(asked.program)
    if not os.access(program, os.X_OK):
        sys.exit(f"faults: {asked.program} isn't built")
    for it in asked.part:
        if it not in PARTS:
            sys.exit(f"faults: there is no part {it}")
    room = tempfile.mkdtemp(prefix="faults-")
    rows = read_rows()
    lay_out(Path(room), rows)
    RUNS.update({name: Run(it.words, f"{room}/rows/{name}", it.want) for name, it in rows.items()})
    lab = Lab(program, os.path.abspath(asked.tests), room, asked.threads, asked.only)
    for name in asked.part or PARTS:
        before, since = lab.passed + lab.failed, time.monotonic()
        PARTS[name](lab)
        ran = lab.passed + lab.failed - before
        print(f"faults: {name}: {ran} runs in {time.monotonic() - since:.0f} s", file=sys.stderr)
    if lab.failed > MOST_TOLD:
        print(f"faults: and {lab.failed - MOST_TOLD} more", file=sys.stderr)
    if lab.failed:
        print(f"faults: what was made is kept in {room}", file=sys.stderr)
    else:
        shutil.rmtree(room)
    print(f"{lab.passed} passed, {lab.failed} failed")
    return 0 if lab.passed and not lab.failed else 1


if __name__ == "__main__":
    sys.exit(main())
