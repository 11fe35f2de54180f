#!/usr/bin/env python3
"""Prints what the built program takes for large inputs: processor time and memory at its peak, at n
and at 2n, the least of three runs or of as many as are asked for (of one, where it takes over two
seconds), and how many times as long 2n takes. No part of the gate.

A run is given 150 seconds of processor time and 4 GiB of addresses. The second table is of maps with
many keys. The third tells how much memory a further byte of an input takes, beside the mark that it
should keep. The fourth has the instructions of runs with and without `--hints`. The last two tell how a run
ends that can't have the memory it asks for, and which stack deep texts of TOML need. With --count the first two
tables have millions of instructions in place of times, as docs/performance.md has them.

Usage: tools/cost.py [--program PATH] [--runs N] [--count] [WORD..]     only the lines with one of these words
"""
import argparse
import base64
import os
import random
import re
import shutil
import subprocess
import sys
import tempfile

TOP = os.path.dirname(os.path.dirname(os.path.abspath(__file__)))
INPUTS = f"{TOP}/rows/inputs"
MOST_CAPTURE, MOST_TEXT = 4_194_304, 1_048_576
SECONDS, MEMORY = 150, 4 << 20  # of a run: processor time, KiB of addresses
LEAST_TOLD, MOST_TIMES = 10, 2.5  # in milliseconds; and of how many times as long it is told why
C1 = f"{INPUTS}/c1.fints"
ORDERS = f"{INPUTS}/orders.toml"
HEAD = open(C1, "rb").read().decode()
SIGNER = open(f"{INPUTS}/bal.toml", "rb").read().decode().split("[[step]]")[0]
ENDS = 'segments = [{kind = "HKEND", version = 1, elements = ["$dialog"]}]'


class Room:
    """Where inputs are made, and what runs the program in it."""

    def __init__(self, program, folder):
        self.program, self.folder, self.made = program, folder, 0
        self.used = f"{folder}/used"
        subprocess.run([os.environ.get("CC", "cc"), "-O2", "-o", self.used, f"{TOP}/tools/used.c"], check=True)

    def file(self, text):
        self.made += 1
        path = f"{self.folder}/{self.made}"
        with open(path, "wb") as it:
            it.write(text.encode("latin-1"))
        return path

    def run(self, words, seconds=SECONDS, memory=MEMORY, stack=0):
        """Status, milliseconds, KiB, and the first line on standard error."""
        command = [self.used, str(seconds), str(memory), str(stack), self.program, *words]
        ran = subprocess.run(command, capture_output=True, check=True)
        lines = ran.stderr.decode(errors="replace").splitlines()
        return *map(int, ran.stdout.split()), lines[0] if lines else ""

    def printed(self, words, check=False):
        return subprocess.run([self.program, *words], capture_output=True, check=check).stdout.decode("latin-1")

    def instructions(self, words):
        """Those that callgrind counts, in millions."""
        command = ["valgrind", "--tool=callgrind", "--callgrind-out-file=/dev/null", self.program, *words]
        said = subprocess.run(command, capture_output=True, check=False).stderr.decode(errors="replace")
        return int(re.search(r"Collected : (\d+)", said)[1]) / 1e6


# Captures. Each gives about so many bytes.


def capture(segment, size):
    return HEAD + segment * ((size - len(HEAD)) // len(segment))


ROW = "HIKAZS:6:%d+20+1+360:J:N:a:further:item:or:two'\n"


def ordinary(size):
    return capture(ROW % 5, size)


def in_turn(size):
    """The same row in the versions 1 to 9, over and over."""
    return capture("".join(ROW % it for it in range(1, 10)), size)


def full(part, most=19_990):
    """Segments of this part, as many as a segment may hold."""
    return lambda size: capture("HIXYZ:1:1+" + part * most + "'", size)


def name(number, count=4, of=36):
    """So many characters, of the first so many of these, that no lower number has."""
    characters = "0123456789ABCDEFGHIJKLMNOPQRSTUVWXYZabcdefghijklmnopqrstuvwxyz"
    return "".join(characters[number // of**i % of] for i in range(count))


PINS, PAIRS = "HIPINS:9:1+1+1+0+5:38:6::", 9_980  # so many pairs in a segment, which has 20,000 items at most


def pins(kinds):
    """HIPINS with these kinds."""
    pairs = lambda at: "".join(f":{it}:N" for it in kinds[at : at + PAIRS])
    return HEAD + "".join(f"{PINS}{pairs(at)}'\n" for at in range(0, len(kinds), PAIRS))


def kinds(size):
    """HIPINS with kinds that all differ."""
    segments = (size - len(HEAD)) // (len(PINS) + PAIRS * len(":HK0000:N") + 2)
    return pins([f"HK{name(n)}" for n in range(segments * PAIRS)])


def limits(rows):
    """A parameter segment for each kind and version; HIPINS is none."""
    return HEAD + "".join(f"{it[0]}I{it[2:]}S:9:{version}+1+1'" for it, version in rows if it[2:] != "PIN")


ACCOUNT = "HIUPD:1:6+%06d::280:1+DE%06d++++++++HKSAL:1'\n"


def so_many_accounts(count):
    return HEAD + "".join(ACCOUNT % (i, i) for i in range(count))


def accounts(size):
    return so_many_accounts((size - len(HEAD)) // len(ACCOUNT % (0, 0)))


def unnamed(size):
    """Rows of HIUPD that name nothing."""
    return capture("HIUPD:1:6'", size)


def procedures(size):
    """Rows of HITANS that let several orders stand in a message."""
    return capture("HITANS:9:6+1+1++J:J'", size)


# Messages.


def message(segments, number=1):
    count = len(segments)
    body = "".join(f"{kind}:{i + 2}:{rest}'" for i, (kind, rest) in enumerate(segments))
    end = f"HNHBS:{count + 2}:1+{number}'"
    head = f"HNHBK:1:3+%012d+300+{'0' if number == 1 else 'D'}+{number}'"
    return head % (len(head % 0) + len(body) + len(end)) + body + end


def orders(count):
    return message([("HKSAL", "5+9999999+N")] * count)


def filler(part):
    """Messages with segments of this part, as many as a segment may hold. Each gives about so many bytes."""
    segment = ("HKXYZ", "1+" + part * 19_990)
    return lambda size: message([segment] * max(1, size // (len(segment[1]) + 10)))


SUBMITS = ("HKTAN", "6+4")
DEMANDING = [("HKCCS", "1+DE111")] * 2


def orders_of(rows):
    """Orders of these kinds and versions: of 996 at most, from all over."""
    return message([(it, f"{version}+9999999+N") for it, version in rows[:: max(1, len(rows) // 996)][:996]])


def table(rows, account="none"):
    return "".join(f'[[order]]\nkind = "{it}"\nversion = {version}\naccount = "{account}"\n' for it, version in rows)


# Recorded dialogues. Each gives about so many bytes.

RECEIVED = ("HIRMG", "2+0010::Received")
ANSWER = message([RECEIVED])
TOLD = message([RECEIVED, ("HIBPA", "3+12+280:1+Bank+1+1+300+0"), ("HIPINS", "1+1+1+0+5:38:6:::HKSAL:N")])


def recorded(sent):
    """Such a message again and again, each with an answer; each opens a dialogue."""
    return lambda size: (sent + ANSWER) * (size // len(sent + ANSWER))


def told_last(sent):
    """The same, and the last answer tells parameters."""
    return lambda size: recorded(sent)(size - len(sent + TOLD)) + sent + TOLD


def in_lines(make):
    """What is made, each message on a line in base64, as a proxy writes it."""
    line = lambda text: base64.b64encode(text.encode("latin-1")).decode() + "\n"
    return lambda size: "".join(line(f"HNHBK:1:3+{it}") for it in make(size * 7 // 10).split("HNHBK:1:3+")[1:])


def in_utf8(make):
    """What is made, with characters beyond ASCII in UTF-8."""
    return lambda size: make(size * 98 // 100).encode("utf-8").decode("latin-1")


def as_it_is(text):
    return text


def as_base64(text):
    return base64.b64encode(text.encode("latin-1")).decode()


def as_utf8(text):
    return text.encode("utf-8").decode("latin-1")


def log(coded):
    """A log of so many messages of an order and the answers to them, each coded so on a line of its own."""
    texts = [coded(message([("HKSAL", "5+\xe4+N")])), coded(ANSWER)]
    return lambda count: "".join(f"<DB2> [2026.01.05 09:15:02.010] {it}\n" for it in texts) * count


def dialogues(of_banks):
    """So many dialogues of two messages, the answer to the first one has all parameters; of so many banks."""

    def text(count):
        made = []
        for i in range(count):
            bank, user = f"280:{10020030 + i % of_banks(count)}", f"u{i % of_banks(count)}"
            party = [("HKIDN", f"2+{bank}+{user}+0+1"), ("HKVVB", "3+0+0+0+fints+1")]
            tells = [("HIBPA", f"3+12+{bank}+Bank+1+1+300+0"), ("HIPINS", "1+1+1+0+5:38:6:::HKSAL:N"), ("HISALS", "5+1+0")]
            accounts = [("HIUPA", f"4+{user}+1+0"), ("HIUPD", f"6+9999999::280:1+DE1+{user}+1+EUR+N++++HKSAL:1")]
            order = message([("HKSAL", "5+9999999+N")], 2)
            made += [message(party), message([RECEIVED] + tells + accounts), order, message([RECEIVED], 2)]
        return "".join(made)

    return text


def numbered(segments):
    """A dialogue of so many messages of these segments, which a script can send."""
    return lambda count: "".join(message(segments, i + 1) + ANSWER for i in range(count))


# Scripts and cases.


def listed(kind, value):
    def text(count):
        values = ",".join(value % name(i, 3, 62) for i in range(count))
        return f'[[field]]\nname = "f"\nclass = "{kind}"\nvalues = [{values}]\n[[step]]\nname = "end"\n{ENDS}\n'

    return text


def lines(count):
    return "fints-case 1\nfield dialog 41\n" + "".join(f"field {name(i).lower()} -\n" for i in range(count))


def branching(on, segments, named=lambda count: [f"s{i + 1}" for i in range(count)]):
    """Steps with a branch for each of 20 patterns, or with none."""

    def text(count):
        steps, names = [], named(count) + ["again"] * 20
        for i in range(count):
            ways = ", ".join(f'{{on = "{a}", to = "{b}"}}' for a, b in zip(on, names[i + 1 : i + 21]))
            steps.append(f'[[step]]\nname = "{names[i]}"\nrepeat = 9\nbranches = [{ways}]\n{segments}\n')
        return "".join(steps)

    return text


# Each branch is opened by a late code; and each carries 0030 to a step that releases no order.
LATE = [f"{j}***" for j in range(9)] + [f"9{j}**" for j in range(9)] + [f"99{j}*" for j in range(2)]
hostile = branching(LATE, ENDS)
unreleased = branching([f"{j:02}**" for j in range(1, 21)], 'segments = [{kind = "HKTAN", version = 6, elements = ["4"]}]')


def unsent(count):
    """Steps of which runs send the first alone; the others lead to one another."""
    return f'[[step]]\nname = "s0"\n{ENDS}\n' + hostile(count - 1)


def in_a_row(segments, count):
    """So many steps of these segments, each behind the one before."""
    ends = [f'default = "s{i + 1}"\n' for i in range(count - 1)] + [""]
    return "".join(f'[[step]]\nname = "s{i}"\nsegments = [{segments}]\n{end}' for i, end in enumerate(ends))


def naming(count):
    """Orders that name an account which no bank has, in steps of 100."""
    return in_a_row(",".join(['{kind="HKSAL",version=5,elements=["9999999"]}'] * 100), count // 100)


def unknown(count):
    """Orders that no bank takes, in steps of 100 kinds."""
    return in_a_row(",".join('{kind="HKX%02d",version=1}' % i for i in range(100)), count // 100)


def of_listed(count):
    """Orders that each name any of 100 listed accounts, in steps of 100."""
    values = ",".join(f'["DE{i:06d}"]' for i in range(100))
    orders = ",".join(['{kind="HKSAL",version=7,elements=["$account"]}'] * 100)
    return f'[[field]]\nname = "account"\nclass = "account"\nvalues = [{values}]\n' + in_a_row(orders, count // 100)


def versions(size):
    """Parameter segments of one order in all versions, over and over."""
    row = "HISALS:9:%03d+1+1'\n"
    return HEAD + "".join(row % (i % 999 + 1) for i in range((size - len(HEAD)) // len(row % 0)))


def heavy(count):
    """Steps whose messages have 980 kB, each sent 99 times in a row."""
    pads = ", ".join(['"$pad"'] * 98)
    steps = [
        f'[[step]]\nname = "s{i}"\nrepeat = 99\nbranches = [{{on = "0010", to = "again"}}]\n'
        f'segments = [{{kind = "HKEND", version = 1, elements = [{pads}]}}]\n'
        + (f'default = "s{i + 1}"\n' if i < count else "")
        for i in range(1, count + 1)
    ]
    return '[[field]]\nname = "pad"\nclass = "plain"\nmin = 0\nmax = 10000\n' + "".join(steps)


def heavy_case(count):
    answers = ("answer 0010\n" * 98 + "answer 9010\n") * count
    return "fints-case 1\nfield dialog 41\nfield pad " + "41" * 10_000 + "\n" + answers


def ordering(row):
    """As many orders of this kind and version, in steps of 100."""

    orders = ",".join(['{kind="%s",version=%s}' % row] * 100)
    return lambda count: in_a_row(orders, count // 100)


def submitting(count):
    """As many HKTAN, in steps of 100 segments with two orders that demand a TAN."""
    demanding = ['{kind="HKCCS",version=1,elements=["DE111"]}'] * 2
    orders = ",".join(demanding + ['{kind="HKTAN",version=6,elements=["4"]}'] * 98)
    return in_a_row(orders, count // 98)


def texts(part, count):
    """Scripts of segments that have this many of such a text as elements. Each gives about so many bytes."""
    segment = '{kind="HKEND",version=1,elements=[' + ",".join([part] * count) + "]}"
    segments = ",".join([segment] * (10 if count else 100))
    return lambda size: in_a_row(segments, min(1000, max(1, size // (len(segments) + 56))))


def filled(names):
    """A step with as many places for the last of the fields that have these names."""

    def text(count):
        elements = ",".join([f'"${names[-1]}"'] * 10_000)
        segments = ",".join([f'{{kind = "HKEND", version = 1, elements = [{elements}]}}'] * (count // 10_000))
        fields = "".join(f'[[field]]\nname = "{it}"\nclass = "digits"\nmin = 1\nmax = 1\n' for it in names)
        return f'{fields}[[step]]\nname = "end"\nsegments = [{segments}]\n'

    return text


def too_many(names):
    """A script with fields of these names, far more than it may have."""
    fields = ",".join(f'{{name="{it}"}}' for it in names)
    return f'field = [{fields}]\n[[step]]\nname = "end"\n{ENDS}\n'


# Keys of maps, drawn by lot, but the same ones each time.


def drawn(count, of):
    return random.Random(1).sample(range(of), count)


def any_kinds(count):
    return [name(it, 6) for it in drawn(count, 36**6)]


def any_names(count, length=6):
    return [name(it, length).lower() for it in drawn(count, 36**length)]


def any_rows(count):
    """Kinds and versions of orders."""
    each = [(f"{'DH'[it % 2]}K{name(it // 2, 3)}", it // 2 // 36**3 + 1) for it in drawn(2 * count, 2 * 36**3 * 999)]
    return [it for it in each if it[0] not in ("HKIDN", "HKVVB", "HKSYN", "HKEND", "HKTAN")][:count]


def alike(count):
    """Kinds of which each has one character other than the one before, by one."""
    digit = lambda n, i: n // 36**i % 36 if n // 36 ** (i + 1) % 2 == 0 else 35 - n // 36**i % 36
    return ["HK" + "".join(name(digit(n, i), 1) for i in (3, 2, 1, 0)) for n in range(count)]


def measured(room):
    """What is measured: its label, n, what n counts, and the words of the run at a number."""
    m, k = 1_000_000, 1_000
    small, many = room.file(orders(1)), room.file(orders(996))
    others = [(f"HK{name(i, 3)}", 5) for i in range(996)]
    unlike, their_table = room.file(orders_of(others)), room.file(table(others, "national"))
    show = lambda make: lambda n: ["show", "--params", room.file(make(n))]
    judge = lambda make, file, of=ORDERS: lambda n: ["judge", "--params", room.file(make(n)), "--orders", of, "--message", file]
    judged = lambda make: lambda n: ["judge", "--params", C1, "--orders", ORDERS, "--message", room.file(make(n))]
    run = lambda script, case: ["run", "--orders", ORDERS, "--script", script, "--case", case]
    hinted = lambda make: lambda n: [*make(n), "--hints"]
    case, end = f"{INPUTS}/no-answer.case", f"{INPUTS}/end.toml"
    on = lambda command, make: lambda n: [command, "--params", C1, "--orders", ORDERS, "--script", room.file(make(n))]
    half = MOST_CAPTURE // 2
    at = lambda bank: lambda make: lambda n: ["check", "--params", bank, "--orders", ORDERS, "--script", room.file(make(n))]
    of_accounts, of_procedures = at(room.file(accounts(half))), at(room.file(procedures(half)))
    of_few = at(room.file(so_many_accounts(202)))
    elsewhere = room.file(message([("HKSAL", "5" + "+9999999" * 500)] * 900))
    untaken = room.file(message([("HKSAL", "10")] * 996))

    audit = lambda make: lambda n: ["audit", "--params", C1, "--orders", ORDERS, "--dialogue", room.file(make(n))]
    audit_own = lambda make: lambda n: ["audit", "--orders", ORDERS, "--dialogue", room.file(make(n))]
    record = lambda make: lambda n: ["record", "--dialogue", room.file(make(n))]
    one, all_in_one = recorded(orders(1)), recorded(orders(996))
    draft = lambda make: lambda n: ["draft", "--dialogue", room.file(make(n))]

    def verify(n):
        words = on("certify", hostile)(n)
        return ["verify", *words[1:], "--cert", room.file(room.printed(words, check=True))]

    return [
        ("show, an ordinary capture", "bytes", m, show(ordinary)),
        ("judge, an ordinary capture and a message of 1 order", "bytes", m, judge(ordinary, small)),
        ("judge, an ordinary capture and a message of 996 orders", "bytes", m, judge(ordinary, many)),
        ("judge, an ordinary row in 9 versions, over and over", "bytes", m, judge(in_turn, small)),
        ("show, segments of + alone", "bytes", half, show(full("+"))),
        ("show, segments of elements of one byte", "bytes", half, show(full("+a"))),
        ("show, segments of items of one byte", "bytes", half, show(full(":a"))),
        ("show, segments of a megabyte in one item", "bytes", half, show(full("a" * (MOST_TEXT - 100), 1))),
        ("judge, segments of a megabyte in one item, in pieces", "bytes", half, judge(full("a" * (MOST_TEXT - 100), 1), small)),
        ("show, HIPINS of different kinds", "bytes", half, show(kinds)),
        ("judge, HIPINS of different kinds, 1 order", "bytes", half, judge(kinds, small)),
        ("judge, HIPINS of different kinds, 996 orders", "bytes", half, judge(kinds, many)),
        ("judge, HIPINS of different kinds, 996 orders of 996 kinds", "bytes", half, judge(kinds, unlike, their_table)),
        ("judge, rows of HIUPD, 1 order", "bytes", half, judge(accounts, small)),
        ("judge, rows of HIUPD, 996 orders", "bytes", half, judge(accounts, many)),
        ("judge, rows of HIUPD, 996 orders of 996 kinds", "bytes", half, judge(accounts, unlike, their_table)),
        ("judge --hints, rows of HIUPD, 996 orders of 996 kinds", "bytes", half, hinted(judge(accounts, unlike, their_table))),
        ("judge --hints, rows of HIUPD, 900 orders of 500 elements", "bytes", half, hinted(judge(accounts, elsewhere))),
        ("judge --hints, all versions over and over, 996 orders", "bytes", half, hinted(judge(versions, untaken))),
        ("judge, rows of HITANS, 990 HKTAN", "bytes", half, judge(procedures, room.file(message(DEMANDING + [SUBMITS] * 990)))),
        ("check, HKTAN at a bank with rows of HITANS", "segments", 9_800, of_procedures(submitting)),
        ("judge, a message of orders", "orders", 498, lambda n: judge(lambda _: HEAD, room.file(orders(n)))(0)),
        ("judge, a message of elements of one byte", "bytes", half, judged(filler("+a"))),
        ("show --message, a message of elements of one byte", "bytes", half, lambda n: ["show", "--message", room.file(filler("+a")(n))]),
        ("audit, messages of 1 order", "bytes", half, audit(one)),
        ("audit, messages of 996 orders", "bytes", half, audit(all_in_one)),
        ("audit, messages of 1 order, the last answer tells parameters", "bytes", half, audit_own(told_last(orders(1)))),
        ("audit, messages of 1 order in base64", "bytes", half, audit(in_lines(one))),
        ("audit, messages of 1 order in UTF-8", "bytes", half, audit(in_utf8(recorded(message([("HKSAL", "5+\xe4+N")]))))),
        ("audit, a log of messages of 1 order", "messages", 1_000, audit(log(as_it_is))),
        ("audit, the same log in base64", "messages", 1_000, audit(log(as_base64))),
        ("audit, the same log in UTF-8", "messages", 1_000, audit(log(as_utf8))),
        ("audit, dialogues with parameters, of one bank", "dialogues", 250, audit_own(dialogues(lambda count: 1))),
        ("audit, dialogues with parameters, each of another bank", "dialogues", 250, audit_own(dialogues(lambda count: count))),
        ("record, a log of messages of 1 order", "messages", 1_000, record(log(as_it_is))),
        ("record, messages of 1 order", "bytes", half, record(one)),
        ("record, messages of 1 order in base64", "bytes", half, record(in_lines(one))),
        ("record, letters of base64", "bytes", half, record(lambda n: "SE5I" * (n // 4))),
        ("audit --hints, messages of 1 order", "bytes", half, hinted(audit(one))),
        ("audit --hints, messages of 996 orders", "bytes", half, hinted(audit(all_in_one))),
        ("draft, messages of 1 order", "messages", 500, draft(numbered([("HKSAL", "5+9999999+N")]))),
        ("draft, messages of 100 elements", "messages", 500, draft(numbered([("HKSAL", "5" + "+1" * 100)]))),
        ("draft, a text of many letters", "letters", 250 * k, lambda n: draft(numbered([("HKXYZ", "1+" + "x" * n)]))(1)),
        ("run, a oneof of many values", "values", 80 * k, lambda n: run(room.file(listed("oneof", '"%s"')(n)), case)),
        ("run, an account of many values", "values", 62_500, lambda n: run(room.file(listed("account", '["%s"]')(n)), case)),
        ("run, a case of many fields", "lines", 40 * k, lambda n: run(end, room.file(lines(n)))),
        ("check, steps with 20 hostile branches each", "steps", 500, on("check", hostile)),
        ("explain, steps with 20 hostile branches each", "steps", 500, on("explain", hostile)),
        ("check, steps that submit orders, 20 branches each", "steps", 500, on("check", unreleased)),
        ("explain, steps that submit orders, 20 branches each", "steps", 500, on("explain", unreleased)),
        ("check --hints, steps that submit orders, 20 branches each", "steps", 500, hinted(on("check", unreleased))),
        ("check --hints, steps that no run sends, 20 branches each", "steps", 500, hinted(on("check", unsent))),
        ("check, orders over 100 listed accounts, 202 at the bank", "orders", 10 * k, of_few(of_listed)),
        ("explain, orders that no bank takes, 100 kinds a step", "orders", 10 * k, on("explain", unknown)),
        ("explain --finding 1, orders that no bank takes", "orders", 10 * k, lambda n: [*on("explain", unknown)(n), "--finding", "1"]),
        ("check --hints, orders of none of 42,000 accounts", "orders", 10 * k, hinted(of_accounts(naming))),
        ("draw, steps with 20 hostile branches each", "steps", 500, on("draw", hostile)),
        ("draw, steps that submit orders, 20 branches each", "steps", 500, on("draw", unreleased)),
        ("certify, steps with 20 hostile branches each", "steps", 500, on("certify", hostile)),
        ("verify, steps with 20 hostile branches each", "steps", 500, verify),
        ("run, messages of 980 kB", "messages", 198, lambda n: run(room.file(heavy(n // 99)), room.file(heavy_case(n // 99)))),
    ]


def keyed(room):
    """The same for maps, with keys that are drawn by lot."""
    k, rows, names = 1_000, any_rows, any_names
    check = lambda text, orders=ORDERS: ["check", "--params", C1, "--orders", orders, "--script", room.file(text)]
    steps = lambda on: lambda n: check(branching(on, ENDS, names)(n))

    def judge(n, capture=lambda _: HEAD, orders=lambda _: open(ORDERS).read(), asked=orders_of):
        each = rows(n)
        files = [room.file(it(each)) for it in (capture, orders, asked)]
        return ["judge", "--params", files[0], "--orders", files[1], "--message", files[2]]

    return [
        ("judge, an order table of random rows, 1 order", "rows", 500, lambda n: judge(n, orders=table, asked=lambda _: orders(1))),
        ("judge, an order table of random rows, 996 orders", "rows", 500, lambda n: judge(n, orders=table)),
        ("check, orders of the last of 1,000 random rows", "orders", 18 * k, lambda n: check(ordering(rows(k)[-1])(n), room.file(table(rows(k))))),
        ("check, steps of random names, no branches", "steps", 500, steps([])),
        ("check, steps of random names, 20 branches each", "steps", 500, steps(LATE)),
        ("check, places for the last of 100 random fields", "places", 60 * k, lambda n: check(filled(names(100, 4))(n))),
        ("check --hints, too many fields of random names", "fields", 30 * k, lambda n: [*check(too_many(names(n))), "--hints"]),
        ("judge, limits of random kinds and versions, 996 orders", "rows", 120 * k, lambda n: judge(n, capture=limits)),
    ]


def listing(room, which, most, kinds):
    """The same for HIPINS with kinds of one sort."""

    def judge(n):
        each = kinds(n)
        message = orders_of([(it, 5) for it in each])
        return ["judge", "--params", room.file(pins(each)), "--orders", ORDERS, "--message", room.file(message)]

    return f"judge, HIPINS of {which}, 996 orders", "kinds", most // 2, judge


def measured_keys(room):
    """The same for maps, and for HIPINS with kinds in several orders."""
    most = 460_000
    return keyed(room) + [
        listing(room, "random kinds", most, any_kinds),
        listing(room, "sorted kinds", most, lambda count: sorted(any_kinds(count))),
        listing(room, "kinds in reverse order", most, lambda count: sorted(any_kinds(count), reverse=True)),
        listing(room, "kinds alike but for one place", most, alike),
        listing(room, "kinds of 4 characters", 596_000, lambda count: [name(it) for it in range(count)]),
    ]


def least(room, words, runs):
    """The least of so many runs: status, milliseconds, KiB, the line on standard error."""
    first = room.run(words)
    more = runs - 1 if first[1] <= 2000 else 0
    return min([first] + [room.run(words) for _ in range(more)], key=lambda it: it[1])


def time_table(room, title, lines, runs):
    if lines:
        print(f"\n{title:58} {'n':>15} {'status':>6} {'s':>8} {'MiB':>7} {'times':>6}")
    for label, unit, n, words in lines:
        before = None
        for count in (n, 2 * n):
            run = words(count)
            status, milliseconds, peak, said = least(room, run, runs)
            took = f"over {SECONDS}" if status == 137 else f"{milliseconds / 1000:.3f}"
            grown = growth(room, before, (run, milliseconds)) if before else ""
            before = run, milliseconds
            line = f"{label:58} {f'{count:,} {unit}':>15} {status:6} {took:>8} {peak / 1024:7.1f} {grown:>6}"
            print(f"{line}  {said if status > 1 else ''}".rstrip(), flush=True)


def count_table(room, lines):
    for label, unit, n, words in lines:
        once, twice = (room.instructions(words(count)) for count in (n, 2 * n))
        for count, millions in ((n, once), (2 * n, twice)):
            print(f"{label:58} {f'{count:,} {unit}':>18} {millions:10.1f} {millions / once:5.2f}", flush=True)


def growth(room, once, twice):
    """How many times as long the run takes with twice the input. Where that is far more than two and than
    what goes in and comes out grows, how many times as many instructions, which hang on no other work on the
    machine; where those are as many, it is over."""
    if once[1] < LEAST_TOLD:
        return "-"
    times = twice[1] / once[1]
    if times <= MOST_TIMES:
        return f"{times:.1f}"
    bytes_of = lambda run: len(room.printed(run)) + sum(os.path.getsize(it) for it in run if os.path.isfile(it))
    more = bytes_of(twice[0]) / bytes_of(once[0])
    if times <= MOST_TIMES / 2 * more:
        return f"{times:.1f} for {more:.1f} times the bytes"
    if not shutil.which("valgrind"):
        return f"{times:.1f}, over"
    counted = room.instructions(twice[0]) / room.instructions(once[0])
    return f"{times:.1f}, in instructions {counted:.1f}" + (", over" if counted > MOST_TIMES / 2 * more else "")


def marked(room):
    """Inputs whose memory has a mark: the label, bytes, the words of a run over about so many, and the mark in bytes for each
    further byte. Of a text of TOML what `toml` takes isn't counted: the last words are of a run that ends when that has read the text."""
    half, small = MOST_CAPTURE // 2, room.file(orders(1))
    show = lambda make: lambda n: ["show", "--params", room.file(make(n))]
    judge = lambda make: lambda n: ["judge", "--params", room.file(make(n)), "--orders", ORDERS, "--message", small]
    judged = lambda make: lambda n: ["judge", "--params", C1, "--orders", ORDERS, "--message", room.file(make(n))]
    check = lambda make: lambda n: ["check", "--params", C1, "--orders", ORDERS, "--script", room.file(make(n))]
    told = lambda make: lambda n: ["show", "--message", room.file(make(n))]
    audit = lambda make: lambda n: ["audit", "--params", C1, "--orders", ORDERS, "--dialogue", room.file(make(n))]
    audit_own = lambda make: lambda n: ["audit", "--orders", ORDERS, "--dialogue", room.file(make(n))]
    record = lambda make: lambda n: ["record", "--dialogue", room.file(make(n))]
    tabled = lambda make: lambda n: ["judge", "--params", C1, "--orders", room.file(make(n)), "--message", small]
    unread = lambda make: lambda n: "unread = 1\n" + make(n)
    of_toml = lambda label, words, make: (label, MOST_TEXT // 2 - 2_000, words(make), 30, words(unread(make)))
    rows = lambda size: table([("HKAAA", 1)] * (size // len(table([("HKAAA", 1)]))))
    return [
        ("show, an ordinary capture", half, show(ordinary), 4, None),
        ("judge, an ordinary capture", half, judge(ordinary), 4, None),
        ("show, segments of + alone", half, show(full("+")), 12, None),
        ("show, segments of elements of one byte", half, show(full("+a")), 12, None),
        ("show, HIPINS of different kinds", half, show(kinds), 12, None),
        ("judge, HIPINS of different kinds", half, judge(kinds), 12, None),
        ("show, rows of HIUPD", half, show(accounts), 12, None),
        ("judge, rows of HIUPD", half, judge(accounts), 12, None),
        ("show, rows of HIUPD that name nothing", half, show(unnamed), 12, None),
        ("judge, rows of HIUPD that name nothing", half, judge(unnamed), 12, None),
        ("judge, rows of HITANS", half, judge(procedures), 12, None),
        ("judge, a message of + alone", half, judged(filler("+")), 12, None),
        ("judge, a message of : alone", half, judged(filler(":")), 12, None),
        ("judge, a message of elements of one byte", half, judged(filler("+a")), 12, None),
        ("show --message, a message of + alone", half, told(filler("+")), 12, None),
        ("show --message, a message of elements of one byte", half, told(filler("+a")), 12, None),
        ("audit, messages of 1 order", half, audit(recorded(orders(1))), 12, None),
        ("audit, messages of 996 orders", half, audit(recorded(orders(996))), 12, None),
        ("audit, messages of 1 order, the last answer tells parameters", half, audit_own(told_last(orders(1))), 12, None),
        ("audit, messages of 996 orders, the last answer tells parameters", half, audit_own(told_last(orders(996))), 12, None),
        ("record, messages of 1 order", half, record(recorded(orders(1))), 12, None),
        ("record, messages of 1 order in base64", half, record(in_lines(recorded(orders(1)))), 12, None),
        of_toml("check, a script of empty texts", check, texts('""', 990)),
        of_toml("check, a script of texts of one letter", check, texts('"a"', 990)),
        of_toml("check, a script of segments without elements", check, texts('""', 0)),
        of_toml("check, steps with 20 hostile branches each", check, lambda size: hostile(size // 700)),
        of_toml("judge, an order table of too many rows", tabled, rows),
    ]


def mark_table(room, wanted):
    lines = [it for it in marked(room) if wanted("marks") or wanted(it[0])]
    if lines:
        print(f"\n{'Memory':58} {'bytes':>15} {'MiB':>8} {'a byte':>7} {'mark':>5}")
    for label, least_size, words, mark, of_toml in lines:
        peaks, sizes, of_others = [], [], []
        for size in (least_size, 2 * least_size):
            run = words(size)
            sizes.append(sum(os.path.getsize(it) for it in run if os.path.isfile(it)))
            peaks.append(room.run(run)[2])
            of_others.append(room.run(of_toml(size))[2] if of_toml else 0)
        further = (peaks[1] - peaks[0] - of_others[1] + of_others[0]) * 1024 / (sizes[1] - sizes[0])
        over = "  over" if further > mark else ""
        print(f"{label:58} {sizes[1]:15,} {peaks[1] / 1024:8.1f} {further:7.1f} {mark:5}{over}", flush=True)


def signed(number):
    """A message of an order with the signature of a PIN."""
    opener = "4+PIN:2+921+4711+1+1+1::0+1+1:20251023:102030+1:999:1+6:10:16+280:10020030:user:S:0:0"
    return message([("HNSHK", opener), ("HKSAL", "5+9999999+N"), ("HNSHA", "2+4711++12345")], number)


def hinted_runs(room):
    """Runs that are counted with and without `--hints`: on the examples, and by an ordinary capture of a megabyte."""
    folder, orders_all = f"{TOP}/examples/dialogue", ["--orders", f"{TOP}/examples/orders-all.toml"]
    bank = ["--params", f"{folder}/bank.fints", "--orders", f"{folder}/orders.toml"]
    large = ["--params", room.file(ordinary(1_000_000)), "--orders", ORDERS]
    recorded_signed = "".join(signed(it) + message([RECEIVED], it) for it in range(1, 17))
    scripts = ("dialogue", "decoupled", "second-signature", "tan-left-out")
    judged = ("initialisation", "transfer", "second-signature", "tan-left-out")
    return [
        *((f"check, {it}.toml", ["check", *bank, "--script", f"{folder}/{it}.toml"]) for it in scripts),
        ("check, end.toml", ["check", "--params", f"{TOP}/examples/c.fints", *orders_all, "--script", f"{TOP}/examples/end.toml"]),
        *((f"judge, {it}", ["judge", *bank, "--message", f"{TOP}/rows/dialogue/judge-{it}/message"]) for it in judged),
        ("audit, dialogue/recorded.fints", ["audit", *orders_all, "--dialogue", f"{folder}/recorded.fints"]),
        ("audit --params, dialogue/recorded.fints", ["audit", *bank, "--dialogue", f"{folder}/recorded.fints"]),
        ("audit, recorded.fints", ["audit", *orders_all, "--dialogue", f"{TOP}/examples/recorded.fints"]),
        ("check, a megabyte of a capture", ["check", *large, "--script", f"{folder}/dialogue.toml"]),
        ("judge, a megabyte of a capture, a message without a signature", ["judge", *large, "--message", room.file(orders(1))]),
        ("judge, a megabyte of a capture, a signed message", ["judge", *large, "--message", room.file(signed(1))]),
        ("audit, a megabyte of a capture, 16 signed messages", ["audit", *large, "--dialogue", room.file(recorded_signed)]),
    ]


def hint_table(room, wanted):
    if not wanted("hints") or not shutil.which("valgrind"):
        return
    print(f"\n{'Millions of instructions':62} {'without':>9} {'--hints':>9} {'times':>6}")
    for label, words in hinted_runs(room):
        without, with_hints = room.instructions(words), room.instructions([*words, "--hints"])
        print(f"{label:62} {without:9.2f} {with_hints:9.2f} {with_hints / without:6.2f}", flush=True)


def memory_table(room, wanted):
    label = "run, 19,800 messages of 980 kB each"
    if not wanted(label):
        return
    words = ["run", "--orders", ORDERS, "--script", room.file(heavy(200)), "--case", room.file(heavy_case(200))]
    print(f"\n{'Within so much memory':58} {'':>15} {'status':>6} {'s':>8} {'MiB':>7}")
    for most in (256, 1024, 2048):
        status, milliseconds, peak, said = room.run(words, memory=most << 10)
        print(f"{label:58} {f'{most:,} MiB':>15} {status:6} {milliseconds / 1000:8.2f} {peak / 1024:7.1f}  {said}", flush=True)


# Deep texts of TOML.
KEY = ".".join("a" * 80)


def headers(depth):
    """Arrays of tables, each in the one before."""
    return "".join(f"[[{'.'.join('a' * i)}]]\n" for i in range(1, depth + 1))


def bushy(depth):
    """Such keys in inline tables below arrays of tables, with 15 keys more in each of the first 27
    tables of each: a table of more than 15 keys has a node more on the way down."""
    others = "BCDEFGHIJKLMNOP"
    more = "".join(f", {'a.' * i}{it}=1" for i in range(27) for it in others)
    above = "".join(f"[[{'.'.join('a' * i)}]]\n" + "".join(f"{it}=1\n" for it in others) for i in range(1, 81))
    return above + f"{KEY} = " + f"{{{KEY}=" * depth + "1" + f"{more}}}" * depth


DEEP = {
    "arrays in arrays": lambda n: "x = " + "[" * n + "]" * n,
    "inline tables in inline tables": lambda n: "x = " + "{a=" * n + "1" + "}" * n,
    "a key of parts": lambda n: ".".join("a" * n) + " = 1",
    "a header of parts": lambda n: "[" + ".".join("a" * n) + "]\nb = 1",
    "headers of arrays of tables": headers,
    "inline tables of keys of 80 parts": lambda n: f"[{KEY}]\n{KEY} = " + f"{{{KEY}=" * n + "1" + "}" * n,
    "the same, with as many tables of 16 keys as fit in": bushy,
}
STACKS = (8192, 2048, 1024, 512)


def depths(make):
    """Where the reader stops, and the deepest text that isn't too long."""
    low, high = 81, 162
    while len(make(high)) <= MOST_TEXT:
        low, high = high, 2 * high
    while high - low > 1:
        middle = (low + high) // 2
        low, high = (middle, high) if len(make(middle)) <= MOST_TEXT else (low, middle)
    return sorted({80, 81, low})


def stack_need(room, words):
    """The least stack, in steps of 16 KiB, at which the run isn't ended by a signal."""
    low, high = 16, 32_768
    while high - low > 16:
        middle = (low + high) // 32 * 16
        low, high = (middle, high) if room.run(words, stack=middle)[0] >= 128 else (low, middle)
    return high


def ended(run):
    status, _, _, said = run
    return f"signal {status - 128}" if status >= 128 else said.split()[2] if status > 1 else "read"


def stack_table(room, wanted):
    if not wanted("deep"):
        return
    print(f"\n{'TOML, as a script and as an order table, at stacks of':56} {'depth':>10} {'KiB':>6}  " + " ".join(f"{it:>10}" for it in STACKS))
    good = f"{INPUTS}/end.toml"
    for label, make in DEEP.items():
        for depth in depths(make):
            file = room.file(make(depth))
            both = [["check", "--params", C1, "--orders", of, "--script", it] for of, it in ((ORDERS, file), (file, good))]
            ends = [" or ".join(dict.fromkeys(ended(room.run(words, stack=it)) for words in both)) for it in STACKS]
            need = max(stack_need(room, words) for words in both)
            print(f"{label:56} {depth:10,} {need:6,}  " + " ".join(f"{it:>10}" for it in ends), flush=True)
    for label, words in (("the built-in report", []), ("an explanation of examples/dialogue/second-signature.toml", dialogue())):
        print(f"{label:56} {'':10} {stack_need(room, words):6,}", flush=True)


def dialogue():
    folder = f"{TOP}/examples/dialogue"
    return ["explain", "--params", f"{folder}/bank.fints", "--orders", f"{folder}/orders.toml", "--script", f"{folder}/second-signature.toml"]


def main():
    words = argparse.ArgumentParser(description="Prints what the built program takes for large inputs.")
    words.add_argument("--program", default=os.environ.get("FINTS", f"{TOP}/crates/fints/out/fints"))
    words.add_argument("--runs", type=int, default=3, help="of which the least time is printed")
    words.add_argument("word", nargs="*", help="only the lines with one of these words; `keys` is the table of maps, `marks` that of memory, `hints` that of hints, `deep` that of stacks")
    words.add_argument("--count", action="store_true", help="instructions in place of times")
    asked = words.parse_args()
    if not os.access(asked.program, os.X_OK):
        sys.exit(f"cost: {asked.program} isn't built")
    wanted = lambda label: not asked.word or any(it in label for it in asked.word)
    with tempfile.TemporaryDirectory(prefix="cost-") as folder:
        room = Room(os.path.abspath(asked.program), folder)
        lines = [it for it in measured(room) if wanted(it[0])]
        of_keys = [it for it in measured_keys(room) if wanted("keys") or wanted(it[0])]
        if asked.count:
            count_table(room, lines + of_keys)
            return
        time_table(room, "What", lines, asked.runs)
        time_table(room, "Maps by their keys", of_keys, asked.runs)
        mark_table(room, wanted)
        hint_table(room, wanted)
        memory_table(room, wanted)
        stack_table(room, wanted)


if __name__ == "__main__":
    main()
