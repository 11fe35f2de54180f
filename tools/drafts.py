#!/usr/bin/env python3
"""Drafts a script and a case from each recorded dialogue of the rows and the examples with the built
program, of a recording with several dialogues from each of them, runs them, and compares what is sent with what
was recorded, segment by segment: byte for byte but for what a client makes new for each message. No string of the
script may be the value of a secret, and each comment is a fixed one, or an XML text that the segment after it has.
Each is drafted by the order table that the program has, and by an empty one. By the first each account that a field lists is one of
the user's. Each raw recording is drafted once more with other secrets of the same kinds and sizes: the script is the same.

Where `audit` says that no rule is broken, `check` must say `clean` of the draft. It is asked for each message, also of
one dialogue of several: a step whose message breaks no rule has no finding. Where answers have different parameters, the
draft is checked by each of them, and a finding counts at the steps whose messages are judged by these. Where the
recording has no parameters of the bank, those of `examples/dialogue` are taken for both. It isn't asked where `audit`
refuses the recording, or finds something in each message.

Usage: tools/drafts.py [--program PATH]
"""
import argparse
import pathlib
import re
import subprocess
import sys
import tempfile
import tomllib

from recordings import is_of_user, nearest, opened, party_in
from recordings import segments as texts_of
from rows import lay_out, read_rows

TOP = pathlib.Path(__file__).resolve().parent.parent
PROGRAM = TOP / "crates" / "fints" / "out" / "fints"
ORDERS = TOP / "rows" / "inputs" / "orders.toml"
ALL_ORDERS = TOP / "examples" / "orders-all.toml"
NO_ORDERS = TOP / "rows" / "inputs" / "empty"
BANK = TOP / "examples" / "dialogue" / "bank.fints"
BANK_HEADS = (rb"HIBPA:\d+:3[+:']", rb"HIPINS:\d+:1[+:']")  # what an answer has that says the bank's parameters
NO_ACCOUNTS = b"HIUPA:1:4+x+3+1'"  # in the place of the user's, where no answer says them: usage is 1


def call(*words):
    """The status and the output of the program."""
    done = subprocess.run([PROGRAM, *words], capture_output=True, timeout=60)
    return done.returncode, done.stdout


def recorded(dialogue):
    """The messages of a recorded dialogue, of both sides; they are raw here, with other bytes between or none."""
    messages, at = [], dialogue.find(b"HNHBK:1:3+")
    while at >= 0:
        size = int(dialogue[at + 10 : at + 22])
        messages.append(dialogue[at : at + size])
        at = dialogue.find(b"HNHBK:1:3+", at + size)
    return messages


def head_of(message):
    """The elements of a message's HNHBK, from the dialogue's id on."""
    return message.split(b"'", 1)[0].split(b"+")[3:]


def exchanges_of(dialogue):
    """The client's messages of a recording, without what was written twice, each with the answer to it, or None. What has
    feedback is an answer."""
    exchanges, before = [], b""
    for message in recorded(dialogue):
        is_copy, before = message == before, message
        if is_copy:
            continue
        if not re.search(rb"HIRM[GS]:\d", message):
            exchanges.append([message, None])
        elif exchanges:
            exchanges[-1][1] = message
    return exchanges


def parts_of(dialogue):
    """The client's messages of each dialogue of a recording."""
    parts = []
    for message, _ in exchanges_of(dialogue):
        head = head_of(message)
        if not parts or (head[0].strip(b"0"), head[1].lstrip(b"0")) == (b"", b"1"):
            parts.append([])
        parts[-1].append(message)
    return parts


def sent(text):
    """The messages that `run` prints."""
    messages = []
    while text:
        line, text = text.split(b"\n", 1)
        size = int(line.rsplit(b" ", 1)[1])
        messages.append(text[:size])
        text = text[size + 1:]
    return messages


def elements_of(text):
    """The elements of a segment without its end, as lists of items: whether each is binary, and its value."""
    elements, item, binary, at = [[]], b"", False, 0
    while at <= len(text):
        one = text[at:at + 1]
        if one in (b"+", b":", b""):
            elements[-1].append((binary, item))
            item, binary = b"", False
            if one == b"+":
                elements.append([])
        elif one == b"?":
            at += 1
            item += text[at:at + 1]
        elif one == b"@" and not item:
            size, _, rest = text[at + 1:].partition(b"@")
            binary, item = True, rest[:int(size)]
            at += 1 + len(size) + int(size)
        else:
            item += one
        at += 1
    return elements


def segments_of(message):
    """The segments of a message, without their ends."""
    segments, start, at = [], 0, 0
    while at < len(message):
        size = re.match(rb"@(\d+)@", message[at:])
        if message[at:at + 1] == b"?":
            at += 1
        elif size and message[at - 1:at] in (b"+", b":"):
            at += size.end() - 1 + int(size[1])
        elif message[at:at + 1] == b"'":
            segments.append(message[start:at])
            start = at + 1
        at += 1
    return segments


# The items that a client makes new, by kind, element and item.
RENEWED = {
    b"HNHBK": {(2, 1)},
    b"HNSHK": {(4, 1), (9, 2), (9, 3)},
    b"HNSHA": {(2, 1), (4, 2)},
    b"HKTAN": {(6, 1)},
}


def renewed_in(elements):
    """The places of a segment that a client makes new; None where it makes none."""
    kind, _, version = [value for _, value in elements[0]][:3]
    process = elements[1][0][1] if len(elements) > 1 else b""
    if kind == b"HKTAN" and (process not in (b"2", b"S") or int(version) < 5):
        return None
    return RENEWED.get(kind)


def is_segment_alike(own, sent):
    """Whether a segment is sent as it was recorded."""
    if own == sent:
        return True
    one, other = elements_of(own), elements_of(sent)
    kind = one[0][0][1]
    if one[0] == other[0] and kind == b"HNVSK":
        return True
    if one[0] == other[0] and kind == b"HNVSD":
        return are_alike(one[1][0][1], other[1][0][1]) and len(one) == len(other) == 2
    places = renewed_in(one)
    if places is None or [len(it) for it in one] != [len(it) for it in other]:
        return False
    for e, (items, others) in enumerate(zip(one, other), 1):
        for i, (item, new) in enumerate(zip(items, others), 1):
            if item != new and not ((e, i) in places and item[1] and new[1]):
                return False
    return True


def are_alike(own, sent):
    """Whether all segments are."""
    one, other = segments_of(own), segments_of(sent)
    return len(one) == len(other) and all(map(is_segment_alike, one, other))


# The comments of a draft that don't depend on the dialogue, below its first lines.
FIXED = (
    r'  # Element 2 is an account: a field of class "account" lists those that it may be\.',
    r"  # Left out of its accounts: \d+ for which the bank doesn't permit it \(P8, P9\)\.",
    r"  # Left out of its accounts: \d+ more, since a field lists at most 100\.",
    r"# note: element \d+ of HNVSK is another one in message \d+",
    r"  # element \d+(, item \d+)?:",
)


def are_comments_known(script):
    """Whether each comment of a draft is a fixed one, or a line of a text that the segment after it has."""
    top, _, rest = script.partition("\n\n")
    shown = []
    for line in rest.split("\n"):
        if line.startswith("  #   "):
            shown.append(line[len("  #   "):])
        elif line.lstrip().startswith("#"):
            if not any(re.fullmatch(it, line) for it in FIXED):
                return False
        elif shown:
            texts = [bytes.fromhex(it).decode("latin-1") for it in re.findall(r'"%([0-9a-f]*)"', line)]
            lines = [it for text in texts if text.startswith("<") for it in text.replace("\r", "").removesuffix("\n").split("\n")]
            if shown != lines:
                return False
            shown = []
    return all(line.startswith("#") for line in top.split("\n"))


def secrets(case):
    """The values of the fields of a case that are secrets."""
    values = re.findall(rb"^field (?:bin)?(?:pin|tan|newpin|secret)\d* ([0-9a-f]+)$", case, re.M)
    return [bytes.fromhex(value.decode()) for value in values]


# Letters and digits, each with the one that replaces it in a secret.
OTHERS = bytes.maketrans(
    b"abcdefghijklmnopqrstuvwxyzABCDEFGHIJKLMNOPQRSTUVWXYZ0123456789",
    b"bcdefghijklmnopqrstuvwxyzaBCDEFGHIJKLMNOPQRSTUVWXYZA1234567890",
)


def with_other_secrets(dialogue):
    """A raw recording with other letters and digits in PIN, TAN and new PIN; equal secrets stay equal."""
    data = bytearray(dialogue)
    for head in re.finditer(rb"(HNSHA|HKPAE):\d+:\d+", dialogue):
        at, element, first = head.end(), 1, 4 if head[1] == b"HNSHA" else 2
        while at < len(data) and data[at] != ord("'"):
            size = re.match(rb"@(\d+)@", dialogue[at:])
            if size and data[at - 1] in b"+:":
                begin, at = at + size.end(), at + size.end() + int(size[1])
            elif data[at] == ord("?"):
                begin, at = at, at + 2
            else:
                element += data[at] == ord("+")
                begin, at = at, at + 1
            if element >= first:
                data[begin:at] = data[begin:at].translate(OTHERS)
    return bytes(data)


def is_independent_of_secrets(path, room, words):
    """Whether the script is the same where other secrets were recorded."""
    (room / "other").write_bytes(with_other_secrets(path.read_bytes()))
    return call("draft", "--dialogue", path, *words) == call("draft", "--dialogue", room / "other", *words)


def inner_segments(message):
    """The segments of a message, and those that an HNVSD in it holds, as elements of items."""
    for segment in map(elements_of, segments_of(message)):
        yield segment
        if segment[0][0][1] == b"HNVSD":
            yield from inner_segments(segment[1][0][1])


def accounts_in(messages):
    """The accounts of the user that messages tell: number, subaccount, country and bank, and IBAN."""
    for segment in (it for message in messages for it in inner_segments(message) if it[0][0][1] == b"HIUPD"):
        values = [[value.decode("latin-1") for _, value in items] for items in segment[:3]]
        yield (values[1] + [""] * 4)[:4], (values[2] if len(values) > 2 else [""])[0]


def is_account(value, national, iban):
    """Whether a listed value is this account, as a national one or with IBAN and BIC."""
    forms = [national, [iban, *value[1:2], *national]]
    return any(len(value) <= len(form) and all(a in ("", b) for a, b in zip(value, form)) and any(value) for form in forms)


def are_accounts_known(script, messages):
    """Whether each account that a field lists is one of the user's."""
    fields = [it for it in tomllib.loads(script.decode()).get("field", []) if it["class"] == "account"]
    accounts = list(accounts_in(messages))
    return all(any(is_account(value, *it) for it in accounts) for field in fields for value in field["values"])


def captures_of(dialogue):
    """The capture by which `audit` judges each of the client's messages; None where no answer has the bank's parameters."""
    exchanges = exchanges_of(dialogue)
    told = [texts_of(opened(answer or b"")) for _, answer in exchanges]
    of_user = [[it for it in all_of if is_of_user(it)] for all_of in told]
    of_bank = [[it for it in all_of if not is_of_user(it)] for all_of in told]
    of_bank = [it if all(any(re.match(head, one) for one in it) for head in BANK_HEADS) else [] for it in of_bank]
    named = [party_in(message) for message, _ in exchanges]
    party, captures = next((it for it in named if it), (b"", b"")), []
    parties = [party := it or party for it in named]
    for place, own in enumerate(parties):
        bank = nearest(lambda i: of_bank[i] and parties[i][0] == own[0], place, len(exchanges))
        user = nearest(lambda i: of_user[i] and parties[i] == own, place, len(exchanges))
        if bank is None:
            return None
        captures.append(b"".join(of_bank[bank] + ([NO_ACCOUNTS] if user is None else of_user[user])))
    return captures


def broken_in(report):
    """The numbers of the messages that break a rule, of an audit."""
    number, broken = 0, set()
    for line in report.decode().splitlines():
        words = line.split()
        number = int(words[1]) if words[0] == "message" else number
        broken |= {number} if words[0] == "broken" and len(words) > 2 else set()
    return broken


def is_clean(path, room, script, numbers):
    """Whether the draft of the messages with these numbers has no finding in a step whose message breaks no rule, each by
    the parameters of its message; None where no message of them is judged."""
    captures, words = captures_of(path.read_bytes()), ["--orders", ALL_ORDERS]
    if captures is None:
        captures, words = [BANK.read_bytes()] * max(numbers, default=0), [*words, "--params", BANK]
    status, report = call("audit", *words, "--dialogue", path)
    judged = set(numbers) - broken_in(report)
    if status > 1 or not judged:
        return None
    for capture in {captures[it - 1] for it in judged}:
        (room / "capture").write_bytes(capture)
        status, text = call("check", "--params", room / "capture", "--orders", ALL_ORDERS, "--script", script)
        found = {int(it) for it in re.findall(rb"^broken m(\d+)-", text, re.M)}
        if status > 1 or any(captures[it - 1] == capture for it in found & judged):
            return False
        is_all = len(judged) == len(numbers) and all(captures[it - 1] == capture for it in judged)
        if is_all and not text.endswith(b"\nclean\n"):
            return False
    return True


def is_replayed(path, room, words, numbers, own, cleans):
    """Whether the draft of a dialogue sends the client's messages, which have these numbers in the file; None where there
    is no draft. Counts whether it is clean."""
    status, script = call("draft", "--dialogue", path, *words)
    case_status, case = call("draft", "--dialogue", path, *words, "--case")
    if status != case_status or not is_independent_of_secrets(path, room, words):
        return False
    if status != 0:
        return None
    (room / "script").write_bytes(script)
    (room / "case").write_bytes(case)
    orders = ORDERS if NO_ORDERS in words else ALL_ORDERS
    status, text = call("run", "--orders", orders, "--script", room / "script", "--case", room / "case")
    again = sent(text)
    alike = len(own) == len(again) and all(map(are_alike, own, again))
    hidden = all(b'"%s"' % value not in script for value in secrets(case))
    known = are_accounts_known(script, recorded(path.read_bytes())) and are_comments_known(script.decode())
    clean = is_clean(path, room, room / "script", numbers)
    cleans[clean] += 1
    if clean is False:
        print(f"drafts: {path}: the draft isn't clean: {' '.join(map(str, words))}", file=sys.stderr)
    return status == 0 and alike and hidden and known and clean is not False


def main():
    global PROGRAM
    given = argparse.ArgumentParser(description=__doc__, formatter_class=argparse.RawDescriptionHelpFormatter)
    given.add_argument("--program", type=pathlib.Path, default=PROGRAM, metavar="PATH")
    PROGRAM = given.parse_args().program.resolve()
    if not PROGRAM.exists():
        sys.exit(f"drafts: {PROGRAM} isn't built")
    counts, cleans = {True: 0, False: 0, None: 0}, {True: 0, False: 0, None: 0}
    with tempfile.TemporaryDirectory() as room:
        lay_out(pathlib.Path(room), read_rows())
        names = ["rows/audit/*/dialogue", "rows/draft/*/dialogue", "rows/inputs/*.rec", "examples/**/recorded.fints"]
        for path in (it for name in names for it in sorted(pathlib.Path(room).glob(name))):
            parts, asked, first = parts_of(path.read_bytes()), [], 1
            for part, own in enumerate(parts, 1):
                numbers = range(first, first + len(own))
                asked.append(([], numbers, own) if len(parts) == 1 else (["--part", str(part)], numbers, own))
                first += len(own)
            if len(parts) != 1:
                asked.append(([], range(0), []))
            asked += [([*words, "--orders", NO_ORDERS], numbers, own) for words, numbers, own in asked]
            tried = [is_replayed(path, pathlib.Path(room), *it, cleans) for it in asked]
            replayed = False if False in tried else True if True in tried else None
            counts[replayed] += 1
            if replayed is False:
                print(f"drafts: {path}: the draft sends something else, or isn't clean", file=sys.stderr)
    print(f"drafts: {cleans[True]} of permitted dialogues are clean, {cleans[False]} not; {cleans[None]} weren't asked")
    print(f"drafts: {counts[True]} replayed, {counts[None]} without a draft, {counts[False]} wrong")
    sys.exit(1 if counts[False] or not counts[True] or not cleans[True] else 0)


if __name__ == "__main__":
    main()
