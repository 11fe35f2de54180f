#!/usr/bin/env python3
"""Makes recordings of dialogues, and compares what `fints audit` prints of them with what docs/formats.md says.
The files are dialogues as they are, logs, and HARs as a proxy writes them. The reference here finds the messages of a
file, raw, in UTF-8 and in base64, and knows which of them are passed over: copies, unsealed twins, and what a logger
changed. It knows whose a message is, where a dialogue begins, and which answers tell the parameters by which a message
is judged: those of its bank, and those of its customer. Which rules one message breaks it asks of `fints judge`, by a
capture that it puts together of these answers, and with the message before and the answer between them where there are
two in a dialogue. Some recordings are spoiled: an answer or a message is left out, two are exchanged, a byte is another
one, the file is cut off. What `fints record` prints is compared too.

Usage: tools/recordings.py [--count N] [--first SEED] [--program PATH]
"""
import argparse
import base64
import json
import pathlib
import random
import re
import subprocess
import sys
import tempfile
from concurrent.futures import ThreadPoolExecutor

TOP = pathlib.Path(__file__).resolve().parent.parent
PROGRAM = TOP / "crates" / "fints" / "out" / "fints"
ORDERS = TOP / "examples" / "orders-all.toml"

# ---- Recordings.

BANK = [
    b"HIBPA:%d:3+12+280:10020030+Bank+3+1+300+0",
    b"HISALS:%d:4+3+1",
    b"HISALS:%d:7+1+1",
    b"HICCSS:%d:1+1+1+0",
    b"HITANS:%d:6+1+1+0+J:N:0:921:2:tan:tan::tan:6:1:tan:256:J:2:N:0:0:N:J:00:2:N:1",
    b"HIPINS:%d:1+1+1+0+5:38:6:::HKSAL:N:HKCCS:J:HKKAZ:J:HKIDN:N:HKVVB:N:HKEND:N:HKTAN:N:HKSPA:N",
]
USER = [
    b"HIUPA:%d:4+erika01+3+0",
    b"HIUPD:%d:6+4711003::280:10020030+DE97100200300004711003+erika01+1+EUR+Erika++Giro++HKSAL:1+HKCCS:1+HKSPA:1",
    b"HIUPD:%d:6+4711001::280:10020030+DE54100200300004711001+erika01+1+EUR+Erika++Giro++HKSAL:1+HKKAZ:2",
]
# Banks and users tell other parameters in the course of time.
OTHER_BANKS = [
    BANK,
    [b"HIBPA:%d:3+12+280:10020030+Bank+1+1+300+0", *BANK[1:2], *BANK[3:]],
    [*BANK[:5], b"HIPINS:%d:1+1+1+0+5:38:6:::HKSAL:J:HKCCS:N:HKIDN:N:HKVVB:N:HKEND:N:HKTAN:N:HKSPA:N"],
]
OTHER_USERS = [
    USER,
    USER[:2],
    [b"HIUPA:%d:4+erika01+4+1"],
    [USER[0], b"HIUPD:%d:6+4711003::280:10020030+DE97100200300004711003+erika01+1+EUR+Erika++Giro++HKSAL:2+HKCCS:1"],
    USER[1:2],
]
BANKS = [b"280:10020030", b"280:10020030", b"280:20030040"]
CUSTOMERS = [b"erika01", b"erika01", b"max02"]
ACCOUNTS = [
    b"DE97100200300004711003:BEISDEFFXXX:4711003::280:10020030",
    b"DE54100200300004711001:BEISDEFFXXX:4711001::280:10020030",
]


def message(number, dialogue, segments, answer=False):
    """A message of these segments, whose numbers are made."""
    body = b"".join((it % i if b"%d" in it else it) + b"'" for i, it in enumerate(segments, 2))
    last = b"HNHBS:%d:1+%d'" % (len(segments) + 2, number)
    tail = b"+300+%s+%d" % (dialogue, number) + (b"+%s:%d" % (dialogue, number) if answer else b"") + b"'"
    size = len(b"HNHBK:1:3+") + 12 + len(tail) + len(body) + len(last)
    return b"HNHBK:1:3+%012d" % size + tail + body + last


def signed(rng, orders):
    """The orders between an HNSHK and an HNSHA; the reference is another one each time."""
    reference = b"%d" % rng.randrange(1, 99999)
    function = rng.choice([b"921", b"921", b"999"])
    opener = b"HNSHK:%%d:4+PIN:2+%s+%s+1+1+1::7A2F09+1+1:20260105:091502+1:999:1+6:10:16+280:10020030:erika01:S:0:0"
    tan = rng.choice([b"", b"", b":123456"])
    return [opener % (function, reference), *orders, b"HNSHA:%%d:2+%s++12345%s" % (reference, tan)]


def orders_of(rng):
    """The orders of a message in the midst of a dialogue."""
    account = rng.choice(ACCOUNTS)
    choices = [
        [b"HKSAL:%%d:7+%s+N" % account],
        [b"HKSAL:%%d:7+%s+N" % account, b"HKTAN:%d:6+4+HKSAL"],
        [b"HKCCS:%%d:1+%s+urn?:pain.001.001.03+@3@<a>" % account, b"HKTAN:%d:6+4+HKCCS"],
        [b"HKCCS:%%d:1+%s+urn?:pain.001.001.03+@3@<a>" % account],
        [b"HKTAN:%d:6+2++++ref1+N"],
        [b"HKSPA:%d:1"],
        [b"HKXYZ:%d:1+M\xfcller"],
        [b"HKSAL:%%d:7+%s+N" % account] * 2,
    ]
    return rng.choice(choices[1:3] * 2 + choices)


def dialogue(rng, parameters):
    """The messages of a dialogue in their order; its first answer may have parameters."""
    name, count = b"D%d" % rng.randrange(1, 999), rng.randrange(1, 5)
    messages, party = [], b"HKIDN:%%d:2+%s+%s+7A2F09+1" % (rng.choice(BANKS), rng.choice(CUSTOMERS))
    for number in range(1, count + 1):
        first = [party, b"HKVVB:%d:3+0+0+0+fints+1"] if rng.random() < 0.9 else [b"HKVVB:%d:3+0+0+0+fints+1"]
        orders = first if number == 1 else orders_of(rng)
        if number == count > 1 and rng.random() < 0.5:
            orders = [b"HKEND:%%d:1+%s" % name]
        own = b"0" if number == 1 else name
        messages.append(message(number, own, signed(rng, orders)))
        codes = rng.sample([b"0030", b"0030", b"0020", b"3955", b"3076"], rng.randrange(1, 3))
        told = [rng.choice([b"HIRMG:%d:2+0010::OK", b"HIRMG:%d:2+0010::Nachricht ausgef\xfchrt"]), b"HIRMS:%d:2:4+" + b"+".join(it + b"::Note" for it in codes)]
        later = [rng.choice(it) for it in (OTHER_BANKS, OTHER_USERS) if rng.random() < 0.25]
        tells = parameters if number == 1 else later
        answer = message(number, name, told + [it for part in tells for it in part], True)
        if number < count or rng.random() < 0.7:
            messages.append(answer)
    return messages


def spoiled(rng, messages):
    """The bytes of a recording, of which some are changed."""
    kind = rng.choice(["left out", "exchanged", "byte", "cut off", "twice", "joined"])
    at = rng.randrange(len(messages))
    if kind == "left out":
        del messages[at]
    elif kind == "exchanged" and at:
        messages[at - 1], messages[at] = messages[at], messages[at - 1]
    elif kind == "twice":
        messages.insert(at, messages[at])
    file = b"\r\n".join(messages) if kind == "joined" else b"".join(messages)
    if kind == "byte" and file:
        place = rng.randrange(len(file))
        file = file[:place] + rng.choice([b"'", b"+", b":", b"?", b"@", b"0", b"A"]) + file[place + 1 :]
    if kind == "cut off":
        file = file[: rng.randrange(len(file) + 1)]
    return file


def sealed(message):
    """The same message with its inner segments in an HNVSD."""
    first, *inner, last = segments(message)
    data = b"".join(inner)
    rest = first[22:] + b"HNVSK:998:3+PIN:1+998+1'HNVSD:999:1+@%d@" % len(data) + data + b"'" + last
    return b"HNHBK:1:3+%012d" % (22 + len(rest)) + rest


def is_client(message):
    return b"HIRMG:" not in message


def logged(rng, messages):
    """The messages as loggers write them: some twice, some sealed beside the unsealed one, some changed beside it."""
    written = []
    for it in messages:
        kind = rng.choice(["once", "once", "twice", "sealed", "twins", "twins the other way", "changed"])
        if kind == "twice":
            written += [it, it]
        elif kind == "sealed" and is_client(it):
            written.append(sealed(it))
        elif kind == "twins" and is_client(it):
            written += [it, sealed(it)]
        elif kind == "twins the other way" and is_client(it):
            written += [sealed(it), it]
        elif kind == "changed":
            wrong = it[:10] + b"%012d" % (len(it) + rng.randrange(1, 40)) + it[22:]
            written += rng.choice([[it, wrong], [wrong, it], [it, wrong, wrong]])
        else:
            written.append(it)
    return written


def wrapped(text, rng):
    """Base64 in lines, with a break that JSON escapes or not."""
    size, gap = rng.choice([20, 64, 76]), rng.choice([b"\n", b"\r\n", b"\\n", b"\\r\\n"])
    return gap.join(text[i : i + size] for i in range(0, len(text), size))


def in_json(text, rng):
    """Base64 as JSON escapes it."""
    text = text.replace(b"/", rng.choice([b"/", b"\\/", b"\\u002f"]))
    return text.replace(b"+", rng.choice([b"+", b"\\u002b", b"\\u002B"]))


def in_file(rng, messages):
    """A file with the messages in one form or in several, and something between them."""
    file = []
    for i, it in enumerate(messages):
        kind = rng.choice(["raw", "raw", "utf-8", "base64", "lines", "json", "without padding"])
        code = base64.b64encode(it)
        if kind == "raw":
            text = it
        elif kind == "utf-8":
            text = it.decode("latin-1").encode("utf-8")
        elif kind == "lines":
            text = wrapped(code, rng)
        elif kind == "json":
            text = b'{"body": "' + in_json(code, rng) + b'"}'
        else:
            text = code if kind == "base64" else code.rstrip(b"=")
        file += [rng.choice([b"", b"12:00:%02d send " % (i % 60), b"<< "]), text, rng.choice([b"\n", b"\r\n", b" end\n"])]
    return b"".join(file)


def har_text(rng, message):
    """A message in base64 as a proxy's HAR has it: with JSON's escapes, in one line or in several."""
    code = base64.b64encode(message)
    code = rng.choice([code, code, code.rstrip(b"=")])
    size, gap = rng.choice([20, 64, 76, len(code), len(code)]), rng.choice([b"\\n", b"\\r\\n"])
    code = gap.join(code[i : i + size] for i in range(0, len(code), size)) + rng.choice([b"", gap])
    return in_json(code, rng).replace(b"=", rng.choice([b"=", b"\\u003d"])).decode()


def in_har(rng, messages):
    """A HAR of a proxy with these messages: those of the client in request.postData, the answers in response.content."""
    entries, texts = [], {}
    for it in messages:
        place = f"@{len(texts)}@"
        texts[f'"{place}"'] = f'"{har_text(rng, it)}"'
        if is_client(it) or not entries or "text" in entries[-1]["response"]["content"]:
            when, url = f"2026-01-05T09:15:{len(entries) % 60:02}.000Z", "https://banking.example/fints"
            request = {"method": "POST", "url": url, "headers": [{"name": "Content-Type", "value": "text/plain"}]}
            entries.append({"startedDateTime": when, "time": 42, "request": request, "response": {"status": 200, "content": {}}})
        if is_client(it):
            entries[-1]["request"]["postData"] = {"mimeType": "text/plain", "text": place}
        else:
            size = {} if rng.random() < 0.5 else {"size": len(it)}
            entries[-1]["response"]["content"] = {**size, "mimeType": "text/plain", "text": place}
    har = {"log": {"version": "1.2", "creator": {"name": "proxy", "version": "1"}, "entries": entries}}
    text = json.dumps(har, indent=rng.choice([None, 1, 2]))
    for place, own in texts.items():
        text = text.replace(place, own)
    return text.replace("\n", rng.choice(["\n", "\r\n"])).encode()


def recording(seed):
    """A recording, and whether its parameters come by --params."""
    rng, messages = random.Random(seed), []
    for _ in range(rng.randrange(1, 4)):
        parameters = [rng.choice(it) for it in (OTHER_BANKS, OTHER_USERS) if rng.random() < 0.7]
        messages += dialogue(rng, parameters)
    is_log, is_har = rng.random() < 0.5, random.Random(f"HAR {seed}").random() < 0.2
    if is_log or is_har:
        file = in_har(rng, rng.choice([messages, messages, logged(rng, messages)])) if is_har else in_file(rng, logged(rng, messages))
        if rng.random() < 0.2:
            file = file[: rng.randrange(len(file) + 1)]
    else:
        file = spoiled(rng, messages) if rng.random() < 0.3 else rng.choice([b"", b"\r\n", b"\n"]).join(messages)
    return file, rng.random() < 0.3


# ---- What docs/formats.md says of them.


class Refused(Exception):
    """The refusal of a recording, as its line says it."""


def call(*words):
    """The status, the output and the errors of the program."""
    done = subprocess.run([PROGRAM, *words], capture_output=True, timeout=60)
    return done.returncode, done.stdout.decode("latin-1"), done.stderr.decode()


PLAIN, CODED = b"HNHBK:1:3+", b"SE5IQks6"
UNIT = re.compile(rb"(?:[\r\n \t]|\\[rnt])*(?:([A-Za-z0-9+/])|\\(/)|\\u002([bBfF]))")
END = re.compile(rb"HNHBS:\d{1,3}:1\+\d{1,5}'\Z")
# In a note: something is passed over.
PASSED = re.compile(r"passed over: .*[1-9]")


def own_part(file, at, mark):
    """The file from a place up to the next mark after its first byte."""
    end = file.find(mark, at + 1)
    return file[at:] if end < 0 else file[at:end]


def latin(text, count):
    """The first characters of a text in UTF-8, as bytes of ISO 8859-1, and how many bytes they take."""
    out, at = bytearray(), 0
    while len(out) < count:
        first, second = text[at : at + 1], text[at + 1 : at + 2]
        if first and first[0] < 128:
            out += first
            at += 1
        elif first in (b"\xc2", b"\xc3") and second and 128 <= second[0] < 192:
            out += (first + second).decode("utf-8").encode("latin-1")
            at += 2
        else:
            return None, 0
    return bytes(out), at


def letters(text, count):
    """This number of bytes, of the first letters of base64, and how many bytes of the text these take."""
    found, at = bytearray(), 0
    while len(found) < (4 * count + 2) // 3:
        unit = UNIT.match(text, at)
        if not unit:
            return None, 0
        plain, slash, number = unit.groups()
        found += plain or slash or (b"+" if number in b"bB" else b"/")
        at = unit.end()
    return base64.b64decode(bytes(found) + b"A" * (-len(found) % 4))[:count], at


def said(data):
    """The size that HNHBK says."""
    head = re.match(rb"HNHBK:1:3\+(\d{12})\+", data)
    return int(head[1]) if head else None


def standing(file, at):
    """What is at a place: a form, the message and how long it is there; or None where one begins and none comes."""
    if file.startswith(PLAIN, at):
        size = said(file[at : at + 23])
        if size is None:
            return "nothing", b"", 1
        raw = file[at : at + size]
        if len(raw) == size and END.search(raw):
            return "raw", raw, size
        data, taken = latin(own_part(file, at, PLAIN), size)
        if data and END.search(data) and said(data) == size:
            return "utf-8", data, taken
        return None, b"", 1
    if file.startswith(CODED, at):
        own = own_part(file, at, CODED)
        head, _ = letters(own, 24)
        size = said(head) if head else None
        if size is None:
            return "nothing", b"", 1
        data, taken = letters(own, size)
        if data and END.search(data) and said(data) == size:
            return "base64", data, taken
        return None, b"", 1
    return "nothing", b"", 1


def head_of(data):
    """HNHBK after its size, of the first 128 bytes up to the first apostrophe."""
    return data[23:128].split(b"'")[0]


def is_sealed(data):
    return data[23 + len(head_of(data)) :].startswith(b"'HNVSK:")


def kinds(data):
    """The kinds of the inner segments of a message."""
    inner = segments(data)[1:-1]
    if is_sealed(data):
        inner = segments(re.match(rb"HNVSD:\d+:\d+\+@\d+@(.*)'\Z", inner[1], re.S)[1])
    return [it.split(b":")[0] for it in inner]


def are_twins(files, one, other):
    """Whether two messages are one, sealed and unsealed."""
    if head_of(one) != head_of(other) or is_sealed(one) == is_sealed(other):
        return False
    if any(call("show", "--message", files.put("twin", it))[0] for it in (one, other)):
        return False
    return kinds(one) == kinds(other)


def finds(file):
    """What is in a file, leftmost first: offset, form, message and the head of what begins there."""
    found, at = [], 0
    while at < len(file):
        form, data, taken = standing(file, at)
        if form != "nothing":
            found.append((at, form, data, head_of(data if form else file[at:])))
        at += taken
    return found


def cut(files, file):
    """The messages of a file, each with its offset, and the note on them."""
    found = finds(file)
    for i, (at, form, _, head) in enumerate(found):
        if form is None:
            run = [j for j in range(len(found)) if all(found[k][3] == head for k in range(min(i, j), max(i, j) + 1))]
            if all(found[j][1] is None for j in run):
                raise Refused(f"dialogue NotAMessage at {at}")
    if not found:
        raise Refused("dialogue NoMessage")
    kept, copies, twins, changed = [], 0, 0, 0
    for at, form, data, _ in found:
        if form is None:
            changed += 1
            continue
        while kept and is_sealed(data) and are_twins(files, data, kept[-1][2]):
            kept.pop()
            twins += 1
        if kept and kept[-1][2] == data:
            copies += 1
        elif kept and is_sealed(kept[-1][2]) and are_twins(files, kept[-1][2], data):
            twins += 1
        else:
            kept.append((at, form, data))
    forms = ", ".join(f"{sum(it[1] == form for it in kept)} {form}" for form in ("raw", "utf-8", "base64"))
    note = (
        f"note: {len(kept)} messages ({forms}); passed over: {copies} written twice, "
        f"{twins} unsealed beside a sealed one, {changed} whose size doesn't fit\n"
    )
    return [(at, data) for at, _, data in kept], note


class Files:
    """Files that the program reads, in a folder."""

    def __init__(self, room):
        self.room = pathlib.Path(room)

    def put(self, name, data):
        """The path of a file of these bytes."""
        path = self.room / name
        path.write_bytes(data)
        return path


CAPTURE = b"".join((it % i if b"%d" in it else it) + b"'" for i, it in enumerate([*BANK, *USER], 1))


def client_fault(files, at, data):
    """Refuses what is no message."""
    status, _, errors = call("show", "--message", files.put("one", data))
    found = re.match(r"error: message NotAMessage at (\d+)\n", errors)
    if status:
        raise Refused(f"dialogue NotAMessage at {at + int(found[1])}")


def is_answer(data):
    """Whether a message that can be read has an HIRMG; the recordings here are plain."""
    return b"'HIRMG:" in data


ANY = message(1, b"0", [b"HKEND:%d:1+0"])


def has_codes(files, at, data):
    """Whether a message has a feedback code, as `judge` says of an answer."""
    files.put("params", CAPTURE)
    files.put("any", ANY)
    words = ["judge", "--params", files.room / "params", "--orders", ORDERS, "--before", files.room / "any"]
    _, _, errors = call(*words, "--answer", files.put("one", data), "--message", files.room / "any")
    if errors == "error: answer NoCode\n":
        return False
    if errors:
        raise Refused(f"dialogue answer at {at}")
    return True


def exchanges(files, messages):
    """The exchanges of a recording: message, answer or None, whether it begins a dialogue."""
    found, place = [], 0
    while place < len(messages):
        at, data = messages[place]
        client_fault(files, at, data)
        _, _, name, number = re.match(rb"HNHBK:1:3\+(\d+)\+([^+']*)\+([^+']*)\+(\d+)", data).groups()
        opens = re.fullmatch(rb"0+", name) is not None and int(number) == 1
        if is_answer(data) or found and found[-1][1] is None and not opens:
            raise Refused(f"dialogue NotInTurn at {at}")
        answer = None
        if place + 1 < len(messages):
            answer = messages[place + 1] if has_codes(files, *messages[place + 1]) else None
        found.append(((at, data), answer, opens or not found))
        place += 1 if answer is None else 2
    return found


def segments(data):
    """The segments of a text, which are cut at apostrophes without an escape and outside of binary items."""
    found, start, at = [], 0, 0
    while at < len(data):
        binary = re.match(rb"@(\d+)@", data[at:])
        if binary:
            at += len(binary[0]) + int(binary[1])
        elif data[at : at + 1] == b"?":
            at += 2
        elif data[at : at + 1] == b"'":
            at += 1
            found.append(data[start:at].lstrip(b"\r\n"))
            start = at
        else:
            at += 1
    return found


def is_of_user(segment):
    """Whether a segment is HIUPA 4 or HIUPD 6."""
    return re.match(rb"HIUPA:\d+:4[:+']|HIUPD:\d+:6[:+']", segment) is not None


def told(files, answer):
    """Which segments an answer tells of the bank, if it does, and which of the user."""
    status, _, errors = call("show", "--params", files.put("one", answer[1]))
    if status and errors not in ("error: params NoBankParameters\n", "error: params NoPinParameters\n"):
        raise Refused(f"dialogue answer at {answer[0]}")
    all_of = segments(answer[1])
    return None if status else [it for it in all_of if not is_of_user(it)], [it for it in all_of if is_of_user(it)]


def opened(data):
    """A message without its seal."""
    seal = re.search(rb"'HNVSD:\d+:\d+\+@(\d+)@", data)
    return data[seal.end() : seal.end() + int(seal[1])] if seal else data


def party_in(data):
    """The bank and the customer of the first HKIDN, by the values of their items."""
    for it in segments(opened(data)):
        if it.startswith(b"HKIDN:"):
            elements = [[re.sub(rb"\?(.)", rb"\1", item) for item in re.split(rb"(?<!\?):", element)] for element in re.split(rb"(?<!\?)\+", it[:-1])]
            bank = (elements[1] + [b""])[:2] if len(elements) > 1 else [b"", b""]
            return tuple(bank), elements[2][0] if len(elements) > 2 else b""
    return None


def nearest(passes, place, count):
    """The last place before this one that passes, or else the first one from there on."""
    before = [i for i in range(place) if passes(i)]
    after = [i for i in range(place, count) if passes(i)]
    return before[-1] if before else after[0] if after else None


def own_captures(files, found):
    """The capture by which each message is judged."""
    tells = [told(files, answer) if answer else (None, []) for _, answer, _ in found]
    named = [party_in(data) for (_, data), _, _ in found]
    first = next((it for it in named if it), ((b"", b""), b""))
    parties = []
    for it in named:
        parties.append(it or (parties[-1] if parties else first))
    captures = []
    for place in range(len(found)):
        bank = nearest(lambda i: tells[i][0] and parties[i][0] == parties[place][0], place, len(found))
        user = nearest(lambda i: tells[i][1] and parties[i] == parties[place], place, len(found))
        if bank is None:
            raise Refused("dialogue NoParameters")
        rest = [b"HIUPA:1:4+x+3+1'"] if user is None else tells[user][1]
        captures.append(b"".join(tells[bank][0] + rest))
    return captures


def audited(files, messages, capture):
    """What `audit` prints of messages, and its status."""
    found = exchanges(files, messages)
    captures = own_captures(files, found) if capture is None else [capture] * len(found)
    several, dialogues, broken, lines = sum(it[2] for it in found) > 1, 0, 0, []
    for i, ((_, data), _, begins) in enumerate(found):
        dialogues += begins
        if begins and several:
            lines.append(f"dialogue {dialogues}")
        lines.append(f"message {i + 1} size {len(data)}")
        words = ["judge", "--params", files.put("capture", captures[i]), "--orders", ORDERS]
        if not begins:
            words += ["--before", files.put("before", found[i - 1][0][1]), "--answer", files.put("answer", found[i - 1][1][1])]
        _, verdict, _ = call(*words, "--message", files.put("message", data))
        rules = verdict.splitlines()[:-1]
        lines += [f"broken {it}" for it in rules]
        broken += len(rules)
    lines.append(f"broken {broken}" if broken else "permitted")
    return int(broken > 0), "\n".join(lines) + "\n"


def compared(seed):
    """What the reference says of a recording, and what is wrong with its audit; None where nothing is."""
    file, by_capture = recording(seed)
    with tempfile.TemporaryDirectory() as room:
        files = Files(room)
        words = ["audit", "--orders", ORDERS, "--dialogue", files.put("dialogue", file)]
        words += ["--params", files.put("params", CAPTURE)] if by_capture else []
        status, printed, errors = call(*words)
        record = call("record", "--dialogue", files.room / "dialogue")
        try:
            messages, note = cut(files, file)
        except Refused as why:
            good = (status, printed) == (3, "") and errors == f"error: {why}\n" and record == (3, "", errors)
            return str(why), None if good else f"seed {seed}: wanted {why}, and {status}: {errors}{printed}"
        text = b"".join(data for _, data in messages).decode("latin-1")
        if record != (0, text, note):
            return note, f"seed {seed}: wanted {note} and another record: {record[2]}"
        try:
            wanted = audited(files, messages, CAPTURE if by_capture else None)
        except Refused as why:
            good = (status, printed) == (3, "") and re.match(rf"error: {why}\b", errors)
            return str(why), None if good else f"seed {seed}: wanted {why}, and {status}: {errors}{printed}"
        wanted = (*wanted, note if PASSED.search(note) else "")
        good = (status, printed, errors) == wanted
        return note + wanted[1], None if good else f"seed {seed}: wanted {wanted}, and {status}: {errors}{printed}"


def main():
    global PROGRAM
    words = argparse.ArgumentParser(description=__doc__, formatter_class=argparse.RawDescriptionHelpFormatter)
    words.add_argument("--count", type=int, default=300, metavar="N")
    words.add_argument("--first", type=int, default=1, metavar="SEED")
    words.add_argument("--program", type=pathlib.Path, default=PROGRAM)
    given = words.parse_args()
    PROGRAM = given.program
    if not PROGRAM.exists():
        sys.exit(f"recordings: {PROGRAM} isn't built")
    with ThreadPoolExecutor() as lanes:
        all_of = list(lanes.map(compared, range(given.first, given.first + given.count)))
    found = [wrong for _, wrong in all_of if wrong]
    count = lambda pattern: sum(re.search(pattern, said, re.M) is not None for said, _ in all_of)
    print(*found, sep="\n", end="\n" if found else "", file=sys.stderr)
    print(f"recordings: {count('^dialogue [A-Z]')} refused, {count('^dialogue 2$')} of several dialogues, {count('P11')} break P11")
    hars = sum(b'"postData"' in recording(it)[0] for it in range(given.first, given.first + given.count))
    passed = [count(f"(?<!\\d)[1-9]\\d* {it}") for it in ("utf-8", "base64", "written twice", "unsealed", "whose size")]
    print("recordings: {} HARs; {} have UTF-8, {} base64, {} copies, {} twins, {} changed messages".format(hars, *passed))
    print(f"recordings: {given.count - len(found)} audited as the reference says, {len(found)} otherwise")
    sys.exit(1 if found else 0)


if __name__ == "__main__":
    main()
