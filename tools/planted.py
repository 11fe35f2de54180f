#!/usr/bin/env python3
"""Plants secrets in broken messages, and looks for them in what the built program prints.

A message with a PIN and a TAN in an HNSHA and a new PIN in an HKPAE, plain or sealed, is broken in every place
where a client may break it: each byte of both segments after the identifier is replaced in turn by one of
' + : ? @ and by nothing, and each of these is inserted before it. Each broken message is handed to all
commands with `--hints`: as a message, as one before, as an answer, in a recorded dialogue and each of its parts, in
a log that has it in base64 or in UTF-8, and in the place of each other input. No four characters of a secret in a
row may be in either stream, nor these in hexadecimal, nor three in base64. Two outputs hold secrets, since they are
made to: the case that `draft` prints, and the messages of `record`, which are printed as they are. So of
`draft --case` and `record` only standard error is looked at.

Usage: tools/planted.py [--program PATH] [--threads N] [--every N]
"""
import argparse
import base64
import os
import pathlib
import random
import subprocess
import sys
import tempfile
from concurrent.futures import ThreadPoolExecutor
from functools import partial
from typing import NamedTuple

TOP = pathlib.Path(__file__).resolve().parent.parent
INPUTS = TOP / "rows" / "inputs"
ORDERS = INPUTS / "orders.toml"
SECONDS = 60
RUN = 4  # as many characters of a secret in a row must not be printed

# Letters as in an identifier, digits as in a number, and both: PIN, TAN and new PIN.
SECRETS = [(b"QWXYZJ", b"847362", b"XVJQW59"), (b"7q4z8w", b"JXQZVW", b"962748")]
MARKS = b"'+:?@"


class Broken(NamedTuple):
    """A broken message, and the secrets that are planted in it."""

    bytes: bytes
    secrets: tuple


def sized(text):
    """The message with its size in HNHBK."""
    return text.replace(b"000000000000", b"%012d" % len(text), 1)


def inner(secrets):
    """The segments between HNHBK and HNHBS."""
    pin, tan, new = secrets
    return [
        b"HNSHK:2:4+PIN:2+942+4711+1+1+1::0+1+1:20251023:102030+1:999:1+6:10:16+280:10020030:user:S:0:0'",
        b"HKIDN:3:2+280:10020030+user+0+1'",
        b"HKPAE:4:1+" + new + b"'",
        b"HKTAN:5:6+4+HKPAE'",
        b"HNSHA:6:2+4711++" + pin + b":" + tan + b"'",
    ]


def plain(segments):
    """A message of segments as they are."""
    return sized(b"HNHBK:1:3+000000000000+300+0+1'" + b"".join(segments) + b"HNHBS:7:1+1'")


def sealed(segments):
    """The message with its segments as the data of HNVSD."""
    data = b"".join(segments)
    seal = b"HNVSK:998:3+PIN:2+998+1+1::0+1:20251023:102030+2:2:13:@8@00000000:5:1+280:10020030:user:V:0:0+0'"
    envelope = b"HNVSD:999:1+@%d@" % len(data) + data + b"'"
    return sized(b"HNHBK:1:3+000000000000+300+0+1'" + seal + envelope + b"HNHBS:7:1+1'")


def broken_segments(segment):
    """The segment, broken in each place after its identifier."""
    for at in range(5, len(segment)):
        for mark in [bytes([mark]) for mark in MARKS] + [b""]:
            if segment[at:at + 1] != mark:
                yield segment[:at] + mark + segment[at + 1:]
            if mark:
                yield segment[:at] + mark + segment[at:]


def broken_messages():
    """All broken messages."""
    for secrets in SECRETS:
        segments = inner(secrets)
        for place in (2, 4):
            for segment in broken_segments(segments[place]):
                changed = segments[:place] + [segment] + segments[place + 1:]
                for form in (plain, sealed):
                    yield Broken(form(changed), secrets)


INITIAL = plain(inner(SECRETS[0]))
ANSWER = sized(b"HNHBK:1:3+000000000000+300+d+1+d:1'HIRMG:2:2+0010::OK'HNHBS:3:1+1'")
RAW_OUTPUT = (["draft", "--case"], ["record"])  # what holds secrets in standard output


def in_utf8(text):
    """A message with a character beyond ASCII, in UTF-8: the size in HNHBK is that of the message in ISO 8859-1."""
    return text.replace(b"user", b"us\xfcr").decode("latin-1").encode("utf-8")


def log(coded, *messages):
    """A log of messages as a client or a proxy writes it."""
    return b"".join(b"2025-10-23 10:20:%02d " % i + coded(it) + b"\r\n" for i, it in enumerate(messages))


def pieces(secrets):
    """What must not be printed: so many characters as they are or in hexadecimal, and three of them in base64."""
    runs = {secret[at:at + RUN] for secret in secrets for at in range(len(secret) - RUN + 1)}
    coded = {base64.b64encode(secret[at:at + 3]) for secret in secrets for at in range(len(secret) - 2)}
    return runs | {it.hex().encode() for it in runs} | coded


def calls(message, dialogue, logs):
    """The words of each call."""
    bank, end = INPUTS / "c1.fints", INPUTS / "end.toml"
    judge = ["judge", "--params", bank, "--orders", ORDERS]
    checked = ["--params", bank, "--orders", ORDERS, "--script"]
    yield ["show", "--params", message]
    yield ["show", "--message", message]
    yield [*judge, "--message", message]
    yield [*judge, "--before", message, "--answer", bank, "--message", message]
    yield [*judge, "--before", INPUTS / "submitted.msg", "--answer", message, "--message", message]
    yield ["judge", "--params", message, "--orders", ORDERS, "--message", message]
    yield ["judge", "--params", bank, "--orders", message, "--message", message]
    for file in (message, dialogue, *logs):
        yield ["audit", "--orders", ORDERS, "--dialogue", file]
        yield ["draft", "--orders", ORDERS, "--dialogue", file]
    for file in (message, dialogue, *logs):
        yield ["audit", "--params", bank, "--orders", ORDERS, "--dialogue", file]
    for file in (message, dialogue):
        yield ["draft", "--orders", ORDERS, "--dialogue", file, "--case"]
    for file in (dialogue, *logs):
        yield ["draft", "--orders", ORDERS, "--dialogue", file, "--part", "2"]
        yield ["record", "--dialogue", file]
    yield ["draft", "--orders", ORDERS, "--dialogue", dialogue, "--part", "1"]
    yield ["draft", "--orders", ORDERS, "--dialogue", dialogue, "--part", "2", "--case"]
    yield ["audit", "--params", message, "--orders", ORDERS, "--dialogue", dialogue]
    yield ["audit", "--orders", message, "--dialogue", dialogue]
    yield ["draft", "--orders", message, "--dialogue", dialogue]
    yield ["check", "--params", message, "--orders", ORDERS, "--script", end]
    yield ["check", "--params", bank, "--orders", message, "--script", end]
    for command in ("check", "explain", "certify", "draw"):
        yield [command, *checked, message]
    yield ["verify", *checked, end, "--cert", message]
    yield ["run", "--orders", ORDERS, "--script", message, "--case", INPUTS / "pin.case"]
    yield ["run", "--orders", ORDERS, "--script", end, "--case", message]


def called(program, words):
    """What a call prints: on standard error, and but for what is made to hold secrets on standard output."""
    done = subprocess.run([program, *words, "--hints"], capture_output=True, timeout=SECONDS)
    return done.stderr if any(set(it) <= set(words) for it in RAW_OUTPUT) else done.stdout + done.stderr


def leaks(program, room, number, broken):
    """The calls that print a piece of a secret of the broken message, and the lines with it."""
    messages = [INITIAL, ANSWER, broken.bytes, ANSWER]
    texts = [broken.bytes, b"".join(messages), log(base64.b64encode, *messages), log(in_utf8, *messages)]
    files = [room / f"{number}.{it}" for it in ("msg", "dialogue", "base64", "utf-8")]
    for file, text in zip(files, texts):
        file.write_bytes(text)
    hidden, found = pieces(broken.secrets), []
    for words in calls(files[0], files[1], files[2:]):
        printed = called(program, words)
        if any(piece in printed for piece in hidden):
            found += [(words, line) for line in printed.split(b"\n") if any(piece in line for piece in hidden)]
    for file in files:
        file.unlink()
    return found


def main():
    """Counts the calls that print a secret."""
    parser = argparse.ArgumentParser(description=__doc__.split("\n", 1)[0])
    parser.add_argument("--program", type=pathlib.Path, default=TOP / "crates" / "fints" / "out" / "fints")
    parser.add_argument("--threads", type=int, default=os.cpu_count())
    parser.add_argument("--every", type=int, default=1, metavar="N", help="take one of N broken messages, drawn by lot, the same ones each time")
    words = parser.parse_args()
    planted = list(broken_messages())
    planted = random.Random(1).sample(planted, len(planted) // words.every)
    with tempfile.TemporaryDirectory() as name, ThreadPoolExecutor(words.threads) as pool:
        room = pathlib.Path(name)
        asked = partial(leaks, words.program.resolve(), room)
        found = [one for each in pool.map(asked, range(len(planted)), planted) for one in each]
    for command, line in found[:40]:
        print(" ".join(pathlib.Path(word).name for word in map(str, command)), line.decode("latin-1"), sep="\n    ")
    count = len(planted) * len(list(calls("", "", ["", ""])))
    print(f"{len(planted)} broken messages, {count} runs, {len(found)} lines with a secret")
    return 1 if found or not planted else 0


if __name__ == "__main__":
    sys.exit(main())
