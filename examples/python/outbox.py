#!/usr/bin/env python3
"""An outbox in Python: it judges each message before it is sent, and holds back one that the bank may refuse.

Usage: outbox.py BANK ORDERS MESSAGE [ANSWER MESSAGE]..  with the bank's answer between two messages."""
import pathlib
import sys

import fints


def main(paths):
    """Judges the messages in turn, up to the first that is held back."""
    if len(paths) < 3 or len(paths) % 2 == 0:
        sys.exit(__doc__)
    bank, orders, *files = (pathlib.Path(it).read_bytes() for it in paths)
    for i in range(0, len(files), 2):
        if i == 0:
            status, text = fints.judge(bank, orders, files[0])
        else:
            status, text = fints.judge_after(bank, orders, *files[i - 2 : i + 1])
        if status != 0:
            print(f"{text}{paths[i + 2]}: held back")
            return 1
        print(f"{paths[i + 2]}: sent")
    return 0


if __name__ == "__main__":
    sys.exit(main(sys.argv[1:]))
