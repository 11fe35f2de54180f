#!/usr/bin/env python3
"""Counts words that make a text hard to read, per 10,000 words: in the pages (README.md, docs/*.md and
rows/README.md), in the comments of the code, and in the texts that the program prints.

A page is counted without its code, which may quote names and printed texts as they are. With --check the tool
fails where the pages or the printed texts use a word more often than its limit, or the comments more often than that
and than twice.

Usage: tools/words.py [--check] [--lines WORD]
"""
import argparse
import collections
import pathlib
import re
import sys

TOP = pathlib.Path(__file__).resolve().parent.parent

# A few uses of a word in 10,000 words of comments are right.
LEAST_IN_COMMENTS = 2
# For each word its pattern, how often the pages may use it, and what to write in its place.
WORDS = {
    "stand": (r"st(?:and|ands|ood)", 6, "is, has, comes"),
    "tell": (r"(?:tells?|told)", 2, "prints, returns, says, names"),
    "behind": (r"behind", 14, "after"),
    "alone": (r"alone", 12, "only, by itself"),
    "of which": (r"of (?:which|whom)", 1, "two sentences, or whose"),
    "hang on": (r"hangs? on", 0, "depend on"),
    "want of memory": (r"want of", 0, "out of memory"),
    "growth": (r"growths?", 0, "allocation"),
    "so many": (r"so many", 1, "n, with its name"),
    "mend": (r"mend(?:s|ed)?", 1, "fix"),
}
PRINTING = re.compile(r"fints_cli_(hints|words)")
COMMENT = re.compile(r"(?:^|\s)(?:///?|//!|--)\s(.*)")
STRING = re.compile(r'"((?:[^"\\]|\\.)*)"')


def prose_of_page(file):
    """The lines of a page without its code, each with its number."""
    is_code = False
    for number, line in enumerate(file.read_text(encoding="utf-8").splitlines(), 1):
        if line.startswith("```"):
            is_code = not is_code
        elif not is_code and not line.startswith("    "):
            yield number, re.sub(r"``.*?``|`[^`]*`", "`", line)


def comments_of_source(file):
    """The comments of a source, each with its line's number."""
    for number, line in enumerate(file.read_text(encoding="utf-8").splitlines(), 1):
        if found := COMMENT.search(line):
            yield number, found[1]


def texts_of_source(file):
    """The literals of a source that have more than three words, each with its line's number."""
    for number, line in enumerate(file.read_text(encoding="utf-8").splitlines(), 1):
        for text in STRING.findall(line):
            if text.count(" ") > 2:
                yield number, text


def places(word):
    """The pattern that finds a word of the table, in either case."""
    return re.compile(rf"(?<![\w-])(?:{WORDS[word][0]})(?![\w-])", re.IGNORECASE)


def rates_of(lines):
    """How often each word is used in 10,000 words of these lines, and how many words they have."""
    found, total = collections.Counter(), 0
    for line in lines:
        total += len(re.findall(r"[A-Za-z']+", line))
        for word in WORDS:
            found[word] += len(places(word).findall(line))
    return {word: 1e4 * found[word] / max(total, 1) for word in WORDS}, total


def read_all():
    """The lines of each kind of text, each with its file and number."""
    pages = [TOP / "README.md", *sorted((TOP / "docs").glob("*.md")), TOP / "rows" / "README.md"]
    code = sorted((TOP / "crates").glob("*/src/**/*.rt"))
    specs = sorted((TOP / "crates").glob("*/specs/**/*.antt"))
    printing = [it for it in code if PRINTING.search(str(it))]
    kinds = {
        "docs": (prose_of_page, pages),
        "comments": (comments_of_source, code + specs),
        "printed": (texts_of_source, printing),
    }
    return {kind: [(file, *it) for file in files for it in read(file)] for kind, (read, files) in kinds.items()}


def print_lines(word, texts):
    """Prints each place of a word, with the text around it."""
    for kind, lines in texts.items():
        for file, number, line in lines:
            for at in places(word).finditer(line):
                around = line[max(0, at.start() - 40):at.end() + 40].strip()
                print(f"{kind}: {file.relative_to(TOP)}:{number}: {around}")


def main():
    """Prints the rates, or with --lines the places of a word."""
    words = argparse.ArgumentParser(description=__doc__, formatter_class=argparse.RawDescriptionHelpFormatter)
    words.add_argument("--check", action="store_true", help="fail where a kind of text passes a limit")
    words.add_argument("--lines", choices=WORDS, metavar="WORD", help=f"each place of one of: {', '.join(WORDS)}")
    given = words.parse_args()
    texts = read_all()
    if given.lines:
        print_lines(given.lines, texts)
        return 0
    counts = {kind: rates_of(line for _, _, line in lines) for kind, lines in texts.items()}
    print(f"{'in 10,000 words':<16}" + "".join(f"{kind:>10}" for kind in counts) + f"{'limit':>10}")
    passed = []
    for word, (_, limit, better) in WORDS.items():
        print(f"{word:<16}" + "".join(f"{rates[word]:>10.1f}" for rates, _ in counts.values()) + f"{limit:>10}")
        for kind, most in (("docs", limit), ("comments", max(limit, LEAST_IN_COMMENTS)), ("printed", limit)):
            if round(counts[kind][0][word], 1) > most:
                passed.append(f"words: the {kind} use \"{word}\" too often; write {better} (tools/words.py --lines '{word}')")
    print(f"{'words':<16}" + "".join(f"{total:>10,}" for _, total in counts.values()))
    if given.check:
        print("".join(f"{it}\n" for it in passed), end="", file=sys.stderr)
    return given.check and bool(passed)


if __name__ == "__main__":
    sys.exit(main())
