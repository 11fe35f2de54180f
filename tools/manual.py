#!/usr/bin/env python3
"""Makes the manual page docs/fints.1 and the completion of the shell docs/fints.bash from the helps of
the program, as they stand in rows/help.md. The gate runs the program on these rows, so that all say the
same.

Usage: tools/manual.py            writes both
       tools/manual.py --check    says whether they are as they would be written
"""
import pathlib
import re
import sys

from rows import read_group

TOP = pathlib.Path(__file__).resolve().parent.parent
HELPS = {name: row.want.out.decode() for name, row in read_group(TOP / "rows" / "help.md").items()}
WHOLE = HELPS["help/by-its-name"]
README = (TOP / "README.md").read_text(encoding="utf-8")
COMMON = ("--hints", "-h, --help")
MADE = ".\\\" Made by tools/manual.py from the helps of the program.\n"


def rows_of(text, head):
    """The rows of a section of a help: what is on the left, and what is on the right of two blanks or more."""
    section = re.search(rf"^{head}[^\n]*\n((?:  .*\n?)+)", text, re.M)
    return [tuple(re.split(r"  +", line.strip(), maxsplit=1)) for line in section[1].splitlines()] if section else []


def commands():
    """Each command with what its help says of it, its line of usage, and its options."""
    for name, about in rows_of(WHOLE, "Commands:"):
        if name != "help":
            text = HELPS[f"help/{name}"]
            yield name, about, re.search(r"^Usage: (.*)$", text, re.M)[1], rows_of(text, "Options:")


def escaped(text):
    """A text as the formatter of manuals takes it."""
    text = text.replace("\\", "\\e").replace("-", "\\-").replace("'", "\\(aq")
    return "\\&" + text if text.startswith(".") else text


def plain(text):
    """A text of a page without its marks."""
    return re.sub(r"\[([^]]*)\]\([^)]*\)", r"\1", text).replace("`", "").replace("**", "")


def rules():
    """The rules as README's first page has them: number and name, and where each is broken."""
    return re.findall(r"^\| (P\d+ \w+) \| (.*) \|$", README, re.M)


EXAMPLES = (
    ("Each rule that a message of a recorded dialogue breaks, and why:", "audit --dialogue client.log --hints"),
    ("A script that sends the same messages, and what its runs break by the bank's parameters:", "draft --dialogue client.log > script.toml"),
    ("", "orders > orders.toml"),
    ("", "check --params bank.fints --orders orders.toml --script script.toml --hints"),
    ("Which rules one message breaks:", "judge --params bank.fints --orders orders.toml --message message.fints"),
)


def manual():
    version = HELPS["help/version"].split()[1]
    first = plain(README.split("\n\n")[1]).replace(" (what is proved)", "")
    lines = [MADE.rstrip(), f'.TH FINTS 1 "" "fints {version}"', ".SH NAME", "fints \\- " + escaped(WHOLE.splitlines()[0])]
    lines += [".SH SYNOPSIS"]
    for name, _, usage, _ in commands():
        lines += [".B " + escaped(usage.replace("[OPTIONS] ", "").replace(" [OPTIONS]", "")), ".br"]
    lines += [".SH DESCRIPTION", escaped(first)]
    for rule, broken in rules():
        lines += [".TP", ".B " + escaped(rule), escaped(plain(broken)) + "."]
    lines += [".SH COMMANDS"]
    for name, about, usage, options in commands():
        lines += [".SS " + escaped(usage.replace("[OPTIONS] ", "").replace(" [OPTIONS]", "")), escaped(about) + "."]
        for option, words in options:
            if option not in COMMON:
                lines += [".TP", ".B " + escaped(option), escaped(words)]
    lines += [".SH OPTIONS"]
    for option, words in rows_of(WHOLE, "Options:"):
        lines += [".TP", ".B " + escaped(option), escaped(words)]
    for head, title in (("Statuses", "EXIT STATUS"), ("Files", "FILES")):
        lines += [f".SH {title}"]
        for left, right in rows_of(WHOLE, head):
            lines += [".TP", ".B " + escaped(left), escaped(right)]
    lines += [".PP", "A file that is \\- is standard input, for one option of a command.", ".SH EXAMPLES"]
    for about, command in EXAMPLES:
        lines += [".PP", escaped(about)] if about else []
        lines += [".PP", ".nf", "fints " + escaped(command), ".fi"]
    lines += [".SH SEE ALSO", ".BR dot (1),", "and the pages in /usr/share/doc/fints: docs/reading.md says what to do about a report."]
    return "\n".join(lines) + "\n"


def completion():
    cases, names = "", []
    for name, _, _, options in commands():
        names.append(name)
        words, takes = [], {"FILE": [], "N": []}
        for option, about in options:
            own = [re.search(r"--[a-z-]+", option)[0], *re.findall(r"\[alias: (--[a-z-]+)\]", about)]
            words += own
            for kind in takes:
                takes[kind] += own if option.endswith(f"<{kind}>") else []
        cases += f"    {name}) words=\"{' '.join(words)}\" files=\"{' '.join(takes['FILE'])}\" numbers=\"{' '.join(takes['N'])}\" ;;\n"
    return f"""# Made by tools/manual.py from the helps of the program. To use it: source docs/fints.bash
_fints() {{
    local word=${{COMP_WORDS[COMP_CWORD]}} before=${{COMP_WORDS[COMP_CWORD - 1]}} words files= numbers= command=
    # bash cuts --params=FILE into three words
    if [ "$word" = "=" ]; then
        word=
    elif [ "$before" = "=" ]; then
        before=${{COMP_WORDS[COMP_CWORD - 2]}}
    fi
    for command in "${{COMP_WORDS[@]:1:COMP_CWORD - 1}}" ""; do
        [[ $command == -* ]] || break
    done
    case $command in
{cases}    *) words="{' '.join(names)} help --hints --help --version" ;;
    esac
    case " $files " in
    *" $before "*)
        compopt -o filenames 2> /dev/null
        mapfile -t COMPREPLY < <(compgen -f -- "$word")
        return
        ;;
    esac
    case " $numbers " in
    *" $before "*)
        COMPREPLY=()
        return
        ;;
    esac
    mapfile -t COMPREPLY < <(compgen -W "$words" -- "$word")
}}
complete -F _fints fints
"""


def main():
    bad = 0
    for name, text in (("fints.1", manual()), ("fints.bash", completion())):
        file = TOP / "docs" / name
        if "--check" not in sys.argv:
            file.write_text(text, encoding="utf-8")
        elif not file.exists() or file.read_text(encoding="utf-8") != text:
            print(f"manual: docs/{name} isn't as tools/manual.py makes it", file=sys.stderr)
            bad += 1
    print(f"manual: 2 files, {bad} failed")
    return bad > 0


if __name__ == "__main__":
    sys.exit(main())
