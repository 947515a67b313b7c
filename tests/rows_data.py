#!/usr/bin/env python3
"""rows_data.py FOLDER [NAME ..]

Prints the rows of a folder, or those that are named, as data for the program row_cases; the comment at the head of
crates/row_cases/src/main.rt says in which form. In the folder each row is a folder of its own, with these files:

    cmd               the calls, one a line; `> FILE` behind the words keeps what a call writes as a file
    expect.N.status   of call N, counted from 1: the status,
    expect.N.out      all that it writes on out,
    expect.N.err      and on err,
    expect.N.contains lines that stand together on out,
    expect.N.errstarts how the line on err begins

All others are files that the calls read.
"""
import sys
from pathlib import Path

WANTED = [("err", "err"), ("errstarts", "begins"), ("out", "out"), ("contains", "lines")]


def block(word, data):
    return b"%s %d\n%s\n" % (word.encode(), len(data), data)


def without_comment(data):
    """What stands before a long comment `#xx..` at the end, or all."""
    rest = data.rstrip(b"x")
    return rest[:-1] if rest.endswith(b"#") and len(data) - len(rest) > 1000 else data


def file_lines(name, data):
    short = without_comment(data)
    if len(short) == len(data):
        return block("file " + name, data)
    return b"long %s %d %d\n%s\n" % (name.encode(), len(short), len(data), short)


def call_lines(folder, number, words):
    text = b"call %s\n" % words.encode()
    text += b"status %d\n" % int((folder / f"expect.{number}.status").read_text())
    for suffix, word in WANTED:
        path = folder / f"expect.{number}.{suffix}"
        if path.exists():
            text += block(word, path.read_bytes())
    return text


def row_lines(folder):
    text = b"row %s\n" % folder.name.encode()
    for path in sorted(folder.iterdir()):
        if path.name != "cmd" and not path.name.startswith("expect."):
            text += file_lines(path.name, path.read_bytes())
    calls = [line.strip() for line in (folder / "cmd").read_text().splitlines() if line.strip()]
    for number, words in enumerate(calls, 1):
        text += call_lines(folder, number, words)
    return text + b"end\n"


def main():
    if len(sys.argv) < 2:
        sys.exit(__doc__)
    folders = sorted(path.parent for path in Path(sys.argv[1]).glob("*/cmd"))
    for folder in folders:
        if not sys.argv[2:] or folder.name in sys.argv[2:]:
            sys.stdout.buffer.write(row_lines(folder))


if __name__ == "__main__":
    main()
