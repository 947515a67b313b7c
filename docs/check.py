#!/usr/bin/env python3
"""Runs the examples of the documents, and compares what they show.

    docs/check.py PROGRAM             shows each example that differs, and counts; ends with 1 where there is one
    docs/check.py --update PROGRAM    writes what is printed into the examples that differ, but for those that end otherwise

PROGRAM is the built program. A comment says what the fenced block in the next line is:

    <!-- folder -->       no block: from here on a fresh folder, with a copy of examples/; its files stay until the next one
    <!-- file NAME -->    the lines of the file NAME; a file of the repository has to have the same ones
    <!-- run -->          commands, as `$ loopw gen 3`, and behind each one what it prints on out and then on err
    <!-- text -->         nothing that is run

A document begins in a fresh folder. A command is `loopw` with its words, or `cmp`, `cc` or `./NAME`; with `> FILE` at its end out
goes to that file. The words `status N` in a comment of `run` say how its last command ends; the others end with 0. In what is shown
a line `..` stands for any lines, and a line that ends in ` ..` for a line that begins so. With `shows 1 14..18` exactly these
lines of the last command's output are shown, and `..` for the others; so an update writes an excerpt.
"""

import difflib
import os
import re
import shutil
import subprocess
import sys
import tempfile

TOP = os.path.dirname(os.path.dirname(os.path.abspath(__file__)))
COMMENT = re.compile(r"<!-- (folder|file|run|text)((?: [^ ]+)*) -->$")


class Wrong(Exception):
    """What is wrong with a document, in words."""


def documents():
    fixed = ["README.md", "docs/TUTORIAL.md", "docs/REFERENCE.md", "docs/REFUSALS.md"]
    folder = os.path.join(TOP, "examples")
    examples = [name for name in sorted(os.listdir(folder)) if os.path.isdir(os.path.join(folder, name))]
    return fixed + ["examples/%s/README.md" % name for name in examples]


def read(path):
    with open(path, encoding="utf-8") as file:
        return file.read()


def write(path, text):
    os.makedirs(os.path.dirname(path), exist_ok=True)
    with open(path, "w", encoding="utf-8") as file:
        file.write(text)


def lines_of(text):
    """The lines of a text; one that does not end in a line feed shows it."""
    lines = text.split("\n")
    return lines[:-1] if lines[-1] == "" else lines[:-1] + [lines[-1] + " (no line feed)"]


def agrees(shown, printed):
    """Whether the lines shown stand for those printed. `reach` holds each count of printed lines that those shown so far can be."""
    reach = {0}
    for line in shown:
        if line == "..":
            reach = set(range(min(reach), len(printed) + 1))
        elif line.endswith(" .."):
            reach = {at + 1 for at in reach if at < len(printed) and printed[at].startswith(line[:-2])}
        else:
            reach = {at + 1 for at in reach if at < len(printed) and printed[at] == line}
        if not reach:
            return False
    return len(printed) in reach


def excerpt(printed, places):
    """The lines of these places, counted from 1, with `..` for the others."""
    shown, behind = [], 1
    for place in places:
        first, last = [int(word) for word in (place.split("..") * 2)[:2]]
        if not behind <= first <= last <= len(printed):
            raise Wrong("no lines %s among %d" % (place, len(printed)))
        shown += ([".."] if first > behind else []) + printed[first - 1:last]
        behind = last + 1
    return shown + ([".."] if behind <= len(printed) else [])


def options(words):
    """The status and the places that a comment of `run` says."""
    found = re.fullmatch(r"(?:status (\d+))? ?(?:shows((?: \d+(?:\.\.\d+)?)+))?", " ".join(words))
    if not found:
        raise Wrong("words of `run` that are none")
    return int(found.group(1) or 0), (found.group(2) or "").split()


def parts(block):
    """The commands of a block, each with the lines behind it."""
    found = []
    for line in block:
        if line.startswith("$ "):
            found.append((line, []))
        elif found:
            found[-1][1].append(line)
        else:
            raise Wrong("a block that does not begin with a command")
    if not found:
        raise Wrong("a block without a command")
    return found


def call(line, program, folder):
    """The status of a command, and the lines that it prints."""
    words, target = line[2:].split(), None
    if len(words) > 2 and words[-2] == ">":
        words, target = words[:-2], words[-1]
    if words[0] in ("loopw", "./loopw"):
        words[0] = program
    elif not (words[0] in ("cmp", "cc") or words[0].startswith("./")):
        raise Wrong("no such command: " + words[0])
    try:
        done = subprocess.run(words, cwd=folder, stdin=subprocess.DEVNULL, stdout=subprocess.PIPE, stderr=subprocess.PIPE, timeout=600)
    except (OSError, subprocess.TimeoutExpired) as fault:
        raise Wrong(str(fault))
    out, err = done.stdout.decode("utf-8", "replace"), done.stderr.decode("utf-8", "replace")
    if target:
        write(inside(folder, target), out)
        out = ""
    return done.returncode, lines_of(out) + lines_of(err)


def inside(folder, name):
    if name.startswith("/") or ".." in name.split("/"):
        raise Wrong("a file outside the folder: " + name)
    return os.path.join(folder, name)


class Document:
    def __init__(self, name, program, update):
        self.name, self.program, self.update = name, program, update
        self.agree = self.differ = self.written = 0
        self.folder = None
        self.lines = read(os.path.join(TOP, name)).split("\n")

    def fault(self, at, text):
        self.differ += 1
        print("%s:%d: %s" % (self.name, at + 1, text), flush=True)

    def fresh(self):
        self.leave()
        self.folder = tempfile.mkdtemp()
        shutil.copytree(os.path.join(TOP, "examples"), os.path.join(self.folder, "examples"))

    def leave(self):
        if self.folder:
            shutil.rmtree(self.folder)
            self.folder = None

    def check(self):
        new, at = [], 0
        self.fresh()
        while at < len(self.lines):
            line = self.lines[at]
            new.append(line)
            at += 1
            found = COMMENT.match(line)
            try:
                if found and found.group(1) == "folder":
                    self.fresh()
                elif found:
                    end = self.block_end(at)
                    block = self.lines[at + 1:end]
                    new.append(self.lines[at])
                    new += self.example(at, found.group(1), found.group(2).split(), block)
                    new.append("```")
                    at = end + 1
                elif line.startswith(("```", "<!--")):
                    raise Wrong("a block or a comment that no comment says how to take")
                elif line.startswith("    ") and len(new) > 1 and not new[-2].strip():
                    raise Wrong("an indented block, which is not run")
            except Wrong as wrong:
                self.fault(at - 1, str(wrong))
        self.leave()
        if new != self.lines:
            write(os.path.join(TOP, self.name), "\n".join(new))

    def block_end(self, at):
        if at >= len(self.lines) or not self.lines[at].startswith("```"):
            raise Wrong("no block behind the comment")
        if "```" not in self.lines[at + 1:]:
            raise Wrong("a block without an end")
        return self.lines.index("```", at + 1)

    def example(self, at, sort, words, block):
        """The lines that are to stand in the block."""
        try:
            if sort == "file":
                self.put(words, block)
            elif sort == "run":
                return self.run(at, words, block)
        except Wrong as wrong:
            self.fault(at, str(wrong))
        return block

    def put(self, words, block):
        if len(words) != 1:
            raise Wrong("a file without a name")
        text = "".join(line + "\n" for line in block)
        write(inside(self.folder, words[0]), text)
        kept = os.path.join(TOP, words[0])
        if os.path.exists(kept) and read(kept) != text:
            raise Wrong("%s of the repository is another one" % words[0])

    def run(self, at, words, block):
        status, places = options(words)
        commands, new, right = parts(block), [], True
        for number, (line, shown) in enumerate(commands, 1):
            last = number == len(commands)
            ended, printed = call(line, self.program, self.folder)
            if ended != (status if last else 0):
                right = False
                self.fault(at, "%s ends with %d" % (line, ended))
                wanted = printed
            elif last and places:
                wanted = excerpt(printed, places)
            else:
                wanted = shown if agrees(shown, printed) else printed
            new += [line] + wanted
            if wanted != shown and not (right and self.update):
                if right:
                    self.fault(at, line)
                right = False
                self.difference(shown, wanted)
        if right and new == block:
            self.agree += 1
        elif right:
            self.written += 1
        return new if right else block

    def difference(self, shown, printed):
        for line in list(difflib.unified_diff(shown, printed, lineterm=""))[2:]:
            print("    " + line, flush=True)


def main():
    words = sys.argv[1:]
    update = words[:1] == ["--update"]
    if len(words) != 1 + update:
        sys.exit(__doc__)
    program = os.path.abspath(words[-1])
    total = [0, 0, 0]
    for name in documents():
        document = Document(name, program, update)
        document.check()
        total = [a + b for a, b in zip(total, (document.agree, document.written, document.differ))]
    print("%d examples agree, %s%d faults" % (total[0], "%d written, " % total[1] if update else "", total[2]))
    sys.exit(1 if total[2] else 0)


if __name__ == "__main__":
    main()
