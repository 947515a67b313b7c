#!/usr/bin/env python3
"""rows.py PROGRAM [DATA ..]

Runs the program PROGRAM, as a process on files, over rows of data: those of crates/row_cases/stdin and of tests/slow_rows, or those
of the files that are named. The comment at the head of crates/row_cases/src/main.rt says in which form they are. Prints what is
not as wanted, and at the end how many rows are; the status is 1 where one is not.
"""
import subprocess
import sys
import tempfile
from pathlib import Path

TOP = Path(__file__).resolve().parent.parent
SECONDS = 600


class Call:
    """The words of a call, the file that keeps what it writes, if any, and what is wanted of it: pairs of a sort and its value."""

    def __init__(self, words):
        self.keep = words[-1] if words[-2:-1] == [">"] else None
        self.words = words[:-2] if self.keep else words
        self.wanted = []


class Row:
    def __init__(self, name):
        self.name, self.files, self.calls = name, {}, []


class Cursor:
    def __init__(self, data):
        self.data, self.at = data, 0

    def line(self):
        end = self.data.index(b"\n", self.at)
        text = self.data[self.at:end].decode()
        self.at = end + 1
        return text.split()

    def block(self, size):
        text = self.data[self.at:self.at + size]
        if len(text) != size or self.data[self.at + size:self.at + size + 1] != b"\n":
            sys.exit(f"rows.py: no block of {size} bytes at byte {self.at}")
        self.at += size + 1
        return text


def read_rows(data):
    cursor, rows = Cursor(data), []
    while cursor.at < len(data):
        word, *rest = cursor.line()
        if word == "row":
            rows.append(Row(rest[0]))
        elif word == "file":
            rows[-1].files[rest[0]] = cursor.block(int(rest[1]))
        elif word == "long":
            front = cursor.block(int(rest[1])) + b"#"
            rows[-1].files[rest[0]] = front.ljust(int(rest[2]), b"x")
        elif word == "call":
            rows[-1].calls.append(Call(rest))
        elif word == "status":
            rows[-1].calls[-1].wanted.append((word, int(rest[0])))
        elif word in ("out", "err", "lines", "begins"):
            rows[-1].calls[-1].wanted.append((word, cursor.block(int(rest[0]))))
        elif word != "end":
            sys.exit(f"rows.py: no word of the form: {word}")
    return rows


def is_wanted(sort, value, status, out, err):
    if sort == "status":
        return status == value
    if sort == "out":
        return out == value
    if sort == "err":
        return err == value
    if sort == "lines":
        return b"\n" + value in b"\n" + out
    return err.startswith(value) and err.endswith(b"\n") and err.count(b"\n") == 1


def short(text):
    return repr(text if len(text) <= 300 else text[:300] + b"..")


def first_fault(program, row, folder):
    """What is not as wanted, or None."""
    for name, data in row.files.items():
        (folder / name).write_bytes(data)
    for number, call in enumerate(row.calls, 1):
        words = [program, *call.words]
        try:
            done = subprocess.run(words, cwd=folder, stdin=subprocess.DEVNULL, capture_output=True, timeout=SECONDS)
        except subprocess.TimeoutExpired:
            return f"call {number}: no end in {SECONDS} seconds"
        if call.keep:
            (folder / call.keep).write_bytes(done.stdout)
        for sort, value in call.wanted:
            if not is_wanted(sort, value, done.returncode, done.stdout, done.stderr):
                said = f"status {done.returncode}, out {short(done.stdout)}, err {short(done.stderr)}"
                return f"call {number}: {sort} is not as wanted: {said}"
    return None


def main():
    if len(sys.argv) < 2:
        sys.exit(__doc__)
    program = str(Path(sys.argv[1]).resolve())
    files = sys.argv[2:] or [TOP / "crates/row_cases/stdin", TOP / "tests/slow_rows"]
    rows = [row for path in files for row in read_rows(Path(path).read_bytes())]
    bad = 0
    for row in rows:
        with tempfile.TemporaryDirectory() as folder:
            fault = first_fault(program, row, Path(folder))
        if fault:
            bad += 1
            print(f"{row.name}: {fault}", flush=True)
    print(f"{len(rows)} rows, {bad} not as wanted")
    sys.exit(1 if bad else 0)


if __name__ == "__main__":
    main()
