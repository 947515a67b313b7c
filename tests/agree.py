#!/usr/bin/env python3
"""agree.py PROGRAM [--cases N] [--seed S] [--jobs J] [--keep FOLDER]

Makes kernels, marked Fortran blocks among them, arguments and scripts at random, and compares what the program PROGRAM and others
say of each:

- what the kernel stores, worked out by kernels.py and fortran.py; `eval` of the kernel, and of the kernel as `show` prints it, before and after
  the script;
- `run` of its C and OpenCL codes, before and after the script, under three schedules;
- the C codes as gcc or clang runs them, by chance, with their checks of addresses and of undefined behaviour; and the OpenCL
  codes with a thread for each item, with a check for races. What is not installed is left out.

A kernel, a command or a code may be refused, and then each call that meets the same refusal says the same line. The last line
is `N cases, M refused, D different`, where M counts kernels; the files of a case that is different are kept in FOLDER.
"""
import argparse
import collections
import multiprocessing
import random
import re
import shutil
import subprocess
import sys
import tempfile
from pathlib import Path

from c_programs import c_program, in_brackets, opencl_program
from fortran import Block
from kernels import Kernel
from scripts import Scripts, Shown

SECONDS = 120
COMMANDS = 6
MOST_THREADS = 64
FORTRAN = 0.15
TAKEN, NOT_TAKEN = "all commands: taken", "all commands: refused"
REFUSED_CODES = {3, 13, 14, 15, 16, 17, 18, 19, 32, 33, 34}
REFUSED_AXES = {22, 24, 35, 36, 37, 38}
CHECKS = {"c": [["-fsanitize=address,undefined", "-fno-sanitize-recover=all"], []], "opencl": [["-fsanitize=thread"], []]}


class Different(Exception):
    pass


Answer = collections.namedtuple("Answer", "status out err")


def run(words, folder):
    try:
        done = subprocess.run(words, cwd=folder, stdin=subprocess.DEVNULL, capture_output=True, timeout=SECONDS)
    except subprocess.TimeoutExpired:
        raise Different(f"{' '.join(words)}: no end in {SECONDS} seconds") from None
    return Answer(done.returncode, done.stdout.decode("latin-1"), done.stderr.decode("latin-1"))


def rule_of(answer):
    return int(re.search(r": rule (\d+) ", answer.err).group(1))


def words_for(compiler, flags, source, made):
    return [compiler, "-std=c99", "-O1", "-w", *flags, "-o", made, source, "-lpthread"]


def compilers(target):
    """The compilers that are there, each with the first flags that make a program which runs."""
    found = []
    with tempfile.TemporaryDirectory() as folder:
        (Path(folder) / "main.c").write_text("int main(void) { return 0; }\n")
        for name in ["gcc", "clang"]:
            for flags in CHECKS[target] if shutil.which(name) else []:
                if run(words_for(name, flags, "main.c", "main"), folder).status == 0 and run(["./main"], folder).status == 0:
                    found.append((name, flags))
                    break
    return found


def without_comments(shown):
    return "\n".join(line.split(" # ")[0] for line in shown.split("\n") if not line.startswith("#"))


class Case:
    def __init__(self, program, tools, seed, folder):
        self.program, self.tools, self.folder = program, tools, Path(folder)
        self.random = random.Random(seed)
        self.notes = collections.Counter()
        self.kernel = Block(self.random) if self.random.random() < FORTRAN else Kernel(self.random)
        self.codes = {"c": [], "opencl": []}

    def write(self, name, text):
        (self.folder / name).write_text(text)

    def call(self, *words):
        """The answer of the program, which is one of two forms: all and no error, or a line on err and nothing else."""
        answer = run([self.program, *words], self.folder)
        done = answer.status == 0 and not answer.err
        refused = answer.status == 1 and not answer.out and re.fullmatch(r"[^\n]*: rule \d+ [^\n]*\n", answer.err)
        if not done and not refused:
            raise Different(f"{' '.join(words)}: status {answer.status}, out {answer.out[:200]!r}, err {answer.err[:200]!r}")
        return answer

    def same(self, words, answer):
        """Makes a call that has to be refused as another one was."""
        again = self.call(*words)
        if again != answer:
            raise Different(f"{' '.join(words)}: {again.err!r}, not {answer.err!r}")

    def wants(self, what, out):
        if out != self.wanted:
            raise Different(f"{what}: {out[:1000]!r}, wanted {self.wanted[:1000]!r}")
        self.notes[f"compared: {what.split(':')[0]}"] += 1

    def refused(self, what, answer, rules):
        """Notes a refusal, by one of some rules."""
        if rule_of(answer) not in rules:
            raise Different(f"{what}: {answer.err!r}")
        self.notes[f"refused: {what}, rule {rule_of(answer)}"] += 1

    def judge(self):
        """Whether the kernel is accepted. What differs is an error."""
        self.write("kernel.txt", self.kernel.text())
        self.write("arguments.txt", self.kernel.arguments())
        schedules = ["", "7 6 5 4 3 2 1 0\n" * 60, " ".join(str(self.random.randrange(2 ** 32)) for _ in range(2000))]
        for number, schedule in enumerate(schedules):
            self.write(f"schedule_{number}.txt", schedule)
        shown = self.call("show", "kernel.txt", "-")
        if shown.status:
            self.notes[f"refused: {type(self.kernel).__name__.lower()}, rule {rule_of(shown)}"] += 1
            self.same(["eval", "kernel.txt", "arguments.txt"], shown)
            self.same(["write", "c", "kernel.txt", "-"], shown)
            return False
        evaluated = self.call("eval", "kernel.txt", "arguments.txt")
        if evaluated.status:
            self.refused("eval", evaluated, {3, 18, 19, 32, 33, 39})
            return False
        self.wanted = self.kernel.stored()
        self.wants("eval", evaluated.out)
        self.read_again("shown kernel", shown.out)
        self.write_codes("-")
        self.transform(shown.out)
        self.compile()
        return True

    def read_again(self, what, shown):
        """A shown kernel, read again, stores the same. Where all its numbers are small it is shown alike, too."""
        self.write("shown.txt", shown)
        again = self.call("show", "shown.txt", "-")
        if again.status:
            return self.refused(what, again, {3, 9})
        if again.out != without_comments(shown):
            self.notes[f"another text: {what}, shown again"] += 1
        evaluated = self.call("eval", "shown.txt", "arguments.txt")
        if evaluated.status:
            return self.refused(f"eval of a {what}", evaluated, {3, 18, 19, 32, 33, 39})
        self.wants(f"eval of a {what}", evaluated.out)

    def transform(self, shown):
        """A script of the commands that are not refused."""
        scripts = Scripts(self.random, self.random.random() < 0.4)
        taken = []
        for _ in range(self.random.randint(1, COMMANDS)):
            command = scripts.command(Shown(shown))
            if command is None:
                continue
            verb = command.split()[0]
            self.write("script.txt", "".join(line + "\n" for line in [*taken, command]))
            answer = self.call("show", "kernel.txt", "script.txt")
            if answer.status == 0:
                taken.append(command)
                shown = answer.out
                self.notes[f"taken: {verb}"] += 1
                self.notes[TAKEN] += 1
                continue
            if not answer.err.startswith(f"script line {len(taken) + 1} {verb}: rule "):
                raise Different(f"{command}: {answer.err!r}")
            self.notes[f"refused: {verb}, rule {rule_of(answer)}"] += 1
            self.notes[NOT_TAKEN] += 1
            self.same(["write", "c", "kernel.txt", "script.txt"], answer)
        if taken:
            self.write("script.txt", "".join(line + "\n" for line in taken))
            self.read_again("changed kernel", shown)
            self.write_codes("script.txt")

    def write_codes(self, script):
        for target in ("c", "opencl"):
            what = f"{target} {'without' if script == '-' else 'with'} a script"
            written = self.call("write", target, "kernel.txt", script)
            if written.status:
                self.refused(what, written, REFUSED_CODES if script == "-" else REFUSED_CODES | REFUSED_AXES)
            elif self.runs(what, written.out) and written.out not in self.codes[target]:
                self.codes[target].append(written.out)

    def runs(self, what, code):
        """Whether the code runs within the limits."""
        self.write("code.txt", code)
        for number in range(3):
            answer = self.call("run", "code.txt", "arguments.txt", f"schedule_{number}.txt")
            if answer.status:
                self.refused(f"run of {what}", answer, {3, 39})
                return False
            self.wants(f"run of {what}: schedule {number}", answer.out)
        return True

    def compile(self):
        if self.codes["c"]:
            self.compiled("c", c_program(self.kernel, self.codes["c"]), len(self.codes["c"]))
        for code in self.codes["opencl"]:
            launch = code.split("\n", 1)[0]
            groups, items = (in_brackets(part) for part in launch.split(" groups ")[1].split(" items "))
            if set(groups + items) != {"1"} and int(items[0]) * int(items[1]) * int(items[2]) <= MOST_THREADS:
                self.compiled("opencl", opencl_program(self.kernel, code), 1)

    def compiled(self, target, program, times):
        if not self.tools[target]:
            return
        compiler, flags = self.random.choice(self.tools[target])
        self.write(f"{target}_program.c", program)
        made = run(words_for(compiler, flags, f"{target}_program.c", "program"), self.folder)
        if made.status:
            raise Different(f"{compiler} of the {target} code: {made.err[:1000]!r}")
        ran = run(["./program"], self.folder)
        (self.folder / "program").unlink()
        if ran.status or ran.out != self.wanted * times:
            said = f"status {ran.status}, {ran.out[:1000]!r}, {ran.err[:1000]!r}"
            raise Different(f"{compiler} of the {target} code: {said}, wanted {self.wanted[:1000]!r}")
        self.notes[f"compared: {target} code by {compiler}"] += times


def judge(work):
    """What is said of the case of a seed: whether it was accepted, what is different, and what was counted."""
    program, tools, seed, keep = work
    with tempfile.TemporaryDirectory() as folder:
        case = Case(program, tools, seed, folder)
        accepted, different = False, None
        try:
            accepted = case.judge()
        except Exception as error:
            different = str(error) if isinstance(error, Different) else f"not understood: {error!r}"
            shutil.copytree(folder, Path(keep) / str(seed), dirs_exist_ok=True)
        return seed, accepted, different, case.notes


def main():
    parser = argparse.ArgumentParser(usage=__doc__)
    parser.add_argument("program")
    parser.add_argument("--cases", type=int, default=2000)
    parser.add_argument("--seed", type=int, default=1)
    parser.add_argument("--jobs", type=int, default=multiprocessing.cpu_count())
    parser.add_argument("--keep", default=str(Path(tempfile.gettempdir()) / "different_cases"))
    options = parser.parse_args()
    program = str(Path(options.program).resolve())
    tools = {target: compilers(target) for target in CHECKS}
    work = [(program, tools, options.seed * 1000000 + number, options.keep) for number in range(options.cases)]
    notes, accepted, different = collections.Counter(), 0, 0
    with multiprocessing.Pool(options.jobs) as pool:
        for seed, is_accepted, difference, counted in pool.imap_unordered(judge, work):
            notes += counted
            accepted += is_accepted
            if difference:
                different += 1
                print(f"different: {Path(options.keep) / str(seed)}: {difference}", flush=True)
    for what in sorted(notes):
        print(f"{notes[what]:8d} {what}")
    print(f"{options.cases} cases, {options.cases - accepted - different} refused, {different} different")
    sys.exit(1 if different else 0)


if __name__ == "__main__":
    main()
