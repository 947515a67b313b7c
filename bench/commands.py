#!/usr/bin/env python3
"""commands.py PROGRAM

Prints for each command of the built program how long it takes on an ordinary input and on the worst known ones within the limits,
how its time grows, how many steps and instances it does in a second, and its peak memory where GNU time is installed.
"""
import math
import shutil
import subprocess
import sys
import tempfile
import time
from pathlib import Path

TOP = Path(__file__).resolve().parent.parent
HAS_TIME = shutil.which("time") is not None

PRODUCT = """kernel 1
domain [n] -> { [i,j,k] : 0 <= i, j, k < n }
input a: int32[n,n]
input b: int32[n,n]
output c: int32[n,n]
c[i,j] = sum(k, a[i,k]*b[k,j]) {id=mm}
"""
TILES = """split_iname i 16 outer_tag=g.0 inner_tag=l.0
split_iname j 16 outer_tag=g.1 inner_tag=l.1
split_iname k 16
realize_reduction mm
add_prefetch a local i_inner k_inner
add_prefetch b local k_inner j_inner
tag_inames a_fetch_0:l.0 a_fetch_1:l.1 b_fetch_0:l.0 b_fetch_1:l.1
"""
SUMS = """kernel 1
domain [n] -> { [i,j] : 0 <= i, j < n }
input a: int32[n]
output out: int32[n]
out[i] += 3*a[j] + j
"""
LONG = """kernel 1
domain [n] -> { [i] : 0 <= i < 4 }
assume n >= 4
output out: int32[n]
out[i] = 1
"""


# Kernels and scripts of any size

def made_kernel(number):
    """The kernel of `gen NUMBER`."""
    lines = ["kernel 1"]
    lines += [f"domain [n] -> {{ [i{at}, j{at}] : 0 <= i{at}, j{at} < n }}" for at in range(number)]
    lines += ["input a: int32[n,n]"] + [f"output o{at}: int32[n,n]" for at in range(number)]
    lines += [f"o{at}[i{at},j{at}] = {at + 1}*a[j{at},i{at}] + i{at}" for at in range(number)]
    return "\n".join(lines) + "\n"


def made_script(number):
    """The script of `gen NUMBER`."""
    return "".join(f"split_iname i{at} {2 + at % 7}\nprioritize_loops j{at} i{at}_outer i{at}_inner\n" for at in range(number))


def many_pairs(number):
    """Instructions that all store to one array, at places of their own: each pair of them is looked at."""
    lines = ["kernel 1", "domain [n] -> { [i] : 0 <= i < n }", "input a: int32[n]", f"output out: int32[n, {number}]"]
    lines += [f"out[i, {at}] = {at + 1}*a[i]" for at in range(number)]
    return "\n".join(lines) + "\n"


def many_nodes(depth):
    """An instruction whose value is a full tree over 60 different reads."""
    reads = [f"a[i + {at}]" for at in range(60)]

    def tree(level, at):
        return reads[at % 60] if level == 0 else f"({tree(level - 1, 2 * at)} + {tree(level - 1, 2 * at + 1)})"

    return f"kernel 1\ndomain [n] -> {{ [i] : 0 <= i < n }}\ninput a: int32[n + 60]\noutput out: int32[n]\nout[i] = {tree(depth, 0)}\n"


def many_rows(number):
    """Inames of which each two are bounded by each other, with factors of their own: eliminating them makes rows upon rows."""
    names = [f"i{at}" for at in range(number)]
    rows = [f"0 <= {name} <= n" for name in names]
    for one in range(number):
        for two in range(number):
            if one != two:
                rows.append(f"{2 + (3 * one + two) % 7}*i{one} <= n + {2 + (one + 5 * two) % 7}*i{two}")
    domain = f"domain [n] -> {{ [{', '.join(names)}] : {' and '.join(rows)} }}"
    return f"kernel 1\n{domain}\noutput out: int32[1]\nout[0] += {' + '.join(names)}\n"


def many_inames(number):
    """An instruction of many inames, each of them split by the script."""
    names = [f"i{at}" for at in range(number)]
    kernel = f"kernel 1\ndomain [] -> {{ [{', '.join(names)}] : {' and '.join(f'0 <= {name} < 4' for name in names)} }}\n"
    kernel += f"output out: int32[{', '.join(['4'] * number)}]\nout[{', '.join(names)}] = {' + '.join(names)}\n"
    return kernel, "".join(f"split_iname {name} 2\n" for name in names)


def many_commands(number):
    return "".join(f"prioritize_loops {'i j' if at % 2 else 'j i'}\n" for at in range(number))


# Figures

class Bench:
    def __init__(self, program, folder):
        self.program, self.folder = program, folder

    def write(self, **files):
        for name, text in files.items():
            (self.folder / name).write_text(text)

    def call(self, words, keep=None):
        """The seconds of a call, and its status and error; what it writes is kept as a file."""
        start = time.monotonic()
        done = subprocess.run([self.program, *words], cwd=self.folder, stdin=subprocess.DEVNULL, capture_output=True)
        seconds = time.monotonic() - start
        if keep:
            (self.folder / keep).write_bytes(done.stdout)
        return seconds, done.returncode, done.stderr.decode()

    def memory(self, words):
        """The peak memory of a call in MB, as a text."""
        if not HAS_TIME:
            return ""
        words = ["time", "-f", "%M", "-o", "memory", self.program, *words]
        subprocess.run(words, cwd=self.folder, stdin=subprocess.DEVNULL, stdout=subprocess.DEVNULL, stderr=subprocess.DEVNULL)
        return f", {int((self.folder / 'memory').read_text().split()[-1]) / 1024:.1f} MB"

    def tell(self, what, words, times=1, keep=None, done=None, unit=None):
        """Prints the least time of some calls; with a count of what was done, how much that is in a second."""
        answers = [self.call(words, keep) for _ in range(times)]
        seconds, status, error = min(answers)
        rate = f", {done / seconds / 1e6:.2f} million {unit} a second" if done and status == 0 else ""
        said = "" if status == 0 else f"  ({error.strip()[:100]})"
        print(f"{what}: {seconds * 1000:.1f} ms{rate}{self.memory(words)}{said}", flush=True)
        return seconds


def exponent(sizes, seconds):
    """The slope of the line nearest to the points of the logarithms."""
    points = [(math.log(size), math.log(second)) for size, second in zip(sizes, seconds)]
    middle = [sum(point[axis] for point in points) / len(points) for axis in (0, 1)]
    over = sum((size - middle[0]) * (second - middle[1]) for size, second in points)
    return over / sum((size - middle[0]) ** 2 for size, _ in points)


def smallest(bench):
    shutil.copy(TOP / "examples/double/double.txt", bench.folder / "double")
    bench.tell("the smallest kernel (wanted: 10 ms, 10 MB)", ["write", "c", "double", "-"], times=100)


def growth(bench):
    sizes = [8, 16, 32, 64]
    for what, script in (("write c of the kernel of gen N", "-"), ("the same with its script", "script")):
        seconds = []
        for size in sizes:
            bench.write(kernel=made_kernel(size), script=made_script(size))
            seconds.append(bench.tell(f"{what}, N = {size}", ["write", "c", "kernel", script], times=3))
        print(f"{what}: grows as N^{exponent(sizes, seconds):.2f} (wanted: N^1.3)", flush=True)


def tiled(bench):
    bench.write(kernel=PRODUCT, script=TILES, none="", mixed="2047 4001 17 3003 999 1234\n" * 38000)
    bench.tell("a tiled product to OpenCL", ["write", "opencl", "kernel", "script"], times=3, keep="code")
    bench.write(arguments="n = 64\na = 4096*1\nb = 4096*1\nc = 4096*0\n")
    # Each of 4,096 items: 9 steps outside the tiles, and in each of 4 tiles 4 for the fills, 2 barriers, and 16 turns of 3 and a test.
    steps = 4096 * (9 + 4 * (4 + 2 + 16 * 3 + 1))
    bench.tell("run of its code, one item after the other", ["run", "code", "arguments", "none"], done=steps, unit="steps")
    bench.tell("run of its code, items mixed", ["run", "code", "arguments", "mixed"], done=steps, unit="steps")


def sums(bench):
    bench.write(kernel=SUMS, none="", arguments="n = 900\na = 900*7\nout = 900*0\n")
    bench.call(["write", "c", "kernel", "-"], keep="code")
    bench.tell("run of C code", ["run", "code", "arguments", "none"], times=3, done=2 * 900 * 900 + 2 * 900 + 1, unit="steps")
    bench.tell("eval", ["eval", "kernel", "arguments"], times=3, done=900 * 900, unit="instances")
    bench.write(kernel=PRODUCT, arguments="n = 64\na = 4096*1\nb = 4096*1\nc = 4096*0\n")
    bench.tell("eval of sums", ["eval", "kernel", "arguments"], done=64 ** 3, unit="terms")


def worst(bench):
    for number in (16, 32, 64):
        bench.write(kernel=many_pairs(number))
        bench.tell(f"{number} instructions that store to one array", ["write", "c", "kernel", "-"])
    for depth in (9, 10, 11):
        bench.write(kernel=many_nodes(depth))
        bench.tell(f"a value of {2 ** (depth + 1) - 1} nodes", ["write", "c", "kernel", "-"])
    for number in (4, 6, 8, 12, 16):
        bench.write(kernel=many_rows(number))
        bench.tell(f"{number} inames with rows for each two", ["write", "c", "kernel", "-"])
    for number in (2, 4, 8):
        kernel, script = many_inames(number)
        bench.write(kernel=kernel, script=script)
        bench.tell(f"{number} inames, all split", ["write", "c", "kernel", "script"])
    bench.write(kernel=SUMS, script=many_commands(256))
    bench.tell("256 commands", ["show", "kernel", "script"])
    bench.write(kernel=SUMS + "#" + "x" * (1048575 - len(SUMS)))
    bench.tell("a file of 1,048,576 bytes", ["show", "kernel", "-"])
    bench.write(kernel=LONG, arguments="n = 16000000\nout = 16000000*0\n")
    bench.tell("eval with 16,000,000 words", ["eval", "kernel", "arguments"])
    bench.tell("gen 64", ["gen", "64"])


def main():
    if len(sys.argv) != 2:
        sys.exit(__doc__)
    with tempfile.TemporaryDirectory() as folder:
        bench = Bench(str(Path(sys.argv[1]).resolve()), Path(folder))
        for part in (smallest, growth, tiled, sums, worst):
            part(bench)


if __name__ == "__main__":
    main()
