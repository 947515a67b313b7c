"""Script commands at random, for a kernel as `show` prints it: mostly such as it can follow."""
import re

AXES = ["g.0", "g.1", "g.2", "l.0", "l.1", "l.2"]


class Shown:
    """What a shown kernel has."""

    def __init__(self, text):
        self.inames, self.tags, self.temporaries, self.rules, self.arrays, self.instructions = [], {}, [], [], [], []
        for line in text.splitlines():
            self.read_line(line)

    def read_line(self, line):
        first = line.split(" ")[0]
        if first == "domain":
            self.inames = [name for name in re.search(r"\{ \[(.*?)\]", line).group(1).split(", ") if name]
        elif first in ("input", "output"):
            self.arrays.append(line.split()[1].rstrip(":"))
        elif first == "temp":
            self.temporaries.append(line.split()[1].rstrip(":"))
        elif line.startswith("# tag "):
            self.tags[line.split()[2]] = line.split()[3]
        elif re.match(r"\w+\([\w, ]*\) :=", line):
            self.rules.append(line.split("(")[0])
        elif "{id=" in line:
            self.instructions.append(line)

    def inames_of(self, line):
        options = re.search(r"inames=([\w:]+)", line)
        return options.group(1).split(":") if options else []

    def id_of(self, line):
        return re.search(r"\{id=(\w+)", line).group(1)


class Scripts:
    """Makes commands. With `plain` it makes none that a C code cannot have: no tags and nothing local."""

    def __init__(self, random, plain):
        self.random, self.plain, self.kept, self.names = random, plain, [], 0
        self.next = None if plain or random.random() < 0.5 else []

    def command(self, shown):
        """A command as a text, or None where the kernel has nothing that it could name. Some scripts begin with tiles."""
        if self.next == []:
            self.next = self.tiles(shown)
        if self.next:
            return self.next.pop(0)
        self.next = None
        makers = [self.split] * 4 + [self.tag] * 3 + [self.fetch] * 3 + [self.precompute] * 2 + [self.substitute] * 2
        makers += [self.realize] * 2 + [self.join] * 2 + [self.prioritize] * 2 + [self.keep, self.back]
        return self.random.choice(makers)(shown)

    def new_name(self):
        self.names += 1
        return f"x{self.names}"

    def free_axis(self, shown, sort):
        """An axis, mostly one that is not in use."""
        axes = [axis for axis in AXES if axis[0] == sort]
        free = [axis for axis in axes if axis not in shown.tags.values()]
        return self.random.choice(free if free and self.random.random() < 0.9 else axes)

    def untagged(self, shown, line=None):
        names = shown.inames_of(line) if line else shown.inames
        return [name for name in names if name not in shown.tags]

    def split(self, shown):
        random = self.random
        names = self.untagged(shown)
        if not names:
            return None
        words = ["split_iname", random.choice(names), str(random.choice([1, 2, 2, 3, 4, 4, 8, 16]))]
        if random.random() < 0.2:
            words.append(f"outer={self.new_name()}")
        if random.random() < 0.2:
            words.append(f"inner={self.new_name()}")
        if not self.plain and random.random() < 0.4:
            words.append(f"outer_tag={self.free_axis(shown, 'g')}")
        if not self.plain and random.random() < 0.5:
            words.append(f"inner_tag={self.free_axis(shown, 'l')}")
        return " ".join(words)

    def tiles(self, shown):
        """Commands that spread one or two inames of an instruction over groups and items."""
        random = self.random
        names = self.untagged(shown, random.choice(shown.instructions))
        some = random.sample(names, min(len(names), random.choice([1, 1, 2])))
        return [f"split_iname {name} {random.choice([2, 4, 4])} outer_tag=g.{axis} inner_tag=l.{axis}" for axis, name in enumerate(some)]

    def join(self, shown):
        random = self.random
        names = self.untagged(shown, random.choice(shown.instructions))
        if len(names) < 2:
            return None
        words = random.sample(names, 2 if len(names) < 3 or random.random() < 0.8 else 3)
        if random.random() < 0.2:
            words.append(f"as={self.new_name()}")
        return " ".join(["join_inames", *words])

    def tag(self, shown):
        random = self.random
        names = self.untagged(shown)
        if self.plain or not names:
            return None
        inner = [name for name in names if re.search(r"_inner|_fetch_|_pre_|^[pqx]", name)]
        if inner and random.random() < 0.7:
            return f"tag_inames {random.choice(inner)}:{self.free_axis(shown, 'l')}"
        some = random.sample(names, min(len(names), random.choice([1, 1, 2])))
        words = [f"{name}:{self.free_axis(shown, random.choice('ggl'))}" for name in some]
        return " ".join(["tag_inames", *words])

    def prioritize(self, shown):
        random = self.random
        if not shown.inames:
            return None
        return " ".join(["prioritize_loops", *random.sample(shown.inames, random.randint(1, len(shown.inames)))])

    def realize(self, shown):
        random = self.random
        folding = [line for line in shown.instructions if re.search(r"(sum|product|min|max)\((\w+|\([\w, ]+\)),", line)]
        lines = folding if folding and random.random() < 0.95 else shown.instructions
        return f"realize_reduction {shown.id_of(random.choice(lines))}"

    def substitute(self, shown):
        if not shown.temporaries:
            return None
        return f"assignment_to_subst {self.random.choice(shown.temporaries)}"

    def scope(self):
        return "private" if self.plain else self.random.choice(["private", "local", "local"])

    def fill(self, shown, word, names, sign):
        """A command that fills a temporary from what an instruction uses: names are followed by a sign there."""
        random = self.random
        places = [(name, line) for name in names for line in shown.instructions if re.search(rf"\b{name}\{sign}", line.split("=", 1)[1])]
        if not places:
            return None
        name, line = random.choice(places)
        swept = shown.inames_of(line)
        inner = [iname for iname in swept if iname.endswith("_inner") or shown.tags.get(iname, "").startswith("l")]
        swept = inner if inner and random.random() < 0.6 else swept
        if not swept:
            return None
        swept = random.sample(swept, random.randint(1, min(2, len(swept))))
        return " ".join([word, name, self.scope(), *swept])

    def fetch(self, shown):
        return self.fill(shown, "add_prefetch", shown.arrays, "[")

    def precompute(self, shown):
        return self.fill(shown, "precompute", shown.rules, "(")

    def keep(self, shown):
        name = self.new_name()
        self.kept.append(name)
        return f"keep {name}"

    def back(self, shown):
        return f"back {self.random.choice(self.kept)}" if self.kept else None
