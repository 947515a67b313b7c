"""Marked Fortran blocks at random, as texts and with what their statements store when they are run one after the other."""
from kernels import OPERATIONS, RELATIONS, Arguments, Cell, Expression, Scene, Size, Store, constant, reduced, variable

KIND_WORDS = {"int32": ["integer", "integer(4)"], "int64": ["integer(8)"]}


class Loop:
    """A loop from 1 and `low` more to `base` less `high`, or from or to the variable of the loop round it."""

    def __init__(self, name, base, low, high, round_it=None, is_up_to=False):
        self.name, self.base, self.low, self.high, self.round_it, self.is_up_to = name, base, low, high, round_it, is_up_to

    def text(self):
        if self.round_it:
            return f"do {self.name} = 1, {self.round_it}" if self.is_up_to else f"do {self.name} = {self.round_it}, {self.base}"
        return f"do {self.name} = {1 + self.low}, {self.base}" + (f" - {self.high}" if self.high else "")

    def numbers(self, names, size):
        if self.round_it:
            return range(1, names[self.round_it] + 1) if self.is_up_to else range(names[self.round_it], size + 1)
        return range(1 + self.low, size - self.high + 1)


class Statement:
    def __init__(self, cell, places, value, test):
        self.cell, self.places, self.value, self.test = cell, places, value, test

    def text(self):
        target = named(self.cell.name, self.places)
        return (f"if ({self.test.text}) " if self.test else "") + f"{target} = {self.value.text}"


def named(name, places):
    """A cell at places, which a kernel has in the other order and counts from 0."""
    return f"{name}({', '.join(place.text for place in reversed(places))})" if places else name


class Block(Arguments):
    """A block of nests of loops. In a nest the cells `here` are stored to, or a temporary's, with the places at which each turn may
    read them; the cells `elsewhere` are read at other places, so that it may not store to them."""

    def __init__(self, random):
        self.random = random
        self.parameters = {"n": random.choice([0, 1, 2, 3, 5, 8]), "m": random.choice([0, 1, 3])}
        self.cells, self.temporaries, self.nests = [], [], []
        for number in range(random.randint(1, 3)):
            self.cells.append(self.new_cell(f"a{number}", "input", [self.base() for _ in range(random.choice([1, 1, 2]))]))
        for number in range(random.randint(1, 3)):
            self.make_nest(number)
        self.arrays = self.cells
        self.give_words()

    def base(self):
        return self.random.choice(["n", "n", "n", "m", "3", "4"])

    def new_cell(self, name, sort, bases):
        kind = self.random.choice(["int32", "int32", "int64"])
        more = [self.random.choice([0, 0, 1]) if sort == "input" else 0 for _ in bases]
        return Cell(name, sort, kind, [Size(base, extra) for base, extra in zip(bases, more)])

    def make_nest(self, number):
        """Loops in each other, with some statements in the innermost one."""
        random = self.random
        loops = []
        for name in "ijk"[:random.randint(1, 3)]:
            whole = [loop for loop in loops if loop.base == "n"]
            if whole and random.random() < 0.3:
                loops.append(Loop(name, "n", 0, 0, random.choice(whole).name, random.random() < 0.5))
            else:
                loops.append(Loop(name, self.base(), random.choice([0, 0, 1]), random.choice([0, 0, 1])))
        self.loops, self.here, self.elsewhere, statements = loops, {}, set(), []
        if random.random() < 0.4:
            statements.append(self.temporary(f"t{number}"))
        for count in range(random.choice([1, 1, 2])):
            statements.append(self.store(f"o{number}{count}"))
        self.nests.append((loops, statements))
        self.cells += [cell for cell in self.here if cell.sort == "output" and cell not in self.cells]

    def temporary(self, name):
        cell = Cell(name, "temp", self.random.choice(["int32", "int64"]), [])
        statement = Statement(cell, [], self.value(cell.kind, 1), None)
        self.temporaries.append(cell)
        self.here[cell] = []
        return statement

    def store(self, name):
        """A store at the numbers of all loops: to a new array, or to one of an earlier nest."""
        random = self.random
        order = random.sample(self.loops, len(self.loops))
        bases = [loop.base for loop in order]
        old = [cell for cell in self.cells if cell.sort == "output" and [size.base for size in cell.sizes] == bases]
        old = [cell for cell in old if cell not in self.here and cell not in self.elsewhere]
        cell = random.choice(old) if old and random.random() < 0.5 else self.new_cell(name, "output", bases)
        places = [variable(loop.name) for loop in order]
        self.here[cell] = places
        value = self.value(cell.kind, random.randint(1, 3))
        return Statement(cell, places, value, self.test(cell.kind) if random.random() < 0.25 else None)

    # Values

    def place(self, size):
        """A subscript from 1 to a size, or None."""
        random = self.random
        choices = []
        for loop in self.loops:
            if loop.base == size.base:
                low, high = (0, 0) if loop.round_it else (loop.low, loop.high)
                by = random.randint(-low, high + size.more)
                choices.append(self.moved(loop.name, by))
                choices.append(self.turned(loop.name, size.base))
            elif loop.base.isdigit() and size.base.isdigit() and int(loop.base) <= int(size.base):
                choices.append(variable(loop.name))
        if size.base.isdigit():
            choices.append(constant(random.randint(1, int(size.base))))
        return random.choice(choices) if choices else None

    @staticmethod
    def moved(name, by):
        if by == 0:
            return variable(name)
        return Expression(f"{name} {'+' if by > 0 else '-'} {abs(by)}", lambda scene: scene.names[name] + by)

    def turned(self, name, base):
        return Expression(f"{base} + 1 - {name}", lambda scene: self.base_number(base) + 1 - scene.names[name])

    def read(self, kind):
        random = self.random
        cells = [cell for cell in [*self.here, *self.cells] if cell.kind == kind]
        random.shuffle(cells)
        for cell in cells:
            places = self.here[cell] if cell in self.here else [self.place(size) for size in cell.sizes]
            if None not in places:
                if cell not in self.here:
                    self.elsewhere.add(cell)
                return self.read_of(cell, places)
        return None

    @staticmethod
    def read_of(cell, places):
        def number(scene):
            return scene.store.read(cell.name, tuple(place.number(scene) - 1 for place in places), scene)

        return Expression(named(cell.name, places), number)

    def leaf(self, kind):
        random = self.random
        name, by = random.choice([*(loop.name for loop in self.loops), "n"]), random.randint(1, 9)
        moved = Expression(f"({by} * {name} - 2)", lambda scene: by * scene.names[name] - 2)
        index = random.choice([variable(name), constant(by), moved])
        return Expression(index.text, lambda scene: reduced(kind, index.number(scene)))

    def value(self, kind, depth):
        random = self.random
        if depth == 0:
            return (self.read(kind) if random.random() < 0.7 else None) or self.leaf(kind)
        one, two = self.value(kind, depth - 1), self.value(kind, depth - 1)
        sign = random.choice(["+", "-", "*", "+", "-", "*", "min", "max", ""])
        if sign in ("min", "max"):
            work = OPERATIONS[sign]
            return Expression(f"{sign}({one.text}, {two.text})", lambda scene: work(one.number(scene), two.number(scene)))
        if not sign:
            return Expression(f"(-{one.text})", lambda scene: reduced(kind, -one.number(scene)))
        work = OPERATIONS[sign]
        return Expression(f"({one.text} {sign} {two.text})", lambda scene: reduced(kind, work(one.number(scene), two.number(scene))))

    def test(self, kind):
        sign = self.random.choice(["<", "<=", ">", ">=", "==", "!="])
        one = self.read(kind)
        two = self.value(kind, 1) if one else variable("n")
        one = one or variable(self.loops[0].name)
        text = f"{one.text} {sign.replace('!', '/')} {two.text}"
        return Expression(text, lambda scene: RELATIONS[sign](one.number(scene), two.number(scene)))

    # The text, and what is stored

    def declaration(self, cell):
        random = self.random
        intent = {"input": ", intent(in)", "output": random.choice([", intent(out)", ", intent(inout)"]), "temp": ""}[cell.sort]
        sizes = f"({', '.join(size.text for size in reversed(cell.sizes))})" if cell.sizes else ""
        return f"{random.choice(KIND_WORDS[cell.kind])}{intent} :: {cell.name}{sizes}"

    def text(self):
        names = ", ".join([*self.parameters, *(cell.name for cell in self.arrays)])
        lines = ["! made at random", "!$loopw begin", f"subroutine made({names})", "  integer, intent(in) :: n, m"]
        lines += [f"  {self.declaration(cell)}" for cell in self.arrays + self.temporaries]
        for loops, statements in self.nests:
            lines += ["  " * (depth + 1) + loop.text() for depth, loop in enumerate(loops)]
            lines += ["  " * (len(loops) + 1) + statement.text() for statement in statements]
            lines += ["  " * (depth + 1) + "end do" for depth in reversed(range(len(loops)))]
        return "\n".join([*lines, "end subroutine", "!$loopw end"]) + "\n"

    def stored(self):
        store = Store(self.words, {cell.name: [] for cell in self.temporaries})
        for loops, statements in self.nests:
            self.run_loops(loops, statements, Scene(self.parameters, store))
        return self.outputs(store)

    def run_loops(self, loops, statements, scene):
        if loops:
            for number in loops[0].numbers(scene.names, self.base_number(loops[0].base)):
                self.run_loops(loops[1:], statements, scene.with_names({loops[0].name: number}))
            return
        for statement in statements:
            if not statement.test or statement.test.number(scene):
                place = tuple(place.number(scene) - 1 for place in statement.places)
                scene.store.put(statement.cell.name, place, scene, statement.value.number(scene))
