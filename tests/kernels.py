"""Kernels at random: as the text of a kernel file, with arguments, and with what the kernel stores, worked out from the tree of
which the text was made and not from the text."""
import itertools

WIDTHS = {"int32": 32, "int64": 64, "uint32": 32, "uint64": 64}
KINDS = ["int32", "int32", "int32", "int64", "uint32", "uint64"]
UPDATES = {"+=": "+", "*=": "*", "min=": "min", "max=": "max"}
FOLDS = {"sum": "+", "product": "*", "min": "min", "max": "max"}
OPERATIONS = {
    "+": lambda one, two: one + two,
    "-": lambda one, two: one - two,
    "*": lambda one, two: one * two,
    "&": lambda one, two: one & two,
    "|": lambda one, two: one | two,
    "^": lambda one, two: one ^ two,
    "min": min,
    "max": max,
}
RELATIONS = {
    "<": lambda one, two: one < two,
    "<=": lambda one, two: one <= two,
    ">": lambda one, two: one > two,
    ">=": lambda one, two: one >= two,
    "=": lambda one, two: one == two,
    "==": lambda one, two: one == two,
    "!=": lambda one, two: one != two,
}


def least(kind):
    return -(2 ** (WIDTHS[kind] - 1)) if kind[0] == "i" else 0


def greatest(kind):
    return least(kind) + 2 ** WIDTHS[kind] - 1


def reduced(kind, number):
    """The number of the word to which a number is reduced."""
    return (number - least(kind)) % 2 ** WIDTHS[kind] + least(kind)


def neutral(kind, sign):
    return {"+": 0, "*": 1, "min": greatest(kind), "max": least(kind)}[sign]


class Expression:
    """A text, and a function from scenes to its number."""

    def __init__(self, text, number):
        self.text, self.number = text, number


def constant(number):
    return Expression(str(number), lambda scene: number)


def variable(name):
    return Expression(name, lambda scene: scene.names[name])


class Scene:
    """The numbers of names, and the store that cells are read from."""

    def __init__(self, names, store):
        self.names, self.store = names, store

    def with_names(self, names):
        return Scene({**self.names, **names}, self.store)


class Store:
    """The words of cells, by the cell's name, its home values and its place. A place that an array does not have is an error."""

    def __init__(self, words, homes):
        self.words, self.homes = dict(words), homes

    def key(self, name, place, scene):
        if name not in self.homes:
            if (name, (), place) not in self.words:
                raise IndexError(f"{name} has no place {place}")
            return name, (), place
        return name, tuple(scene.names[home] for home in self.homes[name]), place

    def read(self, name, place, scene):
        return self.words.get(self.key(name, place, scene), 0)

    def put(self, name, place, scene, word):
        self.words[self.key(name, place, scene)] = word


class Size:
    """The size of one place of an array: a parameter or a number, and how much more."""

    def __init__(self, base, more):
        self.base, self.more = base, more
        self.text = f"{base} + {more}" if more else base


class Cell:
    """An array or a temporary. `writers` are the instructions that store to it. `scope` has the inames of the first of them, and
    `places` the iname for each place, where each instance of it has a place of its own."""

    def __init__(self, name, sort, kind, sizes):
        self.name, self.sort, self.kind, self.sizes = name, sort, kind, sizes
        self.writers, self.scope, self.places, self.is_read = [], [], None, False

    def declaration(self):
        sizes = f"[{', '.join(size.text for size in self.sizes)}]" if self.sizes else ""
        return f"{self.sort} {self.name}: {self.kind}{sizes}"


class Iname:
    """An iname with its conditions, which may need another iname. With `shift` added it lies between 0 and the base `size` less 1."""

    def __init__(self, name, size, conditions, holds, shift=0, needs=None):
        self.name, self.size, self.conditions, self.holds, self.shift, self.needs = name, size, conditions, holds, shift, needs

    def place(self):
        if not self.shift:
            return variable(self.name)
        return Expression(f"{self.name} + {self.shift}", lambda scene: scene.names[self.name] + self.shift)


class Rule:
    def __init__(self, name, kind, parameters, bases, body):
        self.name, self.kind, self.parameters, self.bases, self.body = name, kind, parameters, bases, body

    def text(self):
        return f"{self.name}({', '.join(self.parameters)}) := {self.body.text}"


class Instruction:
    """An instruction. `reads` are the cells that its value and test read, `after` what it says that it depends on."""

    def __init__(self, id, cell, places, sign, value, test, scope, reads):
        self.id, self.cell, self.places, self.sign = id, cell, places, sign
        self.value, self.test, self.scope, self.reads = value, test, scope, reads
        self.front, self.is_named, self.is_free, self.after = "", True, False, []

    def options(self):
        if self.is_named:
            yield f"id={self.id}"
        if self.after or self.is_free:
            yield f"dep={'*' if self.is_free else ''}{':'.join(other.id for other in self.after)}"
        if not all(mentions(" ".join(place.text for place in self.places), iname.name) for iname in self.scope):
            yield f"inames={':'.join(iname.name for iname in self.scope)}"
        if self.test:
            yield f"if={self.test.text}"

    def text(self):
        places = f"[{', '.join(place.text for place in self.places)}]" if self.places else ""
        options = ", ".join(self.options())
        return f"{self.front}{self.cell.name}{places} {self.sign} {self.value.text}" + (f" {{{options}}}" if options else "")


def mentions(text, name):
    """Whether a text has a name."""
    return name in "".join(sign if sign.isalnum() or sign == "_" else " " for sign in text).split()


class Arguments:
    """The numbers of parameters and the words of arrays."""

    def base_number(self, base):
        return self.parameters[base] if base in self.parameters else int(base)

    def sizes(self, cell):
        return [self.base_number(size.base) + size.more for size in cell.sizes]

    def some_word(self, kind):
        random = self.random
        any_word = random.randint(least(kind), greatest(kind))
        return random.choice([random.randint(0, 9), random.randint(0, 9), any_word, least(kind), greatest(kind)])

    def give_words(self):
        self.words = {}
        for cell in self.arrays:
            same = self.some_word(cell.kind) if self.random.random() < 0.2 else None
            for place in itertools.product(*(range(size) for size in self.sizes(cell))):
                self.words[cell.name, (), place] = self.some_word(cell.kind) if same is None else same

    def list_of(self, words, cell):
        return [words[cell.name, (), place] for place in itertools.product(*(range(size) for size in self.sizes(cell)))]

    def arguments(self):
        lines = [f"{name} = {number}" for name, number in self.parameters.items()]
        for cell in self.arrays:
            runs = [(word, len(list(run))) for word, run in itertools.groupby(self.list_of(self.words, cell))]
            words = [str(word) if count == 1 else f"{count}*{word}" for word, count in runs]
            lines.append(f"{cell.name} = {' '.join(words)}".rstrip())
        self.random.shuffle(lines)
        return "\n".join(lines) + "\n"

    def outputs(self, store):
        """The text of the output arrays."""
        lines = []
        for cell in self.arrays:
            if cell.sort == "output":
                lines.append(f"{cell.name} =" + "".join(f" {word}" for word in self.list_of(store.words, cell)) + "\n")
        return "".join(lines)


class Kernel(Arguments):
    def __init__(self, random):
        self.random = random
        self.kind = random.choice(KINDS)
        self.cells, self.rules, self.instructions, self.domains, self.families = [], [], [], ["domain [n, m] -> { [] }"], []
        self.inames = {}
        self.make_parameters()
        for letters in ["ijk", "pq"][:random.choice([1, 1, 2])]:
            self.make_family(letters)
        for number in range(random.randint(1, 4)):
            self.add_array(f"a{number}")
        if random.random() < 0.3:
            self.make_rules()
        for number in range(random.choice([1, 1, 2, 2, 3, 4])):
            self.make_instructions(number)
        self.order_lines()
        self.choose_size()
        self.give_words()

    # Parameters, inames and sizes

    def make_parameters(self):
        random = self.random
        self.assumptions, least_of_n, step = [], 0, 1
        shape = random.randint(0, 5)
        if shape == 0:
            least_of_n = random.randint(1, 3)
            self.assumptions.append(f"assume n >= {least_of_n}")
        elif shape == 1:
            step = 2
            self.assumptions.append("assume n % 2 = 0 and m < 100")
        self.least_of_n = least_of_n
        sizes = [number for number in range(20) if number >= least_of_n and number % step == 0]
        self.small_sizes, self.large_sizes = [number for number in sizes if number <= 6], [number for number in sizes if number > 6]
        self.parameters = {"n": 0, "m": random.choice([0, 1, 2, 4])}

    def choose_size(self):
        """The number of n: small where there are many inames."""
        random = self.random
        large = len(self.inames) <= 3 and random.random() < 0.4
        self.parameters["n"] = random.choice(self.large_sizes if large else self.small_sizes + self.small_sizes[2:])

    def base(self):
        return self.random.choice(["n", "n", "n", "m", "3", "4", "6", "8"])

    def condition(self, name, low, high):
        """Conditions of an iname between two bounds, the second one excluded, in one of the ways to write them."""
        return self.random.choice([f"{low} <= {name} < {high}", f"{high} > {name} >= {low}", f"{name} >= {low} and {name} + 1 <= {high}"])

    def make_iname(self, name, earlier):
        """An iname whose conditions may mention earlier ones."""
        random = self.random
        whole = [iname for iname in earlier if iname.size == "n" and not iname.shift]
        shape = random.randint(0, 15)
        if shape <= 3 and whole:
            other = random.choice(whole).name
            if shape == 0:
                return Iname(name, "n", f"{other} <= {name} < n", lambda names: names[other] <= names[name] < names["n"], needs=other)
            if shape == 1:
                return Iname(name, "n", f"0 <= {name} <= {other}", lambda names: 0 <= names[name] <= names[other], needs=other)
            if shape == 2:
                return Iname(name, "n", f"0 <= {name} <= {other} // 2", lambda names: 0 <= names[name] <= names[other] // 2, needs=other)
            return Iname(name, "n", f"{name} == {other} // 2", lambda names: names[name] == names[other] // 2, needs=other)
        if shape == 4:
            return Iname(name, "n", f"1 <= {name} < n", lambda names: 1 <= names[name] < names["n"])
        if shape == 5:
            return Iname(name, "n", f"0 <= 2*{name} < n", lambda names: 0 <= 2 * names[name] < names["n"])
        if shape == 6:
            conditions = f"0 <= {name} < n and ({name} + m) % 2 = 0"
            return Iname(name, "n", conditions, lambda names: 0 <= names[name] < names["n"] and (names[name] + names["m"]) % 2 == 0)
        if shape == 7:
            return Iname(name, "4", f"{name} = 3", lambda names: names[name] == 3)
        if shape == 8:
            return Iname(name, "3", f"-3 <= {name} < 0", lambda names: -3 <= names[name] < 0, 3)
        size = self.base()
        high = (lambda names: names[size]) if size in self.parameters else (lambda names: int(size))
        return Iname(name, size, self.condition(name, "0", size), lambda names: 0 <= names[name] < high(names))

    def add_inames(self, inames):
        """Writes the domains of inames, in one line or in several."""
        groups = [inames] if self.random.random() < 0.5 else [[iname] for iname in inames]
        for group in groups:
            text = " and ".join(iname.conditions for iname in group)
            names = [iname.name for iname in group]
            mentioned = [name for name in ["n", "m", *self.inames] if name not in names and mentions(text, name)]
            self.domains.append(f"domain [{', '.join(mentioned)}] -> {{ [{', '.join(names)}] : {text} }}")
            self.inames.update((iname.name, iname) for iname in group)

    def make_family(self, letters):
        inames = []
        for name in letters[:self.random.randint(1, len(letters))]:
            inames.append(self.make_iname(name, inames))
        self.add_inames(inames)
        self.families.append(inames)

    def points(self, inames, names):
        """The numbers of names at each point of the conditions of inames."""
        if not inames:
            yield names
            return
        for number in range(-4, max(9, self.parameters["n"] + 1)):
            here = {**names, inames[0].name: number}
            if inames[0].holds(here):
                yield from self.points(inames[1:], here)

    # Index expressions

    def place(self, base, scope):
        """An index expression between 0 and a base less 1, or None."""
        random = self.random
        choices = []
        whole = [iname for iname in scope if iname.size == base]
        fitting = whole + [iname for iname in scope if iname.size.isdigit() and base.isdigit() and int(iname.size) < int(base)]
        if fitting:
            iname = random.choice(fitting)
            choices += [iname.place()] * 4
            choices.append(Expression(f"({iname.place().text}) // 2", lambda scene: iname.place().number(scene) // 2))
        if whole:
            other = random.choice(whole)
            text = f"{base} - 1 - ({other.place().text})"
            choices.append(Expression(text, lambda scene: self.base_number(base) - 1 - other.place().number(scene)))
        if base.isdigit():
            by = int(base)
            choices.append(constant(random.randrange(by)))
            if scope:
                one, two = random.choice(scope).name, random.choice(scope).name
                choices.append(Expression(f"{one} % {by}", lambda scene: scene.names[one] % by))
                choices.append(Expression(f"(3*{one} + {two}) % {by}", lambda scene: (3 * scene.names[one] + scene.names[two]) % by))
        if base == "n" and self.least_of_n > 0:
            choices += [constant(0), Expression("n - 1", lambda scene: scene.names["n"] - 1)]
        return random.choice(choices) if choices else None

    def place_of(self, size, scope):
        place = self.place(size.base, scope)
        more = self.random.randint(0, size.more)
        if place is None or more == 0:
            return place
        return Expression(f"{place.text} + {more}", lambda scene: place.number(scene) + more)

    def index(self, scope):
        random = self.random
        if not scope:
            return random.choice([constant(random.randint(0, 9)), variable("n"), Expression("(m - 2)", lambda scene: scene.names["m"] - 2)])
        one, two = random.choice(scope).name, random.choice([*(iname.name for iname in scope), "n"])
        by, more = random.randint(2, 4), random.randint(0, 5)
        return random.choice([
            variable(one),
            variable(one),
            constant(random.choice([0, 1, 2, 7, 100])),
            Expression(f"({one} + {more})", lambda scene: scene.names[one] + more),
            Expression(f"({by}*{one} + {more})", lambda scene: by * scene.names[one] + more),
            Expression(f"{by}{one}", lambda scene: by * scene.names[one]),
            Expression(f"({one} // {by})", lambda scene: scene.names[one] // by),
            Expression(f"({one} % {by})", lambda scene: scene.names[one] % by),
            Expression(f"(({one} - {two}) // {by})", lambda scene: (scene.names[one] - scene.names[two]) // by),
            Expression(f"({by}*({one} // {by}) - {two})", lambda scene: by * (scene.names[one] // by) - scene.names[two]),
            Expression(f"({two} - {one})", lambda scene: scene.names[two] - scene.names[one]),
            Expression(f"(-{one})", lambda scene: -scene.names[one]),
        ])

    # Values and tests; their numbers are words of the kind

    def leaf(self, scope, kind):
        random = self.random
        if random.random() < 0.06:
            literal = random.choice([1048576, 1048577, 2 ** (WIDTHS[kind] - 1), 2 ** WIDTHS[kind] - 1])
            return Expression(str(literal), lambda scene: reduced(kind, literal))
        index = self.index(scope)
        return Expression(index.text, lambda scene: reduced(kind, index.number(scene)))

    def read_of(self, cell, places):
        text = f"{cell.name}[{', '.join(place.text for place in places)}]" if places else cell.name
        return Expression(text, lambda scene: scene.store.read(cell.name, tuple(place.number(scene) for place in places), scene))

    def places_to_read(self, cell, scope):
        """Places at which a cell can be read in an instruction, or None."""
        shared = [iname for iname in scope if iname in cell.scope]
        if cell.sort != "input":
            if cell.sort == "temp" and any(iname in self.folded for iname in shared):
                return None
            if not cell.sizes and any(iname not in scope for iname in cell.scope):
                return None
            if cell.places is None and cell.sizes and shared:
                return None
        places = []
        for number, size in enumerate(cell.sizes):
            own = cell.places[number] if cell.places else None
            places.append(own.place() if own in shared else self.place_of(size, scope))
        return None if None in places else places

    def read(self, scope, kind):
        """A read of a cell of the kind, or None."""
        cells = [cell for cell in self.cells if cell.kind == kind and (cell.sort == "input" or cell.writers)]
        self.random.shuffle(cells)
        for cell in cells:
            places = self.places_to_read(cell, scope)
            if places is not None:
                self.reads.add(cell)
                return self.read_of(cell, places)
        return None

    def read_or_leaf(self, scope, kind):
        return self.read(scope, kind) or self.leaf(scope, kind)

    def value(self, scope, kind, depth):
        random = self.random
        if depth == 0:
            return random.choice([self.read_or_leaf, self.read_or_leaf, self.leaf])(scope, kind)
        makers = [self.operation] * 6 + [self.greater_or_less, self.turned, self.picked, self.cast, self.shifted, self.use, self.use]
        return random.choice(makers)(scope, kind, depth - 1)

    def operation(self, scope, kind, depth):
        sign = self.random.choice("+++---**&|^")
        one, two = self.value(scope, kind, depth), self.value(scope, kind, depth)
        work = OPERATIONS[sign]
        return Expression(f"({one.text} {sign} {two.text})", lambda scene: reduced(kind, work(one.number(scene), two.number(scene))))

    def greater_or_less(self, scope, kind, depth):
        word = self.random.choice(["min", "max"])
        one, two = self.value(scope, kind, depth), self.value(scope, kind, depth)
        first = f"1*{one.text}" if one.text in self.inames else one.text
        return Expression(f"{word}({first}, {two.text})", lambda scene: OPERATIONS[word](one.number(scene), two.number(scene)))

    def turned(self, scope, kind, depth):
        one = self.value(scope, kind, depth)
        if self.random.random() < 0.5:
            return Expression(f"(-{one.text})", lambda scene: reduced(kind, -one.number(scene)))
        return Expression(f"(~{one.text})", lambda scene: reduced(kind, ~one.number(scene)))

    def picked(self, scope, kind, depth):
        test = self.test(scope, kind, depth)
        one, two = self.value(scope, kind, depth), self.value(scope, kind, depth)
        text = f"if({test.text}, {one.text}, {two.text})"
        return Expression(text, lambda scene: one.number(scene) if test.number(scene) else two.number(scene))

    def cast(self, scope, kind, depth):
        other = self.random.choice(list(WIDTHS))
        read = self.read(scope, other)
        if read is None:
            return self.value(scope, kind, depth)
        more = self.leaf(scope, other)
        inner = Expression(f"{read.text} + {more.text}", lambda scene: reduced(other, read.number(scene) + more.number(scene)))
        inner = self.random.choice([read, inner])
        return Expression(f"cast({kind}, {inner.text})", lambda scene: reduced(kind, inner.number(scene)))

    def shifted(self, scope, kind, depth):
        one = self.value(scope, kind, depth)
        by = self.random.choice([0, 1, 3, 7, WIDTHS[kind] - 1])
        if kind[0] == "u" and self.random.random() < 0.5:
            return Expression(f"({one.text} >> {by})", lambda scene: one.number(scene) >> by)
        return Expression(f"({one.text} << {by})", lambda scene: reduced(kind, one.number(scene) << by))

    def use(self, scope, kind, depth):
        rules = [rule for rule in self.rules if rule.kind == kind]
        if not rules:
            return self.operation(scope, kind, depth)
        rule = self.random.choice(rules)
        places = [self.place(base, scope) for base in rule.bases]
        if None in places:
            return self.operation(scope, kind, depth)

        def number(scene):
            names = {name: place.number(scene) for name, place in zip(rule.parameters, places)}
            return rule.body.number(Scene({**self.parameters, **names}, scene.store))

        return Expression(f"{rule.name}({', '.join(place.text for place in places)})", number)

    def test(self, scope, kind, depth):
        random = self.random
        if depth > 0 and random.random() < 0.3:
            one, two = self.test(scope, kind, depth - 1), self.test(scope, kind, depth - 1)
            shape = random.randint(0, 2)
            if shape == 0:
                return Expression(f"({one.text} and {two.text})", lambda scene: one.number(scene) and two.number(scene))
            if shape == 1:
                return Expression(f"({one.text} or {two.text})", lambda scene: one.number(scene) or two.number(scene))
            return Expression(f"(not {one.text})", lambda scene: not one.number(scene))
        sign = random.choice(list(RELATIONS))
        read = self.read(scope, kind) if random.random() < 0.6 else None
        one, two = (read, self.value(scope, kind, min(depth, 1))) if read else (self.index(scope), self.index(scope))
        return Expression(f"({one.text} {sign} {two.text})", lambda scene: RELATIONS[sign](one.number(scene), two.number(scene)))

    def fold(self, scope, kind, number):
        """A reduction over one or two inames of its own."""
        random = self.random
        inames = []
        for count in range(random.choice([1, 1, 1, 2])):
            inames.append(self.make_iname(f"r{number}_{len(self.inames) + count}", scope + inames))
        self.add_inames(inames)
        self.folded += inames
        word = random.choice(list(FOLDS))
        sign = FOLDS[word]
        value = self.value(scope + inames, kind, random.randint(1, 2))
        names = inames[0].name if len(inames) == 1 else f"({', '.join(iname.name for iname in inames)})"

        def folded(scene):
            total = neutral(kind, sign)
            for point in self.points(inames, scene.names):
                total = reduced(kind, OPERATIONS[sign](total, value.number(scene.with_names(point))))
            return total

        return Expression(f"{word}({names}, {value.text})", folded)

    # Arrays, rules, instructions

    def add_array(self, name):
        random = self.random
        kind = self.kind if random.random() < 0.75 else random.choice(list(WIDTHS))
        sizes = [Size(self.base(), random.choice([0, 0, 0, 1, 2])) for _ in range(random.choice([1, 1, 2]))]
        self.cells.append(Cell(name, "input", kind, sizes))

    def make_rules(self):
        arrays = [cell for cell in self.cells if len(cell.sizes) == 1]
        if not arrays:
            return
        random = self.random
        cell = random.choice(arrays)
        times, more = random.randint(1, 5), random.randint(0, cell.sizes[0].more)
        place = Expression(f"x + {more}" if more else "x", lambda scene: scene.names["x"] + more)
        read = self.read_of(cell, [place])
        body = Expression(f"{read.text}*{times} + x", lambda scene: reduced(cell.kind, read.number(scene) * times + scene.names["x"]))
        first = Rule("f", cell.kind, ["x"], [cell.sizes[0].base], body)
        self.rules.append(first)
        if random.random() < 0.4:
            def difference(scene):
                other = scene.with_names({"x": scene.names["y"]})
                return reduced(cell.kind, body.number(scene) - body.number(other))

            self.rules.append(Rule("g", cell.kind, ["x", "y"], first.bases * 2, Expression("f(x) - f(y)", difference)))

    def make_instructions(self, number):
        """An instruction that stores to an output array, perhaps behind one that stores to a temporary which it may read."""
        random = self.random
        family = random.choice(self.families)
        scope = family[:random.randint(1, len(family))]
        if random.random() < 0.1:
            scope = self.some_of(family)
        if random.random() < 0.05:
            scope = []
        if random.random() < 0.35:
            self.store_to_temporary(number, scope)
        again = [cell for cell in self.cells if cell.sort == "output" and cell.places and not cell.is_read]
        if again and random.random() < 0.25:
            self.update_again(number, random.choice(again))
        else:
            self.store_to_output(number, scope)

    def some_of(self, family):
        scope = []
        for iname in family:
            if self.random.random() < 0.6 and (iname.needs is None or iname.needs in [other.name for other in scope]):
                scope.append(iname)
        return scope

    def begin(self):
        self.reads, self.folded = set(), []

    def end(self, instruction):
        """Adds an instruction, with the dependences that it has to name and some that it may name."""
        random = self.random
        cell, after = instruction.cell, list(instruction.cell.writers)
        instruction.is_named, instruction.is_free = random.random() < 0.85, random.random() < 0.1
        for read in sorted(instruction.reads, key=lambda read: read.name):
            read.is_read = True
            if len(read.writers) > 1 or instruction.is_free or random.random() < 0.15:
                after += read.writers
        instruction.after = list(dict.fromkeys(after))
        cell.writers.append(instruction)
        self.instructions.append(instruction)

    def predicate(self, scope, kind):
        return self.test(scope, kind, 2) if self.random.random() < 0.25 else None

    def store_to_temporary(self, number, scope):
        """A temporary of all inames' numbers, or an array with a place for each instance."""
        random = self.random
        kind = self.kind if random.random() < 0.8 else random.choice(list(WIDTHS))
        fixed = [iname for iname in scope if iname.size.isdigit()]
        name = f"t{number}"
        self.begin()
        read = self.read(scope, kind)
        if read is None:
            return
        rest = self.value(scope, kind, random.randint(0, 1))
        value = Expression(f"{read.text} + {rest.text}", lambda scene: reduced(kind, read.number(scene) + rest.number(scene)))
        if len(fixed) == len(scope) and scope and random.random() < 0.7:
            cell = Cell(name, "temp", kind, [Size(iname.size, 0) for iname in scope])
            cell.places, places, front = list(scope), [iname.place() for iname in scope], ""
        else:
            cell = Cell(name, "temp", kind, [])
            places, front = [], random.choice(["<> ", f"<{kind}> "])
        cell.scope = list(scope)
        test = self.test(scope, kind, 1) if random.random() < 0.1 else None
        self.cells.append(cell)
        instruction = Instruction(f"w{number}", cell, places, "=", value, test, list(scope), self.reads)
        instruction.front = front
        self.end(instruction)

    def store_to_output(self, number, scope):
        random = self.random
        kind = self.kind if random.random() < 0.9 else random.choice(list(WIDTHS))
        self.begin()
        cell = Cell(f"o{number}", "output", kind, [])
        cell.scope = list(scope)
        value = self.value(scope, kind, random.randint(0, 3))
        if random.random() < 0.35:
            one, fold = value, self.fold(scope, kind, number)
            both = Expression(f"{one.text} + {fold.text}", lambda scene: reduced(kind, one.number(scene) + fold.number(scene)))
            value = random.choice([fold, both])
        sign = random.choice(["=", "=", "=", "+="])
        if random.random() < 0.15 or not scope:
            cell.sizes, places, sign = [Size("4", 0)], [self.place("4", scope)], random.choice(list(UPDATES))
        else:
            order = random.sample(scope, len(scope))
            cell.sizes = [Size(iname.size, 0) for iname in order]
            places = [iname.place() for iname in order]
            cell.places = order
            if random.random() < 0.2:
                self.split_first_place(cell, places, order)
        if cell.places and sign == "=" and random.random() < 0.15:
            own, other = self.read_of(cell, places), value
            value = Expression(f"{own.text} - ({other.text})", lambda scene: reduced(kind, own.number(scene) - other.number(scene)))
        test = self.predicate(scope, kind)
        self.cells.append(cell)
        self.end(Instruction(f"s{number}", cell, places, sign, value, test, list(scope), self.reads))

    def split_first_place(self, cell, places, order):
        """Stores at two places for the first iname: what it is divided by a number, and what is left."""
        first, by = order[0].place(), self.random.choice([2, 3, 4])
        places[:1] = [
            Expression(f"({first.text}) // {by}", lambda scene: first.number(scene) // by),
            Expression(f"({first.text}) % {by}", lambda scene: first.number(scene) % by),
        ]
        cell.sizes[:1] = [cell.sizes[0], Size(str(by), 0)]
        cell.places = None

    def update_again(self, number, cell):
        """Updates the places of an output array behind the instruction that stores to it."""
        self.begin()
        scope = cell.scope
        value = self.value(scope, cell.kind, self.random.randint(0, 2))
        test = self.predicate(scope, cell.kind)
        if cell in self.reads:
            return
        places = [iname.place() for iname in cell.places]
        self.end(Instruction(f"s{number}", cell, places, self.random.choice(list(UPDATES)), value, test, list(scope), self.reads))

    # The texts

    def order_lines(self):
        """Instructions are sometimes written in another order than that in which they were made, and then all are named."""
        random = self.random
        self.written = list(self.instructions)
        if random.random() < 0.3:
            random.shuffle(self.written)
        for number, instruction in enumerate(self.written):
            if not instruction.is_named:
                instruction.id = f"insn_{number}"
        self.arrays = [cell for cell in self.cells if cell.sort != "temp"]
        if random.random() < 0.3:
            random.shuffle(self.arrays)

    def text(self):
        temporaries = [cell for cell in self.cells if cell.sort == "temp" and cell.sizes]
        lines = ["kernel 1", *self.domains, *self.assumptions]
        lines += [cell.declaration() for cell in self.arrays + temporaries]
        lines += [rule.text() for rule in self.rules]
        lines += [instruction.text() for instruction in self.written]
        return "\n".join(lines) + "\n"

    # What is stored

    def homes(self):
        """The inames that all users of a temporary have."""
        homes = {}
        for cell in self.cells:
            if cell.sort == "temp":
                users = [user for user in self.instructions if user.cell is cell or cell in user.reads]
                homes[cell.name] = [iname.name for iname in cell.scope if all(iname in user.scope for user in users)]
        return homes

    def stored(self):
        """The text of the output arrays after all instances: instruction by instruction, as they were made."""
        store = Store(self.words, self.homes())
        for instruction in self.instructions:
            for names in self.points(instruction.scope, self.parameters):
                self.run_instance(instruction, Scene(names, store))
        return self.outputs(store)

    def run_instance(self, instruction, scene):
        if instruction.test and not instruction.test.number(scene):
            return
        cell = instruction.cell
        place = tuple(place.number(scene) for place in instruction.places)
        word = instruction.value.number(scene)
        if instruction.sign != "=":
            old = scene.store.read(cell.name, place, scene)
            word = reduced(cell.kind, OPERATIONS[UPDATES[instruction.sign]](old, word))
        scene.store.put(cell.name, place, scene, word)
