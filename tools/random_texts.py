"""Random inputs: well-formed libraries, damaged ones, and bytes at random."""

import case_texts
from case_texts import encoded, lines

OPERATIONS = ["add", "sub", "mul", "less", "equal"]
WORDS = [
    "type", "var", "method", "global", "term", "unit", "int", "pair", "fun", "abstract", "public", "private",
    "num", "meth", "get", "lam", "set", "op", "fst", "snd", "app", "if", "let", "assert", "arith", "word",
    "counter", "play",
] + OPERATIONS
NUMBERS = [
    "0", "1", "2", "3", "7", "8", "9", "10", "15", "16", "17", "63", "64", "65", "1023", "1024", "1025", "2047",
    "2048", "2049", "4095", "4096", "4097", "65534", "65535", "65536", "2147483647", "2147483648", "4294967295",
    "4294967296", "-1", "-2147483648", "-2147483649",
]
BADLY_WRITTEN = [
    "", "-0", "+1", "007", "00", "-", "--1", "01", "1 ", " 1", "1\r", "\0", "\xff", "0x1", "1.0", "1e3", "-01", "1/", "1:",
    "18446744073709551616", "99999999999999999999999999",
]
BYTES = b"0123456789,,,,\n\n\n-+ /:\r\0\xff" + bytes(range(97, 123))


# Well-formed libraries

class Draft:
    """A library that grows row by row; types and terms are kept as tuples."""

    def __init__(self, random):
        self.random = random
        self.types, self.leaves = [], []
        self.variables, self.methods, self.globals = [], [], []
        self.terms, self.term_types, self.free = [], [], []

    def add_type(self, row):
        """Adds a type if it is new and has at most four leaves."""
        leaves = self.leaves[row[1]] + self.leaves[row[2]] if row[0] == "pair" else 1
        if leaves <= 4 and row not in self.types and len(self.types) < 64:
            self.types.append(row)
            self.leaves.append(leaves)

    def add_random_types(self, count):
        """Adds up to this many types that have parts."""
        for _ in range(count):
            if self.types:
                form = self.random.choice(["pair", "fun", "fun"])
                number = len(self.types)
                self.add_type((form, self.random.randrange(number), self.random.randrange(number)))

    def numbers_of(self, form):
        """The numbers of the types of one form."""
        return [number for number, row in enumerate(self.types) if row[0] == form]

    def add_term(self, row, type_number, free):
        """Adds a term and gives its number."""
        self.terms.append(row)
        self.term_types.append(type_number)
        self.free.append(frozenset(free))
        return len(self.terms) - 1

    def rows(self):
        """The library's lines."""
        sections = [("type", self.types), ("var", self.variables), ("method", self.methods)]
        sections += [("global", self.globals), ("term", self.terms)]
        return [
            ",".join([word, str(number)] + [str(field) for field in row])
            for word, rows in sections
            for number, row in enumerate(rows)
        ]


def typed_library(random):
    """The lines of a well-typed library."""
    draft = Draft(random)
    for form in random.sample(["unit", "int"], 2):
        draft.add_type((form,))
    draft.add_random_types(random.choice([1, 3, 8, 20]))
    functions = draft.numbers_of("fun")
    arguments = sorted({draft.types[number][1] for number in functions})
    others = [random.randrange(len(draft.types)) for _ in range(random.randrange(4))]
    draft.variables = [(number,) for number in arguments + others]
    method_types = [random.choice(functions) for _ in range(random.randrange(6))] if functions else []
    methods = [(random.choice(["abstract", "public", "private"]), number) for number in method_types]
    global_types = [random.choice(draft.numbers_of("int") + functions) for _ in range(random.randrange(4))]
    draft.methods = methods
    draft.globals = [(number,) for number in global_types]
    for _ in range(random.choice([0, 5, 30, 100])):
        add_typed_term(draft)
    draft.methods = [
        (form, number) if form == "abstract" else (form, number, closed_value(draft, number)) for form, number in methods
    ]
    draft.globals = [(number, closed_value(draft, number)) for number in global_types]
    return draft.rows()


def closed_value(draft, type_number):
    """A closed term of a type: a `num` for an int, a `lam` for a function; some term that is there, or a new one."""
    row = draft.types[type_number]
    word = {"unit": "unit", "int": "num", "pair": "pair", "fun": "lam"}[row[0]]
    there = [
        number for number, term in enumerate(draft.terms)
        if term[0] == word and draft.term_types[number] == type_number and not draft.free[number]
    ]
    if there and draft.random.random() < 0.8:
        return draft.random.choice(there)
    if row[0] == "unit":
        return draft.add_term(("unit",), type_number, ())
    if row[0] == "int":
        return draft.add_term(("num", draft.random.choice([0, 1, -1, 5, -2147483648, 2147483647])), type_number, ())
    if row[0] == "pair":
        parts = closed_value(draft, row[1]), closed_value(draft, row[2])
        return draft.add_term(("pair",) + parts, type_number, ())
    body = closed_value(draft, row[2])
    return draft.add_term(("lam", draft.variables.index((row[1],)), body), type_number, ())


def add_typed_term(draft):
    """Tries to add one random term that is well typed and whose type is listed."""
    random = draft.random
    make = random.choice([simple_term, binder_term, pair_term, int_term, use_term])
    found = make(draft, lambda: random.randrange(len(draft.terms)))
    if found is None:
        return
    row, type_, free = found
    if type_ in draft.types:
        type_ = draft.types.index(type_)
    if isinstance(type_, int):
        draft.add_term(row, type_, free)


def simple_term(draft, _):
    """A term without parts."""
    random = draft.random
    choices = [(("unit",), ("unit",), ()), (("num", random.randrange(-3, 4)), ("int",), ())]
    if draft.variables:
        number = random.randrange(len(draft.variables))
        choices.append((("var", number), draft.variables[number][0], (number,)))
    if draft.methods:
        number = random.randrange(len(draft.methods))
        choices.append((("meth", number), draft.methods[number][1], ()))
    if draft.globals:
        number = random.randrange(len(draft.globals))
        choices.append((("get", number), draft.globals[number][0], ()))
    return random.choice(choices)


def binder_term(draft, some_term):
    """A `lam`, or a `let` whose value has the variable's type."""
    if not draft.variables or not draft.terms:
        return None
    variable = draft.random.randrange(len(draft.variables))
    declared = draft.variables[variable][0]
    body, value = some_term(), some_term()
    inside = draft.free[body] - {variable}
    if draft.random.random() < 0.6:
        return ("lam", variable, body), ("fun", declared, draft.term_types[body]), inside
    if draft.term_types[value] != declared:
        return None
    return ("let", variable, value, body), draft.term_types[body], draft.free[value] | inside


def pair_term(draft, some_term):
    """A pair, or one part of a pair."""
    if not draft.terms:
        return None
    a, b = some_term(), some_term()
    listed = draft.types[draft.term_types[a]]
    if listed[0] == "pair" and draft.random.random() < 0.7:
        word, part = draft.random.choice([("fst", 1), ("snd", 2)])
        return (word, a), listed[part], draft.free[a]
    return ("pair", a, b), ("pair", draft.term_types[a], draft.term_types[b]), draft.free[a] | draft.free[b]


def int_term(draft, some_term):
    """An operation, a condition or an assertion."""
    ints = [number for number, type_ in enumerate(draft.term_types) if draft.types[type_] == ("int",)]
    if not ints:
        return None
    a, b, c = draft.random.choice(ints), draft.random.choice(ints), some_term()
    same = [number for number, type_ in enumerate(draft.term_types) if type_ == draft.term_types[c]]
    other = draft.random.choice(same)
    return draft.random.choice([
        (("op", draft.random.choice(OPERATIONS), a, b), ("int",), draft.free[a] | draft.free[b]),
        (("if", a, c, other), draft.term_types[c], draft.free[a] | draft.free[c] | draft.free[other]),
        (("assert", a), ("unit",), draft.free[a]),
    ])


def use_term(draft, some_term):
    """An application, or a global that is set."""
    if not draft.terms:
        return None
    function, value = some_term(), some_term()
    listed = draft.types[draft.term_types[function]]
    if listed[0] == "fun" and listed[1] == draft.term_types[value]:
        return ("app", function, value), listed[2], draft.free[function] | draft.free[value]
    fitting = [number for number, row in enumerate(draft.globals) if row[0] == draft.term_types[value]]
    if not fitting:
        return None
    return ("set", draft.random.choice(fitting), value), ("unit",), draft.free[value]


def readable_library(random):
    """The lines of a library that can be read but need not be well typed; sometimes with full sections."""
    draft = Draft(random)
    full = random.random() < 0.1
    size = {word: limit if full else random.randrange(min(limit, 12) + 1) for word, limit in case_texts.LIMITS.items()}
    for form in random.sample(["unit", "int"], random.randrange(3)):
        draft.add_type((form,))
    draft.add_random_types(3 * size["type"])
    if draft.types:
        type_number = lambda: random.randrange(len(draft.types))
        draft.variables = [(type_number(),) for _ in range(size["var"])]
        draft.methods = [random_method(random, type_number()) for _ in range(size["method"])]
        draft.globals = [(type_number(), random.randrange(65536)) for _ in range(size["global"])]
    for _ in range(size["term"] if full else 4 * size["term"]):
        draft.terms.append(random_term(draft))
    return draft.rows()


def random_method(random, type_number):
    """The fields of a method with any term."""
    form = random.choice(["abstract", "public", "private"])
    return (form, type_number) if form == "abstract" else (form, type_number, random.randrange(65536))


def random_term(draft):
    """The fields of a term with parts that are there, of any type."""
    random = draft.random
    choices = [("unit",), ("num", random.randrange(-2 ** 31, 2 ** 31))]
    part = lambda: random.randrange(len(draft.terms))
    pick = lambda rows: random.randrange(len(rows))
    if draft.methods:
        choices.append(("meth", pick(draft.methods)))
    if draft.globals:
        choices.append(("get", pick(draft.globals)))
    if draft.variables:
        choices.append(("var", pick(draft.variables)))
    if draft.terms:
        choices += [("op", random.choice(OPERATIONS), part(), part()), ("if", part(), part(), part())]
        choices += [(word, part(), part()) for word in ("pair", "app")]
        choices += [(word, part()) for word in ("fst", "snd", "assert")]
        if draft.variables:
            choices += [("lam", pick(draft.variables), part()), ("let", pick(draft.variables), part(), part())]
        if draft.globals:
            choices.append(("set", pick(draft.globals), part()))
    return random.choice(choices)


def random_heading(random):
    """Two head lines with settings and bounds inside their limits."""
    count = random.choice([1, 2, 5, 4095, 4096])
    if random.random() < 0.5:
        low = random.choice([-2147483648, -count // 2, 0, 2147483648 - count])
        kind = "word,%d,%d" % (low, low + count - 1)
    else:
        top = random.choice([count, 65535, max(count - 1, 1)])
        low = random.randrange(top - count + 2)
        kind = "counter,%d,%d,%d" % (top, low, low + count - 1)
    bounds = (random.choice([0, 2, 16]), random.choice([0, 1, 8]), random.choice([1, 64, 2048]))
    return ["arith," + kind, "play,%d,%d,%d" % bounds]


def well_formed(random):
    """The lines of a whole input that can be read."""
    library = random.choice([
        typed_library, typed_library, readable_library,
        lambda _: case_texts.CALLBACK_ASSERTS_FLAG, lambda _: case_texts.ADD_THEN_SUBTRACT_ONE,
        lambda _: case_texts.EVERY_FORM,
    ])
    return random_heading(random) + list(library(random))


# Damage

def damage_byte(random, rows):
    """One byte deleted, changed or put in."""
    data = bytearray(encoded(lines(*rows)))
    place = random.randrange(len(data))
    byte = random.choice(BYTES) if random.random() < 0.9 else random.randrange(256)
    change = random.randrange(3)
    data[place:place + (change != 2)] = b"" if change == 0 else bytes([byte])
    return bytes(data).decode("latin-1")


def damage_lines(random, rows):
    """Two lines swapped, one doubled, one dropped, or one moved."""
    rows = list(rows)
    a, b = random.randrange(len(rows)), random.randrange(len(rows))
    change = random.randrange(4)
    if change == 0:
        rows[a], rows[b] = rows[b], rows[a]
    elif change == 1:
        rows.insert(a, rows[random.choice([a, b])])
    elif change == 2:
        del rows[a]
    else:
        rows.insert(b, rows.pop(a))
    return lines(*rows)


def damage_field(random, rows):
    """One field replaced, dropped or doubled; a number is often moved only a little."""
    rows = list(rows)
    place = random.randrange(len(rows)) if random.random() < 0.85 else random.randrange(2)
    fields = rows[place].split(",")
    at = random.randrange(len(fields))
    change = random.random()
    if change < 0.1:
        del fields[at]
    elif change < 0.2:
        fields.insert(at, random.choice([fields[at], "", "0"]))
    else:
        fields[at] = other_field(random, fields[at])
    rows[place] = ",".join(fields)
    return lines(*rows)


def other_field(random, field):
    """Something else for a field."""
    if field.lstrip("-").isdigit() and random.random() < 0.6:
        return str(int(field) + random.choice([-2, -1, 1, 2, random.randrange(-9, 10)]))
    return random.choice([random.choice(WORDS), random.choice(NUMBERS), random.choice(BADLY_WRITTEN), field.upper()])


def damage_number(random, rows):
    """One number of the library moved a little, so that the row keeps its form."""
    rows = list(rows)
    place = random.randrange(min(2, len(rows) - 1), len(rows))
    fields = rows[place].split(",")
    numbers = [at for at, field in enumerate(fields) if field.isdigit() and at != 1]
    if numbers:
        at = random.choice(numbers)
        fields[at] = str(max(0, int(fields[at]) + random.randrange(-3, 4)))
    rows[place] = ",".join(fields)
    return lines(*rows)


def damage_word(random, rows):
    """The form of a row replaced by another form with as many fields."""
    rows = list(rows)
    place = random.randrange(len(rows))
    fields = rows[place].split(",")
    alike = [row.split(",") for row in case_texts.EVERY_FORM]
    alike = [other for other in alike if other[0] == fields[0] and len(other) == len(fields)]
    if alike and len(fields) > 2:
        fields[2] = random.choice(alike)[2]
    rows[place] = ",".join(fields)
    return lines(*rows)


def damage_end(random, rows):
    """The text cut off somewhere, or lines ended otherwise."""
    text = lines(*rows)
    change = random.randrange(4)
    if change == 0:
        return text[:random.randrange(len(text) + 1)]
    if change == 1:
        return text[:-1]
    if change == 2:
        return text.replace("\n", "\r\n")
    return text + random.choice(["\n", ",", "\0", "x", "term", "type,0,unit\n"])


DAMAGES = [damage_byte] * 3 + [damage_field] * 4 + [damage_number] * 4 + [damage_word, damage_lines, damage_end]


def damaged(random):
    """A well-formed input with one damage, or a few."""
    text = lines(*well_formed(random))
    for _ in range(random.choice([1, 1, 1, 2, 3])):
        rows = text.split("\n")[:-1]
        if len(rows) > 0:
            text = random.choice(DAMAGES)(random, rows)
    return encoded(text)


# Other inputs

def one_more_row(random):
    """A well-formed input with one more row at the end of a section, which has some fault or none."""
    rows = well_formed(random)
    words = list(case_texts.LIMITS)
    word = random.choice(words + ["type", "term"])
    earlier = words[:words.index(word) + 1]
    end = 2 + sum(row.split(",")[0] in earlier for row in rows[2:])
    count = sum(row.startswith(word + ",") for row in rows)
    shapes = [row.split(",")[2:] for row in case_texts.EVERY_FORM + rows if row.startswith(word + ",")]
    numbers = NUMBERS + [str(count), str(count - 1), "0", "1"] * 5
    shape = random.choice(shapes)
    if random.random() < 0.7:
        shape = [random.choice(numbers) if field.lstrip("-").isdigit() else field for field in shape]
    running = str(count + random.choice([0] * 8 + [1, -1]))
    return encoded(lines(*rows[:end], ",".join([word, running] + shape), *rows[end:]))


def any_heading(random):
    """Head lines with numbers about the limits, and an example library."""
    near = lambda *limits: str(random.choice(limits) + random.choice([-1, 0, 0, 0, 1]))
    low = random.choice([-2147483648, -2048, 0, 1, 61440, 2147479552])
    high = str(low + random.choice([-1, 0, 1, 3, 4094, 4095, 4096, 65535]))
    kind = random.choice([["word"], ["counter", near(0, 1, 4095, 4096, 65535)]])
    head = [["arith"] + kind + [str(low), high], ["play", near(0, 16), near(0, 8), near(0, 1, 2048)]]
    if random.random() < 0.2:
        line = random.choice(head)
        line[random.randrange(len(line))] = random.choice(NUMBERS + BADLY_WRITTEN)
    return encoded(lines(*[",".join(line) for line in head], *case_texts.CALLBACK_ASSERTS_FLAG))


def random_fields(random):
    """Lines of words and numbers at random, after two good head lines or none."""
    rows = random_heading(random) if random.random() < 0.8 else []
    pool = WORDS + NUMBERS + BADLY_WRITTEN
    for _ in range(random.randrange(1, 6)):
        rows.append(",".join(random.choice(pool) for _ in range(random.randrange(1, 7))))
    return encoded(lines(*rows))


def random_bytes(random):
    """Bytes at random, after two good head lines or none."""
    head = encoded(lines(*random_heading(random))) if random.random() < 0.6 else b""
    pool = random.choice([BYTES, bytes(range(256)), b"0123456789,\n", b"\n"])
    return head + bytes(random.choice(pool) for _ in range(random.randrange(0, 200)))


def about_most_bytes(random):
    """A library text whose length is just at the limit, with a fault somewhere or only at its end."""
    head = encoded(lines(*random_heading(random)))
    body = damaged(random) if random.random() < 0.3 else encoded(lines(*typed_library(random)))
    size = case_texts.MOST_BYTES + random.choice([-1, 0, 0, 1, 1, 2])
    padding = random.choice([b"x", b"1", b",", b"\n", b"\0"])
    text = body + padding * max(size - len(body) - 1, 0)
    return head + text + random.choice([b"\n", b"x"])


def accepted(random):
    """An input that can be read."""
    return encoded(lines(*well_formed(random)))


KINDS = [
    ("damaged", damaged, 55), ("well formed", accepted, 12), ("one more row", one_more_row, 15),
    ("any heading", any_heading, 6), ("random fields", random_fields, 5), ("random bytes", random_bytes, 5),
    ("about the most bytes", about_most_bytes, 2),
]


def random_input(random):
    """The name of a kind of input and an input of it."""
    name, make, _ = random.choices(KINDS, weights=[weight for _, _, weight in KINDS])[0]
    return name, make(random)
