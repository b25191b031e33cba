"""Random well-typed programs with helpers, for helpers.py and helper_faults.py.

`drawn(seed)` are the declarations of one. Its helpers call each other up to 8 deep and no circle closes. In most programs
a field under the lock of an object is reached only by parameters that are given stable paths, by a `let` of them, by a
`let` at the start of a section, or by `where`, so that no lock class comes before itself; in the others, the wild ones,
now and then by any `let`, which may make a cycle, or by anything, which may be an unstable base. With `lists` the sections
take classes whole, and then any of these are accepted more often.
"""

import random
import typing

LOCAL_NAMES = "a b c d e i j k l m r s u v w x y z next link owner sum first _ A1 value".split()
# Of each struct its fields: name, type, and what it takes to reach one: a root, an owned object, or anything.
FIELDS = {
    "ref N": [("v", "int", "owner"), ("w", "int", "own"), ("c", "int", "any")],
    "ref O": [("sum", "int", "own"), ("tag", "int", "any"), ("first", "ref N", "own"), ("spare", "ref N", "any")],
}
FIELDS["ref N"] += [("next", "ref N", "owner"), ("link", "ref N", "any")]


class Local(typing.NamedTuple):
    name: str
    type: str
    kind: str
    is_root: bool = False
    is_owned: bool = False


class Helper(typing.NamedTuple):
    """A helper; `returned` is the number of the parameter that it returns as it is, or nothing."""

    name: str
    parameters: list
    result: str
    locals: int
    cost: int
    depth: int
    returned: int


class World:
    """What a program declares but for its functions and threads."""

    def __init__(self, chance):
        self.chance = chance
        self.wild = chance.choices([None, "roots", "bases"], [15, 3, 2])[0]
        self.is_chain = chance.random() < 0.4
        self.locks = ["G", "H", "K"][: chance.randint(1, 3)]
        self.nodes, self.owners = chance.randint(1, 4), chance.randint(1, 3)
        self.fields = {kind: [f for f in fields if chance.random() < 0.85] for kind, fields in FIELDS.items()}
        self.numbers = ["n0", "n1", "n2"][: chance.randint(1, 3)]
        self.texts = [f"lock {name};" for name in self.locks]
        self.structs()
        for name in self.numbers:
            self.texts.append(f"global int {name} {self.under()} = {chance.randint(-9, 20)};")
        self.texts += [f"global int arr[3] {self.under()};", f"global ref N head {self.under()} = q[0];"]
        self.texts += [f"global ref O own {self.under()};", f"global ref N refs[2] {self.under()};"]

    def under(self):
        return f"protected_by({self.chance.choice(self.locks)})"

    def structs(self):
        chance = self.chance
        for kind, first in (("N", ["lock l;", "final ref O owner;"]), ("O", ["lock l;"])):
            members = list(first)
            for name, of, guard in self.fields[f"ref {kind}"]:
                lock = {"owner": "protected_by(owner.l)", "own": "protected_by(l)", "any": self.under()}[guard]
                members.append(f"{of} {name} {lock};")
            chance.shuffle(members)
            self.texts.append(f"struct {kind} {{ {' '.join(members)} }}")
        self.texts += [f"pool N q[{self.nodes}];", f"pool O o[{self.owners}];"]
        for number in range(self.nodes):
            self.texts.append(f"init q[{number}].owner = o[{chance.randrange(self.owners)}];")
            for name, of, _ in self.fields["ref N"]:
                value = chance.randint(-5, 9) if of == "int" else f"q[{chance.randrange(self.nodes)}]"
                if chance.random() < 0.7:
                    self.texts.append(f"init q[{number}].{name} = {value};")


class Body:
    """A function that is being made."""

    def __init__(self, world, helpers, room):
        self.world, self.chance, self.helpers, self.room = world, world.chance, helpers, room
        self.known, self.names = [], set()
        self.locals, self.cost, self.depth, self.times = 0, 0, 1, 1

    def is_wild(self, what, often):
        return self.world.wild == what and self.chance.random() < often

    def fresh(self):
        left = [n for n in LOCAL_NAMES if n not in self.names]
        name = self.chance.choice(left) if left else f"local{len(self.names)}"
        self.names.add(name)
        self.locals += 1
        return name

    def index(self, size):
        kind = self.chance.random()
        if kind < 0.6 and size:
            return str(self.chance.randrange(size))
        inner = self.number(0)
        return f"({inner} % {size} + {size}) % {size}" if kind < 0.97 and size else inner

    def bases(self, kind):
        """Texts that are references of this type, with whether each is a root and whether it is owned."""
        for local in self.known:
            is_root = local.is_root or (local.kind != "var" and self.is_wild("roots", 0.2))
            if local.type == kind:
                yield local.name, is_root, local.is_owned
            if kind == "ref O" and local.type == "ref N":
                yield f"{local.name}.owner", is_root or local.is_owned, False

    def accesses(self, of):
        """Accesses to fields of a type that this function may make."""
        for kind, fields in self.world.fields.items():
            for base, is_root, is_owned in self.bases(kind):
                for name, type_, guard in fields:
                    may = {"any": True, "own": is_root, "owner": is_root or is_owned}[guard]
                    if type_ == of and (may or self.is_wild("bases", 0.7)):
                        yield f"{base}.{name}"

    def atom(self):
        of = [[local.name for local in self.known if local.type == "int"], self.world.numbers, list(self.accesses("int"))]
        kind = self.chance.random()
        if kind < 0.25:
            return str(self.chance.choice([0, 1, 2, 3, 7, 10, 1000, 9223372036854775807][: 8 if kind < 0.03 else 6]))
        if kind < 0.33:
            return f"arr[{self.index(3)}]"
        return self.chance.choice(self.chance.choice([names for names in of if names]))

    def number(self, depth):
        kind = self.chance.random()
        if depth == 0 or kind < 0.35:
            return self.atom()
        if kind < 0.75:
            return f"{self.number(depth - 1)} {self.chance.choice('+-+-*')} {self.number(depth - 1)}"
        if kind < 0.88:
            right = str(self.chance.randint(1, 9)) if self.chance.random() < 0.9 else self.atom()
            return f"{self.atom()} {self.chance.choice('/%')} {right}"
        return f"{self.chance.choice(['-', ''])}({self.number(depth - 1)})"

    def truth(self, depth):
        kind = self.chance.random()
        if depth and kind < 0.25:
            return f"{self.truth(depth - 1)} {self.chance.choice(['&&', '||'])} {self.truth(depth - 1)}"
        if depth and kind < 0.35:
            return f"!({self.truth(depth - 1)})"
        if kind < 0.55:
            of = self.chance.choice(["ref N", "ref O"])
            return f"{self.reference(of)} {self.chance.choice(['==', '!='])} {self.reference(of)}"
        return f"{self.number(1)} {self.chance.choice(['==', '!=', '<', '<=', '>', '>='])} {self.number(1)}"

    def reference(self, of):
        pool, size, names = ("q", self.world.nodes, ["head"]) if of == "ref N" else ("o", self.world.owners, ["own"])
        kind = self.chance.random()
        if kind < 0.05:
            return "null"
        if kind < 0.3:
            return f"{pool}[{self.index(size)}]"
        if of == "ref N" and kind < 0.38:
            return f"refs[{self.index(2)}]"
        bases = [base for base, _, _ in self.bases(of)]
        each = [texts for texts in (bases, bases, list(self.accesses(of)), names) if texts]
        return self.chance.choice(self.chance.choice(each))

    def value(self, of, depth=2):
        return self.number(depth) if of == "int" else self.reference(of)

    def any_type(self):
        return self.chance.choice(["int", "int", "int", "ref N", "ref N", "ref O"])

    def block(self, depth, most, last=""):
        known = self.known
        self.known = list(known)
        made = [self.statement(depth) for _ in range(self.chance.randint(0, most))]
        self.known = known
        return "{ " + " ".join(made) + f" {last}}}"

    def statement(self, depth):
        self.cost += self.times
        kinds = [(self.binding, 4), (self.assignment, 6), (self.told, 1), (self.call, 7)]
        if depth:
            kinds += [(self.branch, 2), (self.loop, 2)]
        made = self.chance.choices([k for k, _ in kinds], [w for _, w in kinds])[0]
        return made(depth) or self.assignment(depth)

    def binding(self, _):
        if self.locals >= self.room:
            return None
        kind, is_wild = self.chance.random(), self.is_wild("bases", 0.3)
        roots = [(base, of) for of in ("ref N", "ref O") for base, is_root, _ in self.bases(of) if is_root]
        owners = [local for local in self.known if local.type == "ref O" and (is_wild or local.is_root)]
        if kind < 0.25 and roots:
            text, of = self.chance.choice(roots)
            made = Local(self.fresh(), of, "let", True)
        elif kind < 0.5 and owners:
            owner, text = self.chance.choice(owners).name, self.reference("ref N")
            made = Local(self.fresh(), "ref N", "let", False, True)
            text += f" where owner == {owner}"
        else:
            of = self.any_type()
            text = self.value(of)
            made = Local(self.fresh(), of, self.chance.choice(["let", "var"]))
        self.known.append(made)
        return f"{'var' if made.kind == 'var' else 'let'} {made.name}: {made.type} = {text};"

    def assignment(self, _):
        of = self.any_type()
        lefts = [[local.name for local in self.known if local.kind == "var" and local.type == of], list(self.accesses(of))]
        if of == "int":
            lefts += [self.world.numbers, [f"arr[{self.index(3)}]"]]
        else:
            lefts += [["head", f"refs[{self.index(2)}]"] if of == "ref N" else ["own"]]
        left = self.chance.choice(self.chance.choice([each for each in lefts if each]))
        right = self.value(of)
        if of == "int" and self.chance.random() < 0.4:
            right = f"({right}) % 1000"
        return f"{left} = {right};"

    def told(self, _):
        return f"print {self.number(1)};"

    def branch(self, depth):
        test = self.truth(1)
        text = f"if ({test}) {self.block(depth - 1, 3)}"
        return text + (f" else {self.block(depth - 1, 3)}" if self.chance.random() < 0.4 else "")

    def loop(self, depth):
        if self.locals >= self.room:
            return None
        name = self.fresh()
        turns = self.chance.randint(0, 4)
        if self.times == 1 and self.chance.random() < 0.03:
            turns = self.chance.choice([257, 300, 999, 1000, 1001])
        self.known.append(Local(name, "int", "let"))
        more = f" && ({self.truth(1)})" if self.chance.random() < 0.2 else ""
        times, self.times = self.times, self.times * max(turns, 1)
        inner = self.block(depth - 1, 3, f"{name} = {name} + 1; ")
        self.times = times
        return f"var {name}: int = 0; while ({name} < {turns}{more}) {inner}"

    def argument(self, parameter):
        if parameter.type == "int":
            return self.number(2)
        if parameter.is_root and not self.is_wild("roots", 0.15):
            roots = [base for base, is_root, _ in self.bases(parameter.type) if is_root]
            roots = [f"({base})" if self.is_wild("roots", 0.15) else base for base in roots]
            return self.chance.choice(roots) if roots else None
        return self.reference(parameter.type)

    def call(self, _):
        fit = [h for h in self.helpers if h.cost * self.times + self.cost < 6000]
        fit = [h for h in fit if h.locals + self.locals < self.room]
        if not fit:
            return None
        last = fit[-1:] if self.world.is_chain else fit[-3:]
        helper = self.chance.choice(last if self.chance.random() < 0.7 else fit)
        arguments = [self.argument(parameter) for parameter in helper.parameters]
        if None in arguments:
            return None
        self.locals += helper.locals
        self.cost += helper.cost * self.times
        self.depth = max(self.depth, helper.depth + 1)
        text = f"call {helper.name}({', '.join(arguments)});"
        if not helper.result or self.chance.random() < 0.3:
            self.locals += bool(helper.result)
            return text
        made = Local(self.fresh(), helper.result, "let", helper.returned is not None)
        self.known.append(made)
        return f"let {made.name}: {made.type} = {text}"

    def parameters(self, most, all_roots):
        for _ in range(self.chance.randint(0, most)):
            of = self.any_type()
            is_root = of != "int" and (all_roots or self.chance.random() < 0.65)
            self.known.append(Local(self.fresh(), of, "parameter", is_root))
        return list(self.known)

    def result(self, parameters):
        """A result type, the text of what is returned, and the number of the parameter that it is."""
        roots = [number for number, parameter in enumerate(parameters) if parameter.is_root]
        kind = self.chance.random()
        if kind < 0.3:
            return None, "", None
        if kind < 0.45 and roots:
            number = self.chance.choice(roots)
            return parameters[number].type, f"return {parameters[number].name}; ", number
        of = self.any_type()
        return of, f"return {self.value(of)}; ", None


def beginning(body, word):
    """Statements at the start of a function: in a section a few `let`s of roots, and mostly a call."""
    chance, world, texts = body.chance, body.world, []
    while word == "atomic" and chance.random() < 0.3:
        of = chance.choice(["ref N", "ref O"])
        value = chance.choice(["head", "q[0]", f"q[{world.nodes - 1}]"] if of == "ref N" else ["own", "o[0]"])
        name = body.fresh()
        texts.append(f"let {name}: {of} = {value};")
        body.known.append(Local(name, of, "let", True))
    if chance.random() < (0.9 if world.is_chain else 0.4):
        texts.append(body.call(2) or "")
    return "".join(text + " " for text in texts)


def function(world, word, name, helpers):
    """The text of a section or helper, and what calls of it bring."""
    chance = world.chance
    room = (80 if world.wild else 64) if word == "atomic" else 50 if world.is_chain else chance.choice([6, 12, 30, 50])
    body = Body(world, helpers, room)
    parameters = body.parameters(2 if world.is_chain else 4, word == "atomic")
    if word == "call" and chance.random() < 0.05:
        return f"call {name}() {{ }}", Helper(name, [], None, 0, 1, 1, None)
    before = beginning(body, word)
    of, last, returned = body.result(parameters)
    inner = body.block(2, 3 if world.is_chain and word == "call" else 6, last)
    head = ", ".join(f"{p.type} {p.name}" for p in parameters)
    text = f"{word} {name}({head}){f': {of}' if of else ''} {{ {before}{inner[1:]}"
    return text, Helper(name, parameters, of, body.locals, body.cost + 1, body.depth, returned)


def thread(world, name, sections):
    chance, calls = world.chance, []
    for _ in range(chance.randint(1, 5)):
        section = chance.choice(sections)
        values = []
        for parameter in section.parameters:
            pool, size = ("q", world.nodes) if parameter.type == "ref N" else ("o", world.owners)
            value = f"{pool}[{chance.randrange(size)}]" if chance.random() < 0.95 else "null"
            values.append(str(chance.randint(-3, 12)) if parameter.type == "int" else value)
        call = f"{section.name}({', '.join(values)});"
        calls.append(f"repeat 2 {{ {call} }}" if chance.random() < 0.1 else call)
    return f"thread {name} {{ {' '.join(calls)} }}"


def with_classes(chance, text):
    """A section that lists classes, mostly."""
    listed = [name for name in ("N.l", "O.l") if chance.random() < 0.6]
    chance.shuffle(listed)
    head, brace, body = text.partition(" {")
    return f"{head} lock({', '.join(listed)}){brace}{body}" if listed else text


def drawn(seed, lists=False):
    """The texts of the declarations of a program. If it lists classes, it is the same program but for the heads of sections."""
    chance = random.Random(seed)
    world = World(chance)
    texts, helpers, sections = world.texts, [], []
    for number in range(chance.randint(6, 12) if world.is_chain else chance.randint(1, 9)):
        text, helper = function(world, "call", f"h{number}", [h for h in helpers if h.depth < 8])
        texts.append(text)
        helpers.append(helper)
    for number in range(chance.randint(1, 4)):
        text, section = function(world, "atomic", f"f{number}", helpers)
        texts.append(with_classes(random.Random(f"{seed} {number}"), text) if lists else text)
        sections.append(section)
    texts += [thread(world, f"t{number}", sections) for number in range(chance.randint(1, 3))]
    if chance.random() < 0.5:
        chance.shuffle(texts)
    return texts


def laid_out(seed, words):
    """A text of these tokens, with white space and comments between them."""
    chance, pieces = random.Random(seed), []
    for word in words:
        pieces.append(word)
        if word in ";{}" and chance.random() < 0.7:
            pieces.append(chance.choice(["\n", "\n  ", "\n\t", " // h(1) } call\n", "\r\n"]))
        else:
            pieces.append(" " if word not in "()[].,;" or chance.random() < 0.3 else "")
    return "".join(pieces)
