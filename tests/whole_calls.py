"""What the calls of a program do when each runs whole, with its helpers, by the words of docs/LANGUAGE.md.

`Calls(program, turns).serial()` is the text that `serial` has to write of a `Program` that is accepted, or of which no
lock path is judged. A helper is run as such: nothing is written out.
"""

LEAST, GREATEST = -(2**63), 2**63 - 1
MOST_PRINTS = 256
COMPARED = {
    "==": lambda a, b: a == b,
    "!=": lambda a, b: a != b,
    "<": lambda a, b: a < b,
    "<=": lambda a, b: a <= b,
    ">": lambda a, b: a > b,
    ">=": lambda a, b: a >= b,
}


class Trap(Exception):
    pass


class Unsettled(Exception):
    pass


def fitting(number):
    if not LEAST <= number <= GREATEST:
        raise Trap(3)
    return number


def calculated(sign, left, right):
    if sign in "+-*":
        return fitting({"+": left + right, "-": left - right, "*": left * right}[sign])
    if right == 0:
        raise Trap(4)
    whole = fitting(abs(left) // abs(right) * (1 if (left < 0) == (right < 0) else -1))
    return whole if sign == "/" else left - whole * right


def shown(value):
    return "null" if value is None else f"{value[0]}[{value[1]}]" if isinstance(value, tuple) else str(value)


def constant(words):
    """The value of a constant: a number, null, or a pool's name and an index."""
    if words[0] == "-":
        return -int(words[1])
    if words[0].isdigit():
        return int(words[0])
    return None if words[0] == "null" else (words[0], int(words[2]))


class Calls:
    """The cells of a program, which are named by a global, its name and an index, or a pool, an index and a field."""

    def __init__(self, program, turns):
        self.program, self.word, self.turns = program, program.word, turns
        self.cells, self.final, self.sizes = {}, {}, {}
        self.sections = {self.word(section.name): section for section in program.sections}
        structs = {self.word(d.name): d for d in program.declarations if d.kind == "struct"}
        opening = []
        for declaration in program.declarations:
            words = [self.word(number) for number in range(declaration.first, declaration.end)]
            if declaration.kind == "init":
                opening.append(((words[1], int(words[3]), words[6]), words[8:]))
            elif declaration.kind in ("global", "pool"):
                self.declare(declaration, structs, words)
                if "=" in words:
                    opening.append(((self.word(declaration.name),), words[words.index("=") + 1 :]))
        for cell, words in opening:
            (self.cells if cell in self.cells else self.final)[cell] = constant(words)

    def declare(self, declaration, structs, words):
        name = self.word(declaration.name)
        if declaration.is_array:
            self.sizes[name] = int(self.word(declaration.name + 2))
        of = {"int": 0}
        if declaration.kind == "pool":
            members = [m for m in structs[declaration.type[4:]].members if m.kind == "field"]
            for number in range(self.sizes[name]):
                self.cells.update({(name, number, self.word(m.name)): of.get(m.type) for m in members})
        elif declaration.is_array:
            self.cells.update({(name, number): of.get(declaration.type) for number in range(self.sizes[name])})
        else:
            self.cells[name,] = of.get(declaration.type)

    def serial(self):
        told, threads = ["history 1"], [d for d in self.program.declarations if d.kind == "thread"]
        for thread, declaration in enumerate(threads):
            words = [self.word(number) for number in range(declaration.name + 2, declaration.end)]
            for step, (name, arguments) in enumerate(script(words)[0]):
                try:
                    end = self.outcome(self.sections[name], arguments)
                except Unsettled:
                    return "\n".join([*told, f"unsettled {thread} {step}"]) + "\n"
                told.append(f"call {thread} {step} {name}({', '.join(map(shown, arguments))}) {end}")
                told += [f"print {number}" for number in self.prints]
        return "\n".join([*told, "cells", *map(self.cell, self.cells), "end"]) + "\n"

    def cell(self, cell):
        name = cell[0] if len(cell) == 1 else f"{cell[0]}[{cell[1]}]"
        return f"{name}{f'.{cell[2]}' if len(cell) == 3 else ''} {shown(self.cells[cell])}"

    def outcome(self, section, arguments):
        self.prints = []
        try:
            value = self.run(section, arguments)
        except Trap as trap:
            return f"traps {trap.args[0]}"
        return f"returns {shown(value)}" if section.result else "ends"

    def run(self, function, arguments):
        """Runs a section or helper; its result."""
        known = {self.word(parameter[2]): value for parameter, value in zip(function.parameters, arguments)}
        returned = None
        for statement in function.body.statements:
            if statement.kind == "return":
                returned = self.value(statement.value, known)
            else:
                self.statement(statement, known)
        return returned

    def block(self, block, known):
        for statement in block.statements:
            self.statement(statement, known)

    def statement(self, statement, known):
        kind = statement.kind
        if kind == "call":
            arguments = [self.value(argument, known) for argument in statement.arguments]
            value = self.run(self.program.helpers[self.word(statement.helper)], arguments)
            if statement.name is not None:
                known[self.word(statement.name)] = value
        elif kind in ("let", "var"):
            value = self.value(statement.value, known)
            if statement.where and value is not None:
                field, owner = map(self.word, statement.where)
                if self.final[(*value, field)] != known[owner]:
                    raise Trap(5)
            known[self.word(statement.name)] = value
        elif kind == "if":
            blocks = statement.blocks if self.value(statement.value, known) else statement.blocks[1:]
            for block in blocks[:1]:
                self.block(block, known)
        elif kind == "while":
            self.loop(statement, known)
        elif kind == "print":
            value = self.value(statement.value, known)
            if len(self.prints) == MOST_PRINTS:
                raise Trap(6)
            self.prints.append(value)
        else:
            self.assign(statement, known)

    def loop(self, statement, known):
        turns = 0
        while self.value(statement.value, known):
            if turns == self.turns:
                raise Unsettled
            turns += 1
            self.block(statement.blocks[0], known)

    def assign(self, statement, known):
        left, name = statement.left, self.word(statement.left.first)
        if left.kind == "name" and name in known:
            known[name] = self.value(statement.value, known)
            return
        cell = (name,)
        if left.kind == "index":
            cell = (name, self.index(left, known))
        elif left.kind == "path":
            base = known[name]
            for number in left.parts[:-1]:
                base = self.member(base, number)
            if base is None:
                raise Trap(1)
            cell = (*base, self.word(left.parts[-1]))
        self.cells[cell] = self.value(statement.value, known)

    def index(self, node, known):
        index = self.value(node.parts[0], known)
        if not 0 <= index < self.sizes[self.word(node.first)]:
            raise Trap(2)
        return index

    def member(self, base, number):
        if base is None:
            raise Trap(1)
        cell = (*base, self.word(number))
        return self.cells[cell] if cell in self.cells else self.final[cell]

    def value(self, node, known):
        kind, name = node.kind, self.word(node.first)
        if kind in ("number", "null"):
            return int(name) if kind == "number" else None
        if kind == "name":
            return known[name] if name in known else self.cells[name,]
        if kind == "index":
            cell = (name, self.index(node, known))
            return self.cells.get(cell, cell) if (name, 0) in self.cells else cell
        if kind == "path":
            value = known[name]
            for number in node.parts:
                value = self.member(value, number)
            return value
        if kind == "compare":
            sign, left, right = node.parts
            return COMPARED[sign](self.value(left, known), self.value(right, known))
        if kind in ("and", "or"):
            return (all if kind == "and" else any)(self.value(part, known) for part in node.parts)
        value = self.value(node.parts[0], known)
        if kind in ("negate", "not"):
            return fitting(-value) if kind == "negate" else not value
        for before, part in zip(node.parts, node.parts[1:]):
            value = calculated(self.word(before.end), value, self.value(part, known))
        return value


def script(words):
    """The calls that these words say, up to the closing brace, and how many words these are."""
    calls, at = [], 0
    while words[at] != "}":
        if words[at] == "repeat":
            inner, length = script(words[at + 3 :])
            calls += inner * int(words[at + 1])
            at += length + 3
            continue
        end = words.index(")", at)
        arguments, last = [], at + 2
        for comma in [n for n in range(at + 2, end + 1) if words[n] in (",", ")") and n > at + 2]:
            arguments.append(constant(words[last:comma]))
            last = comma + 1
        calls.append((words[at], arguments))
        at = end + 2
    return calls, at + 1
