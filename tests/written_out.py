"""Programs with helpers, read and written out, by the words of docs/LANGUAGE.md and apart from the code.

`Program(text)` reads a text of the grammar. `Written(program)` is the same program as a text without helpers: in the place
of each call a `let` for each parameter with its argument, the statements of the helper's body with fresh names for its
locals, and a `let` of what it returns. It knows of each token of that text where it stands in the first one.
"""

import re
import types
import typing

TOKEN = re.compile(
    r"[ \t\r\n]+|//[^\n]*|(?P<token>[A-Za-z_][A-Za-z0-9_]*|[0-9]+|==|!=|<=|>=|&&|\|\||[{}()\[\];,:.=<>+\-*/%!])"
)
NAME = re.compile(r"[A-Za-z_][A-Za-z0-9_]*")
MOST_LOCALS = 64
MOST_POINTS = 65_536
DEEPEST = 8


class NoProgram(Exception):
    """The text isn't one of the grammar, as far as this reader looks at it."""


class CannotBeWritten(Exception):
    """A call has no helper, or not one argument for each parameter; or a helper calls itself or lacks its return."""


class Node(typing.NamedTuple):
    """An expression: its kind, the numbers of its first token and of the one behind its last, and its parts."""

    kind: str
    first: int
    end: int
    parts: tuple


def tokens_of(text):
    found, at = [], 0
    while at < len(text):
        here = TOKEN.match(text, at)
        if not here:
            raise NoProgram(f"byte {at}")
        if here.group("token"):
            found.append((here.group("token"), at))
        at = here.end()
    return found


class Program:
    """A program: its declarations, and its functions, which are sections and helpers, in the order of the text."""

    def __init__(self, text):
        self.text = text
        self.tokens = tokens_of(text)
        self.next = 0
        self.declarations = []
        while self.peek():
            self.declarations.append(self.declaration())
        self.functions = [d for d in self.declarations if d.kind in ("atomic", "call")]
        self.sections = [d for d in self.functions if d.kind == "atomic"]
        self.helpers = {}
        for helper in self.functions:
            if helper.kind == "call":
                self.helpers.setdefault(self.word(helper.name), helper)

    def word(self, number):
        return self.tokens[number][0]

    def place(self, number):
        """Line and column of a token."""
        at = self.tokens[number][1]
        return self.text.count("\n", 0, at) + 1, at - self.text.rfind("\n", 0, at)

    def peek(self, ahead=0):
        number = self.next + ahead
        return self.tokens[number][0] if number < len(self.tokens) else ""

    def take(self, *wanted):
        """The next token, which has to be one of those wanted; its number."""
        if not self.peek() or (wanted and self.peek() not in wanted):
            raise NoProgram(f"token {self.next} {self.peek()!r}, wanted {wanted}")
        self.next += 1
        return self.next - 1

    def name(self):
        if not NAME.fullmatch(self.peek()):
            raise NoProgram(f"token {self.next} {self.peek()!r}, wanted a name")
        return self.take()

    def type(self):
        """`int` or `ref S`, and the number of its last token."""
        if self.word(self.take("int", "ref")) == "int":
            return "int", self.next - 1
        return f"ref {self.word(self.name())}", self.next - 1

    def declaration(self):
        first = self.next
        kind = self.word(self.take("lock", "struct", "global", "pool", "init", "atomic", "call", "thread"))
        if kind in ("atomic", "call"):
            return self.function(kind, first)
        made = types.SimpleNamespace(kind=kind, first=first, type=None, is_array=False, members=[], calls=[])
        if kind == "global":
            made.type = self.type()[0]
        if kind == "pool":
            made.type = f"ref {self.word(self.name())}"
        made.name = self.name()
        made.is_array = self.peek() == "["
        if kind == "struct":
            self.take("{")
            while self.peek() != "}":
                made.members.append(self.member())
            self.take("}")
        elif kind == "thread":
            self.items(made.calls)
        else:
            while self.word(self.take()) != ";":
                pass
        made.end = self.next
        return made

    def member(self):
        """A member of a struct: lock, final or field; of a field the names of its annotation."""
        kind = self.peek() if self.peek() in ("lock", "final") else "field"
        if kind != "field":
            self.take()
        made = types.SimpleNamespace(kind=kind, type=None if kind == "lock" else self.type()[0], name=self.name(), lock=[])
        while self.word(self.take()) != ";":
            if NAME.fullmatch(self.peek()):
                made.lock.append(self.peek())
        return made

    def items(self, calls):
        self.take("{")
        while self.peek() != "}":
            if self.peek() == "repeat":
                self.take()
                self.take()
                self.items(calls)
                continue
            name = self.name()
            self.take("(")
            count = 0 if self.peek() == ")" else 1
            while self.word(number := self.take()) != ")":
                count += self.word(number) == ","
            self.take(";")
            calls.append((name, count))
        self.take("}")

    def function(self, kind, first):
        made = types.SimpleNamespace(kind=kind, first=first, name=self.name(), parameters=[], result=None, listed=[])
        self.take("(")
        while self.peek() != ")":
            if made.parameters:
                self.take(",")
            made.parameters.append((*self.type(), self.name()))
        self.take(")")
        if self.peek() == ":":
            self.take()
            made.result = self.type()
        if kind == "atomic" and self.peek() == "lock":
            made.listed = self.classes()
        made.body = self.block()
        made.end = self.next
        return made

    def classes(self):
        """The lock classes that a head lists: for each the numbers of its two names."""
        made = []
        self.take("lock")
        while not made or self.peek() == ",":
            self.take("," if made else "(")
            structure = self.name()
            self.take(".")
            made.append((structure, self.name()))
        self.take(")")
        return made

    def block(self):
        made = types.SimpleNamespace(first=self.take("{"), statements=[])
        while self.peek() != "}":
            made.statements.append(self.statement())
        made.last = self.take("}")
        return made

    def statement(self):
        word = self.peek()
        if word in ("let", "var"):
            return self.binding()
        made = types.SimpleNamespace(kind=word, first=self.next, name=None)
        if word == "call":
            self.called(made)
        elif word in ("if", "while"):
            self.take()
            self.take("(")
            made.value = self.expression()
            self.take(")")
            made.blocks = [self.block()]
            if word == "if" and self.peek() == "else":
                self.take()
                made.blocks.append(self.block())
            return made
        elif word in ("print", "return"):
            self.take()
            made.value = self.expression()
        else:
            made.kind = "assign"
            made.left = self.primary()
            if made.left.kind not in ("name", "index", "path"):
                raise NoProgram(f"token {made.first}: no place")
            self.take("=")
            made.value = self.expression()
        self.take(";")
        return made

    def binding(self):
        first = self.take("let", "var")
        made = types.SimpleNamespace(kind=self.word(first), first=first, name=self.name(), where=None)
        self.take(":")
        made.type = self.type()
        self.take("=")
        if self.peek() == "call" and made.kind == "let":
            made.kind = "call"
            self.called(made)
        else:
            made.value = self.expression()
            if self.peek() == "where" and made.kind == "let":
                self.take()
                field = self.name()
                self.take("==")
                made.where = (field, self.name())
        self.take(";")
        return made

    def called(self, made):
        self.take("call")
        made.helper, made.arguments = self.name(), []
        self.take("(")
        while self.peek() != ")":
            if made.arguments:
                self.take(",")
            made.arguments.append(self.expression())
        self.take(")")

    def expression(self):
        return self.chain("or", ("||",), lambda: self.chain("and", ("&&",), self.comparison))

    def chain(self, kind, signs, operand):
        first, parts = self.next, [operand()]
        while self.peek() in signs:
            self.take()
            parts.append(operand())
        return parts[0] if len(parts) == 1 else Node(kind, first, self.next, tuple(parts))

    def comparison(self):
        first, left = self.next, self.sum()
        if self.peek() not in ("==", "!=", "<", "<=", ">", ">="):
            return left
        sign, right = self.word(self.take()), self.sum()
        return Node("compare", first, self.next, (sign, left, right))

    def sum(self):
        return self.chain("sum", ("+", "-"), lambda: self.chain("term", ("*", "/", "%"), self.unary))

    def unary(self):
        first = self.next
        if self.peek() not in ("-", "!"):
            return self.primary()
        kind, inner = {"-": "negate", "!": "not"}[self.word(self.take())], self.primary()
        return Node(kind, first, self.next, (inner,))

    def primary(self):
        first = self.next
        if self.peek() == "(":
            self.take()
            inner = self.expression()
            self.take(")")
            return Node("parentheses", first, self.next, (inner,))
        if self.peek().isdigit() or self.peek() == "null":
            self.take()
            return Node("null" if self.word(first) == "null" else "number", first, self.next, ())
        self.name()
        if self.peek() == "[":
            self.take()
            inner = self.expression()
            self.take("]")
            return Node("index", first, self.next, (inner,))
        fields = []
        while self.peek() == ".":
            self.take()
            fields.append(self.name())
        return Node("path" if fields else "name", first, self.next, tuple(fields))


def within(block):
    """The statements of a block and of those in it, in the order of the text."""
    for statement in block.statements:
        yield statement
        if statement.kind in ("if", "while"):
            for inner in statement.blocks:
                yield from within(inner)


def calls_in(function):
    return [s for s in within(function.body) if s.kind == "call"]


def locals_of(function):
    """The numbers of the names that a function declares."""
    return [p[2] for p in function.parameters] + [s.name for s in within(function.body) if getattr(s, "name", None)]


class Bounds:
    """What calls of a program bring, and where it is past a limit. No helper calls itself."""

    def __init__(self, program):
        self.program = program
        self.known = {}

    def drops(self, call):
        """Whether a call drops a result."""
        return call.name is None and self.program.helpers[self.program.word(call.helper)].result is not None

    def brings(self, name):
        """How many locals and how many points a call of a helper brings, without its dropped result; and its depth."""
        if name not in self.known:
            helper = self.program.helpers[name]
            points = len(helper.parameters) + sum(s.kind != "call" for s in within(helper.body))
            found = [len(locals_of(helper)), points, 1]
            for call in calls_in(helper):
                inner = self.brings(self.program.word(call.helper))
                found[0] += inner[0] + self.drops(call)
                found[1] += inner[1]
                found[2] = max(found[2], inner[2] + 1)
            self.known[name] = tuple(found)
        return self.known[name]

    def faults(self):
        """The numbers of the tokens at which a limit is passed."""
        word = self.program.word
        found = [h.name for n, h in self.program.helpers.items() if self.brings(n)[2] > DEEPEST]
        for section in self.program.sections:
            own, points = sorted(locals_of(section)), 0
            found += own[MOST_LOCALS : MOST_LOCALS + 1]
            locals_, is_past = len(own), len(own) > MOST_LOCALS
            for call in calls_in(section):
                inner = self.brings(word(call.helper))
                locals_ += inner[0] + self.drops(call)
                points += inner[1]
                if not is_past and (locals_ > MOST_LOCALS or points > MOST_POINTS):
                    found.append(call.helper)
                    is_past = True
        return found


class Written:
    """A program without helpers: its `text`, its `origins`, which are the places of its tokens in the first text, and
    what the fresh names of locals were."""

    def __init__(self, program):
        self.program = program
        self.pieces, self.origins, self.names = [], {}, {}
        self.line, self.column = 1, 1
        self.inside = []
        for declaration in program.declarations:
            if declaration.kind == "atomic":
                self.copy(declaration.first, declaration.body.first, {})
                self.block(declaration.body, {})
            elif declaration.kind != "call":
                self.copy(declaration.first, declaration.end, {})
            self.new_line()
        self.text = "".join(self.pieces)

    def put(self, word, origin=None):
        if origin is not None:
            self.origins[self.line, self.column] = self.program.place(origin)
        self.pieces.append(word + " ")
        self.column += len(word) + 1

    def new_line(self):
        self.pieces.append("\n")
        self.line, self.column = self.line + 1, 1

    def copy(self, first, end, names):
        """Copies tokens; those that begin a place and are a local's name become its new name."""
        for number in range(first, end):
            word = self.program.word(number)
            is_place = number == 0 or self.program.word(number - 1) not in (".", "where", "ref")
            self.put(names.get(word, word) if is_place else word, number)

    def fresh(self, old):
        new = f"zz{len(self.names)}_{old[:40]}"
        self.names[new] = old
        return new

    def block(self, block, names):
        self.put("{", block.first)
        self.new_line()
        for statement in block.statements:
            self.statement(statement, names)
        self.put("}", block.last)
        self.new_line()

    def statement(self, statement, names):
        if statement.kind == "call":
            self.call(statement, names)
        elif statement.kind in ("if", "while"):
            self.copy(statement.first, statement.blocks[0].first, names)
            self.block(statement.blocks[0], names)
            for other in statement.blocks[1:]:
                self.put("else")
                self.block(other, names)
        else:
            end = statement.where[1] + 1 if getattr(statement, "where", None) else statement.value.end
            self.copy(statement.first, end + 1, names)
            self.new_line()

    def let(self, origin, name, kind, value, names):
        self.put("let", origin)
        for word in (name, ":", *kind.split(" "), "="):
            self.put(word)
        self.copy(value.first, value.end, names)
        self.put(";")
        self.new_line()

    def call(self, call, names):
        called = self.program.word(call.helper)
        helper = self.program.helpers.get(called)
        if not helper or len(call.arguments) != len(helper.parameters) or called in self.inside:
            raise CannotBeWritten
        body = list(helper.body.statements)
        returned = body.pop() if helper.result and body else None
        if helper.result and (not returned or returned.kind != "return"):
            raise CannotBeWritten
        if call.name is not None and (not helper.result or call.type[0] != helper.result[0]):
            raise CannotBeWritten
        inner = {}
        for number in locals_of(helper):
            inner[self.program.word(number)] = self.fresh(self.program.word(number))
        for (kind, _, number), argument in zip(helper.parameters, call.arguments):
            self.let(call.first, inner[self.program.word(number)], kind, argument, names)
        self.inside.append(called)
        for statement in body:
            if statement.kind == "return":
                raise CannotBeWritten
            self.statement(statement, inner)
        self.inside.pop()
        if returned:
            name = self.program.word(call.name) if call.name is not None else None
            name = self.fresh("dropped") if name is None else names.get(name, name)
            self.let(returned.first, name, helper.result[0], returned.value, inner)

    def original(self, text):
        """A text of the program without helpers with the first names of its locals."""
        return NAME.sub(lambda found: self.names.get(found.group(), found.group()), text)


def unstable(program):
    """The numbers of the tokens of a program without helpers at which an access has no stable base."""
    structs = {program.word(d.name): d for d in program.declarations if d.kind == "struct"}
    members = {s: {program.word(m.name): m for m in d.members} for s, d in structs.items()}
    found = []
    for section in program.sections:
        known = {program.word(name): (kind, True) for kind, _, name in section.parameters}
        for statement in within(section.body):
            if statement.kind in ("let", "var"):
                known[program.word(statement.name)] = (statement.type[0], statement.kind == "let")
        for statement in within(section.body):
            for value in (getattr(statement, "left", None), statement.value):
                accesses = paths_in(value) if value else []
                found += [path.first for path in accesses if is_unstable(program, members, known, path)]
            where = getattr(statement, "where", None)
            if where and not known[program.word(where[1])][1]:
                found.append(where[1])
    return found


def paths_in(node):
    if not isinstance(node, Node):
        return
    if node.kind == "path":
        yield node
    for part in node.parts:
        yield from paths_in(part)


def is_unstable(program, members, known, path):
    kind, is_stable = known[program.word(path.first)]
    for number in path.parts:
        inside = members[kind.removeprefix("ref ")]
        member = inside[program.word(number)]
        if member.kind == "field":
            if not is_stable and member.lock[0] in inside:
                return True
            is_stable = False
        kind = member.type
    return False
