"""The faults of returns, names and types in the functions and threads of a program, by the words of docs/LANGUAGE.md.

`first_fault(program)` is the number of a token and a code, or nothing. All other declarations are taken for faultless, but
for names that are declared twice; lock paths and their order are not judged.
"""

from written_out import MOST_LOCALS, Bounds, Node, calls_in, locals_of, within

TEXTS = {
    "E05": "declared twice",
    "E06": "unknown name",
    "E07": "wrong type",
    "E08": "wrong number of arguments",
    "E09": "not assignable",
    "E15": "limit exceeded",
    "E18": "misplaced or missing return",
    "E19": "lock used as a value",
    "E20": "recursive helper",
}
MOST_FUNCTIONS = 256
MOST_PARAMETERS = 8


def returns(program):
    for function in program.functions:
        last = function.body.statements[-1:]
        is_right = function.result and last and last[0].kind == "return"
        for statement in within(function.body):
            if statement.kind == "return" and not (is_right and statement is last[0]):
                yield statement.first, "E18"
        if function.result and not is_right:
            yield function.body.last, "E18"


def first_fault(program):
    """The first fault of the first pass that has one."""
    found = list(returns(program)) or Names(program).faults
    return min(found, default=None)


class Reached:
    """Which helpers a helper calls, directly or through others."""

    def __init__(self, program):
        self.calls = {}
        for name, helper in program.helpers.items():
            words = (program.word(call.helper) for call in calls_in(helper))
            self.calls[name] = {word for word in words if word in program.helpers}

    def of(self, name):
        reached, left = set(), list(self.calls[name])
        while left:
            here = left.pop()
            if here not in reached:
                reached.add(here)
                left += self.calls[here]
        return reached

    def is_circular(self, name):
        """Whether the helper is on a circle or reaches one."""
        return any(each in self.of(each) for each in [name, *self.of(name)])


class Faultless(Bounds):
    """Bounds of a program that may have faults: a call of what isn't there, or reaches a circle, brings nothing."""

    def __init__(self, program, reached):
        super().__init__(program)
        self.reached = reached

    def brings(self, name):
        if name not in self.program.helpers or self.reached.is_circular(name):
            return 0, 0, 0
        return super().brings(name)

    def drops(self, call):
        name = self.program.word(call.helper)
        return name in self.program.helpers and not self.reached.is_circular(name) and super().drops(call)


class Names:
    def __init__(self, program):
        self.program, self.word = program, program.word
        self.faults, self.top, self.members = [], {}, {}
        for declaration in program.declarations:
            if declaration.kind == "init":
                continue
            if self.word(declaration.name) in self.top:
                self.tell(declaration.name, "E05")
            self.top.setdefault(self.word(declaration.name), declaration)
        for name, declaration in self.top.items():
            if declaration.kind == "struct":
                self.members[f"ref {name}"] = {self.word(m.name): m for m in declaration.members}
        for function in program.functions[MOST_FUNCTIONS : MOST_FUNCTIONS + 1]:
            self.tell(function.name, "E15")
        for function in program.functions:
            self.function(function)
        for declaration in program.declarations:
            for name, count in declaration.calls if declaration.kind == "thread" else ():
                self.thread_call(name, count)
        self.helpers()

    def tell(self, number, code):
        self.faults.append((number, code))

    def kind(self, type_, is_told=True, locals_=()):
        """The type that is written there, where these locals are in scope, or nothing where it has a fault."""
        text, number = type_
        name = text.removeprefix("ref ")
        if text == "int" or text in self.members:
            return text
        if is_told:
            self.tell(number, "E07" if name in self.top or name in locals_ else "E06")
        return None

    def helpers(self):
        reached = Reached(self.program)
        for function in self.program.functions:
            name = self.word(function.name)
            for call in calls_in(function) if function.kind == "call" else ():
                called = self.word(call.helper)
                if called in self.program.helpers and (called == name or name in reached.of(called)):
                    self.tell(call.helper, "E20")
        self.faults += [(number, "E15") for number in Faultless(self.program, reached).faults()]

    def thread_call(self, name, count):
        section = self.top.get(self.word(name))
        if not section or section.kind != "atomic":
            self.tell(name, "E07" if section else "E06")
        elif len(section.parameters) != count:
            self.tell(name, "E08")

    def function(self, function):
        self.known, self.declared = {}, set()
        for number, (kind, last, name) in enumerate(function.parameters):
            type_ = self.kind((kind, last))
            self.declare(name, type_, "parameter")
            if function.kind == "atomic" and number == MOST_PARAMETERS:
                self.tell(name, "E15")
        self.result = self.kind(function.result) if function.result else None
        self.classes(function.listed)
        self.block(function.body)

    def classes(self, listed):
        """The lock classes that a head lists."""
        earlier = set()
        for structure, lock in listed:
            names = self.word(structure), self.word(lock)
            if names in earlier:
                self.tell(structure, "E05")
            earlier.add(names)
            type_ = self.kind((f"ref {names[0]}", structure))
            member = self.members[type_].get(names[1]) if type_ else None
            if type_ and not member:
                self.tell(lock, "E06")
            elif type_ and member.kind != "lock":
                self.tell(lock, "E07")

    def declare(self, number, type_, kind):
        name = self.word(number)
        if name in self.declared or name in self.top:
            self.tell(number, "E05")
        self.declared.add(name)
        self.known.setdefault(name, (type_, kind))

    def block(self, block):
        known, self.known = self.known, dict(self.known)
        for statement in block.statements:
            self.statement(statement)
        self.known = known

    def statement(self, statement):
        kind = statement.kind
        if kind == "call":
            self.call(statement)
        elif kind in ("let", "var"):
            type_ = self.kind(statement.type, locals_=self.known)
            self.want(statement.value, type_)
            if statement.where:
                self.where(statement, type_)
            self.declare(statement.name, type_, kind)
        elif kind == "assign":
            self.want(statement.value, self.left(statement.left))
        elif kind in ("if", "while"):
            self.want(statement.value, "truth")
            for block in statement.blocks:
                self.block(block)
        else:
            self.want(statement.value, "int" if kind == "print" else self.result)

    def where(self, statement, type_):
        field, owner = statement.where
        member = self.members.get(type_, {}).get(self.word(field))
        wanted = None
        if type_ == "int":
            self.tell(field, "E07")
        elif type_ and (not member or member.kind != "final"):
            self.tell(field, "E06" if not member else "E19" if member.kind == "lock" else "E07")
        elif type_:
            wanted = member.type
        name = self.word(owner)
        if name in self.known:
            of = self.known[name][0]
            if of and wanted and of != wanted:
                self.tell(owner, "E07")
        else:
            self.tell(owner, "E07" if name in self.top else "E06")

    def call(self, call):
        name = self.word(call.helper)
        type_ = self.kind(call.type, locals_=self.known) if call.name is not None else None
        helper = self.top.get(name)
        if not helper or helper.kind != "call":
            self.tell(call.helper, "E07" if helper or name in self.known else "E06")
            for argument in call.arguments:
                self.typed(argument)
        else:
            result = self.kind(helper.result, False) if helper.result else "nothing"
            if type_ and result and type_ != result:
                self.tell(call.helper, "E07")
            if len(call.arguments) != len(helper.parameters):
                self.tell(call.helper, "E08")
            else:
                for argument, (kind, last, _) in zip(call.arguments, helper.parameters):
                    self.want(argument, self.kind((kind, last), False))
        if call.name is not None:
            self.declare(call.name, type_, "let")

    def left(self, node):
        """The type of a left side, or nothing where it has a fault."""
        name = self.word(node.first)
        declaration = None if name in self.known else self.top.get(name)
        kind = declaration.kind if declaration else None
        if node.kind == "name":
            if name in self.known:
                type_, of = self.known[name]
                return type_ if of == "var" else self.tell(node.first, "E09")
            if kind == "global" and not declaration.is_array:
                return declaration.type
            return self.tell(node.first, {"lock": "E19", None: "E06"}.get(kind, "E09"))
        if node.kind == "index":
            type_ = self.typed(node)
            return self.tell(node.first, "E09") if kind == "pool" else type_
        type_, last = self.path(node)
        if last == "final":
            return self.tell(node.first, "E09")
        return type_

    def want(self, node, wanted):
        type_ = self.typed(node)
        fits = type_ == wanted or (type_ == "null" and wanted and wanted.startswith("ref "))
        if type_ and wanted and not fits:
            self.tell(node.first, "E07")

    def typed(self, node):
        """The type of an expression; nothing where there is a fault inside."""
        before = len(self.faults)
        type_ = getattr(self, f"type_of_{node.kind}")(node)
        return type_ if len(self.faults) == before else None

    def type_of_number(self, _):
        return "int"

    def type_of_null(self, _):
        return "null"

    def type_of_parentheses(self, node):
        return self.typed(node.parts[0])

    def all_of(self, node, wanted):
        is_whole = True
        for part in node.parts:
            if isinstance(part, Node):
                before = len(self.faults)
                self.want(part, wanted)
                is_whole = is_whole and len(self.faults) == before
        return is_whole

    def type_of_negate(self, node):
        self.all_of(node, "int")
        return "int"

    type_of_sum = type_of_term = type_of_negate

    def type_of_not(self, node):
        self.all_of(node, "truth")
        return "truth"

    type_of_and = type_of_or = type_of_not

    def type_of_compare(self, node):
        sign, left, right = node.parts
        if sign not in ("==", "!="):
            self.all_of(node, "int")
            return "truth"
        first, second = self.typed(left), self.typed(right)
        if first and second:
            is_reference = [each == "null" or each.startswith("ref ") for each in (first, second)]
            if first == second == "truth":
                self.tell(left.first, "E07")
            elif first != second and not (all(is_reference) and "null" in (first, second)):
                self.tell(right.first, "E07")
        return "truth"

    def type_of_name(self, node):
        name = self.word(node.first)
        if name in self.known:
            return self.known[name][0]
        declaration = self.top.get(name)
        if declaration and declaration.kind == "global" and not declaration.is_array:
            return declaration.type
        kind = declaration.kind if declaration else None
        return self.tell(node.first, {"lock": "E19", None: "E06"}.get(kind, "E07"))

    def type_of_index(self, node):
        name = self.word(node.first)
        self.want(node.parts[0], "int")
        declaration = self.top.get(name)
        if name not in self.known and declaration and declaration.kind in ("global", "pool") and declaration.is_array:
            return declaration.type
        return self.tell(node.first, "E07" if declaration or name in self.known else "E06")

    def type_of_path(self, node):
        return self.path(node)[0]

    def path(self, node):
        """The type of a path and the kind of its last member; both nothing where it has a fault."""
        name = self.word(node.first)
        if name not in self.known:
            return self.tell(node.first, "E07" if name in self.top else "E06"), None
        type_, kind = self.known[name][0], None
        for number in node.parts:
            if type_ is None and kind is None:
                return None, None
            if kind == "lock" or type_ not in self.members:
                return self.tell(node.first, "E07"), None
            member = self.members[type_].get(self.word(number))
            if not member:
                return self.tell(number, "E06"), None
            type_, kind = member.type, member.kind
        if kind == "lock":
            return self.tell(node.first, "E19"), None
        return type_, kind
