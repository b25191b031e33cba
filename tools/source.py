"""The text of a program as a picture or a page shows it: its lines, its tokens, and what its declarations name.

Nothing is judged here: a program that the compiler refuses is read as far as its tokens go.
"""
import re
from dataclasses import dataclass, field
from typing import Dict, List, NamedTuple
from unicodedata import category

KEYWORDS = frozenset(
    "atomic call else final global if init int let lock null pool print protected_by ref repeat return struct thread var "
    "where while".split()
)
TOKEN = re.compile(r"(?P<comment>//[^\n]*)|(?P<name>[A-Za-z_]\w*)|(?P<number>\d+)|(?P<space>\s+)|(?P<sign>.)", re.ASCII)
# What has no glyph, or turns the direction of writing: with it a comment could show other than it is.
HIDDEN = frozenset(["Cc", "Cf", "Zl", "Zp"])


class Token(NamedTuple):
    """A piece of the text: a comment, a name, a number, white space or one other character, from an index on."""

    kind: str
    text: str
    start: int


def shown(data):
    """The characters of some bytes of a program. What is no UTF-8, or can't be seen, is the replacement character."""
    text = data.decode(errors="replace")
    return "".join("\ufffd" if letter != "\t" and category(letter) in HIDDEN else letter for letter in text)


@dataclass
class Routine:
    """A section or helper: its name, the line of its name, and the struct of each local that is a reference."""

    name: str
    line: int
    structs: Dict[str, str] = field(default_factory=dict)


class Source:
    """A program's text."""

    def __init__(self, data):
        pieces = data.split(b"\n")
        if pieces[-1] == b"":
            pieces.pop()
        self.pieces = pieces
        self.lines = [shown(piece[:-1] if piece.endswith(b"\r") else piece) for piece in pieces]

    def index(self, place):
        """The index in its line of the character at a place, at most the line's length."""
        if place.line > len(self.lines):
            return 0
        before = self.pieces[place.line - 1][: place.column - 1]
        return min(len(shown(before)), len(self.lines[place.line - 1]))

    def tokens(self):
        """The tokens that are neither white space nor comments, each with its line from 1."""
        for number, line in enumerate(self.lines, 1):
            for token in tokens_of(line):
                if token.kind not in ("space", "comment"):
                    yield number, token


def tokens_of(line):
    """All tokens of a line."""
    return [Token(found.lastgroup, found[0], found.start()) for found in TOKEN.finditer(line)]


@dataclass
class Declarations:
    """What a program declares: locks, members of structs (a lock, or the struct to which a reference leads), sections and
    helpers, and threads."""

    locks: List[str] = field(default_factory=list)
    members: Dict[str, Dict[str, str]] = field(default_factory=dict)
    routines: List[Routine] = field(default_factory=list)
    threads: List[str] = field(default_factory=list)

    def classes(self):
        """All lock classes, in order of declaration by kind: global locks, then those of structs."""
        members = [(name, member, to) for name, inner in self.members.items() for member, to in inner.items()]
        return self.locks + [f"{name}.{member}" for name, member, to in members if to == "lock"]

    def routine_at(self, line):
        """The last section or helper that begins in a line or before it."""
        return next((it for it in reversed(self.routines) if it.line <= line), None)

    def class_from(self, struct, names):
        """The class of the lock to which names lead from a struct."""
        for name in names[:-1]:
            struct = self.members.get(struct, {}).get(name)
        return f"{struct}.{names[-1]}" if self.members.get(struct, {}).get(names[-1]) == "lock" else None

    def class_in_struct(self, struct, names):
        """The class that an annotation in a struct, or outside all, names."""
        inner = self.class_from(struct, names)
        return inner or (names[0] if len(names) == 1 and names[0] in self.locks else None)

    def class_of(self, path, section, line):
        """The class of a lock path of a section, taken in a line: its root is a local there, or of a helper in this line,
        or the path is a whole class, and its root a struct."""
        root, *names = path.split(".")
        if not names:
            return root if root in self.locks else None
        if root in self.members:
            return path
        here = self.routine_at(line)
        rooms = [it for it in self.routines if it.name == section] + [here] * (here is not None) + self.routines
        structs = (room.structs[root] for room in rooms if root in room.structs)
        return next((found for found in (self.class_from(struct, names) for struct in structs) if found), None)


def declared(source):
    """What a program declares, as far as its tokens tell."""
    pairs = list(source.tokens())
    texts = [token.text for _, token in pairs] + ["", "", ""]
    told, depth, struct = Declarations(), 0, None
    for at, (line, _) in enumerate(pairs):
        word, name = texts[at], texts[at + 1]
        depth = max(0, depth + (word == "{") - (word == "}"))
        if word == "ref":
            note_reference(told, struct if depth else None, texts[max(0, at - 2) : at], texts[at + 1 : at + 3])
        elif word == "lock" and depth:
            told.members.get(struct, {}).setdefault(name, "lock")
        elif depth:
            continue
        elif word == "}":
            struct = None
        elif word == "lock" and name != "(":
            told.locks.append(name)
        elif word == "struct":
            struct = name
            told.members.setdefault(name, {})
        elif word == "thread":
            told.threads.append(name)
        elif word in ("atomic", "call"):
            told.routines.append(Routine(name, pairs[min(at + 1, len(pairs) - 1)][0]))
    return told


def note_reference(told, struct, before, after):
    """Notes what is declared at the keyword `ref`, by the two tokens before it and the two after it: a member or a parameter
    `ref STRUCT NAME`, or a local `NAME: ref STRUCT`."""
    target, name = after
    if before[-1:] == [":"]:
        name = before[0]
    if struct:
        told.members[struct].setdefault(name, target)
    elif told.routines:
        told.routines[-1].structs.setdefault(name, target)
