"""What an editor is told of each name of a program, by a rule of its own: a walk over the program's declarations, with their types."""
import re

KEYWORDS = set("lock struct final ref int global protected_by pool init atomic let var if else while print return thread repeat null "
               "where call".split())
TOKEN = re.compile(r"[A-Za-z_]\w*|\d+|[<>=!]=|&&|\|\||[^\s\w]")


class Declaration:
    def __init__(self, start, words, struct=None, lock=None):
        """Where its name starts, its words; the struct that it is, refers to or is of; the class of its lock."""
        self.start, self.struct, self.lock = start, struct, lock
        line = " ".join(str(int(word)) if word.isdigit() else word for word in words)
        line = re.sub(r"([(\[.]) ", r"\1", re.sub(r" ([()\[\],.])", r"\1", line))
        self.line = line.replace(" :", ":").replace("):", ") :")


def is_name(word):
    return re.match(r"[A-Za-z_]", word) is not None and word not in KEYWORDS


def struct_in(words):
    """The struct of a type: `ref S`."""
    return words[words.index("ref") + 1] if "ref" in words else None


def pieces_of(tokens):
    """The declarations of the top level: tokens up to a `;`, or to the brace that closes the first one."""
    pieces, depth, begin = [], 0, 0
    for at, (word, _) in enumerate(tokens):
        depth += (word == "{") - (word == "}")
        if depth == 0 and word in "};":
            pieces.append(tokens[begin : at + 1])
            begin = at + 1
    return pieces


def before(tokens, *ends):
    """The tokens before the first of these words."""
    for at, (word, _) in enumerate(tokens):
        if word in ends:
            return tokens[:at]
    return tokens


def split(tokens, mark):
    parts, part = [], []
    for token in tokens:
        if token[0] == mark:
            parts.append(part)
            part = []
        else:
            part.append(token)
    return [part for part in parts + [part] if part]


class Program:
    def __init__(self, text):
        plain = re.sub(r"//[^\n]*", lambda it: " " * len(it[0]), text)
        self.pieces = pieces_of([(it[0], it.start()) for it in TOKEN.finditer(plain)])
        self.top, self.members, self.locals = {}, {}, []
        for piece in self.pieces:
            if piece[0][0] == "struct":
                self.members[piece[1][0]] = {}
        for piece in self.pieces:
            self.declare(piece)
        for piece in self.pieces:
            self.protect(piece)

    def add(self, table, tokens, at, struct=None, lock=None):
        table.setdefault(tokens[at][0], Declaration(tokens[at][1], [word for word, _ in tokens], struct, lock))

    def declare(self, piece):
        """The names that a declaration of the top level declares: locks have their classes, cells not yet."""
        own, words = {}, [word for word, _ in piece]
        self.locals.append(own)
        if words[0] in ("lock", "thread", "struct"):
            struct, lock = (words[1] if words[0] == kind else None for kind in ("struct", "lock"))
            self.add(self.top, before(piece, "{", ";"), 1, struct, lock)
        elif words[0] == "pool":
            self.add(self.top, before(piece, ";"), 2, words[1])
        elif words[0] == "global":
            self.add(self.top, before(piece, "=", ";"), 3 if words[1] == "ref" else 2, struct_in(words))
        elif words[0] in ("atomic", "call"):
            head = before(piece, "{")
            self.add(self.top, head, 1)
            for part in split(before(head[3:], ")"), ","):
                self.add(own, part, len(part) - 1, struct_in([word for word, _ in part]))
            for at, word in enumerate(words):
                if word in ("let", "var"):
                    part = before(piece[at:], "=")
                    self.add(own, part, 1, struct_in([one for one, _ in part]))
        if words[0] == "struct":
            for part in split(piece[3:-1], ";"):
                head = [word for word, _ in before(part, "protected_by")]
                lock = f"{words[1]}.{head[1]}" if head[0] == "lock" else None
                self.add(self.members[words[1]], part, len(head) - 1, struct_in(head), lock)

    def protect(self, piece):
        """The classes of the locks of cells, by their annotations."""
        struct = piece[1][0] if piece[0][0] == "struct" else None
        for part in split(piece, ";"):
            words = [word for word, _ in part]
            if "protected_by" in words:
                at = words.index("protected_by")
                path = [word for word, _ in before(part[at + 2 :], ")") if word != "."]
                start = max(place for place in range(at) if is_name(words[place]))
                table = self.members[struct] if struct else self.top
                table[words[start]].lock = self.class_of(struct, path)

    def class_of(self, struct, path):
        for name in path[:-1]:
            struct = self.members[struct][name].struct
        own = self.members.get(struct, {})
        return f"{struct}.{path[-1]}" if path[-1] in own else path[-1]

    def uses(self):
        """Each name with where it starts, and its declaration or none."""
        found = []
        for piece, own in zip(self.pieces, self.locals):
            struct = piece[1][0] if piece[0][0] == "struct" else None
            members, means = self.members.get(struct, {}), {}
            for at, (word, start) in enumerate(piece):
                if not is_name(word):
                    continue
                last = piece[at - 1][0]
                if last == ".":
                    holder = at - 2
                    if piece[holder][0] == "]":
                        holder = max(k for k in range(holder) if piece[k][0] == "[") - 1
                    held = means.get(holder)
                    one = self.members.get(held.struct, {}).get(word) if held else None
                elif last == "where":
                    bound = max(k for k in range(at) if piece[k][0] == "let")
                    one = self.members.get(own[piece[bound + 1][0]].struct, {}).get(word)
                elif last == "ref":
                    one = self.top.get(word)
                elif struct and at != 1:
                    one = members.get(word, self.top.get(word))
                else:
                    one = own.get(word, self.top.get(word))
                means[at] = one
                found.append((word, start, one))
        return found


def hovers_wanted(text, ranks):
    """For each name where it starts, and what is told of it; the classes of an accepted text have ranks."""
    told = []
    for name, start, declared in Program(text).uses():
        words = None
        if declared:
            words = f"```autolock\n{declared.line}\n```\n"
            if declared.lock:
                rank = f", rank {ranks[declared.lock]}" if declared.lock in ranks else ""
                words += f"lock class {declared.lock}{rank}\n"
        told.append((name, start, words))
    return told
