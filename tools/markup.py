"""Elements of SVG and HTML, with all text escaped, and the lines of a program with its locks coloured by class."""
import html

from source import KEYWORDS, tokens_of

# The colours of lock classes and locks: dark ones, which white can be read on, and for a dark page light ones.
DARK = ["#00695c", "#5e35b1", "#b4510c", "#1565c0", "#ad1457", "#6b6a14", "#37474f", "#7b3f00"]
LIGHT = ["#4db6ac", "#b39ddb", "#ffab70", "#82b8f5", "#f48fb1", "#d4d161", "#a9bcc6", "#d7a77b"]

COLORS = (
    ":root { color-scheme: light dark; --page: #fff; --ink: #1b1f23; --faint: #6a737d; --edge: #d0d7de; --panel: #f6f8fa; "
    "--lit: #ffe9a8; --here: #fff7dc; --bad: #b00020; --link: #0b5cad; "
    + " ".join(f"--c{number}: {color};" for number, color in enumerate(DARK))
    + " }\n@media (prefers-color-scheme: dark) { :root { --page: #14171a; --ink: #dfe4ea; --faint: #8b949e; --edge: #363d45; "
    "--panel: #1c2126; --lit: #5a4a12; --here: #2e2a17; --bad: #ff7b86; --link: #79b8ff; "
    + " ".join(f"--c{number}: {color};" for number, color in enumerate(LIGHT))
    + " } }\n"
    + " ".join(f".c{number} {{ color: var(--c{number}); }}" for number in range(len(DARK)))
)
CODE_STYLE = """
.code { font: 13px/1.5 monospace; tab-size: 8; overflow-x: auto; direction: ltr; }
.line, .take, .caret { white-space: pre; padding-left: 4em; padding-right: 1em; position: relative; min-height: 1.5em;
  width: max-content; min-width: 100%; box-sizing: border-box; }
.line::before { content: attr(data-line); position: absolute; left: 0; width: 3em; text-align: right; color: var(--faint); }
.comment { color: var(--faint); } .keyword { font-weight: 600; } .lock { font-weight: 600; }
"""


def element(tag, *inner, **attributes):
    """An element with these attributes, whose values are escaped, and with what is in it, which is markup already. A name's
    last `_` is left out, the others are `-`; an attribute that is None is left out too."""
    given = [(name.rstrip("_").replace("_", "-"), value) for name, value in attributes.items() if value is not None]
    words = "".join(f' {name}="{html.escape(str(value))}"' for name, value in given)
    return f"<{tag}{words}>{''.join(inner)}</{tag}>"


def shape(tag, **attributes):
    """An element of SVG without anything in it."""
    return element(tag, **attributes).replace(f"></{tag}>", "/>")


def escaped(text):
    """A text as markup."""
    return html.escape(str(text))


def document(title, style, body):
    """A page of HTML in one file."""
    head = '<meta charset="utf-8"><meta name="viewport" content="width=device-width, initial-scale=1">'
    head += element("title", escaped(title)) + element("style", COLORS, CODE_STYLE, style)
    return "<!DOCTYPE html>\n" + element("html", element("head", head), "\n", element("body", "\n".join(body)), lang="en")


def listed(tokens):
    """Of the tokens of a list of classes in a head the names, by where they start, each with its class."""
    found = {}
    for at, token in enumerate(tokens[:-2]):
        if token.text == ")":
            break
        if tokens[at + 1].text == ".":
            found[token.start] = found[tokens[at + 2].start] = f"{token.text}.{tokens[at + 2].text}"
    return found


class Painter:
    """Colours the names of locks in a program's text, by their class."""

    def __init__(self, declarations, classes):
        self.declarations = declarations
        self.numbers = {name: number for number, name in enumerate(classes)}
        self.struct, self.depth = None, 0

    def color(self, lock_class):
        """The colour's class of a lock class, or None."""
        number = self.numbers.get(lock_class)
        return None if number is None else f"c{number % len(DARK)}"

    def lock(self, text, lock_class):
        """A lock's name or path, coloured by its class."""
        return element("span", escaped(text), class_=" ".join(filter(None, ["lock", self.color(lock_class)])), title=lock_class)

    def lines(self, source, marks=()):
        """The markup of each line. Marks are pairs of a line and of the index in it at which a mark begins."""
        return [self.line(text, {at for line, at in marks if line == number}) for number, text in enumerate(source.lines, 1)]

    def line(self, text, marks):
        """The markup of the next line, a token that begins at one of these indexes marked."""
        tokens, out = tokens_of(text), []
        locks = self.locks_of([token for token in tokens if token.kind not in ("space", "comment")])
        for token in tokens:
            kind = "keyword" if token.text in KEYWORDS else token.kind
            piece = escaped(token.text)
            if token.start in locks:
                piece = self.lock(token.text, locks[token.start])
            elif kind in ("keyword", "comment"):
                piece = element("span", piece, class_=kind)
            out.append(element("mark", piece) if token.start in marks else piece)
        return "".join(out)

    def locks_of(self, tokens):
        """Of the tokens of the next line those that name a lock, by where they start, each with its class."""
        found, texts = {}, [token.text for token in tokens] + ["", ""]
        for at, token in enumerate(tokens):
            self.depth = max(0, self.depth + (token.text == "{") - (token.text == "}"))
            if token.text == "struct":
                self.struct = texts[at + 1]
            elif self.depth == 0 and token.text in ("}", "atomic", "call", "thread"):
                self.struct = None
            elif token.text == "lock" and texts[at + 1] == "(":
                found.update(listed(tokens[at + 2 :]))
            elif token.text == "lock" and at + 1 < len(tokens):
                name = texts[at + 1]
                found[tokens[at + 1].start] = f"{self.struct}.{name}" if self.depth and self.struct else name
            elif token.text == "protected_by" and ")" in texts[at:]:
                path = tokens[at + 2 : texts.index(")", at)]
                named = self.declarations.class_in_struct(self.struct, [name.text for name in path[::2]]) if path else None
                found.update({piece.start: named for piece in path if named})
        return found
