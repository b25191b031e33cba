#!/usr/bin/env python3
"""What a reader has to believe: the definitions that the clauses of public calls state their promises in.

    believed.py                   fails where a definition that counts is in a folder Working or Theory, or its file's
                                  head says that nobody has to believe it; where a file without such a definition is in
                                  neither folder; or where docs/BELIEVED.md is not today's. Prints how many definitions
                                  that count have no comment
    believed.py --write           writes docs/BELIEVED.md
    believed.py --names [PART]    prints the definitions that count, each after its comment, in reading order: file after
                                  file as the files build on each other. PART is a chapter (language, headline, reported,
                                  threads, c) or a crate, of which it prints all that counts
    believed.py --bare [PART]     prints those that have no comment, a line each

The search begins with the clauses of a call and follows each definition that a definition names. To decide in which
folder a file belongs, it also counts what the crates beside the engines promise: the laws, the command line, the tests.
"""
import pathlib
import re
import signal
import sys
import textwrap

TOP = pathlib.Path(__file__).resolve().parent.parent
CRATES = TOP / "crates"
BELIEVED = TOP / "docs" / "BELIEVED.md"
HEAD = """# Believed definitions

A table for each group of promises, with a row for each crate: its files in `specs/`, each with the number of its lines
that count, without comments and imports. docs/DEFINITIONS.md says how to read the definitions.
`script/docs.py` writes this page.

"""
# The calls: a file and the names of its functions.
HEADLINE = {"crates/interleavings/src/world.rt": ["run"], "crates/worlds/src/laws.rt": ["every_run"]}
COMPILER = {"crates/compiler/src/passes.rt": ["compile"]}
EMITTED = {
    "crates/c_threads/src/lock_laws.rt": [
        "acquire_texts_are_of_statements",
        "acquires_take_what_is_asked",
        "ends_give_back_what_is_held",
    ],
    "crates/c_language/src/laws.rt": ["statements_run_in_turn"],
    "crates/c_language/src/group_laws.rt": ["groups_do_alike", "runs_stand_alike", "sections_have_plans", "sections_behave_in_c"],
    "crates/c_text/src/files.rt": ["file", "header"],
    "crates/c_threads/src/meaning.rt": ["sections_mean"],
}
IN_THREADS = {"crates/c_threads/src/laws.rt": None, "crates/c_threads/src/meaning.rt": ["threads_mean"]}
# What `explain CODE` writes: fixed texts, which stand in docs/LANGUAGE.md, and say nothing of a program.
PAGES = {"crates/driver/src/code_pages.rt": ["explain_code"]}
# What `lsp` answers, beside what the engines do: the protocol, positions, names by tokens.
EDITORS = {"crates/driver/src/editors.rt": ["lsp"]}
# What C is given of that, beside what the engines do.
LIBRARY = {"crates/autolock_c/src/lib.rt": None}
# What `outcomes` says of orders that it didn't look at, beside what the engines do.
ORDERS = {"crates/outcomes/src/independence_laws.rt": None, "crates/outcomes/src/groups.rt": ["groups"], "crates/report_runs/src/expectation_laws.rt": None}
# What `emit` answers counts there, and not among the engines.
ANSWERED = ("driver.specs.Emissions", "IsEmitted")
# What crates below the driver promise their readers, though the driver passes none of it on.
BESIDE = {
    "crates/core_lang_helpers/src/laws.rt": None,
    "crates/core_lang_helpers/src/prints.rt": None,
    "crates/interleavings/src/schedule_laws.rt": None,
    "crates/workers/src/delaying.rt": None,
}
THREADS = {
    "crates/workers/src/shared.rt": ["open", "call", "agree", "close"],
    "crates/workers/src/threads.rt": ["run_threads"],
    "crates/workers/src/closed.rt": None,
    "crates/workers/src/seat.rt": ["keeps_its_rules"],
}
USE = re.compile(r"^(?:ghost |pub )*use Rattle\.([\w.]+?)(?:\.\{(.*?)\}| as ([^\s;]+))?;?$", re.M | re.S)
WORD = re.compile(r"[^\s(){},;]+")
NOT_NAMES = {"use", "module", "let", "in", "where", "|", "--", "→", "×", "λ", "if", "else", "then", "}", ")", "]", "unfolding"}


class Module:
    """A file of definitions: what it imports, and the text of each definition that it has."""

    def __init__(self, path):
        self.path = path
        self.text = path.read_text()
        head = self.text.split("\n\n")[0].replace("\n--", "")
        self.is_apart = bool({"Working", "Theory"} & {*path.parts})
        self.is_working = "obody has to believe" in head or self.is_apart
        self.imports = imports_of(self.text)
        self.parts = parts_of(self.text)
        self.title = " ".join(re.match(r"(?:--.*\n)*", self.text).group().replace("-- ", "").split())


def imports_of(text):
    """Each imported name, and from which module it comes under which name."""
    found = {}
    for use in USE.finditer(text):
        module, names, alias = use.groups()
        if alias:
            found[alias] = (module, None)
            continue
        for name in (names or "").split(","):
            name = name.strip()
            if name:
                old, _, new = name.partition(" as ")
                found[new.strip() or old.strip()] = (module, old.strip())
    return found


def parts_of(text):
    """The lines of each definition, by its name: from the line that declares it to the next one's."""
    parts, name, block = {}, None, None
    for line in text.split("\n"):
        bare = line.split("--")[0].rstrip()
        if not bare:
            continue
        indent = len(bare) - len(bare.lstrip())
        if block is not None and indent <= block:
            block = None
        if bare.split()[-1] == "mutual":
            name, block = None, indent
            continue
        if bare.startswith(("use ", "pub use ", "pub mod ", "module ")):
            name = None
            continue
        begin = declared(bare, block)
        if begin:
            name = begin
            parts.setdefault(name, [])
        if name:
            parts[name].append(bare)
    return parts


def written_of(text):
    """Each definition as it is written, by its name: its comment, whether one stands above it or above its block, and its
    lines. A block is what `mutual` holds, or definitions that no empty line parts."""
    found, name, block, pending, above, of_block = {}, None, None, [], False, False
    for line in re.sub(r"\A(?:--.*\n)*", "", text).split("\n"):
        bare = line.split("--")[0].rstrip()
        if not line.strip():
            name, pending, above = (name if block is not None else None), [], False
            continue
        if not bare:
            pending += [] if line.strip().startswith("-- ----") else [line]
            continue
        indent = len(bare) - len(bare.lstrip())
        if block is not None and indent <= block:
            block = None
        if bare.split()[-1] == "mutual":
            name, block, of_block = None, indent, bool(pending)
            continue
        if bare.startswith(("use ", "pub use ", "pub mod ", "module ")):
            name, pending = None, []
            continue
        begin = declared(bare, block)
        if begin:
            name = begin
            above = above or bool(pending) or (block is not None and of_block)
            words, has_one, lines = found.setdefault(name, [[], False, []])
            found[name] = [words + [it.strip().removeprefix("--").strip() for it in pending], has_one or above, lines]
            pending = []
        if name in found:
            found[name][2] += [*pending, line]
            pending = []
    return found


def declared(line, block):
    """The name that a line declares; of a block of mutual definitions it is told where the block's first word begins."""
    indent = len(line) - len(line.lstrip())
    in_block = block is not None and indent == block + 2
    if indent > 2 and not in_block:
        return None
    words = line.split()
    is_marked = False
    while words and words[0] in ("abbrev", "pub", "unfoldable", "mutual", "record", "data", "opaque"):
        is_marked = is_marked or words[0] != "pub"
        marked = words.pop(0)
        if marked == "pub" and (indent == 0 or in_block):
            is_marked = True
    if not words or words[0] in NOT_NAMES or "{" in words[:2]:  # `record a {` is a value
        return None
    if is_marked:
        return words[0].rstrip(":")
    if (indent == 0 or in_block) and len(words) > 1 and words[1] == ":":
        return words[0]
    return None


def clauses_of(path, wanted):
    """The clauses of public functions of a file, as one text, and the file's ghost imports."""
    text = path.read_text()
    found = []
    # (a program's root has no public function)
    visible = r"(?:pub )?" if path.name == "main.rt" else r"pub(?:\([a-z]+\))? (?:extern \"C\" )?"
    for match in re.finditer(rf"\n *{visible}fn (\w+)(.*?)\n *\{{\}}?\n", text, re.S):
        name, head = match.groups()
        is_public = "pub(crate)" not in match.group(0).split("fn")[0]
        if is_public and (wanted is None or name in wanted):
            found.append(" ".join(re.findall(r"(?:requires|ensures)[^{]*\{(.*?)\}\n", head + "\n", re.S)))
    return "\n".join(found), imports_of(text.replace("ghost use", "use"))


class Reading:
    """Follows names from clauses through all files of definitions."""

    def __init__(self):
        self.modules = {}
        for crate in sorted(CRATES.iterdir()):
            for path in sorted(crate.glob("specs/**/*.antt")):
                name = f"{crate.name}.specs." + ".".join(path.relative_to(crate / "specs").with_suffix("").parts)
                self.modules[name] = Module(path)

    def begin(self, calls):
        self.seen, self.types, todo = {}, set(), []
        if calls is IN_THREADS:
            todo.append(ANSWERED)
        else:
            self.seen[ANSWERED] = 0
        for file, wanted in calls.items():
            text, imports = clauses_of(TOP / file, wanted)
            todo += self.named(text, imports)
        while todo:
            module, name = todo.pop()
            if (module, name) in self.seen or module not in self.modules:
                continue
            found = self.modules[module]
            if name not in found.parts:
                source = found.imports.get(name)
                if source and source[0] != module:
                    todo.append((source[0], source[1] or name))
                continue
            self.seen[module, name] = len(found.parts[name])
            todo += self.named("\n".join(found.parts[name]), found.imports, module)
        if calls is not IN_THREADS:
            del self.seen[ANSWERED]
        return self

    def named(self, text, imports, module=None):
        """The definitions that a text names, by what is imported there and what the module itself has."""
        found = []
        for word in WORD.findall(text):
            first, _, rest = word.partition(".")
            for name in {word, first}:
                if module and name in self.modules[module].parts:
                    found.append((module, name))
                elif name in imports:
                    source, old = imports[name]
                    if ".declared." in source:
                        self.types.add(source.split(".TheVariants")[0])
                    elif old or rest:
                        found.append((source, old or rest.split(".")[0]))
        return found

    def files(self):
        """The files, each with its definitions and how many lines they have."""
        files = {}
        for (module, name), lines in sorted(self.seen.items()):
            files.setdefault(module, {})[name] = lines
        return files

    def table(self, title):
        """The files and their lines as rows of a table, a row for each crate."""
        crates = {}
        for module, names in self.files().items():
            crate, _, file = module.partition(".specs.")
            crates.setdefault(crate, []).append((file.replace(".", "/"), sum(names.values())))
        rows = [f"| {title} | {sum(self.seen.values())} lines of {len(self.seen)} definitions |", "|---|---|"]
        for crate in sorted(crates):
            rows.append(f"| `{crate}` | " + ", ".join(f"{file} {lines}" for file, lines in crates[crate]) + " |")
        return "\n".join(rows) + "\n"

    def wrong(self):
        return sorted({module for module, _ in self.seen if self.modules[module].is_working})

    def misplaced(self, believed):
        """The files of definitions of which none counts, that aren't apart."""
        lists = {"Lib.antt", "Theory.antt", "Working.antt"}
        own = {name for name, it in self.modules.items() if not it.is_apart and it.path.name not in lists}
        return sorted(own - believed)


def engines():
    """The calls that the driver's root names, but for those that write pages of codes and serve editors."""
    root = CRATES / "driver" / "src" / "lib.rt"
    calls = {}
    for module, names in re.findall(r"^pub use (\w+)::\{?([\w,\s]+?)\}?;", root.read_text(), re.M):
        functions = [name.strip() for name in names.split(",") if name.strip()[:1].islower()]
        if functions:
            calls[f"crates/driver/src/{module}.rt"] = functions
    return {file: names for file, names in calls.items() if file not in PAGES and file not in EDITORS}


def others():
    """All public calls of the crates that are no part of the engines, and of the command line, of which the engines have
    no more than the requests; and what is promised beside the driver."""
    lines = re.findall(r"^(\w+)[^:\n]*:(.*)$", (TOP / "crates.txt").read_text(), re.M)
    below, todo = set(), ["driver"]
    deps = {name: names.split() for name, names in lines}
    while todo:
        crate = todo.pop()
        if crate in deps and crate not in below:
            below.add(crate)
            todo += deps[crate]
    apart = [crate for crate in deps if crate not in below or crate == "driver_words"]
    return {str(it.relative_to(TOP)): None for crate in apart for it in (CRATES / crate).glob("src/**/*.rt")} | BESIDE


GROUPS = (
    ("The headline", HEADLINE),
    ("The compiler", COMPILER),
    ("All engines", engines()),
    ("Pages of codes", PAGES),
    ("Editors", EDITORS),
    ("The library for C", LIBRARY),
    ("Orders that are left out", ORDERS),
    ("Real threads", THREADS),
    ("Sections in C", EMITTED),
    ("Threads in C", IN_THREADS),
)
# The chapters of a reader: the groups of each; what the headline takes from these crates is a chapter of its own.
LANGUAGE = {"source", "core_lang", "core_lang_helpers", "flow"}
CHAPTERS = {
    "language": ("The language and its meaning", ("The headline",)),
    "headline": ("The headline", ("The headline",)),
    "reported": ("What is reported", ("The compiler", "All engines", "Pages of codes", "Editors", "Orders that are left out")),
    "threads": ("Real threads", ("Real threads",)),
    "c": ("C", ("The library for C", "Sections in C", "Threads in C")),
}


def begun(reading):
    """The groups one after another: the title of each, and the reading of it."""
    of_engines = {}
    for title, calls in GROUPS:
        reading.begin(calls)
        if calls is EDITORS or calls is LIBRARY or calls is ORDERS:
            reading.seen = {name: lines for name, lines in reading.seen.items() if name not in of_engines}
        elif title == "All engines":
            of_engines = dict(reading.seen)
        yield title, reading


def page(reading=None):
    """The text of docs/BELIEVED.md."""
    return HEAD + "\n".join(it.table(title) for title, it in begun(reading or Reading()))


def chapters(reading):
    """The definitions that count, by chapter, each in the first chapter that has it."""
    counted = {title: set(it.seen) for title, it in begun(reading)}
    known, found = set(), {}
    for key, (_, titles) in CHAPTERS.items():
        names = set().union(*(counted[title] for title in titles)) - known
        if key == "language":
            names = {(module, name) for module, name in names if module.split(".")[0] in LANGUAGE}
        found[key] = names
        known |= names
    return found


def in_turn(reading, names):
    """The files of these definitions, each after those whose definitions it uses; else in the order of crates.txt."""
    crates = re.findall(r"^(\w+)[^:\n]*:", (TOP / "crates.txt").read_text(), re.M)
    files, done = {}, []
    for module, name in names:
        files.setdefault(module, set()).add(name)

    def visit(module):
        if module in done:
            return
        it = reading.modules[module]
        used = set(WORD.findall("\n".join(line for name in files[module] for line in it.parts[name])))
        below = {source for own, (source, _) in it.imports.items() if own in {word.split(".")[0] for word in used}}
        for other in sorted(below & set(files) - {module}, key=place):
            visit(other)
        done.append(module)

    def place(module):
        return crates.index(module.split(".")[0]), module

    for module in sorted(files, key=place):
        visit(module)
    return [(module, [name for name in reading.modules[module].parts if name in files[module]]) for module in done]


def path_of(module):
    return module.replace(".specs.", "/specs/").replace(".", "/") + ".antt"


def print_names(reading, part):
    """Prints a chapter, or what counts of a crate, or all; whether there is such a part."""
    printed = False
    for key, names in chapters(reading).items():
        if part in CHAPTERS and key != part:
            continue
        if part and part not in CHAPTERS:
            names = {(module, name) for module, name in names if module.split(".")[0] == part}
        if not names:
            continue
        printed = True
        print(f"\n{'=' * 60}\n{CHAPTERS[key][0]}: {len(names)} definitions\n{'=' * 60}")
        for module, own in in_turn(reading, names):
            it = reading.modules[module]
            print(f"\n{path_of(module)}\n{textwrap.fill(it.title, 100)}\n{'-' * 60}")
            written = written_of(it.text)
            for name in own:
                words, _, lines = written.get(name, ([], False, it.parts[name]))
                print("\n" + textwrap.fill(f"{name}: {' '.join(words)}".rstrip(": "), 120, break_long_words=False))
                print(textwrap.indent(textwrap.dedent("\n".join(lines)), "    "))
    return printed


def bare(reading, part=None):
    """The definitions that count and have no comment, and stand under none of their block."""
    for names in chapters(reading).values():
        for module, own in in_turn(reading, names):
            if part is None or module.split(".")[0] == part:
                written = written_of(reading.modules[module].text)
                yield from ((module, name) for name in own if name in written and not written[name][1])


def main():
    args = sys.argv[1:]
    reading, failed = Reading(), 0
    part = args[1] if len(args) > 1 else None
    if args[:1] == ["--names"]:
        if not print_names(reading, part):
            print(f"{part} is neither a chapter ({', '.join(CHAPTERS)}) nor a crate with a definition that counts")
            return 2
        return 0
    if args[:1] == ["--bare"]:
        for module, name in bare(reading, part):
            print(f"{path_of(module)}: {name}")
        return 0
    believed = {module for module, _ in reading.begin(others()).seen}
    for title, it in begun(reading):
        believed |= {module for module, _ in it.seen}
        for module in it.wrong():
            names = ", ".join(name for where, name in sorted(it.seen) if where == module)
            print(f"{title}: nobody has to believe {module}, its head says, but these count: {names}")
            failed += 1
    for module in reading.misplaced(believed):
        print(f"nobody has to believe {module}: no promise cites it, so it belongs into a folder Working or Theory")
        failed += 1
    text = page(reading)
    if args[:1] == ["--write"]:
        BELIEVED.write_text(text)
    elif not BELIEVED.exists() or BELIEVED.read_text() != text:
        print("docs/BELIEVED.md is not today's: script/docs.py")
        failed += 1
    count = sum(len(names) for names in chapters(reading).values())
    without = len(list(bare(reading)))
    print(f"{count} definitions, {without} of them without a comment, {failed} failed")
    return 1 if failed else 0


if __name__ == "__main__":
    signal.signal(signal.SIGPIPE, signal.SIG_DFL)
    sys.exit(main())
