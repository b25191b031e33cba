#!/usr/bin/env python3
"""Checks that each public function says what it promises, at its declaration.

    promises.py      prints each public function that has no `///` or no clause, and how many there are; fails where
                     docs/PROMISES.md names a function that is not public in its crate, or a clause that the function
                     does not have

A function is public where a caller reaches it from the crate's root: by `pub mod`, by `pub use`, as a method of a type
or a trait that is reached so, or by `extern "C"`. In docs/PROMISES.md the last cell of a row names functions, each with
its crate, and after a colon their clauses by name; for one without a name stands the definition that it cites.
"""
import pathlib
import re
import sys

TOP = pathlib.Path(__file__).resolve().parent.parent
FUNCTION = re.compile(r'^ *((?:pub(?:\([a-z]+\))? )?(?:const )?(?:extern "C" )?)fn (\w+)')
BLOCK = re.compile(r"^(pub |unsafe )?(impl|trait)\b(.*)")
# Public functions that have no clause, each with the reason.
HASHES = "hash keys change no answer"
MEMORY = "what it answers is memory alone"
WITHOUT = {
    "source::keyed::KeyedState::of": HASHES,
    "source::keyed::Digest::new": HASHES,
    "source::keyed::Digest::add": HASHES,
    "source::keyed::Digest::into_keys": HASHES,
    "types_symbols::table::SymbolTable::maker": HASHES,
    "types_bodies::checker::Checker::alloc": MEMORY,
    "lock_manager::ticket::Spare::new": MEMORY,
    "lock_manager::ticket::Receipt::into_spare": MEMORY,
    "runner_machine::holding::Holding::let_go": MEMORY,
    "runner_machine::machine::StackMachine::let_go": MEMORY,
    "workers::gate::Gate::pass": "it may do anything; it is called with no lock held",
}
# Crates for tests alone promise nothing to users.
TESTS = re.compile(r"^test_")


class Function:
    """A function of a crate: its module, the type or trait that it is a method of, its name, and what stands at it."""

    def __init__(self, module, owner, name, is_open, has_words, head):
        self.module, self.owner, self.name, self.is_open = module, owner, name, is_open
        self.has_words = has_words
        self.clauses = re.findall(r"^ *ensures (?:(\w+) )?\{", head, re.M)
        # (the definitions that they cite)
        self.cited = set(re.findall(r"\b[A-Z]\w+", head.partition("ensures")[2]))

    def path(self):
        parts = [self.module] if self.module not in ("lib", "main") else []
        return "::".join([*parts, *([self.owner] if self.owner else []), self.name])


def functions(module, text):
    """The functions of a module."""
    owner, is_trait, of_trait, words, is_heading = None, False, False, False, False
    lines = text.splitlines()
    for number, line in enumerate(lines):
        block = BLOCK.match(line)
        if block:
            rest = re.sub(r"<.*?>+", "", block.group(3))
            is_trait = block.group(2) == "trait"
            of_trait = " for " in rest
            owner = re.findall(r"\w+", rest.split(" for ")[-1])[0]
        elif line == "}":
            owner, is_trait, of_trait = None, False, False
        found = FUNCTION.match(line)
        if found and not of_trait and (owner or not line.startswith(" ")):
            is_open = found.group(1).startswith("pub ") or is_trait
            end = next((at for at in range(number, len(lines)) if ends_head(lines[at])), number)
            yield Function(module, owner, found.group(2), is_open, words, "\n".join(lines[number : end + 1]))
        bare = line.strip()
        if bare.startswith("///"):
            is_heading = is_heading or bare.startswith("/// #")
            words = words or bool(bare[3:].strip()) and not is_heading
        elif not bare.startswith(("#[", "//")):
            is_heading = words = False


def ends_head(line):
    """Whether a function's body begins in this line, or a method of a trait ends there."""
    is_clause = line.lstrip().startswith(("ensures", "requires"))
    return line.strip() == "{" or line.endswith(";") or line.endswith((" {", "{}")) and not is_clause


def public(crate):
    """The public functions of a crate, by path from its root."""
    sources = TOP / "crates" / crate / "src"
    texts = {path.stem: path.read_text() for path in sorted(sources.glob("*.rt"))}
    root = texts.get("lib", texts.get("main", ""))
    modules = set(re.findall(r"^pub mod (\w+);", root, re.M)) | {"lib", "main"}
    passed = {}
    for path, names in re.findall(r"^pub use ((?:\w+::)+)\{?([^;}]+)\}?;", root, re.M):
        for name in filter(None, (name.strip() for name in names.split(","))):
            own, _, known = name.partition(" as ")
            passed[(path.split("::")[0], own)] = known or own
    known_types = {own for _, own in passed}
    for module in modules & set(texts):
        known_types |= set(re.findall(r"^pub (?:struct|enum|trait|type) (\w+)", texts[module], re.M))
    found = {}
    for module, text in texts.items():
        for it in functions(module, text):
            key = it.owner or it.name
            if it.is_open and ((module, key) in passed or module in modules or (it.owner in known_types)):
                found.setdefault(passed_path(it, passed, key), []).append(it)
    return found


def passed_path(it, passed, key):
    """The path of a function, as a caller writes it."""
    if (it.module, key) in passed:
        return "::".join([passed[it.module, key], *([it.name] if it.owner else [])])
    return it.path()


def rows():
    """The functions and the clauses that the rows of docs/PROMISES.md name."""
    for line in (TOP / "docs" / "PROMISES.md").read_text().splitlines():
        parts = re.split(r"(?<!\\)\|", line)
        if line.startswith("| ") and len(parts) >= 4 and "`" in parts[-2]:
            for part in parts[-2].split(";"):
                calls, _, names = part.partition(": ")
                yield re.findall(r"`([\w:]+)`", calls), re.findall(r"`(\w+)`", names)


def wrong(found):
    """What is wrong with the rows of docs/PROMISES.md, where the crates have these public functions."""
    for calls, names in rows():
        for call in calls:
            crate, _, path = call.partition("::")
            ones = found.get(crate, {}).get(path, [])
            if not ones:
                yield f"docs/PROMISES.md: {call} is not a public function"
            known = set().union(*({*it.clauses, *it.cited} for it in ones)) if ones else set(names)
            yield from (f"docs/PROMISES.md: {call} has no clause {name}" for name in names if name not in known)


def main():
    crates = re.findall(r"^(\w+)[^:\n]*:", (TOP / "crates.txt").read_text(), re.M)
    found = {crate: public(crate) for crate in crates if not TESTS.match(crate)}
    count, silent, bare = 0, [], []
    for crate, own in found.items():
        for path, ones in sorted(own.items()):
            name = f"{crate}::{path}"
            count += len(ones)
            silent += [name for it in ones if not it.has_words]
            bare += [name for it in ones if not it.clauses and name not in WITHOUT]
    lines = list(wrong(found))
    for line in [*(f"{name} has no ///" for name in silent), *(f"{name} has no clause" for name in bare), *lines]:
        print(line)
    named = sum(len(calls) for calls, _ in rows())
    print(f"{count} public functions, {len(silent)} without ///, {len(bare)} without a clause; {named} named in docs/PROMISES.md, {len(lines)} failed")
    return 1 if lines or not named else 0


if __name__ == "__main__":
    sys.exit(main())
