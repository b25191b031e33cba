#!/usr/bin/env python3
"""Looks up what the heads of the crates name: the `//!` lines of each lib.rt, and of the main.rt of a program.

    heads.py     fails where a head names a file of specs that isn't there, has a link that leads to nothing public, or has a
                 word that no crate has, or has words in front of a colon that are no modules; or where it leaves out a
                 public module, or a name that its crate passes on (a module is named by a link to what it has, too),
                 or has a line of more than 126 characters

A file and a word are of the crate itself, or of one that the same clause names.
"""
import pathlib
import re
import sys

TOP = pathlib.Path(__file__).resolve().parent.parent
ROOTS = {path.parts[-3]: path for name in ("lib", "main") for path in sorted(TOP.glob(f"crates/*/src/{name}.rt"))}
MARKED = re.compile(r"`([^`]+)`")
PUBLIC = r'^\s*pub (?:extern "C" )?(?:fn|struct|enum|trait|type|const) '
# Words that stand for themselves: crates, commands, keywords.
KNOWN = {"specs", "Debug", *re.findall(r"\w+", " ".join(re.findall(r"^[^#\n].*", (TOP / "crates.txt").read_text(), re.M)))}
KNOWN |= set(re.search(r"^commands=\((.*)\)", (TOP / "script/words.sh").read_text(), re.M).group(1).split())
KNOWN |= set(re.findall(r'Keyword::\w+ => "(\w+)"', (TOP / "crates/source/src/token.rt").read_text()))


def sources(crate):
    """The text of each module of a crate, without comments."""
    paths = (TOP / "crates" / crate / "src").glob("*.rt")
    return {path.stem: re.sub(r"^\s*//.*$", "", path.read_text(), flags=re.M) for path in paths}


def passed_on(text):
    """The names that a root passes on, each with the path to it."""
    for path, names in re.findall(r"^pub use ((?:\w+::)+)(?:\{)?([^;}]+)\}?;", text, re.M):
        for own, _, known in (name.strip().partition(" as ") for name in names.split(",") if name.strip()):
            yield known or own, [*path.removeprefix("crate::").split("::")[:-1], own]


def leads(crate, path):
    """Whether a path leads from a crate's root to something public: a module, a name, or a part of what has that name."""
    texts = sources(crate)
    root, known = texts[ROOTS[crate].stem], dict(passed_on(texts[ROOTS[crate].stem]))
    if path[0] in known:
        path = known[path[0]] + path[1:]
    elif path[0] in texts and not re.search(rf"^pub mod {path[0]};", root, re.M):
        return False
    if path[0] not in texts and path[0] in ROOTS and path[0] != crate:
        return len(path) == 1 or leads(path[0], path[1:])
    text, names = (texts[path[0]], path[1:]) if path[0] in texts else (root, path)
    if not names:
        return True
    of_it = "".join(it for it in texts.values() if re.search(rf"\b(?:enum|struct|trait|impl)\b.*\b{names[0]}\b", it))
    parts = (rf"^\s+(?:pub )?(?:fn )?{part}\b" for part in names[1:])
    return bool(re.search(rf"{PUBLIC}{names[0]}\b", text, re.M)) and all(re.search(part, of_it, re.M) for part in parts)


def has_file(crate, name):
    """Whether a crate's specs have this file or folder, in any folder where the name doesn't begin with specs/."""
    folder, name = TOP / "crates" / crate, name.removesuffix(".antt")
    if name.startswith("specs/"):
        return (folder / name).is_dir() or (folder / f"{name}.antt").exists()
    return (folder / "specs" / name).is_dir() or any((folder / "specs").rglob(f"{name}.antt"))


def has_word(crate, word):
    """Whether a crate has a file of specs, a module, or a declaration of this name."""
    specs = "\n".join(path.read_text() for path in (TOP / "crates" / crate / "specs").rglob("*.antt"))
    in_code = rf"\b(?:fn|struct|enum|trait|type|const|mod) {word}\b"
    return has_file(crate, word) or re.search(in_code, "".join(sources(crate).values())) or re.search(rf"^ *(?:\w+ )*{word}\b.*[:=]", specs, re.M)


def wrong(crate):
    """What is wrong with a crate's head."""
    text = ROOTS[crate].read_text()
    head = "\n".join(line[4:] for line in text.splitlines() if line.startswith("//!"))
    modules, known = re.findall(r"^(?:pub )?mod (\w+);", text, re.M), dict(passed_on(text))
    yield from (f"a line has {len(line)} characters: {line}" for line in head.splitlines() if len(line) > 122)
    links = re.findall(r"\[`([^`]+)`\]", head)
    yield from (f"[`{link}`] leads to nothing public" for link in links if not leads(crate, link.split("::")))
    named = {it for mark in MARKED.findall(head) for it in (mark, mark.split("::")[0])}
    named |= {known[link.split("::")[0]][0] for link in links if link.split("::")[0] in known}
    public = [*re.findall(r"^pub mod (\w+);", text, re.M), *known, *re.findall(r"^pub .*\bfn (\w+)", text, re.M)]
    yield from (f"it doesn't name `{name}`" for name in public if name not in named)
    for clause in re.split(r"\n\n|\n(?=- )|(?<=[.;])\s", head):
        marks = MARKED.findall(re.sub(r"\[`[^`]+`\]", "", clause))
        for mark in marks:
            its, _, file = mark.rpartition("/specs/")
            crates = [its] if its else [crate, *(it for it in marks if it in ROOTS)]
            if its or mark.startswith("specs/") or mark.endswith(".antt"):
                if not any(has_file(it, f"specs/{file}" if its else mark) for it in crates):
                    yield f"there is no {mark} in {' or '.join(crates)}"
            elif ROOTS[crate].stem == "lib" and re.fullmatch(r"[a-z][a-z0-9_]*|[A-Z]\w*[a-z]\w*", mark) and mark not in KNOWN:
                if not any(has_word(it, mark) for it in crates):
                    yield f"`{mark}` is nothing that {' or '.join(crates)} has"
        for words in re.findall(r"^(?:- )?((?:`[a-z]\w*`(?:,? and |, )?)+):", clause) if ROOTS[crate].stem == "lib" else []:
            yield from (f"`{word}` is no module" for word in MARKED.findall(words) if word not in modules)


def main():
    failed = 0
    for crate in sorted(ROOTS):
        for line in wrong(crate):
            print(f"{ROOTS[crate].relative_to(TOP)}: {line}")
            failed += 1
    print(f"{len(ROOTS)} heads, {failed} failed")
    return 1 if failed or not ROOTS else 0


if __name__ == "__main__":
    sys.exit(main())
