#!/usr/bin/env python3
"""Compares the files of editors/ with the keywords and signs of the lexer (crates/source/src/token.rt), and tries the
TextMate grammar, and Vim where there is one, on the programs of examples/. Reads the files of the other editors.

    tests/editors.py
"""
import json
import pathlib
import re
import shutil
import subprocess
import sys
import tempfile
import tomllib

TOP = pathlib.Path(__file__).resolve().parent.parent
FAILED = []


def judge(is_right, what):
    print(f"{'ok' if is_right else 'FAILED'} {what}")
    if not is_right:
        FAILED.append(what)


def same(found, wanted, what):
    judge(sorted(found) == sorted(wanted), what)
    if sorted(found) != sorted(wanted):
        print(f"  missing {set(wanted) - set(found)}, too many {set(found) - set(wanted)}, or one twice")


def scopes_of(text, patterns):
    """The scope and the text of each token of a line of a program, as an editor finds them."""
    found, at = [], 0
    while at < len(text):
        best = None
        for pattern in patterns:
            match = re.compile(pattern["match"]).search(text, at)
            if match and (best is None or match.start() < best[0].start()):
                best = match, pattern
        if best is None:
            break
        match, pattern = best
        found.append((match.start(), pattern.get("name", "captures"), match.group()))
        at = max(match.end(), at + 1)
    return found


def text_mate(keywords, signs):
    grammar = json.loads((TOP / "editors/vscode/autolock.tmLanguage.json").read_text())
    patterns = grammar["patterns"]
    listed = [word for it in patterns for group in re.findall(r"\(\?:([a-z_|]+)\)", it["match"]) for word in group.split("|")]
    same(listed, keywords, "TextMate: the keywords")
    names = {"keyword.operator.autolock", "punctuation.autolock"}
    for sign in signs:
        found = scopes_of(sign, patterns)
        judge(len(found) == 1 and found[0][1] in names and found[0][2] == sign, f"TextMate: the sign {sign}")
    for word in keywords:
        found = scopes_of(word, patterns)
        judge(len(found) == 1 and found[0][1] != "variable.other.autolock", f"TextMate: the keyword {word}")
        found = scopes_of(f"{word}s", patterns)
        judge([it[1] for it in found] == ["variable.other.autolock"], f"TextMate: {word}s is a name")
    for file in sorted((TOP / "examples").glob("*.al")):
        lines = file.read_text().splitlines()
        left = [re.sub(r"\s", "", line) for line in lines]
        told = ["".join(re.sub(r"\s", "", it[2]) for it in scopes_of(line, patterns)) for line in lines]
        judge(left == told, f"TextMate: {file.name}, each token has a scope")


def vim(keywords):
    text = (TOP / "editors/vim/syntax/autolock.vim").read_text()
    listed = [word for line in re.findall(r"^syntax keyword (?!autolockTodo)\w+ (.*)$", text, re.M) for word in line.split()]
    same(listed, keywords, "Vim: the keywords")
    if not shutil.which("vim"):
        print("no vim here: its files were not tried")
        return
    with tempfile.TemporaryDirectory() as room:
        room = pathlib.Path(room)
        (room / "faults").write_text("a b.al:12:5: E14 lock order cycle: A.l -> B.m -> A.l\nautolock: some line\n")
        program = "\n".join(f"{word} // {word}" for word in keywords)
        (room / "all.al").write_text(program + "\nx1 12 && ==\n")
        (room / "script.vim").write_text(
            f"""
set nocompatible
set runtimepath^={TOP}/editors/vim
filetype plugin on
syntax on
edit {room}/all.al
let lines = [&filetype]
for at in range(1, line('$'))
  call add(lines, synIDattr(synID(at, 1, 0), 'name') . ' ' . synIDattr(synID(at, col([at, '$']) - 1, 0), 'name'))
endfor
compiler autolock
call add(lines, &makeprg)
call add(lines, &commentstring . '|' . &shiftwidth . '|' . &formatprg)
new {room}/b.autolock
call add(lines, &filetype)
cgetfile {room}/faults
for it in getqflist()
  if it.valid
    call add(lines, bufname(it.bufnr) . '|' . it.lnum . '|' . it.col . '|' . it.text)
  endif
endfor
call writefile(lines, '{room}/out')
qall!
"""
        )
        subprocess.run(
            ["vim", "-u", "NONE", "-es", "-S", str(room / "script.vim")],
            stdin=subprocess.DEVNULL,
            cwd=room,
            timeout=60,
            check=False,
        )
        lines = (room / "out").read_text().splitlines() if (room / "out").exists() else []
        judge(lines[:1] == ["autolock"], "Vim: the type of a file")
        for word, line in zip(keywords, lines[1:]):
            group, last = line.split(" ")
            is_right = group.startswith("autolock") and group not in ("autolockComment", "autolockTodo")
            judge(is_right and last == "autolockComment", f"Vim: the keyword {word}, and a comment")
        judge(len(lines) > len(keywords) + 1 and lines[len(keywords) + 1].startswith(" "), "Vim: a name")
        judge(lines[-4:-3] == ["autolock check %:S"], "Vim: what :make runs")
        judge(lines[-3:-2] == ["// %s|2|autolock format /dev/stdin"], "Vim: comments, indents, and what gq runs")
        judge(lines[-2:-1] == ["autolock"], "Vim: the type of a file that ends in .autolock")
        judge(lines[-1:] == ["a b.al|12|5|E14 lock order cycle: A.l -> B.m -> A.l"], "Vim: the place of a fault")


def others(keywords):
    """The files of VS Code and Helix are read, and name what there is; those of Neovim and Emacs name the words."""
    folder = TOP / "editors/vscode"
    package = json.loads((folder / "package.json").read_text())
    json.loads((folder / "language-configuration.json").read_text())
    parts = package["contributes"]
    paths = [package["main"]] + [it["path"] for it in parts["grammars"]] + [it["configuration"] for it in parts["languages"]]
    judge(all((folder / path).resolve().is_file() for path in paths), "VS Code: the files of package.json")
    grammar = json.loads((TOP / "editors/vscode/autolock.tmLanguage.json").read_text())
    judge(parts["grammars"][0]["scopeName"] == grammar["scopeName"], "VS Code: the scope of the grammar")
    endings = sorted(ending.lstrip(".") for ending in parts["languages"][0]["extensions"])
    judge(endings == sorted(grammar["fileTypes"]) == ["al", "autolock"], "VS Code: the endings of files")
    judge(package["version"] == (TOP / "VERSION").read_text().strip(), "VS Code: the version")
    helix = tomllib.loads((TOP / "editors/helix/languages.toml").read_text())
    servers = helix["language"][0]["language-servers"]
    judge(all(helix["language-server"][name]["args"] == ["lsp"] for name in servers), "Helix: the server")
    emacs = (TOP / "editors/emacs/autolock.el").read_text()
    words = re.search(r"autolock-keywords\s+'\((.*?)\)", emacs, re.S)[1]
    same(re.findall(r'"(\w+)"', words), keywords, "Emacs: the keywords")
    for opening, closing in ("()", "{}", "[]"):
        for name in ("emacs/autolock.el", "nvim/plugin/autolock.lua", "vscode/client.js"):
            text = re.sub(r'"[^"]*"|\?.', lambda it: it[0] if len(it[0]) == 1 else "", (TOP / "editors" / name).read_text())
            judge(text.count(opening) == text.count(closing), f"{name}: each {opening} has its {closing}")


def main():
    token = (TOP / "crates/source/src/token.rt").read_text()
    keywords = re.findall(r'Keyword::\w+ => "(\w+)"', token)
    signs = re.findall(r'Sign::\w+ => "([^"]+)"', token)
    for name, found in (("Keyword", keywords), ("Sign", signs)):
        variants = re.findall(r"^    (\w+),", re.search(rf"pub enum {name} \{{(.*?)^\}}", token, re.M | re.S)[1], re.M)
        judge(len(found) == len(set(found)) == len(variants) > 0, f"the lexer's table, {name}")
    text_mate(keywords, signs)
    vim(keywords)
    others(keywords)
    sys.exit(1 if FAILED else 0)


main()
