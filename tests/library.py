#!/usr/bin/env python3
"""The static library of crates/autolock_c, called from C and from Python, beside the program.

    tests/library.py BIN [--archive FILE] [--every N] [FILE ..]

BIN is the built program, FILE the archive, by default the one that script/library.py makes. Over each FILE, by default
the programs of examples/, those of the worked rows of tests/rows.json, and some that are no program at all:

rooms     callers in C (tests/library/rooms.c), by gcc and by clang, with the sanitizers of addresses and of undefined
          behaviour round it, and linked without shared libraries: each function with rooms of many sizes between pages
          that nobody may touch; the answers are those of `check`, `explain --json`, `emit` and `emit --header` of BIN,
          byte for byte, but for the file's name
python    a shared library made of the archive, called by ctypes, from eight threads side by side, with stacks of 1 MiB:
          the same answers
prefixes  those that `emit --prefix` of BIN takes and refuses
refused   each N-th growth of memory refused (by default each 7th, and each one of two small programs): status 4,
          nothing in the room, each block given back (tests/library/refused.c)
page      the example of docs/C.md writes what `check` does
names     the archive calls nothing of the system but malloc, realloc and free; the header is one of C++ too

The last line is 'N passed, M failed'; exit status 1 where M is not 0, 3 where a compiler or the archive is missing.
"""
import argparse
import concurrent.futures
import ctypes
import pathlib
import re
import shutil
import subprocess
import sys
import tempfile
import threading

from rows import rows

TOP = pathlib.Path(__file__).resolve().parent.parent
ARCHIVE = TOP / "crates" / "autolock_c" / "out" / "libautolock_c.a"
HERE = TOP / "tests" / "library"
STRICT = ["-std=gnu11", "-Wall", "-Wextra", "-Werror", "-I", str(TOP / "include")]
SANITIZED = ["-g", "-fsanitize=address,undefined", "-fno-sanitize-recover=all"]
WAYS = {
    "gcc": ["gcc", "-O2"],
    "clang": ["clang", "-O2"],
    "static": ["gcc", "-O1", "-static"],
    "sanitized": ["gcc", "-O1", *SANITIZED],
    "clang sanitized": ["clang", "-O1", *SANITIZED],
}
WRAP = [f"-Wl,--wrap={name}" for name in ("malloc", "realloc", "free")]
COMMANDS = {
    "check": ["check"],
    "explain": ["explain", "--json"],
    "emit": ["emit", "--prefix"],
    "header": ["emit", "--header", "--prefix"],
}
PREFIXES = ["al", "a", "bank2", "Z" * 32, "ALx", "autolock1", "", "AL", "autolock", "1a", "a_b", "a b", "é", "Z" * 33]
MALLOC = {"free", "malloc", "realloc"}
EXPORTS = {"autolock_check", "autolock_explain", "autolock_emit", "autolock_emit_header"}
# What compilers call for copies of memory and the like.
MEMORY = {"memcmp", "memcpy", "memmove", "memset", "bcmp"}

# What a text is nested by, to the limit and beyond, and the stack that include/autolock.h asks for.
NESTED = {"sums": (b"n = ", b"(n + ", b"1", b")", b";"), "loops": (b"", b"while (n < 1) { ", b"n = 1;", b" }", b"")}
STACK = 1 << 20


def strange_texts():
    """Texts that no file of examples/ is like, by a name of each."""
    yield "empty", b""
    yield "zeros", bytes(300)
    yield "all_bytes", bytes(range(256))
    program = b"lock G;\nglobal int n protected_by(G);\natomic f() { n = n + 1; }\nthread t { f(); }\n"
    yield "comment", b"// \xff\xfe \xc3\xa9\n" + program
    for depth in (31, 62, 70, 100_000):
        for name, (begin, opening, inner, closing, end) in NESTED.items():
            nested = begin + opening * depth + inner + closing * depth + end
            yield f"{name}_{depth}", program.replace(b"n = n + 1;", nested)
    yield "longest", b"lock G;\n" + b" " * ((1 << 20) - 8)
    yield "too_long", b" " * ((1 << 20) + 1)
    yield "much_too_long", b"lock G;\n" * (1 << 18)


class Tests:
    def __init__(self, program, archive, kit, room, every):
        self.program, self.archive, self.room, self.every = program, archive, room, every
        self.archives = [str(archive), f"{kit}/c/liblibc_c.a"]
        self.passed = self.failed = 0

    def judge(self, what, is_right, more=""):
        self.passed += bool(is_right)
        self.failed += not is_right
        if not is_right:
            print(f"FAILED {what}{': ' * bool(more)}{more}")

    def run(self, words, **how):
        return subprocess.run(words, cwd=self.room, stdin=subprocess.DEVNULL, capture_output=True, timeout=600, **how)

    def path(self, name):
        return str(self.room / name)

    def compiled(self, source, name, words):
        """The program of a caller in C, or None."""
        to = self.path(f"{pathlib.Path(source).stem}-{name.replace(' ', '-')}")
        done = self.run([*words, *STRICT, "-o", to, str(HERE / source), *self.archives])
        self.judge(f"{source} by {name}", done.returncode == 0 and not done.stderr, done.stderr.decode()[-2000:])
        return None if done.returncode else to

    def wanted(self, text, word, prefix="al"):
        """What the program answers for a text in a file, with the file's name left out."""
        (self.room / "F").write_bytes(text)
        asks_prefix = word in ("emit", "header")
        done = self.run([self.program, *COMMANDS[word], *[prefix] * asks_prefix, "F"])
        said = done.stdout + done.stderr
        if word == "explain":
            said = said.replace(b'"file":"F"', b'"file":""', 1)
        elif done.returncode == 1:
            said = said.removeprefix(b"F")
        return done.returncode, said

    def rooms(self, texts, wanted):
        files = []
        for number, text in enumerate(texts.values()):
            files.append(self.path(f"text{number}"))
            pathlib.Path(files[-1]).write_bytes(text)
        for name, words in WAYS.items():
            caller = self.compiled("rooms.c", name, words)
            if not caller:
                continue
            folder = self.room / f"answers-{name}"
            folder.mkdir()
            done = self.run([caller, "al", str(folder), *files])
            said = (done.stdout + done.stderr).decode(errors="replace")
            self.judge(f"rooms by {name}", done.returncode == 0, said[-2000:])
            for number, text in enumerate(texts):
                for word in COMMANDS:
                    file = folder / f"{number}.{word}"
                    status, _, said = file.read_bytes().partition(b"\n") if file.exists() else (b"-1", b"", b"")
                    got = int(status), said
                    self.judge(f"{word} of {text} from C by {name}", got == wanted[text, word], f"{got!r:.300}")

    def loaded(self):
        """The functions of a shared library of the archive."""
        to = self.path("libautolock.so")
        whole = ["-Wl,--whole-archive", self.archives[0], "-Wl,--no-whole-archive", self.archives[1]]
        done = self.run(["gcc", "-shared", "-o", to, *whole])
        self.judge("a shared library of the archive", done.returncode == 0, done.stderr.decode()[-2000:])
        library = ctypes.CDLL(to)
        size, block = ctypes.c_size_t, ctypes.c_char_p
        room = [block, size, ctypes.POINTER(size)]
        functions = {}
        for word in COMMANDS:
            prefix = [block, size] if word in ("emit", "header") else []
            function = getattr(library, "autolock_emit_header" if word == "header" else f"autolock_{word}")
            function.restype, function.argtypes = ctypes.c_uint8, [block, size, *prefix, *room]
            functions[word] = function
        return functions

    def python(self, texts, wanted):
        functions = self.loaded()

        def answer(given):
            text, word = given
            return given, ask(functions[word], texts[text], b"al" if word in ("emit", "header") else None)

        threading.stack_size(STACK)
        with concurrent.futures.ThreadPoolExecutor(8) as pool:
            for (text, word), got in pool.map(answer, [*wanted, *reversed(wanted)]):
                self.judge(f"{word} of {text} from Python", got == wanted[text, word], f"{got!r:.300}")
        text = next(iter(texts.values()))
        for prefix in PREFIXES:
            for word in ("emit", "header"):
                status, said = self.wanted(text, word, prefix)
                got = ask(functions[word], text, prefix.encode())
                # (of bad words the command tells its usage)
                want = (2, b"") if status == 2 else (status, said)
                self.judge(f"{word} --prefix {prefix!r}", got == want, f"{got!r:.300}")
        self.judge("a prefix that is no UTF-8", ask(functions["emit"], text, b"a\xff") == (2, b""))

    def refused(self, files):
        caller = self.compiled("refused.c", "gcc", ["gcc", "-O2", *WRAP])
        if not caller:
            return
        small = [str(file) for file in files if file.stem in ("lost_update", "hand_over_hand")]
        for every, given in ((1, small), (self.every, [str(file) for file in files])):
            done = self.run([caller, str(every), *given])
            count = re.fullmatch(rb"(?s).*?(\d+) growths refused, 0 failed\n", done.stdout)
            is_right = done.returncode == 0 and count and (int(count[1]) > 0 or not given)
            self.judge(f"each {every} growths refused", is_right, (done.stdout + done.stderr).decode()[-2000:])
            print((done.stdout.decode().splitlines() or ["nothing"])[-1])

    def page(self, texts, wanted):
        blocks = re.findall(r"```c\n(.*?)```", (TOP / "docs" / "C.md").read_text(), re.S)
        found = [block for block in blocks if "autolock_check" in block]
        self.judge("docs/C.md has one example", len(found) == 1)
        (self.room / "judge.c").write_text(found[0])
        caller = self.compiled(self.room / "judge.c", "gcc", ["gcc", "-O2", "-pedantic"])
        for text in [*texts][:40] if caller else []:
            done = subprocess.run([caller], input=texts[text], capture_output=True, timeout=60)
            got = done.returncode, done.stdout
            self.judge(f"docs/C.md over {text}", got == wanted[text, "check"], f"{got!r:.300}")

    def names(self):
        done = self.run(["nm", "-g", self.archives[0]])
        found = re.findall(r"^(?:[0-9a-f]+)? +([A-Za-z]) (\S+)$", done.stdout.decode(), re.M)
        made = {name for kind, name in found if kind not in "Uw"}
        used = {name for kind, name in found if kind in "Uw"} - made
        rest = {name for name in used - MEMORY if not name.startswith("rattle_")} - {"_GLOBAL_OFFSET_TABLE_"}
        self.judge("what the archive has for callers", EXPORTS <= made, f"{EXPORTS - made}")
        self.judge("what the archive calls", not rest, f"{rest}")
        done = self.run(["nm", "-gu", self.archives[1]])
        used = {*re.findall(r"U (\S+)", done.stdout.decode())} - {"_GLOBAL_OFFSET_TABLE_"}
        self.judge("what the kit's archive calls", used == MALLOC, f"{used}")
        words = ["g++", "-std=c++17", "-Wall", "-Wextra", "-Werror", "-pedantic", "-fsyntax-only", "-x", "c++"]
        done = self.run([*words, str(TOP / "include" / "autolock.h")])
        self.judge("the header by g++", done.returncode == 0, done.stderr.decode()[-2000:])


def ask(function, text, prefix=None):
    """The status and the answer of a call, with as much room as it needs."""
    given = [text, len(text)] + ([prefix, len(prefix)] if prefix is not None else [])
    size = 256
    while True:
        room, needed = ctypes.create_string_buffer(size), ctypes.c_size_t(12345)
        status = function(*given, room, size, ctypes.byref(needed))
        if needed.value <= size:
            return status, room.raw[: needed.value]
        size = needed.value


def texts_of(files, is_all):
    texts = {file.name: file.read_bytes() for file in files}
    if is_all:
        texts |= {f"row {it['name']}": it["files"]["F"].encode("latin-1") for it in rows() if "F" in it["files"]}
        texts |= dict(strange_texts())
    return texts


def main():
    parser = argparse.ArgumentParser(description=__doc__, formatter_class=argparse.RawDescriptionHelpFormatter)
    parser.add_argument("program")
    parser.add_argument("files", nargs="*", type=pathlib.Path)
    parser.add_argument("--archive", type=pathlib.Path, default=ARCHIVE)
    parser.add_argument("--every", type=int, default=7)
    given = parser.parse_intermixed_args()
    rt = shutil.which("rt")
    missing = [name for name in ("rt", "gcc", "g++", "clang", "nm") if not shutil.which(name)]
    if missing or not given.archive.exists():
        print(f"this needs {', '.join(missing) or given.archive}")
        return 3
    kit = pathlib.Path(rt).resolve().parent.parent
    files = [file.resolve() for file in given.files] or sorted((TOP / "examples").glob("*.al"))
    texts = texts_of(files, not given.files)
    with tempfile.TemporaryDirectory() as room:
        program = str(pathlib.Path(given.program).resolve())
        tests = Tests(program, given.archive.resolve(), kit, pathlib.Path(room), given.every)
        wanted = {(name, word): tests.wanted(text, word) for name, text in texts.items() for word in COMMANDS}
        tests.names()
        tests.rooms(texts, wanted)
        tests.python(texts, wanted)
        tests.page(texts, wanted)
        tests.refused(files)
    print(f"{tests.passed} passed, {tests.failed} failed")
    return 1 if tests.failed else 0


if __name__ == "__main__":
    sys.exit(main())
