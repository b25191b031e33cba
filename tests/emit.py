#!/usr/bin/env python3
"""What `emit` writes, compiled and run beside `serial`.

    tests/emit.py BIN [--seed N] [--count N] [--ways HOW] [--histories N] [--jobs N] [--keep FOLDER] [FILE ..]

BIN is the built program. Each FILE, by default those of examples/ and the worked rows of tests/rows.json, and `--count` random
programs (by default 300, those of the seeds from N on, 1 by default) are given to `emit`:

refused   where `listing` refuses the text, so does `emit`, with the same message and status
compiled  gcc and clang, -O0, -O2 and -O3, -std=c11 -Wall -Wextra -Werror -pedantic, take the file, and g++ -std=c++17 the
          header; none takes more than ten seconds
serial    the program with AL_MAIN, given the word `serial`, writes what `serial` does, byte for byte; also with
          -fsanitize=undefined,address, AL_PORTABLE and AL_CHECK
threads   it runs a thread for each script, under -fsanitize=thread, with no report
history   with AL_HISTORY too it writes the history of that run, `--histories` times (by default three), also under
          -fsanitize=thread; `replay` says `same` of it, and something else where a result in it is changed
labels    are the places to which the jumps of `listing` lead
lines     with `--lines`, the C is told to be of the lines that `listing --places` has, also of files with hard names

recorder  where memory is refused it, nothing is written and the status is 4; calls of a caller's own threads are in order;
          calls that wait for a lock have begun before the call that had it ended
callers   those of examples/c, in C, C++, Python and, where rustc is there, Rust, come to the total of their accounts

Random programs are compiled by one compiler with warnings, and one more way each, in turn. With `--ways all` each is
compiled by both compilers at each level, one of the six with AL_HISTORY, and with sanitizers in one way; with `--ways two`
by two of the six, one with AL_HISTORY, and with sanitizers; and they alone are tried. Otherwise the tests are tested
at the end: changed C files have to be found out. A FILE of which something isn't as it should be is kept in `--keep`. The
last lines are the numbers of accepted programs, compiles and histories, and 'N passed, M failed'; exit status 1 where M is
not 0, 3 where a compiler is missing and can't be installed.
"""

import argparse
import collections
import functools
import itertools
import multiprocessing
import os
import pathlib
import random
import re
import resource
import shutil
import subprocess
import sys
import tempfile

from helper_programs import drawn

TOP = pathlib.Path(__file__).resolve().parent.parent
STRICT = ["-std=c11", "-Wall", "-Wextra", "-Werror", "-pedantic"]
MAIN = ["-DAL_MAIN", "-pthread"]
SECONDS = 10
PROCESSORS = len(os.sched_getaffinity(0))
# Both compilers at each level.
LEVELS = {f"{name}-{level}": [name, f"-{level}", *STRICT, *MAIN] for name in ("gcc", "clang") for level in ("O0", "O2", "O3")}
WAYS = {
    **LEVELS,
    "packed": ["gcc", "-O1", *STRICT, *MAIN, "-DAL_LINE=8", "-DAL_PORTABLE"],
    "undefined": ["gcc", "-O1", "-g", "-fsanitize=undefined,address", "-fno-sanitize-recover=all", *STRICT, *MAIN]
    + ["-DAL_PORTABLE", "-DAL_CHECK"],
    "threads": ["clang", "-O1", "-g", "-fsanitize=thread", *STRICT, *MAIN],
    "history": ["gcc", "-O2", *STRICT, *MAIN, "-DAL_HISTORY"],
    "history-threads": ["clang", "-O1", "-g", "-fsanitize=thread", *STRICT, *MAIN, "-DAL_HISTORY", "-DAL_CHECK"],
}
SANITIZED = ["undefined", "threads", "history-threads"]
# The levels with a history: ways that are only taken where `--ways` asks for them.
RECORDED = {f"history-{way}": [*words, "-DAL_HISTORY"] for way, words in LEVELS.items()}
# The other ways, which random programs take in turn beside the first.
FIRST = "gcc-O2"
JUMP = re.compile(r"^\d+ (?:jump|jtrue|jfalse) (\d+)$", re.M)
LABEL = re.compile(r"^L(\d+):$", re.M)
PLACE = re.compile(r"^\d+ (\d+):\d+ ", re.M)
CALL = re.compile(rb"^call (\d+) (\d+) (\d+) ", re.M)
RESULT = re.compile(rb"(?<=\) returns )-?\d+$", re.M)
LINE = re.compile(r'^#line (\d+) "(?:[^"]*)"$', re.M)


class Differs(Exception):
    pass


def run(words, **more):
    done = subprocess.run(words, capture_output=True, timeout=600, **more)
    return done.returncode, done.stdout, done.stderr


def spent():
    """The processor's seconds that commands of this process have taken; others may be at work beside them."""
    told = resource.getrusage(resource.RUSAGE_CHILDREN)
    return told.ru_utime + told.ru_stime


class Emitted:
    """A program's text, in a folder of its own."""

    def __init__(self, binary, folder, text, histories=3):
        self.binary, self.folder, self.histories = binary, folder, histories
        self.counts = collections.Counter()
        self.source = os.path.join(folder, "program.al")
        with open(self.source, "wb") as file:
            file.write(text)

    def path(self, name):
        return os.path.join(self.folder, name)

    def write(self, name, text):
        with open(self.path(name), "wb") as file:
            file.write(text)
        return self.path(name)

    def accepted(self):
        """Whether it is; where not, it is refused as `listing` refuses it."""
        self.emitted = run([self.binary, "emit", self.source])
        self.listing = run([self.binary, "listing", self.source])
        if self.listing[0] == 0:
            if self.emitted[0] != 0 or self.emitted[2]:
                raise Differs(f"emit ends with {self.emitted[0]}: {self.emitted[2].decode(errors='replace')}")
            self.write("program.c", self.emitted[1])
            return True
        if self.emitted != self.listing:
            raise Differs(f"listing {self.listing} but emit {self.emitted}")
        return False

    def compiled(self, way, name="program", more=()):
        begun = spent()
        self.counts["compiles"] += 1
        status, _, told = run([*(WAYS | RECORDED)[way], *more, "-o", self.path(f"{name}-{way}"), self.path(f"{name}.c")])
        if status != 0:
            raise Differs(f"{way}: {told.decode(errors='replace')}")
        if spent() - begun > SECONDS:
            raise Differs(f"{way}: compiled in {spent() - begun:.1f} s")
        return self.path(f"{name}-{way}")

    @functools.cached_property
    def wanted(self):
        """What `serial` ends with and writes."""
        return run([self.binary, "serial", "--turns", "100000", self.source])

    def serial(self, way, name="program"):
        """It writes what `serial` does."""
        program = self.compiled(way, name)
        if self.wanted[0] != 0:
            return program
        status, out, told = run([program, "serial"])
        if (status, out) != (0, self.wanted[1]):
            raise Differs(f"{way}: serial ends with {status}\n{out.decode()}{told.decode()}\nbut\n{self.wanted[1].decode()}")
        return program

    def threads(self, name="program"):
        if self.wanted[0] != 0:
            return
        status, out, told = run([self.compiled("threads", name)])
        if status != 0 or told:
            raise Differs(f"threads: ends with {status}\n{told.decode()}")
        if not out.endswith(b"end\n"):
            raise Differs(f"threads: writes\n{out.decode()}")

    def replayed(self, history, name="replayed"):
        """What `replay` says of a history."""
        return run([self.binary, "replay", self.source, self.write(f"{name}.history", history)])[:2]

    def history(self, way="history", name="program", runs=0):
        """What threads write is a history that can be; and `serial` as without one."""
        program = self.serial(way, name)
        if self.wanted[0] != 0:
            return
        for _ in range(runs or self.histories):
            self.counts["histories"] += 1
            status, out, told = run([program])
            if status != 0 or told:
                raise Differs(f"{way}: ends with {status}\n{told.decode()}")
            in_order(out)
            said = self.replayed(out)
            if said != (0, b"same\n"):
                raise Differs(f"{way}: replay says {said}\n{out.decode()}")
        changed, count = RESULT.subn(lambda found: b"%d" % ((int(found[0]) + 1) % 2**63), out, count=1)
        if count and self.replayed(changed) == said:
            raise Differs(f"{way}: replay says the same of a changed result\n{changed.decode()}")

    def overlaps(self, name="program"):
        """Many calls began before the one ahead of them ended, where there are processors for that; where a call notes the
        length at its end, some at most do."""
        program = self.compiled("history", name, ["-include", self.write("yields.h", YIELDS)])
        for _ in range(20):
            calls = CALL.findall(run([program])[1])
            if sum(int(begun) < place for place, (_, _, begun) in enumerate(calls)) > 10:
                return
        raise Differs("overlaps: hardly a call began before the one ahead of it ended")

    def refused(self):
        """Where memory is refused, no history is written."""
        refuse = self.write(
            "refuse.h",
            b"#include <stdlib.h>\nstatic _Atomic int given;\n"
            b"static void *refuse(size_t n) { return given++ < GIVEN ? malloc(n) : NULL; }\n",
        )
        macros = ["-include", refuse, "-DAL_MALLOC=refuse", "-DAL_FREE=free"]
        for given in (0, 1, 2, 3, 4, 5, 6, 12, 30, 1000):
            program = self.path(f"refused-{given}")
            words = [*WAYS["history"], *macros, f"-DGIVEN={given}", "-o", program, self.path("program.c")]
            status, _, told = run(words)
            if status != 0:
                raise Differs(f"refused: {told.decode()}")
            status, out, _ = run([program])
            whole = given == 1000
            if (status, bool(out)) != ((0, True) if whole else (4, False)):
                raise Differs(f"refused: {given} times memory was given, but it ends with {status}\n{out.decode()}")

    def way(self, way):
        if way == "threads":
            self.threads()
        elif way.startswith("history"):
            self.history(way)
        else:
            self.serial(way)

    def labels(self):
        # sections number their instructions from 0 on, each for itself
        sections = re.split(r"(?m)^section .*\n", self.listing[1].decode())[1:]
        bodies = re.split(r"(?m)^begin:$", self.emitted[1].decode())[1:]
        if len(bodies) != len(sections):
            raise Differs(f"labels: {len(bodies)} sections but {len(sections)}")
        for section, body in zip(sections, bodies):
            one = {int(place) for place in JUMP.findall(section)}
            other = {int(place) for place in LABEL.findall(body)}
            if one != other:
                raise Differs(f"labels: {sorted(other)} but {sorted(one)}")

    def lines(self, name=b"program.al", ran=False):
        """Where each point's instructions begin, with `--lines` the C is told to be of the point's line."""
        source = os.path.join(self.folder.encode(), name)
        if name != b"program.al":
            shutil.copy(self.source, source)
        status, text, told = run([self.binary, "emit", "--lines", source])
        if status != 0:
            raise Differs(f"lines: ends with {status}: {told.decode()}")
        path = self.write("lines.c", text)
        status, _, told = run(["gcc", "-O0", "-g", "-c", *STRICT, *MAIN, "-o", self.path("lines.o"), path])
        if status != 0:
            raise Differs(f"lines: {told.decode(errors='replace')}")
        if b"#line" in text.replace(b'#line 1 "emitted"', b"") and name not in pathlib.Path(self.path("lines.o")).read_bytes():
            raise Differs(f"lines: {source!r} is not told")
        places = run([self.binary, "listing", "--places", source])[1].decode()
        sections = re.split(r"(?m)^section .*\n", places)[1:]
        bodies = re.split(r"(?m)^begin:$", text.decode())[1:]
        for section, body in zip(sections, bodies, strict=True):
            # a call of a helper has several points at one place
            wanted = [line for line, _ in itertools.groupby(PLACE.findall(section))]
            found = LINE.findall(body.partition('\n#line 1 "emitted"\n}\n')[0])
            if wanted != [line for line, _ in itertools.groupby(found)]:
                raise Differs(f"lines: {found} but {wanted}")
            # all C of a point is one line
            if any("\n" in part.strip("\n") for part in LINE.split(body.partition('\n#line 1 "emitted"\n')[0])[2::2]):
                raise Differs("lines: a point has several")
        if ran:
            self.serial(FIRST, "lines")

    def header(self):
        status, text, told = run([self.binary, "emit", "--header", self.source])
        if status != 0 or not self.emitted[1].startswith(text):
            raise Differs(f"header: {status} {told}")
        path = self.write("program.h", text)
        user = self.write("user.cpp", b'#include "program.h"\n#include "program.h"\nint main() { return alSize() == 0; }\n')
        strict = ["-std=c++17", "-Wall", "-Wextra", "-Werror", "-pedantic", "-fsyntax-only"]
        for more in ([], ["-DAL_HISTORY"]):
            status, _, told = run(["g++", *strict, *more, "-I", self.folder, user])
            if status != 0:
                raise Differs(f"{path}: {told.decode()}")

    def prefix(self):
        """Two programs are linked together where their prefixes differ."""
        objects = []
        for prefix in ("one", "two"):
            path = self.write(f"{prefix}.c", run([self.binary, "emit", "--prefix", prefix, self.source])[1])
            objects.append(path)
        user = self.write("both.c", b"int main(void) { return 0; }\n")
        together = self.write("together.c", b'#include "one.c"\n#include "two.c"\nint main(void) { return 0; }\n')
        for files in ([user, *objects], [together]):
            status, _, told = run(["gcc", *STRICT, "-DAL_HISTORY", "-pthread", "-o", self.path("both"), *files])
            if status != 0:
                raise Differs(f"prefixes: {told.decode()}")


def in_order(history):
    """Each call began behind its thread's call before it and has the number behind that."""
    last = {}
    for place, (thread, number, begun) in enumerate(CALL.findall(history)):
        number_before, place_before = last.get(thread, (-1, -1))
        if int(number) != number_before + 1 or not place_before < int(begun) <= place:
            raise Differs(f"history: call {place}: {thread.decode()} {number.decode()} {begun.decode()}")
        last[thread] = (int(number), place)
    return last


def try_one(part):
    binary, keep, histories, name, text, ways = part
    with tempfile.TemporaryDirectory() as folder:
        emitted = Emitted(binary, folder, text, histories)
        tried = 0
        try:
            if not emitted.accepted():
                return name, 1, None, emitted.counts
            emitted.counts["programs"] += 1
            emitted.labels()
            tried = 2
            is_random = name.startswith("seed-")
            if len(ways) == 2 or not is_random:
                emitted.lines(ran=not is_random)
                tried += 1
            if not is_random:
                emitted.header()
                emitted.prefix()
                tried += 2
            for way in ways:
                emitted.way(way)
                tried += 1
            return name, tried, None, emitted.counts
        except (Differs, subprocess.TimeoutExpired) as wrong:
            if keep:
                os.makedirs(keep, exist_ok=True)
                for kept in ("program.al", "program.c"):
                    if os.path.exists(emitted.path(kept)):
                        shutil.copy(emitted.path(kept), os.path.join(keep, name.replace("/", "-") + kept[7:]))
            return name, tried, str(wrong), emitted.counts


ENDED = r"(#ifdef AL_HISTORY\n  autolock_ended.*\n#endif\n)"
# Changes of a C file that a test has to find: what is changed, into what, of which file, and by which way.
CHANGES = [
    (r"  AL_ORDER\(m\[0\], m\[1\]\);\n", "", "order", "deadlock"),
    (r"  if \(m\[0\] == [^\n]*\) m\[0\] = NULL;\n", "", "doubled", "deadlock"),
    (r"  if \(h\[0\] != NULL\) AL_UNLOCK\(h\[0\]\);\n", "", "unlock", "deadlock"),
    (r"AL_LOCK\(m\[0\]\)", "(void)m[0]", "lock", "threads"),
    (r"  AL_SUB\(", "  AL_ADD(", "operator", "serial"),
    (ENDED + r"(  if \(h.*\n)", r"\2\1", "entry behind an unlock", "history"),
    (ENDED, r"#ifdef AL_HISTORY\n  if (trap == 0) autolock_ended(seat, trap, value, 0, NULL);\n#endif\n", "traps", "history"),
    (r"  e->place = ", r"  e->begun = seat->history->length;\n  e->place = ", "length noted at the end", "overlaps"),
    (r"  e->begun = .*\n", r"  e->begun = 0;\n", "length not noted", "history"),
    (r"(?<=PRId64, )a\[2\]", "a[2] + 1", "argument", "history"),
]
# Locks with which a thread lets others run while it has one, so that a circle comes also on a busy machine.
YIELDS = b"""#include <pthread.h>
#include <sched.h>
#define AL_MUTEX pthread_mutex_t
#define AL_MUTEX_OPEN(m) pthread_mutex_init((m), NULL)
#define AL_MUTEX_CLOSE(m) pthread_mutex_destroy(m)
#define AL_LOCK(m) (pthread_mutex_lock(m), sched_yield())
#define AL_UNLOCK(m) pthread_mutex_unlock(m)
"""
CONTENDED = b"""struct Acc { lock l; int bal protected_by(l); }
pool Acc p[2];
init p[0].bal = 10;
init p[1].bal = 20;
atomic transfer(ref Acc a, ref Acc b, int k) : int {
  a.bal = a.bal - k;
  b.bal = b.bal + k;
  return b.bal;
}
atomic add(ref Acc a, int k) : int {
  a.bal = a.bal + k;
  return a.bal;
}
thread t { repeat 20000 { transfer(p[0], p[1], 5); } transfer(p[0], p[0], 1); transfer(null, p[0], 1); add(p[0], 1); }
thread u { repeat 20000 { transfer(p[1], p[0], 7); } }
thread v { repeat 20000 { add(p[0], 1); add(p[1], 2); } }
"""


def is_found(emitted, way):
    """Whether a changed program shows that it is wrong."""
    try:
        if way == "serial":
            emitted.serial(FIRST, "changed")
        elif way == "threads":
            emitted.threads("changed")
        elif way == "history":
            emitted.history(name="changed", runs=20)
        elif way == "overlaps":
            emitted.overlaps("changed")
        else:
            program = emitted.compiled(FIRST, "changed", ["-include", emitted.write("yields.h", YIELDS)])
            for _ in range(20):
                subprocess.run([program], capture_output=True, timeout=5, check=False)
        return False
    except (Differs, subprocess.TimeoutExpired):
        return True


def tested_tests(binary):
    """How many changes are found, and those that aren't."""
    missed = []
    with tempfile.TemporaryDirectory() as folder:
        emitted = Emitted(binary, folder, CONTENDED)
        if not emitted.accepted():
            return 0, ["the contended program is refused"]
        changes = [change for change in CHANGES if PROCESSORS > 1 or change[3] != "overlaps"]
        for old, new, name, way in changes:
            text, count = re.subn(old, new, emitted.emitted[1].decode())
            emitted.write("changed.c", text.encode())
            if count == 0 or not is_found(emitted, way):
                missed.append(f"change {name}: {'made nowhere' if count == 0 else 'not found'}")
    return len(changes) - len(missed), missed


# A caller with more threads than `replay` takes, with a bad argument, and with two states in turn.
OWN = b"""#include <pthread.h>
#include <stdio.h>
#include "program.h"
static struct alState state, other;
static int64_t seats[70];
static void *work(void *own)
{
  int i;
  for (i = 0; i < 3000; i++) al_transfer(&state, al_p(&state, i & 1), al_p(&state, ~i & 1), 1);
  *(int64_t *)own = alSeat(&state);
  return NULL;
}
int main(void)
{
  pthread_t threads[70];
  int i;
  alOpen(&state);
  if (alSeat(&state) != -1 || alHistoryWrite(stdout, &state) == 0) return 5;
  for (i = 0; i < 2; i++) al_transfer(&state, NULL, NULL, 1);
  if (alHistoryOpen(&state) != 0) return 6;
#ifdef AL_CHECK
  if (al_transfer(&state, al_p(&other, 0), NULL, 1).trap != 7) return 12;
#endif
  for (i = 0; i < 70; i++) if (pthread_create(&threads[i], NULL, work, &seats[i]) != 0) return 7;
  for (i = 0; i < 70; i++) pthread_join(threads[i], NULL);
  for (i = 0; i < 70; i++) if (seats[i] < 0) return 8;
  if (alHistoryWrite(stdout, &state) != 0) return 9;
  alHistoryClose(&state);
  if (alHistoryOpen(&state) != 0) return 10;
  work(&seats[0]);
  if (seats[0] != 0) return 11;
  alOpen(&other);
  if (alHistoryOpen(&other) != 0) return 13;
  for (i = 0; i < 100; i++) al_transfer(i & 1 ? &state : &other, NULL, NULL, 1);
  if (alSeat(&other) != 0 || alSeat(&state) != 0) return 14;
  alHistoryClose(&other);
  alHistoryClose(&state);
  alClose(&other);
  alClose(&state);
  return 0;
}
"""


def owned(emitted):
    """The calls of a caller's own threads are in order."""
    emitted.write("program.h", run([emitted.binary, "emit", "--header", emitted.source])[1])
    emitted.write("own.c", OWN)
    for way in ("history", "history-threads"):
        words = [word for word in WAYS[way] if word != "-DAL_MAIN"]
        status, _, told = run([*words, "-o", emitted.path("own"), emitted.path("own.c"), emitted.path("program.c")])
        if status != 0:
            raise Differs(f"own threads: {told.decode()}")
        status, out, told = run([emitted.path("own")])
        if status != 0 or told:
            raise Differs(f"own threads: ends with {status}\n{told.decode()}")
        last = in_order(out)
        if sum(number + 1 for number, _ in last.values()) != 70 * 3000 or not out.endswith(b"end\n"):
            raise Differs(f"own threads: {len(last)} threads, {last}")


def recorded(binary):
    """How many things hold of the recorder, and those that don't."""
    wrong = []
    with tempfile.TemporaryDirectory() as folder:
        emitted = Emitted(binary, folder, CONTENDED)
        tests = [emitted.accepted, emitted.refused, emitted.history, lambda: owned(emitted)]
        tests += [emitted.overlaps] * (PROCESSORS > 1)
        for test in tests:
            try:
                test()
            except Differs as differs:
                wrong.append(f"recorder: {differs}")
    return len(tests) - len(wrong), wrong


def named(binary):
    """How many hard names of a file are told as they are, and those that aren't."""
    wrong = []
    names = [b'a"b.al', b"a\\b.al", b"a??(b.al", b"a b.al", b"a\nb.al", b"\xc3\xa4.al", b"%s%d.al", b"a\x01\x7f9.al"]
    with tempfile.TemporaryDirectory() as folder:
        emitted = Emitted(binary, folder, CONTENDED)
        for name in names:
            try:
                emitted.lines(name)
            except Differs as differs:
                wrong.append(f"name {name!r}: {differs}")
    return len(names) - len(wrong), wrong


def called(binary):
    """How many callers of examples/c come to their end, and what is wrong with the others."""
    wrong, passed = [], 0
    with tempfile.TemporaryDirectory() as folder:
        for name in ("c", "bank.al"):
            copy = shutil.copytree if name == "c" else shutil.copy
            copy(TOP / "examples" / name, os.path.join(folder, name))
        room = os.path.join(folder, "c")
        makes = [["all"], ["bank_rust"]] if shutil.which("rustc") else [["all"]]
        for goals in makes:
            status, _, told = run(["make", "-C", room, f"AUTOLOCK={binary}", *goals])
            if status != 0:
                wrong.append(f"callers: {told.decode()}")
        callers = [["./bank_c"], ["./bank_cpp"], ["python3", "caller.py"], ["./bank_rust"]][: len(makes) + 2]
        for words in callers:
            status, out, told = run(words, cwd=room)
            passed += status == 0
            if status != 0:
                wrong.append(f"callers: {words}: {status} {out.decode()}{told.decode()}")
    return passed, wrong


def has_compilers():
    for name, package in (("gcc", "gcc"), ("g++", "g++"), ("clang", "clang")):
        if not shutil.which(name):
            subprocess.run(["apt-get", "install", "-y", package], capture_output=True, check=False)
        if not shutil.which(name):
            print(f"{name} is missing, and can't be installed")
            return False
    return True


def programs_of(arguments):
    """Each program with its name, its text and the ways that it is tried."""
    if arguments.ways != "some":
        yield from random_programs(arguments)
        return
    if arguments.files:
        for file in arguments.files:
            yield file, pathlib.Path(file).read_bytes(), list(WAYS)
        return
    for file in sorted((TOP / "examples").glob("*.al")):
        yield f"examples/{file.name}", file.read_bytes(), list(WAYS)
    yield from rows()
    for name, text in hard():
        yield f"hard/{name}", text.encode(), list(WAYS)
    yield from random_programs(arguments)


def ways_of(seed, how):
    """The ways that a random program takes."""
    if how == "some":
        others = [way for way in WAYS if way != FIRST]
        return [FIRST, others[seed % len(others)]]
    chance = random.Random(seed)
    first, *others = chance.sample(list(LEVELS), 2 if how == "two" else len(LEVELS))
    return [f"history-{first}", *others, chance.choice(SANITIZED)]


def random_programs(arguments):
    for seed in range(arguments.seed, arguments.seed + arguments.count):
        text = "\n".join(drawn(seed, lists=seed % 2 == 1)).encode("latin-1")
        yield f"seed-{seed}", text, ways_of(seed, arguments.ways)


def along(paths, members):
    """A section with this many lock paths of one class, some of the same lock, and two threads that call it."""
    lets = "".join(f"  let a{i}: ref S = p[{i * 37 % members}];\n" for i in range(paths))
    adds = "".join(f"  a{i}.x = a{i}.x + k;\n" for i in range(paths))
    return (
        f"struct S {{ lock l; int x protected_by(l); }}\npool S p[{members}];\natomic f(int k) : int {{\n{lets}{adds}"
        "  return a0.x;\n}\nthread t { repeat 200 { f(1); } }\nthread u { repeat 200 { f(2); } }\n"
    )


# Names that C and its library have, the longest name, and pools, arrays and structs without members.
NAMES = f"""lock double;
global int errno protected_by(double);
global int arr[0] protected_by(double);
global ref int64_t r protected_by(double);
struct int64_t {{ lock unix; int stdin protected_by(unix); final ref int64_t NULL_; int {"n" * 64} protected_by(unix); }}
pool int64_t INT64_C[2];
init INT64_C[0].NULL_ = INT64_C[1];
init INT64_C[1].NULL_ = INT64_C[0];
struct none {{ }}
pool none empty[0];
atomic main(ref int64_t class, int template) : int {{
  let this: ref int64_t = class.NULL_;
  this.stdin = template;
  this.{"n" * 64} = this.stdin + errno;
  errno = errno + 1;
  return this.{"n" * 64};
}}
atomic state() {{ errno = errno + 1; }}
atomic refs(ref int64_t a) : ref int64_t {{ r = a; print 3; print 0 - 9223372036854775807 - 1; return r; }}
thread t {{ main(INT64_C[0], 5); state(); refs(INT64_C[1]); refs(null); main(null, 2); }}
"""


def hard():
    """What C compilers mind, and limits."""
    yield "names", NAMES
    yield "nothing", "atomic f() { }\n"
    head = ", ".join(f"int a{i}" for i in range(8))
    yield "eight parameters", f"atomic f({head}) : int {{ return a0 + a7; }}\nthread t {{ f(1, 2, 3, 4, 5, 6, 7, 8); }}\n"
    for paths, members in ((2, 2), (8, 5), (9, 5), (63, 64)):
        yield f"{paths} lock paths", along(paths, members)


def rows():
    """The texts of the worked rows."""
    with tempfile.TemporaryDirectory() as folder:
        subprocess.run([str(TOP / "tests" / "rows.py"), "--write", folder], check=True, capture_output=True)
        for file in sorted(pathlib.Path(folder).glob("*.al")):
            yield f"rows/{file.name}", file.read_bytes(), [FIRST, "clang-O2", "undefined", "threads", "history"]


def main():
    words = argparse.ArgumentParser(description=__doc__.splitlines()[0])
    words.add_argument("binary")
    words.add_argument("files", nargs="*")
    words.add_argument("--seed", type=int, default=1)
    words.add_argument("--count", type=int, default=300)
    words.add_argument("--ways", choices=["some", "two", "all"], default="some")
    words.add_argument("--histories", type=int, default=3)
    words.add_argument("--jobs", type=int, default=os.cpu_count())
    words.add_argument("--keep")
    arguments = words.parse_args()
    if not has_compilers():
        return 3
    binary = os.path.realpath(arguments.binary)
    passed, failed, counts = 0, 0, collections.Counter()
    parts = [(binary, arguments.keep, arguments.histories, *program) for program in programs_of(arguments)]
    with multiprocessing.Pool(arguments.jobs) as pool:
        for name, tried, wrong, counted in pool.imap_unordered(try_one, parts):
            passed += tried
            counts += counted
            if wrong:
                failed += 1
                print(f"{name}: {wrong}", flush=True)
    if not arguments.files and arguments.ways == "some":
        for found, missed in (tested_tests(binary), recorded(binary), named(binary), called(binary)):
            passed += found
            failed += len(missed)
            for line in missed:
                print(line)
    print(", ".join(f"{counts[what]} {what}" for what in ("programs", "compiles", "histories")))
    print(f"{passed} passed, {failed} failed")
    return 1 if failed else 0


if __name__ == "__main__":
    sys.exit(main())
