#!/usr/bin/env python3
"""Calls a program's sections in C from threads, at random, and lets `replay --open` judge what came of it.

    tools/stress.py BIN FILE [--threads N] [--calls N] [--seed N] [--compiler 'WORDS'] [--history FILE]

BIN is `autolock`, FILE a program. Its sections are emitted, compiled with a caller whose threads call any of them with any
arguments (small numbers, null, members of pools), and run with their calls recorded. The last line is what `replay --open`
says: `same`, or the first line of the history that is otherwise, and why. Exit status 0 where it says `same`, 1 where it
says something else or the run reports an error, 2 where FILE is refused, 4 where the run doesn't end within --seconds: a
section may spin on a condition that nobody makes true.
"""

import argparse
import os
import pathlib
import re
import shlex
import subprocess
import sys
import tempfile
import typing

POOL = re.compile(r"^struct al_(\w+) \*al_(\w+)\(struct alState \*s, int64_t i\);$", re.M)
ROOM = re.compile(r"^\s+struct al_\w+ p_(\w+)\[(\d+)\];$", re.M)
SECTION = re.compile(r"^struct (?:autolock_int|autolock_end|alRef_\w+) al_(\w+)\(struct alState \*s(.*)\);$", re.M)
REFERENCE = re.compile(r"struct al_(\w+) \*v")
CALLER = """#include <pthread.h>
#include <stdint.h>
#include <stdio.h>
#include <stdlib.h>
#include "program.h"
static struct alState state;
static int calls;
static uint64_t drawn(uint64_t *r) { *r ^= *r << 13; *r ^= *r >> 7; *r ^= *r << 17; return *r >> 11; }
static int64_t number(uint64_t *r) { return (int64_t)(drawn(r) %% 14) - 3; }
%(members)s
static void call(uint64_t *r, struct autolock_prints *out)
{
  (void)out; (void)number;
  switch (drawn(r) %% %(count)d) {
%(cases)s
  }
}
static void *run(void *seed)
{
  uint64_t r = (uint64_t)(uintptr_t)seed;
  struct autolock_prints out;
  int k;
  for (k = 0; k < calls; k++) call(&r, &out);
  return NULL;
}
int main(int argc, char **argv)
{
  static pthread_t threads[1024];
  int count = atoi(argv[1]), t, failed;
  FILE *f = argc > 4 ? fopen(argv[4], "w") : NULL;
  calls = atoi(argv[2]);
  alOpen(&state);
  if (f == NULL || alHistoryOpen(&state)) return 3;
  for (t = 0; t < count; t++) {
    uint64_t seed = (strtoull(argv[3], NULL, 10) * 1024 + (uint64_t)t + 1) * UINT64_C(0x9E3779B97F4A7C15);
    if (pthread_create(&threads[t], NULL, run, (void *)(uintptr_t)(seed | 1))) return 3;
  }
  for (t = 0; t < count; t++) pthread_join(threads[t], NULL);
  failed = alHistoryWrite(f, &state) || fclose(f);
  alHistoryClose(&state);
  alClose(&state);
  return failed ? 3 : 0;
}
"""


class Refused(Exception):
    """The program, or its C, is refused."""


class Section(typing.NamedTuple):
    name: str
    parameters: typing.List[str]  # each "int", "out", or the name of a struct

    @classmethod
    def told(cls, name, text):
        return cls(name, [cls.kind(part) for part in text.split(",")[1:]])

    @staticmethod
    def kind(text):
        found = REFERENCE.search(text)
        return found.group(1) if found else "out" if "autolock_prints" in text else "int"

    def call(self):
        words = {"int": "number(r)", "out": "out"}
        return f"al_{self.name}({', '.join(['&state', *(words.get(p, f'some_{p}(r)') for p in self.parameters)])})"


def members_of(header):
    """For each struct a function that gives NULL or a member of one of its pools."""
    rooms = dict(ROOM.findall(header))
    pools = {}
    for struct, pool in POOL.findall(header):
        pools.setdefault(struct, []).append(pool)
    structs = sorted({struct for section in sections_of(header) for struct in section.parameters} - {"int", "out"})
    for struct in structs:
        given = [f"case {k}: return al_{pool}(&state, (int64_t)(drawn(r) % {rooms[pool]}));" for k, pool in enumerate(pools.get(struct, []))]
        yield (
            f"static struct al_{struct} *some_{struct}(uint64_t *r)\n{{\n  if (drawn(r) % 16 == 0) return NULL;\n"
            f"  switch (drawn(r) % {max(len(given), 1)}) {{ {' '.join(given)} }}\n  return NULL;\n}}"
        )


def sections_of(header):
    return [Section.told(*found) for found in SECTION.findall(header)]


def caller_of(header):
    sections = sections_of(header)
    if not sections:
        raise Refused("the program has no section")
    cases = "\n".join(f"  case {k}: {section.call()}; break;" for k, section in enumerate(sections))
    return CALLER % {"members": "\n".join(members_of(header)), "count": len(sections), "cases": cases}


def ran(words, seconds=120):
    return subprocess.run(words, capture_output=True, timeout=seconds, check=False)


class Stress:
    """A program's sections and a caller of them, in a folder of its own."""

    def __init__(self, binary, file, folder, compiler):
        self.binary, self.file, self.folder = binary, file, pathlib.Path(folder)
        for name, words in (("program.c", []), ("program.h", ["--header"])):
            emitted = ran([binary, "emit", *words, file])
            if emitted.returncode != 0:
                raise Refused(emitted.stderr.decode(errors="replace").strip())
            (self.folder / name).write_bytes(emitted.stdout)
        (self.folder / "caller.c").write_text(caller_of((self.folder / "program.h").read_text()))
        words = [*shlex.split(compiler), "-std=c11", "-DAL_HISTORY", "-pthread", "-o", self.folder / "caller"]
        made = ran([*words, self.folder / "caller.c", self.folder / "program.c"])
        if made.returncode != 0:
            raise Refused(made.stderr.decode(errors="replace"))

    def run(self, threads, calls, seed, seconds):
        """The history of a run; an error where it reports one."""
        history = self.folder / "history"
        done = ran([self.folder / "caller", str(threads), str(calls), str(seed), history], seconds)
        if done.returncode != 0 or done.stderr:
            raise RuntimeError(f"the run ends with {done.returncode}\n{done.stderr.decode(errors='replace')}")
        return history

    def judged(self, history):
        return ran([self.binary, "replay", "--open", "--why", self.file, history]).stdout.decode(errors="replace")


def main():
    words = argparse.ArgumentParser(description=__doc__.splitlines()[0])
    words.add_argument("binary")
    words.add_argument("file")
    words.add_argument("--threads", type=int, default=8)
    words.add_argument("--calls", type=int, default=1000, help="of each thread")
    words.add_argument("--seed", type=int, default=1)
    words.add_argument("--seconds", type=int, default=60)
    words.add_argument("--compiler", default="cc -O2")
    words.add_argument("--history", help="where the history is kept")
    told = words.parse_args()
    with tempfile.TemporaryDirectory() as folder:
        try:
            stress = Stress(os.path.realpath(told.binary), told.file, folder, told.compiler)
            history = stress.run(told.threads, told.calls, told.seed, told.seconds)
        except Refused as refused:
            print(refused, file=sys.stderr)
            return 2
        except subprocess.TimeoutExpired:
            print("the run doesn't end", file=sys.stderr)
            return 4
        except RuntimeError as error:
            print(error, file=sys.stderr)
            return 1
        if told.history:
            pathlib.Path(told.history).write_bytes(history.read_bytes())
        verdict = stress.judged(history)
        print(verdict, end="")
        return 0 if verdict == "same\n" else 1


if __name__ == "__main__":
    sys.exit(main())
