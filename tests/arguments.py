#!/usr/bin/env python3
"""Calls emitted sections with good and bad arguments, under AL_CHECK, and judges what came of each call.

    tests/arguments.py BIN [--calls N] [--seed N] [--count N] [--jobs N] [--keep FOLDER] [FILE ..]

BIN is the built program. Each FILE, by default those of examples/ that are accepted, and `--count` random programs (by
default 20) are compiled with -DAL_CHECK -DAL_HISTORY and with a caller that makes `--calls` calls in all (by default 40,000)
in one thread: by gcc with the sanitizers of addresses and undefined behaviour, by clang -O2, or by clang with them, in turn.
Numbers are those around the limits of 64 bits, powers of two and the lengths of pools and arrays, small ones, and any.
References are null, members of the right pools, members of other structs and of another state, addresses in and around the
pools that are none of a member, and any number.

- A call ends with trap 7 exactly if a reference is neither null nor a member of a pool of its struct in that state, by a list
  of their addresses; it then leaves each byte of the state as it was, and notes no print.
- Each other call is as the history says, with its arguments as they were given: `replay --open` says `same`.
- No sanitizer reports anything, and a trap is from 0 to 7.

A call that goes round for ever is left out, and its section is called with small numbers alone from then on; after four of
them it is called no more. Without a FILE changed C files have to be found out too. The last lines are the numbers of calls by their traps, and 'N passed, M failed', of histories; exit status 1 where M is not 0.
"""

import argparse
import collections
import multiprocessing
import os
import pathlib
import re
import subprocess
import sys
import tempfile

from helper_programs import drawn

TOP = pathlib.Path(__file__).resolve().parent.parent
sys.path.insert(0, str(TOP / "tools"))
from stress import POOL, ROOM, Refused, sections_of  # noqa: E402

SANITIZED = ["-O1", "-g", "-fsanitize=address,undefined", "-fno-sanitize-recover=all"]
COMPILERS = [["gcc", *SANITIZED], ["clang", "-O2"], ["clang", *SANITIZED]]
LENGTH = re.compile(r"\[(\d+)\];$", re.M)
# Changes of a C file that have to be found: what is changed, and into what.
CHANGES = [
    ("#ifdef AL_CHECK\n  if", "#if 0\n  if"),
    (" % sizeof *p == 0;", " % 8 == 0;"),
    ("AL_TRAP(7)", "AL_TRAP(1)"),
    ("  if (p == NULL) return 1;\n", "  if (p == NULL) return 0;\n"),
]
ROUND = 2000  # calls of one history
SPINS = 4  # calls of a section that go round for ever, until it is called no more
CALLER = r"""#include <pthread.h>
#include <setjmp.h>
#include <signal.h>
#include <stdint.h>
#include <stdio.h>
#include <stdlib.h>
#include <string.h>
#include <sys/time.h>
#include "program.h"
static struct alState state, other, before;
static struct autolock_prints prints;
static uint64_t r, tame, never;
static int section, made;
static long ends[8];
static sigjmp_buf away;
static uint64_t drawn(void) { r ^= r << 13; r ^= r >> 7; r ^= r << 17; return r >> 11; }
static uint64_t below(uint64_t n) { return drawn() %% n; }
static int64_t number(void)
{
  static const int64_t sizes[] = { %(sizes)s };
  int64_t near = (int64_t)below(5) - 2;
  if (tame >> section %% 64 & 1) return (int64_t)below(14) - 3;
  switch (below(7)) {
  case 0: return near < 0 ? INT64_MIN - near - 1 : INT64_MAX - near;
  case 1: return (int64_t)((uint64_t)1 << below(63)) * (below(2) ? 1 : -1) + near;
  case 2: return sizes[below(sizeof sizes / sizeof *sizes)] + near;
  case 3: return (int64_t)(drawn() << 11 ^ drawn());
  default: return (int64_t)below(14) - 3;
  }
}
static void stop(const char *what)
{
  printf("section %%d, call %%d: %%s\n", section, made, what);
  exit(3);
}
/* The addresses of the members of each struct; those of struct k begin at first[k]. */
static uintptr_t member[%(room)d];
static const int first[] = { %(first)s };
static void list_members(void)
{
  int64_t i;
  int k = 0;
  (void)i; (void)k;
%(listed)s
}
static int is_member(int k, uintptr_t a)
{
  int i;
  for (i = first[k]; i < first[k + 1]; i++) if (member[i] == a) return 1;
  return a == 0;
}
/* A reference to a struct, and whether it is one that a section has to take. */
static uintptr_t reference(int k, int *is_good)
{
  int count = first[k + 1] - first[k], all = %(room)d - 1;
  uintptr_t a = 0, within = count > 0 ? member[first[k] + (int)below((uint64_t)count)] : (uintptr_t)&state;
  switch (below(40)) {
  case 0: a = all > 0 ? member[below((uint64_t)all)] : 1; break;
  case 1: a = (uintptr_t)&state + below(sizeof state + 16); break;
  case 2: a = within + below(257) - 128; break;
  case 3: a = (count > 0 ? member[first[k + 1] - 1] : within) + 8 * below(17); break;
  case 4: a = within - (uintptr_t)&state + (uintptr_t)&other; break;
  case 5: a = below(2) ? below(5000) : drawn() << 11 ^ drawn(); break;
  case 6: a = below(2) ? (uintptr_t)&a : (uintptr_t)-1 - below(64); break;
  case 7: case 8: case 9: a = 0; break;
  default: a = count > 0 ? within : 0;
  }
  *is_good &= is_member(k, a);
  return a;
}
static void on_alarm(int number) { (void)number; siglongjmp(away, 1); }
static void judge(int trap, int is_good, const struct autolock_prints *out)
{
  ends[trap >= 0 && trap <= 7 ? trap : 0]++;
  if (trap < 0 || trap > 7) stop("a trap that is none");
  if ((trap == 7) != !is_good) stop(is_good ? "refused" : "taken");
  if (trap == 7 && out != NULL && out->count != 0) stop("prints of a refused call");
  if (trap == 7 && memcmp(&state, &before, sizeof state) != 0) stop("a refused call changed the state");
  if (out != NULL && (out->count < 0 || out->count > 256)) stop("a number of prints that is none");
}
static void call(int skipped)
{
  struct autolock_prints *out = below(4) ? &prints : NULL;
  int is_good = 1, trap = 0;
  do section = (int)below(%(count)d); while (never >> section %% 64 & 1);
  prints.count = -1;
  (void)out;
  switch (section) {
%(cases)s
  }
}
/* The seed, the number of calls, the sections that get small numbers, those that are not called, the history's file, and the
 * calls that are left out. */
int main(int argc, char **argv)
{
  struct itimerval slice = { { 0, 0 }, { 0, 50000 } };
  int count = atoi(argv[2]), skip = 6;
  FILE *f = fopen(argv[5], "w");
  r = (strtoull(argv[1], NULL, 10) + 1) * UINT64_C(0x9E3779B97F4A7C15) | 1;
  tame = strtoull(argv[3], NULL, 10);
  never = strtoull(argv[4], NULL, 10);
  signal(SIGVTALRM, on_alarm);
  alOpen(&state);
  alOpen(&other);
  list_members();
  if (f == NULL || alHistoryOpen(&state)) return 4;
  for (made = 0; made < count; made++) {
    int skipped = skip < argc && atoi(argv[skip]) == made;
    skip += skipped;
    if (sigsetjmp(away, 1)) {
      printf("spins %%d %%d\n", section, made);
      return 5;
    }
    if (!skipped && made %% 16 == 0) setitimer(ITIMER_VIRTUAL, &slice, NULL);
    call(skipped);
  }
  memset(&slice, 0, sizeof slice);
  setitimer(ITIMER_VIRTUAL, &slice, NULL);
  if (alHistoryWrite(f, &state) || fclose(f)) return 6;
  alHistoryClose(&state);
  alClose(&state);
  alClose(&other);
  for (count = 0; count < 8; count++) printf("%%ld ", ends[count]);
  printf("\n");
  return 0;
}
"""


def caller_of(header):
    sections = sections_of(header)
    if not sections:
        raise Refused("the program has no section")
    rooms, pools = dict(ROOM.findall(header)), {}
    for struct, pool in POOL.findall(header):
        pools.setdefault(struct, []).append(pool)
    structs = sorted({*pools, *(struct for section in sections for struct in section.parameters)} - {"int", "out"})
    first, listed = [0], []
    for struct in structs:
        of = [pool for pool in pools.get(struct, []) if pool in rooms]
        first.append(first[-1] + sum(int(rooms[pool]) for pool in of))
        listed += [f"  for (i = 0; i < {rooms[pool]}; i++) member[k++] = (uintptr_t)al_{pool}(&state, i);" for pool in of]
        listed += [f"  if (al_{pool}(&state, {rooms[pool]}) != NULL || al_{pool}(&state, -1) != NULL) stop(\"pool {pool}\");" for pool in of]
    cases = [case_of(number, section, structs) for number, section in enumerate(sections)]
    words = {"sizes": ", ".join(sorted({"0", *LENGTH.findall(header)})), "room": first[-1] + 1, "listed": "\n".join(listed)}
    words |= {"first": ", ".join(map(str, first)), "count": len(sections), "cases": "\n".join(cases)}
    return CALLER % words


def case_of(number, section, structs):
    """Draws the arguments one after another, makes the call and judges it."""
    drawn_, given = [], ["&state"]
    for place, kind in enumerate(section.parameters):
        if kind == "int":
            drawn_.append(f"int64_t a{place} = number();")
        elif kind != "out":
            drawn_.append(f"struct al_{kind} *a{place} = (struct al_{kind} *)reference({structs.index(kind)}, &is_good);")
        given.append("out" if kind == "out" else f"a{place}")
    out = "out" if "out" in section.parameters else "NULL"
    return (
        f"  case {number}: {{\n    {' '.join(drawn_)}\n    if (skipped) return;\n    if (!is_good) memcpy(&before, &state, sizeof state);\n"
        f"    trap = al_{section.name}({', '.join(given)}).trap;\n    judge(trap, is_good, {out});\n    break;\n  }}"
    )


def ran(words, seconds=600):
    return subprocess.run(words, capture_output=True, timeout=seconds, check=False)


class Subject:
    """A program and its caller, in a folder of their own."""

    def __init__(self, binary, source, folder, compiler, change=("", "")):
        self.binary, self.source, self.folder = binary, source, pathlib.Path(folder)
        for name, words in (("program.c", []), ("program.h", ["--header"])):
            emitted = ran([binary, "emit", *words, source])
            if emitted.returncode != 0:
                raise Refused(emitted.stderr.decode(errors="replace").strip())
            (self.folder / name).write_text(emitted.stdout.decode().replace(*change))
        header = (self.folder / "program.h").read_text()
        (self.folder / "caller.c").write_text(caller_of(header))
        words = [*compiler, "-std=gnu11", "-Wall", "-Wno-unused-function", "-DAL_CHECK", "-DAL_HISTORY", "-pthread"]
        made = ran([*words, "-o", self.folder / "caller", self.folder / "caller.c", self.folder / "program.c"])
        if made.returncode != 0 or made.stderr:
            raise RuntimeError(made.stderr.decode(errors="replace"))
        self.ends, self.spun, self.sections = collections.Counter(), collections.Counter(), len(sections_of(header))

    def round(self, seed, calls):
        """What is wrong with a history of calls, or nothing."""
        history, skips = self.folder / "history", []
        while True:
            masks = [sum({1 << section % 64 for section, spins in self.spun.items() if spins >= least}) for least in (1, SPINS)]
            if masks[1] == (1 << min(self.sections, 64)) - 1:
                return None
            words = [self.folder / "caller", str(seed), str(calls), *map(str, masks), history]
            done = ran([*words, *map(str, sorted(skips))])
            if done.returncode != 5:
                break
            section, call = map(int, done.stdout.split()[1:])
            self.spun[section] += 1
            skips += [call] * (self.spun[section] > 1)
        if done.returncode != 0 or done.stderr:
            return f"seed {seed}: {done.returncode} {done.stdout.decode()}{done.stderr.decode(errors='replace')}"
        for trap, count in enumerate(map(int, done.stdout.split())):
            self.ends[trap] += count
        said = ran([self.binary, "replay", "--open", "--why", self.source, history]).stdout.decode(errors="replace")
        return None if said == "same\n" else f"seed {seed}: {said}"


def try_one(part):
    """The name, how many calls ended with each trap, how many went round for ever, histories, and what is wrong."""
    binary, keep, name, text, number, seed, calls = part
    with tempfile.TemporaryDirectory() as folder:
        source = os.path.join(folder, "program.al")
        pathlib.Path(source).write_bytes(text)
        try:
            subject = Subject(binary, source, folder, COMPILERS[number % len(COMPILERS)])
        except Refused:
            return name, collections.Counter(), 0, 0, []
        except RuntimeError as error:
            return name, collections.Counter(), 0, 1, [str(error)]
        wrong = []
        rounds = range(seed, seed + -(-calls // ROUND))
        for one in rounds:
            told = subject.round(one, min(ROUND, calls))
            wrong += [told] if told else []
            if told and keep:
                os.makedirs(keep, exist_ok=True)
                for kept in ("program.al", "caller.c", "history"):
                    (pathlib.Path(keep) / f"{name.replace('/', '-')}.{kept}").write_bytes((subject.folder / kept).read_bytes())
        return name, subject.ends, sum(subject.spun.values()), len(rounds), wrong


def missed(binary):
    """The changes that no call finds."""
    for change in CHANGES:
        with tempfile.TemporaryDirectory() as folder:
            subject = Subject(binary, str(TOP / "examples" / "bank.al"), folder, COMPILERS[1], change)
            if not subject.round(1, ROUND):
                yield f"not found: {change}"


def programs_of(told):
    for file in told.files or sorted(str(file) for file in (TOP / "examples").glob("*.al")):
        yield file, pathlib.Path(file).read_bytes()
    for seed in range(told.seed, told.seed + (0 if told.files else told.count)):
        yield f"seed-{seed}", "\n".join(drawn(seed, lists=seed % 2 == 1)).encode("latin-1")


def main():
    words = argparse.ArgumentParser(description=__doc__.splitlines()[0])
    words.add_argument("binary")
    words.add_argument("files", nargs="*")
    words.add_argument("--calls", type=int, default=40_000, help="of all programs together")
    words.add_argument("--seed", type=int, default=1)
    words.add_argument("--count", type=int, default=20)
    words.add_argument("--jobs", type=int, default=os.cpu_count())
    words.add_argument("--keep")
    told = words.parse_args()
    programs = list(programs_of(told))
    each = -(-told.calls // len(programs))
    binary = os.path.realpath(told.binary)
    parts = [(binary, told.keep, *program, number, told.seed, each) for number, program in enumerate(programs)]
    ends, spun, passed, failed, called = collections.Counter(), 0, 0, 0, 0
    with multiprocessing.Pool(told.jobs) as pool:
        for name, counted, spins, histories, wrong in pool.imap_unordered(try_one, parts):
            ends, spun, called = ends + counted, spun + spins, called + bool(counted)
            passed, failed = passed + histories - len(wrong), failed + len(wrong)
            for line in wrong[:3]:
                print(f"{name}: {line}", flush=True)
    for line in [] if told.files else missed(binary):
        failed += 1
        print(line)
    print(f"{sum(ends.values())} calls of {called} programs, {spun} left out; by trap {dict(sorted(ends.items()))}")
    print(f"{passed} passed, {failed} failed")
    return 1 if failed or ends[7] == 0 or ends[0] == 0 else 0


if __name__ == "__main__":
    sys.exit(main())
