#!/usr/bin/env python3
"""Runs of many threads, one after another for a given time, each judged.

    tests/soak.py PROGRAM [--minutes N] [--limit N] [--seed N]
    tests/soak.py PROGRAM --emitted [--minutes N] [--limit N] [--seed N]

PROGRAM is the built program. Each run is of a program that is drawn: 64 threads with 100,000 calls together, which add to
counters, move money between accounts of a pool in both directions, walk two globals in one section and loop. Each is judged
by what can be known whatever the order was: each thread's calls are in the history once and in their order, the counters have
what was added, the accounts together have nothing, as at first. Every tenth history is given to `replay` as well.

With --emitted 16 threads of C call the sections that `emit` wrote, 2,000 times each with arguments that are drawn, compiled by
clang -fsanitize=thread: of the program above, those of examples/ and ones that are drawn, in turn, each compiled once for ten
runs. ThreadSanitizer has to find nothing, and `replay --open` says `same`. A run that spins for ever is left out and told.

Told each minute and at the end: runs, their least, middle and greatest time, and the greatest peak of memory. A run that
isn't over after --limit seconds (default 300) is a hang: its threads' kernel stacks are told, its program is kept, and the
status is 1, as at any run that isn't right. The last line is 'N runs, M failed'.
"""

import argparse
import collections
import itertools
import os
import pathlib
import random
import re
import statistics
import subprocess
import sys
import tempfile
import time

from helper_programs import drawn

TOP = pathlib.Path(__file__).resolve().parent.parent
sys.path.insert(0, str(TOP / "tools"))
from stress import Refused, Stress  # noqa: E402

THREADS, CALLS, ACCOUNTS = 64, 100_000, 16
EMITTED_THREADS, EMITTED_CALLS, EMITTED_RUNS = 16, 2000, 10
CALL = re.compile(r"call (\d+) (\d+) (\d+) (\w+)\((.*?)\) (.*)")
TEXT = f"""lock G; lock H;
struct Acc {{ lock l; int bal protected_by(l); }}
pool Acc p[{ACCOUNTS}];
global int x protected_by(G);
global int y protected_by(H);
atomic up(int k) : int {{ x = x + k; return x; }}
atomic both(int k) : int {{ y = y + k; x = x - k; return y; }}
atomic loop(int k) {{ var i: int = 0; while (i < k) {{ y = y + 1; i = i + 1; }} }}
atomic move(ref Acc a, ref Acc b, int k) : int {{ a.bal = a.bal - k; b.bal = b.bal + k; return b.bal; }}
"""


def call_of(draw):
    kind = draw.choice(("up", "both", "loop", "move", "move"))
    if kind == "move":
        one, other = draw.sample(range(ACCOUNTS), 2)
        return f"move(p[{one}], p[{other}], {draw.randint(0, 9)})"
    return f"{kind}({draw.randint(0, 9)})"


def scripts_of(draw):
    """For each thread its calls, drawn a few at a time and said several times over, so that texts stay small."""
    scripts = []
    for thread in range(THREADS):
        left, script = CALLS // THREADS + (thread < CALLS % THREADS), []
        while left:
            times = min(left, draw.randint(1, 40))
            script.append((times, call_of(draw)))
            left -= times
        scripts.append(script)
    return scripts


def text_of(scripts):
    said = [TEXT]
    for thread, script in enumerate(scripts):
        said.append(f"thread t{thread} {{\n" + "".join(f"  repeat {n} {{ {call}; }}\n" for n, call in script) + "}\n")
    return "".join(said)


def faults_of(scripts, history):
    """What is wrong with a history's text."""
    wanted = [[call for times, call in script for _ in range(times)] for script in scripts]
    made = collections.defaultdict(list)
    calls, _, rest = history.partition("\ncells\n")
    cells = dict(line.rsplit(" ", 1) for line in rest.splitlines() if line != "end")
    x = y = 0
    for line in calls.splitlines():
        found = CALL.match(line)
        if found:
            thread, step, _, name, arguments, _ = found.groups()
            if int(step) != len(made[int(thread)]):
                yield f"step {step} of thread {thread} stands after {len(made[int(thread)])} of its calls"
            made[int(thread)].append(f"{name}({arguments})")
            last = int(arguments.split(",")[-1])
            x += {"up": last, "both": -last}.get(name, 0)
            y += {"both": last, "loop": last}.get(name, 0)
    for thread in range(THREADS):
        if made[thread] != wanted[thread]:
            yield f"thread {thread}: {len(made[thread])} calls that aren't the {len(wanted[thread])} of its script"
    for name, value in (("x", x), ("y", y)):
        if cells.get(name) != str(value):
            yield f"{name} is {cells.get(name)}, and {value} was added"
    total = sum(int(value) for name, value in cells.items() if name.endswith(".bal"))
    if total != 0:
        yield f"the accounts have {total} together, and had 0"


def stacks_of(process):
    """Where the kernel has each thread of a process."""
    said = []
    for task in pathlib.Path(f"/proc/{process}/task").iterdir():
        try:
            said.append(f"{task.name}: {(task / 'wchan').read_text()} {(task / 'stat').read_text().split()[2]}")
        except OSError:
            pass
    return "\n".join(said)


def peak_of(process):
    """The most memory that a process has had so far, in KiB."""
    try:
        for line in pathlib.Path(f"/proc/{process}/status").read_text().splitlines():
            if line.startswith("VmHWM:"):
                return int(line.split()[1])
    except OSError:
        pass
    return 0


def watched(words, out, limit):
    """The process of these words after its end, and its peak of memory; one that doesn't end in time is told and killed."""
    began, peak = time.time(), 0
    process = subprocess.Popen(words, stdout=out, stderr=subprocess.PIPE)
    while process.poll() is None and time.time() - began < limit:
        peak = max(peak, peak_of(process.pid))
        time.sleep(0.02)
    if process.poll() is None:
        print(f"no end after {limit} s; its threads:\n{stacks_of(process.pid)}", flush=True)
        process.kill()
        process.wait()
        return None, peak
    return process, peak


class Soak:
    def __init__(self, program, limit, work):
        self.program, self.limit, self.work = program, limit, work
        self.times, self.peak, self.failed = [], 0, 0

    def run(self, scripts):
        """One run. Whether it was right."""
        source, history = self.work / "soak.al", self.work / "soak.history"
        source.write_text(text_of(scripts))
        began = time.time()
        with open(history, "wb") as out:
            process, peak = watched([self.program, "run", source], out, self.limit)
        self.peak = max(self.peak, peak)
        if process is None:
            return False
        self.times.append(time.time() - began)
        if process.returncode:
            print(f"status {process.returncode}: {process.stderr.read().decode()}", flush=True)
            return False
        faults = list(faults_of(scripts, history.read_text()))
        if not faults and len(self.times) % 10 == 1:
            judged = subprocess.run([self.program, "replay", source, history], capture_output=True, text=True)
            if judged.returncode or not judged.stdout.startswith("same"):
                faults.append(f"replay: status {judged.returncode}: {(judged.stdout + judged.stderr)[:200]}")
        for fault in faults[:5]:
            print(fault, flush=True)
        return not faults

    def tell(self):
        times = self.times or [0]
        print(f"{len(self.times)} runs, {self.failed} failed; seconds: least {min(times):.2f}, middle "
              f"{statistics.median(times):.2f}, greatest {max(times):.2f}; peak {self.peak / 1024:.0f} MiB", flush=True)


class EmittedSoak:
    """Runs of emitted C under ThreadSanitizer."""

    def __init__(self, program, limit, seed):
        self.program, self.limit, self.seed = program, limit, seed
        self.times, self.failed, self.programs, self.spun, self.peak = [], 0, 0, 0, 0

    def sources(self):
        """The program above, the examples, and then ever more that are drawn."""
        yield TEXT
        for file in sorted((TOP / "examples").glob("*.al")):
            yield file.read_text(encoding="latin-1")
        for number in itertools.count(self.seed * 1_000_000):
            yield "\n".join(drawn(number, lists=number % 2 == 1))

    def try_source(self, text, folder):
        """What is wrong with the runs of one program, if something is."""
        source = folder / "program.al"
        source.write_text(text, encoding="latin-1")
        try:
            stress = Stress(self.program, source, folder, "clang -O1 -g -fsanitize=thread")
        except Refused:
            return None
        self.programs += 1
        for number in range(EMITTED_RUNS):
            began, history, seed = time.time(), folder / "history", self.programs * EMITTED_RUNS + number
            words = [folder / "caller", str(EMITTED_THREADS), str(EMITTED_CALLS), str(seed), history]
            process, peak = watched(words, subprocess.DEVNULL, self.limit)
            self.peak = max(self.peak, peak)
            if process is None:
                self.spun += 1
                return None
            said = process.stderr.read().decode(errors="replace")
            if process.returncode or said:
                return f"the run ends with {process.returncode}\n{said}"
            self.times.append(time.time() - began)
            verdict = stress.judged(history)
            if verdict.startswith("unsettled"):
                self.spun += 1
                return None
            if verdict != "same\n":
                return verdict
        return None

    def tell(self):
        times = self.times or [0]
        print(f"{self.programs} programs, {len(self.times)} runs, {self.failed} failed, {self.spun} programs spin; seconds: least "
              f"{min(times):.2f}, middle {statistics.median(times):.2f}, greatest {max(times):.2f}; peak {self.peak / 1024:.0f} MiB", flush=True)


def soak_emitted(program, a):
    """The runs for the given time; whether all were right."""
    began = told = time.time()
    soak = EmittedSoak(program, a.limit, a.seed)
    for number, text in enumerate(soak.sources()):
        if time.time() - began > a.minutes * 60:
            break
        with tempfile.TemporaryDirectory() as folder:
            wrong = soak.try_source(text, pathlib.Path(folder))
        if wrong:
            soak.failed += 1
            kept = pathlib.Path(tempfile.gettempdir()) / f"soak_emitted_{a.seed}_{number}.al"
            kept.write_text(text, encoding="latin-1")
            print(f"{wrong}\nits program is {kept}", flush=True)
        if time.time() - told > 60:
            told = time.time()
            soak.tell()
    soak.tell()
    print(f"{len(soak.times)} runs, {soak.failed} failed")
    return not soak.failed


def main():
    p = argparse.ArgumentParser()
    p.add_argument("program")
    p.add_argument("--emitted", action="store_true")
    p.add_argument("--minutes", type=float, default=60)
    p.add_argument("--limit", type=float, default=300)
    p.add_argument("--seed", type=int, default=1)
    a = p.parse_args()
    if a.emitted:
        sys.exit(0 if soak_emitted(os.path.realpath(a.program), a) else 1)
    began, told, count = time.time(), time.time(), 0
    with tempfile.TemporaryDirectory() as folder:
        soak = Soak(os.path.realpath(a.program), a.limit, pathlib.Path(folder))
        while time.time() - began < a.minutes * 60:
            count += 1
            if not soak.run(scripts_of(random.Random(f"{a.seed} {count}"))):
                soak.failed += 1
                kept = pathlib.Path(tempfile.gettempdir()) / f"soak_{a.seed}_{count}.al"
                kept.write_text((soak.work / "soak.al").read_text())
                print(f"run {count} is wrong; its program is {kept}", flush=True)
            if time.time() - told > 60:
                told = time.time()
                soak.tell()
        soak.tell()
    print(f"{count} runs, {soak.failed} failed")
    sys.exit(1 if soak.failed else 0)


if __name__ == "__main__":
    main()
