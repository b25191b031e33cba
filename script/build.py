#!/usr/bin/env python3
"""Proves and builds the libraries that the crate in this folder is made of, by the functions of the toolchain's `rt`.

    build.py FOLDER    the folder of `rt`

`rt all check` does the same, but reads all sources at once before any proof, which takes three minutes and 9 GB, keeps
13 GB of proofs, and has each crate load the proofs of all those below it. Here a library is left as its statements, as
`rt ci` leaves it, which is all that a proof above it reads; and the crates go as those of `rt ci` do, but first those with
the longest chain of others above them by measured seconds (the file proof_seconds here; of what isn't in it by its lines).
A library that was built of the same files is taken as it is, so a run that was stopped goes on where it was. Writes a line
for each crate that is done. The status is 5 where the toolchain lacks what is used of it (script/README.md).
"""
import contextlib
import importlib.machinery
import importlib.util
import os
import shutil
import signal
import sys
import tempfile
import threading
import time

NO_SUCH_FUNCTIONS = 5


def load(folder):
    """The toolchain's `rt`, whose folder this is, as a module."""
    sys.dont_write_bytecode = True
    sys.path.insert(0, folder)
    loader = importlib.machinery.SourceFileLoader("rt", f"{folder}/rt")
    rt = importlib.util.module_from_spec(importlib.util.spec_from_loader("rt", loader))
    loader.exec_module(rt)
    return rt


def load_to_build(folder):
    """The same, as it is when it builds."""
    rt = load(folder)
    list_below_once(rt.rtlib.Crate)
    made = rt.rtlib.Crate.__init__

    def make(self, *given, **named):
        made(self, *given, **named)
        rt.read_files(self)

    rt.rtlib.Crate.__init__ = make
    if not hasattr(rt, "share_work"):
        sum_once(rt.rtlib.Crate)
    return rt


def list_below_once(crate_type):
    """Has each crate find those below it once. The toolchain follows each way down to them, of which there are hundreds of
    thousands, at each question, and the checks of a text ask for each name that it brings in."""
    found = crate_type.below

    def below(crate):
        if "known_below" not in vars(crate):
            crate.known_below = found(crate)
        return [*crate.known_below]

    crate_type.below = below


def sum_once(crate_type):
    """Has a crate's sum of all files that it is made from ask each crate below it once. Some versions of the toolchain ask
    once for each way down to it, of which there are thousands: that took half a minute a crate."""
    made, asked = crate_type.stamp, threading.local()

    def stamp(crate):
        known = getattr(asked, "known", None)
        if known is not None:
            if crate.folder not in known:
                known[crate.folder] = made(crate)
            return known[crate.folder]
        asked.known = {}
        try:
            return made(crate)
        finally:
            asked.known = None

    crate_type.stamp = stamp


class Build:
    """Proves a program's libraries side by side."""

    def __init__(self, rt):
        rtlib = rt.rtlib
        self.rattle, self.need, self.in_lanes = rtlib.RATTLE, rt.need, rt.in_lanes
        self.processors = rt.processors()
        for word in ("may_have_bugs", "may_be_empty", "may_call_c"):
            setattr(rtlib.Crate, word, True)
        here = os.getcwd()
        self.crates = rtlib.Crate(here, rtlib.root_above(here), {}).below()
        self.held = rtlib.lock(self.crates)
        self.begun, self.printing, self.done = time.time(), threading.Lock(), 0
        for crate in self.crates:
            rtlib.stop_on_links(crate.folder)
        self.look_at_text = rtlib.stop_on_text

    def prove_library(self, crate, jobs):
        """Leaves the crate's statements in its folder, with what they were made from, where it is proved."""
        self.look_at_text(crate, "check")
        stamp, kept = crate.stamp(), f"{crate.folder}/out/rlib/stamp"
        shutil.rmtree(os.path.dirname(kept), ignore_errors=True)
        os.makedirs(os.path.dirname(kept))
        words = crate.words(["--jobs", str(jobs)], keeps=False)
        status = crate.call(self.rattle, "build", *words, "--statements", "-o", crate.rlib)
        if not status and stamp == crate.stamp():
            with open(kept, "w", encoding="utf-8") as it:
                it.write(stamp)
        return status

    def prove(self, crate, given, jobs):
        """Whether the crate is proved and built; not tried where one below is not."""
        if not all(given[it.name, "proof"] for it in crate.below()):
            return False
        start, status, said = time.time(), 0, ""
        if not crate.is_built():
            os.makedirs(f"{crate.folder}/out", exist_ok=True)
            with tempfile.TemporaryFile("a+", errors="replace") as crate.out:
                status = self.prove_library(crate, jobs)
                crate.out.seek(0)
                said = crate.out.read()
        self.tell(crate, status, said, time.time() - start)
        return not status

    def tell(self, crate, status, said, took):
        with self.printing:
            if status:
                print(f"{said}\n{crate.name} was not proved", flush=True)
                return
            self.done += 1
            count, now = len(self.crates) + 1, int(time.time() - self.begun)
            whole = f"{now // 60} min {now % 60} s"
            left = f"{self.done} of {count} done, {count - self.done} left"
            print(f"== {left}, {whole}: {crate.name} ({took:.0f} s)", flush=True)

    def run(self):
        """Whether all are proved."""
        tasks, works = {}, works_of(self.crates)
        for crate in self.crates:
            waits = [(it.name, "proof") for it in crate.below()]
            call = lambda given, jobs, it=crate: self.prove(it, given, jobs)
            tasks[crate.name, "proof"] = (waits, works[crate.name], self.need(crate), call)
        given = self.in_lanes(tasks)
        for it in self.held:
            os.close(it)
        return all(given.values())


def works_of(crates):
    """About how many seconds of one processor each proof takes: as was measured once, or by its lines, as the others do."""
    measured = {}
    with contextlib.suppress(OSError), open(f"{os.path.dirname(os.path.realpath(__file__))}/proof_seconds", encoding="utf-8") as it:
        measured = {name: int(seconds) for name, seconds in map(str.split, it)}
    lines = {it.name: 300 + it.count(b"\n") for it in crates}
    known = [it for it in lines if it in measured]
    a_line = sum(measured[it] for it in known) / sum(lines[it] for it in known) if known else 1
    return {it: measured.get(it, 1 + int(a_line * lines[it])) for it in lines}


def main(folder):
    try:
        rt = load_to_build(folder)
        rtlib = rt.rtlib
        if "--statements" not in rtlib.help_of("build"):
            return NO_SUCH_FUNCTIONS
        signal.signal(signal.SIGINT, signal.SIG_DFL)
        rtlib.guarded()
        build = Build(rt)
    except (ImportError, OSError, AttributeError, SyntaxError):
        return NO_SUCH_FUNCTIONS
    return 0 if build.run() else 1


if __name__ == "__main__":
    sys.exit(main(sys.argv[1]))
