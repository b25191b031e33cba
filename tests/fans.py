#!/usr/bin/env python3
"""Helpers that call helpers many times over: each command has to answer at once, within little memory.

    tests/fans.py BIN [--seconds N] [--mebibytes N]

Calls that write nothing out are bounded by no limit of the language, so there may be more of them than could ever be made;
calls that bring points or locals are refused before anything is written out. Each program is given to the commands with N
seconds (10 by default) and N MiB of address space (1,024 by default). The last line is 'N runs, M failed'; exit status 1
where M is not 0.
"""

import argparse
import os
import pathlib
import resource
import subprocess
import sys
import tempfile

HEAD = "lock l; global int n protected_by(l);\n"
THREAD = "thread t { s(); }\n"


def tower(bottom, levels, calls, use):
    """Helpers each of which calls the one before it so many times, and a section that calls the last one."""
    lines = [f"call h0() {{ {bottom} }}\n"]
    for level in range(1, levels):
        lines.append(f"call h{level}() {{ {f'call h{level - 1}(); ' * calls}}}\n")
    return HEAD + "".join(lines) + use.format(last=f"call h{levels - 1}(); " * calls) + THREAD


def chain(helpers, step, bottom):
    """A section before one helper after another, each of which calls the one that is so many further on, round the end; the first
    is called by the section, and the last of them does what stands there. As many as fit in a source."""
    order = [k * step % helpers for k in range(helpers)]
    calls = dict(zip(order, order[1:]))
    lines = [f"call h{k}(){{{f'call h{calls[k]}();' if k in calls else bottom}}}" for k in range(helpers)]
    return HEAD + "atomic s() { call h0(); }\n" + "\n".join(lines) + "\n" + THREAD


def fan(helpers, bottom):
    """Two calls of each helper in the next one: two to the number of helpers, at depths far over the limit."""
    lines = [f"call h0() {{ {bottom} }}\n"]
    lines += [f"call h{k}() {{ call h{k - 1}(); call h{k - 1}(); }}\n" for k in range(1, helpers)]
    return HEAD + "".join(lines) + f"atomic s() {{ call h{helpers - 1}(); }}\n" + THREAD


ONCE = "atomic s() {{ {last} n = n + 1; }}\n"
LOOP = "atomic s() {{ while (n < 1000) {{ {last} n = n + 1; }} }}\n"
BRANCH = "atomic s() {{ if (n == 0) {{ {last} }} n = n + 1; }}\n"

# A program, the status of each command, and what serial says at its end, if it says anything.
PROGRAMS = {
    "nothing, once": (tower("", 8, 1000, ONCE), 0, "n 1"),
    "nothing, in a loop": (tower("", 8, 1000, LOOP), 0, "n 1000"),
    "nothing, in a branch": (tower("", 8, 1000, BRANCH), 0, "n 1"),
    "a point each": (tower("n = n + 1;", 8, 100, ONCE), 1, None),
    "a local each": (tower("let a: int = 1;", 8, 100, ONCE), 1, None),
    "as many points as there may be": (tower("n = n + 1;", 2, 256, ONCE), 0, "n 65537"),
    "two hundred deep": (fan(200, "n = n + 1;"), 1, None),
    "two hundred deep, nothing": (fan(200, ""), 1, None),
    "a chain as long as a source, which brings 65 locals": (chain(35000, 1, "".join(f"let x{k}: int = 0;" for k in range(65))), 1, None),
    "the same, each call far ahead or back": (chain(35000, 13001, "".join(f"let x{k}: int = 0;" for k in range(65))), 1, None),
    "a circle as long as a source": (chain(35000, 13001, "call h0();"), 1, None),
}


def limited(mebibytes):
    def limit():
        resource.setrlimit(resource.RLIMIT_AS, (mebibytes << 20, mebibytes << 20))
    return limit


def run(words, given):
    try:
        done = subprocess.run(words, capture_output=True, timeout=given.seconds, preexec_fn=limited(given.mebibytes))
    except subprocess.TimeoutExpired:
        return None, ""
    return done.returncode, done.stdout.decode("latin-1")


def main():
    words = argparse.ArgumentParser(description=__doc__, formatter_class=argparse.RawDescriptionHelpFormatter)
    words.add_argument("program")
    words.add_argument("--seconds", type=float, default=10)
    words.add_argument("--mebibytes", type=int, default=1024)
    given = words.parse_args()
    binary = os.path.abspath(given.program)
    runs, failed = 0, 0
    with tempfile.TemporaryDirectory() as folder:
        folder = pathlib.Path(folder)
        steps = folder / "steps"
        steps.write_text("0*1000000\n")
        for name, (text, status, end) in PROGRAMS.items():
            source = folder / "program.al"
            source.write_text(text)
            commands = [["check", source], ["listing", source], ["serial", source], ["simulate", source, steps], ["run", source]]
            for command in commands:
                runs += 1
                got, out = run([binary, *map(str, command)], given)
                told = None
                if got != status:
                    told = f"status {got}, not {status}" if got is not None else f"no answer in {given.seconds} seconds"
                elif end is not None and command[0] in ("serial", "simulate") and f"\n{end}\n" not in f"\n{out}":
                    told = f"no line `{end}`"
                if told:
                    failed += 1
                    print(f"{name}: {command[0]}: {told}", flush=True)
    print(f"{runs} runs, {failed} failed")
    sys.exit(1 if failed else 0)


if __name__ == "__main__":
    main()
