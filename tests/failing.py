#!/usr/bin/env python3
"""Makes each growth of memory, each read and each write of a built program fail in turn, and looks at how the run ends.

    tests/failing.py [--program BIN] [--commands NAMES] [--turns N] [--every N] [--lasting] [FILE..]
    tests/failing.py --cases [--program BIN] [--every N] [FILE..]
    tests/failing.py --unit-tests [--program BIN] [--every N] [--test NAME]

--commands      which of check, explain, format, order, listing, emit, serial, outcomes, schedule, simulate, trace, run, replay and
                lsp, joined by commas; by default all. Of some, options are tried too: explain --json, emit --header and --lines,
                outcomes --cells of the first cell, schedule --worst, replay --why and --open
--turns N       of serial, outcomes and replay, by default 1000; outcomes looks at 5 orders at most
--every N       only every N-th growth
--lasting       each growth after a refused one is refused too
--cases         the program `test_cases` over each of its files, and of its calls the growths alone
--unit-tests    the programs of the tests of `test_units` and `test_workers`, and of their calls the
                growths alone; of each test of `test_workers` some 300 growths, spread over all
--test NAME     only this test, and each of its growths
FILE..          programs, by default those of examples/; of `test_cases` files of crates/test_cases/data, by default all.
                Where a file of steps lies beside a program, simulate and trace take it, else some steps of its threads in turn.
                replay takes what serial writes of the program, and with --why that with another value of the first cell;
                run and replay pass over those that don't end

The program is run once to count its calls, and then once for each of them with this call failing, which
tests/failing/failing.c does where it is preloaded. A refused growth must end with status 4, the line
`autolock: no memory` and nothing written; a failed read with status 3 and `autolock: cannot read NAME`; a failed write
of a text with status 3 and `autolock: cannot write`, and of a line of standard error with the status that the whole run
has. How many growths a run with threads makes differs from run to run: one that made fewer than the number that was to
fail must end as it does when none fails. A session of `lsp` over a program may also answer one message by -32603 in place of
that; all else must be as if that message had not come. What it has written when it ends early is a beginning of what it writes
when nothing fails, of whole answers where memory or a read failed. `test_cases` must end with 4, or find all as wanted; a test must pass, or fail by an error that says that memory
was refused. The last line is 'N runs, M failed'; exit status 1 where M is not 0.
"""
import argparse
import functools
import json
import multiprocessing
import os
import pathlib
import re
import subprocess
import sys
import tempfile
import typing

TOP = pathlib.Path(__file__).resolve().parent.parent
sys.path.insert(0, str(TOP / "tests"))
from lsp import frame, frames_of  # noqa: E402
from lsp_hostile import messages_about  # noqa: E402

LASTING = False


class Subject(typing.NamedTuple):
    """A program with its words, the names that a failed read may tell, how a run with a failing call is judged, of
    its growths every how many fail, and how many at most, and the file of its standard input."""

    words: list
    names: list
    judges: dict
    every: int
    most: int = 1 << 62
    given: str = os.devnull


def run(library, subject, counts, **failing):
    environment = {"LD_PRELOAD": library, "FAIL_COUNTS": counts} | ({"FAIL_LASTING": "1"} if LASTING else {})
    environment.update({f"FAIL_{kind.upper()}": str(number) for kind, number in failing.items()})
    with open(subject.given, "rb") as given:
        return subprocess.run(subject.words, env=environment, capture_output=True, stdin=given, timeout=600)


def wrong_growth(_whole, ended, _names):
    """What is wrong with a run that was refused a growth, or nothing."""
    is_right = ended.returncode == 4 and not ended.stdout and ended.stderr == b"autolock: no memory\n"
    return None if is_right else "a refused growth is no status 4 with its line alone"


def wrong_growth_at_names(whole, ended, names):
    """The same where names are split: `collect` first asks for room for several of them, and goes on without it."""
    is_whole = not LASTING and (ended.returncode, ended.stdout, ended.stderr) == (whole.returncode, whole.stdout, whole.stderr)
    return None if is_whole else wrong_growth(whole, ended, names)


def wrong_growth_of_run(_whole, ended, _names):
    """The same of a run with threads, where the growth came."""
    is_whole = ended.returncode == 0 and ended.stdout.startswith(b"history 2\n") and ended.stdout.endswith(b"\nend\n")
    return None if is_whole and not ended.stderr else wrong_growth(_whole, ended, _names)


def wrong_read(_whole, ended, names):
    told = [b"autolock: cannot read %s\n" % name.encode() for name in names]
    is_right = ended.returncode == 3 and not ended.stdout and ended.stderr in told
    return None if is_right else "a failed read is no status 3 with its line alone"


def wrong_write(whole, ended, _names):
    is_same = ended.returncode == whole.returncode and ended.stdout == whole.stdout
    # Of a cycle `order` writes both texts: the write that failed may be of either.
    if whole.stdout and not (whole.stderr and is_same):
        is_right = ended.returncode == 3 and whole.stdout.startswith(ended.stdout) and ended.stderr == b"autolock: cannot write\n"
        return None if is_right else "a failed write is no status 3 with its line alone"
    return None if is_same else "a failing standard error changes the status"


def early_end(whole, ended, status, line):
    """Whether a session of `lsp` ended early, with this status and line."""
    return (ended.returncode, ended.stderr) == (status, line) and whole.stdout.startswith(ended.stdout)


def wrong_growth_of_session(sessions, whole, ended, _names):
    """What is wrong with a session that was refused a growth, or nothing; given what comes of it without each message."""
    if early_end(whole, ended, 4, b"autolock: no memory\n"):
        return None if frames_of(ended.stdout) is not None else "no whole answers"
    frames = frames_of(ended.stdout)
    short = [one for one in frames if one.get("error", {}).get("code") == -32603]
    rest = [one for one in frames if one not in short]
    found = [(status, answers, place, whom) for status, answers, place, whom in sessions if (status, answers) == (ended.returncode, rest)]
    if len(short) != 1 or ended.stderr:
        return "a refused growth is neither status 4 nor answered by one error"
    is_right = any(frames.index(short[0]) == place and short[0]["id"] in (None, whom) for _, _, place, whom in found)
    return None if is_right else "other answers than without the message that was short of memory"


def wrong_read_of_session(whole, ended, _names):
    is_right = early_end(whole, ended, 3, b"autolock: cannot read standard input\n") and frames_of(ended.stdout) is not None
    return None if is_right else "a failed read does not end with status 3 and its line"


def wrong_write_of_session(whole, ended, _names):
    return None if early_end(whole, ended, 3, b"autolock: cannot write\n") else "a failed write does not end with status 3 and its line"


def wrong_cases(whole, ended, _names):
    """What is wrong with a run of `test_cases` that was refused a growth, or nothing."""
    is_right = ended.returncode == 4 if ended.returncode else ended.stdout == whole.stdout
    return None if is_right and b", 0 not as wanted" in whole.stdout else "neither status 4 nor all as wanted"


REFUSED = re.compile(rb"error: (NoMemory|AllocError|AllocFailed|OutOfMemory)\b")


def passes(ended):
    return ended.returncode == 0 and b"test result: ok" in ended.stdout + ended.stderr


def wrong_test(whole, ended, _names):
    """What is wrong with a run of a test that was refused a growth, or nothing: it may then pass or tell so."""
    return None if passes(whole) and (passes(ended) or REFUSED.match(ended.stderr)) else "another answer"


def fail_each(part):
    library, subject = part
    with tempfile.NamedTemporaryFile() as counts:
        whole = run(library, subject, counts.name)
        told = map(int, pathlib.Path(counts.name).read_text().split())
        numbers = dict(zip(("growth", "read", "write"), told))
        runs, failed = 0, []
        for kind, judge in subject.judges.items():
            every = max(subject.every, numbers[kind] // subject.most + 1) if kind == "growth" else 1
            for number in range(1, numbers[kind] + 1, every):
                ended = run(library, subject, counts.name, **{kind: number})
                wrong = judge(whole, ended, subject.names)
                came = int(pathlib.Path(counts.name).read_text().split()[0]) >= number
                if judge is wrong_growth_of_run and came and ended.returncode == 0:
                    wrong = "a refused growth was passed over"
                runs += 1
                if wrong:
                    line = f"{' '.join(subject.words)}: {kind} {number}: {wrong}: {ended.returncode}"
                    failed.append(f"{line} {(ended.stderr or ended.stdout)[-200:]}")
    return runs, failed


def with_other_cell(history):
    """A history whose first cell holds another number."""
    lines = history.split(b"\n")
    at = lines.index(b"cells") + 1
    if lines[at] != b"end":
        lines[at] = lines[at].rsplit(b" ", 1)[0] + b" 7771"
    return b"\n".join(lines)


def options_of(command, program, file):
    """The lists of options of a command that are tried, each in turn."""
    if command == "outcomes":
        told = subprocess.run([program, "serial", "--turns", "1000", str(file)], capture_output=True, text=True)
        cell = re.search(r"^cells\n(?!end$)(\S+) ", told.stdout, re.M)
        return [[], *([["--cells", cell[1]]] if cell else [])]
    more = {"explain": ["--json"], "schedule": ["--worst", "--length", "20"], "replay": ["--open"]}.get(command)
    return [[], ["--header"], ["--lines"]] if command == "emit" else [[], more] if more else [[]]


def session_of(program, file, room, number, a):
    """A session of `lsp` about a program, with what comes of it without each of its messages."""
    bodies = messages_about(file.read_bytes())
    given = pathlib.Path(room, f"session-{number}")
    sessions, place = [], 0
    for at, body in enumerate(bodies):
        told = json.loads(body)
        done = subprocess.run([program, "lsp"], input=b"".join(map(frame, bodies[:at] + bodies[at + 1 :])), capture_output=True)
        sessions.append((done.returncode, frames_of(done.stdout), place, told.get("id")))
        place += "id" in told or told["method"].startswith("textDocument/did")
    given.write_bytes(b"".join(map(frame, bodies)))
    judges = {"growth": functools.partial(wrong_growth_of_session, sessions), "read": wrong_read_of_session, "write": wrong_write_of_session}
    return Subject([program, "lsp"], [], judges, a.every, given=str(given))


def of_autolock(a, room):
    program = str((a.program or TOP / "crates/autolock/out/autolock").resolve())
    drawn = pathlib.Path(room, "steps")
    drawn.write_text("0*7 0*40 0 0*300\n")
    judges = {"growth": wrong_growth, "read": wrong_read, "write": wrong_write}
    for command in a.commands.split(","):
        for number, file in enumerate(a.files or sorted((TOP / "examples").glob("*.al"))):
            if command == "lsp":
                yield session_of(program, file, room, number, a)
                continue
            steps = file.with_suffix(".steps")
            names = [str(file)] + [str(steps if steps.exists() else drawn)] * (command in ("simulate", "trace"))
            if command in ("run", "replay"):
                told = subprocess.run([program, "serial", str(file)], capture_output=True)
                if told.returncode:
                    continue
                history = pathlib.Path(room, f"history-{number}")
                history.write_bytes(told.stdout)
                names += [str(history)] * (command == "replay")
            turns = ["--turns", str(a.turns)] * (command in ("serial", "outcomes", "replay")) + ["--count", "5"] * (command == "outcomes")
            judged = {**judges, "growth": wrong_growth_of_run} if command == "run" else judges
            for options in options_of(command, program, file):
                at_names = {"growth": wrong_growth_at_names} if "--cells" in options else {}
                yield Subject([program, command, *turns, *options, *names], names, judged | at_names, a.every)
            if command == "replay":
                other = pathlib.Path(room, f"other-{number}")
                other.write_bytes(with_other_cell(told.stdout))
                names = [str(file), str(other)]
                for options in (["--why"], ["--why", "--open"]):
                    yield Subject([program, command, *turns, *options, *names], names, judged, a.every)


def of_cases(a):
    program = str((a.program or TOP / "crates/test_cases/out/test_cases").resolve())
    for file in a.files or sorted((TOP / "crates/test_cases/data").glob("*.txt")):
        yield Subject([program, str(file)], [], {"growth": wrong_cases}, a.every)


def of_unit_tests(a):
    crates = [TOP / f"crates/{crate}/out/{crate}_tests" for crate in ("test_units", "test_workers")]
    for path in [a.program] if a.program else crates:
        program = str(path.resolve())
        most = 300 if path.name == "test_workers_tests" and not a.test else 1 << 62
        listed = subprocess.run([program, "--list"], capture_output=True, check=True, text=True)
        for name in re.findall(r"^(\S+): test$", listed.stdout + listed.stderr, re.M):
            if a.test not in (None, name):
                continue
            yield Subject([program, name], [], {"growth": wrong_test}, a.every, most)


def main():
    p = argparse.ArgumentParser(formatter_class=argparse.RawDescriptionHelpFormatter, description=__doc__)
    p.add_argument("--program", type=pathlib.Path)
    p.add_argument("--commands", default="check,explain,format,order,listing,emit,serial,outcomes,schedule,simulate,trace,run,replay,lsp")
    p.add_argument("--turns", type=int, default=1000)
    p.add_argument("--every", type=int, default=1)
    p.add_argument("--lasting", action="store_true")
    p.add_argument("--jobs", type=int, default=os.cpu_count())
    p.add_argument("--cases", action="store_true")
    p.add_argument("--unit-tests", action="store_true")
    p.add_argument("--test")
    p.add_argument("files", nargs="*", type=pathlib.Path, metavar="FILE")
    a = p.parse_args()
    global LASTING
    LASTING = a.lasting
    with tempfile.TemporaryDirectory() as room:
        library = f"{room}/failing.so"
        subprocess.run(["cc", "-O2", "-shared", "-fPIC", "-o", library, TOP / "tests/failing/failing.c", "-ldl"], check=True)
        subjects = of_cases(a) if a.cases else of_unit_tests(a) if a.unit_tests else of_autolock(a, room)
        runs, failed = 0, []
        with multiprocessing.Pool(a.jobs) as pool:
            for count, wrong in pool.imap_unordered(fail_each, [(library, it) for it in subjects]):
                runs += count
                failed += wrong
    print(*failed[:40], sep="\n", end="\n" if failed else "")
    print(f"{runs} runs, {len(failed)} failed")
    sys.exit(1 if failed else 0)


main()
