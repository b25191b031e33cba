#!/usr/bin/env python3
"""Gives hostile texts and hostile inputs to the editors' server, and looks at each answer.

    tests/lsp_hostile.py BIN [--cuts] [--bytes] [--random COUNT] [--sessions] [--every N] [--seed N] [--jobs N] [FILE ..]

With no choice of kinds: all of them, with 200 random texts, each cut and byte at every 97th place.

--cuts, --bytes, --random   texts as those of hostile.py: each is opened in a session, and asked about at places drawn for it
--sessions                  the input of a session about each program, cut and with a byte changed
--every N                   only every N-th place of cuts and bytes
FILE ..                     the programs to begin with; by default those of examples/

Of a text: the session ends with 0, and each request has one result, in turn, in a whole frame. The first diagnostic of a text
with a fault is the one that `check` reports: its code, its words and, in ASCII without a CR, its place; others have warnings
alone. The edits that lay the text out give what `format` writes, and are `null` where it refuses. A text that isn't UTF-8 is
answered by -32700, and requests about it by -32602.

Of an input: the answers are those of a model (tests/lsp.py) to the frames that it has by the rules of frames, which are written
down here again; the status is that of the model's end. What is found is judged only for its form.

What fails is kept in a new folder. The last line is 'N sessions, M failed'; exit status 1 where M is not 0.
"""
import argparse
import multiprocessing
import os
import pathlib
import random
import re
import sys
import tempfile
import zlib

sys.dont_write_bytecode = True
TOP = pathlib.Path(__file__).resolve().parent.parent
sys.path.insert(0, str(TOP / "tests"))
import hostile
from lsp import BEGIN, END, LIMIT, Session, agrees, call, change, document, frame, frames_of

URI = "file:///a.al"
NAMES = ["hover", "definition", "references", "rename", "formatting", "documentSymbol", "inlayHint", "codeAction"]
METHODS = [f"textDocument/{name}" for name in NAMES]
LINES = 64  # of a header
FAULT = re.compile(rb"[^\n]*?:(\d+):(\d+): (E\d\d) ([^\n]*)\n")


def requests(text, choose):
    """Requests about the document, by numbers from 1: each method, at places in the text and outside."""
    lines = text.split("\n")
    for whom, method in enumerate(METHODS, 1):
        line = choose.randrange(len(lines) + 1)
        place = {"line": line, "character": choose.randrange(len(lines[line]) + 2 if line < len(lines) else 3)}
        span = {"start": place, "end": place if whom % 2 else {"line": 2**31, "character": 0}}
        more = {"position": place, "range": span, "newName": choose.choice(["zz", "n", "lock", "a b", ""]), "options": {}}
        yield call(method, document(URI) | more | {"context": {"includeDeclaration": True, "diagnostics": []}}, whom)


def opened(text):
    """The body that opens the document with these bytes, which may be no UTF-8."""
    body = call("textDocument/didOpen", document(URI, "\x01"))
    return body.replace(b'"\\u0001"', quoted(text))


def quoted(text):
    """A string of JSON with these bytes."""
    escaped = text.replace(b"\\", b"\\\\").replace(b'"', b'\\"')
    return b'"%s"' % re.sub(rb"[\x00-\x1f]", lambda it: b"\\u%04x" % it[0][0], escaped)


def served(program, path, data):
    """How the server ends with this input, and what it has written."""
    with open(path + ".input", "wb") as file:
        file.write(data)
    return hostile.run([program, "lsp"], path + ".input")


def wrong_text(program, path, text):
    """What is wrong with the answers about a text, or nothing."""
    try:
        decoded = text.decode()
    except UnicodeDecodeError:
        decoded = None
    choose = random.Random(zlib.crc32(text))
    bodies = [*BEGIN, opened(text), *requests(decoded or "a b", choose), *END]
    ended = served(program, path, b"".join(map(frame, bodies)))
    if ended.returncode != 0 or ended.stderr:
        return f"status {ended.returncode} {ended.stderr!r:.100}"
    frames = frames_of(ended.stdout)
    if [one.get("id") for one in frames] != [0, None, *range(1, len(METHODS) + 1), "end"]:
        return f"answers to {[one.get('id') for one in frames]}"
    codes = [one.get("error", {}).get("code") for one in frames[1:-1]]
    if decoded is None:
        return None if codes == [-32700] + [-32602] * len(METHODS) else f"errors {codes} of a text that is not UTF-8"
    if any(codes):
        return f"errors {codes}"
    told = {one.get("id"): one.get("result") for one in frames}
    layout = hostile.run([program, "format", path])
    edits = None if layout.returncode else [layout.stdout.decode()] if layout.stdout != text else []
    formatted = told[5] and [edit["newText"] for edit in told[5]]
    return wrong_diagnostics(text, frames[1]["params"], hostile.run([program, "check", path])) or (
        None if formatted == edits else "other edits than format's text"
    )


def wrong_diagnostics(text, told, checked):
    """What is wrong with the diagnostics of a text beside what `check` says of it, or nothing."""
    found = told["diagnostics"]
    if told["uri"] != URI:
        return "another document"
    if checked.returncode == 0:
        return None if all(one["severity"] == 2 for one in found) else "a fault of an accepted text"
    line, column, code, words = FAULT.fullmatch(checked.stderr).groups()
    if not found or (found[0]["severity"], found[0].get("code")) != (1, code.decode()):
        return "no diagnostic with check's code"
    if found[0]["message"].split("\n")[0] != words.decode():
        return "other words than check's"
    at = {"line": int(line) - 1, "character": int(column) - 1}
    return None if found[0]["range"]["start"] == at or not text.isascii() or b"\r" in text else "another place than check's"


class Asked(Session):
    """The model, with requests about documents: each that fits has a result or an error that its parameters don't fit."""

    def request(self, whom, method, params):
        want = super().request(whom, method, params)
        if want != self.failure(whom, -32601) or method not in METHODS:
            return want
        about = params.get("textDocument") if isinstance(params, dict) else None
        uri = about.get("uri") if isinstance(about, dict) else None
        is_open = isinstance(uri, str) and uri in self.texts
        return ("found", whom) if is_open else self.failure(whom, -32602)


def fits(want, got):
    """Whether this is an answer as it is wanted, by its form."""
    if want[0] == "found":
        error = got.get("error", {}).get("code", -32602)
        return got.get("jsonrpc") == "2.0" and got.get("id") == want[1] and ("result" in got or error == -32602)
    if want[0] == "told":
        params = got.get("params", {})
        return got.get("method") == "textDocument/publishDiagnostics" and params["uri"] == want[1] and isinstance(params["diagnostics"], list)
    return agrees(want, got)


def frame_of(data):
    """The body of the frame that the input begins with, and the rest; or nothing."""
    stated = None
    for _ in range(LINES):
        line, feed, data = data.partition(b"\n")
        line = line.removesuffix(b"\r")
        if not feed:
            return None
        if not line:
            return None if stated is None or len(data) < stated else (data[:stated], data[stated:])
        if line[:15].lower() == b"content-length:":
            digits = line[15:].lstrip(b" \t")
            if not digits.isdigit() or int(digits) > LIMIT:
                return None
            stated = int(digits)
    return None


def wrong_input(program, path, data):
    """What is wrong with the answers to an input, or nothing."""
    session, want, rest = Asked(), [], data
    while session.code is None:
        found = frame_of(rest)
        if found is None:
            break
        body, rest = found
        answer = session.wanted(body)
        want += [answer] if answer else []
    ended = served(program, path, data)
    if ended.returncode != (1 if session.code is None else session.code) or ended.stderr:
        return f"status {ended.returncode}, not {session.code}"
    frames = frames_of(ended.stdout)
    if len(frames) != len(want):
        return f"{len(frames)} answers, not {len(want)}"
    return next((f"{got} for {one}" for one, got in zip(want, frames) if not fits(one, got)), None)


def messages_about(text):
    """The messages of a session about a program."""
    choose = random.Random(zlib.crc32(text))
    decoded = text.decode()
    later = [call("textDocument/didChange", change(URI, decoded[: len(decoded) // 2]), None), *list(requests(decoded, choose))[:3]]
    closed = [call("textDocument/didClose", document(URI)), call("textDocument/hover", document(URI), 99)]
    return [*BEGIN, opened(text), *requests(decoded, choose), *later, *closed, *END]


def inputs_about(programs, every):
    """Inputs of sessions about programs, whole, cut and changed."""
    for data in (b"".join(map(frame, messages_about(text))) for text in programs):
        yield data
        yield from hostile.cuts([data], every)
        yield from hostile.replaced([data], every)


def try_all(part):
    program, programs, kind, seeds, every, scratch = part
    inputs = {
        "cuts": lambda: hostile.cuts(programs, every),
        "bytes": lambda: hostile.replaced(programs, every),
        "random": lambda: (hostile.mutated(programs, seed) for seed in seeds),
        "sessions": lambda: inputs_about(programs, every),
    }[kind]()
    path = os.path.join(scratch, f"text-{os.getpid()}")
    judge = wrong_input if kind == "sessions" else wrong_text
    count, failed = 0, []
    for text in inputs:
        with open(path, "wb") as file:
            file.write(text)
        try:
            wrong = judge(program, path, text)
        except TimeoutError:
            wrong = "no end within 20 seconds"
        except (AssertionError, ValueError, KeyError) as error:
            wrong = f"{type(error).__name__} {error}"
        count += 1
        failed += [(f"{kind}: {wrong}", text)] if wrong else []
    return count, failed


def main():
    p = argparse.ArgumentParser(formatter_class=argparse.RawDescriptionHelpFormatter, description=__doc__)
    p.add_argument("program")
    for kind in ("cuts", "bytes", "sessions"):
        p.add_argument(f"--{kind}", action="store_true")
    p.add_argument("--random", type=int, default=0, metavar="COUNT")
    p.add_argument("--every", type=int, default=0, metavar="N")
    p.add_argument("--seed", type=int, default=1, metavar="N")
    p.add_argument("--jobs", type=int, default=os.cpu_count())
    p.add_argument("files", nargs="*", type=pathlib.Path, metavar="FILE")
    a = p.parse_args()
    if not (a.cuts or a.bytes or a.random or a.sessions):
        a.cuts, a.bytes, a.sessions, a.random, a.every = True, True, True, 200, a.every or 97
    program, every = str(pathlib.Path(a.program).resolve()), a.every or 1
    programs = [file.read_bytes() for file in a.files or sorted((TOP / "examples").glob("*.al"))]
    with tempfile.TemporaryDirectory() as scratch:
        kinds = [kind for kind in ("cuts", "bytes", "sessions") if getattr(a, kind)]
        parts = [(program, [text], kind, (), every, scratch) for kind in kinds for text in programs]
        last = a.seed + a.random
        parts += [(program, programs, "random", range(first, min(first + 100, last)), every, scratch) for first in range(a.seed, last, 100)]
        count, failed = 0, []
        with multiprocessing.Pool(a.jobs, hostile.begin_process) as pool:
            for tried, wrong in pool.imap_unordered(try_all, parts):
                count, failed = count + tried, failed + wrong
    kept = failed and pathlib.Path(tempfile.mkdtemp(prefix="lsp-hostile-"))
    for number, (fault, text) in enumerate(failed[:20]):
        (kept / f"{number}").write_bytes(text)
        print(f"{kept / str(number)}: {fault}")
    print(f"{count} sessions, {len(failed)} failed")
    return 1 if failed else 0


if __name__ == "__main__":
    sys.exit(main())
