#!/usr/bin/env python3
"""Asks the editors' server: tests/lsp.py BIN [WORD ..]. The words are given to BIN; without any, it is `lsp`.

What is wanted is written down here apart from the server: a model of a session, over the protocol's own terms. Tried are each
method of a session's life, cuts of an input at each byte, frames that are none, JSON that is none, methods that are unknown
with an id and without, and random messages with their replies in turn. Of diagnostics only the form is judged, and that a
text with a fault has some and one without has none."""
import glob
import json
import os
import random
import re
import subprocess
import sys

TOP = os.path.dirname(os.path.dirname(os.path.abspath(__file__)))
GOOD = "lock G;\nglobal int n protected_by(G);\natomic f(int k) { n = n + k; }\n"
BAD = "lock fault"
CAPABILITIES = {
    "codeActionProvider": True,
    "definitionProvider": True,
    "documentFormattingProvider": True,
    "documentSymbolProvider": True,
    "hoverProvider": True,
    "inlayHintProvider": True,
    "positionEncoding": "utf-16",
    "referencesProvider": True,
    "renameProvider": True,
    "textDocumentSync": {"change": 1, "openClose": True},
}
LIMIT = 16777216
NESTING = 127
ROUNDS = 240


def frame(body):
    if not isinstance(body, bytes):
        body = json.dumps(body, separators=(",", ":")).encode()
    return b"Content-Length: %d\r\n\r\n%s" % (len(body), body)


def run(data):
    done = subprocess.run(COMMAND, input=data, capture_output=True, timeout=60)
    return done.returncode, done.stdout


def frames_of(out):
    """The bodies of an output, which must be whole frames of exactly this form."""
    bodies = []
    while out:
        head, end, rest = out.partition(b"\r\n\r\n")
        name, _, number = head.partition(b": ")
        assert end and name == b"Content-Length" and number.isdigit(), out[:80]
        assert len(rest) >= int(number), "an output is cut"
        body, out = rest[: int(number)], rest[int(number) :]
        data = json.loads(body)
        assert json.dumps(data, separators=(",", ":"), sort_keys=True, ensure_ascii=False).encode() == body, body
        bodies.append(data)
    return bodies


def assert_shallow(data, depth=0):
    """JSON that nests deeper is taken for none."""
    if isinstance(data, (list, dict)):
        if depth == NESTING:
            raise ValueError("too deep")
        for one in data.values() if isinstance(data, dict) else data:
            assert_shallow(one, depth + 1)


class Session:
    """The model: what is wanted for each message in turn."""

    def __init__(self):
        self.phase, self.texts, self.code = "new", {}, None

    def failure(self, whom, code):
        return ("failure", whom, code)

    def wanted(self, body):
        try:
            message = json.loads(body.decode("utf-8"))
            assert_shallow(message)
        except ValueError:
            return self.failure(None, -32700)
        whom = message.get("id") if isinstance(message, dict) else None
        is_id = isinstance(whom, (int, str)) and not isinstance(whom, bool)
        method = message.get("method") if isinstance(message, dict) else None
        if not isinstance(method, str) or ("id" in message and not is_id):
            return self.failure(whom if is_id else None, -32600)
        if method == "exit":
            self.code = 0 if self.phase == "shut down" else 1
            return None
        if "id" in message:
            return self.request(whom, method, message.get("params"))
        return self.notification(method, message.get("params")) if self.phase == "running" else None

    def request(self, whom, method, _params):
        if self.phase == "new":
            if method != "initialize":
                return self.failure(whom, -32002)
            self.phase = "running"
            return ("capabilities", whom)
        if self.phase == "shut down" or method == "initialize":
            return self.failure(whom, -32600)
        if method == "shutdown":
            self.phase = "shut down"
            return ("null", whom)
        return self.failure(whom, -32601)

    def notification(self, method, params):
        document = params.get("textDocument") if isinstance(params, dict) else None
        uri = document.get("uri") if isinstance(document, dict) else None
        if not isinstance(uri, str):
            return None
        if method == "textDocument/didClose":
            self.texts.pop(uri, None)
            return ("told", uri, "")
        if method == "textDocument/didOpen":
            text = document.get("text")
        elif method == "textDocument/didChange":
            changes = params.get("contentChanges")
            last = changes[-1] if isinstance(changes, list) and changes else None
            text = last.get("text") if isinstance(last, dict) else None
        else:
            return None
        if not isinstance(text, str):
            return None
        self.texts[uri] = text
        return ("told", uri, text)


def agrees(want, got):
    if got.get("jsonrpc") != "2.0":
        return False
    if want[0] == "failure":
        return "id" in got and got["id"] == want[1] and got.get("error", {}).get("code") == want[2]
    if want[0] == "null":
        return got.get("id") == want[1] and "result" in got and got["result"] is None
    if want[0] == "capabilities":
        return got.get("id") == want[1] and got["result"]["capabilities"] == CAPABILITIES
    found = got.get("params", {}).get("diagnostics")
    same = got.get("method") == "textDocument/publishDiagnostics" and got["params"].get("uri") == want[1]
    return same and isinstance(found, list) and bool(found) == (want[2] == BAD)


def judge(name, bodies, tail=b"", code=None):
    """Sends the bodies, and then the tail; the replies are those that the model wants, in turn."""
    session, want = Session(), []
    for body in bodies:
        reply = session.wanted(body)
        if reply:
            want.append(reply)
        if session.code is not None:
            break
    status, out = run(b"".join(frame(body) for body in bodies) + tail)
    got = frames_of(out)
    wanted_code = code if code is not None else (1 if session.code is None else session.code)
    assert len(got) == len(want), (name, len(got), "replies,", len(want), "wanted", bodies)
    for one, other in zip(want, got):
        assert agrees(one, other), (name, one, other)
    assert status == wanted_code, (name, "status", status, wanted_code)
    return len(bodies)


def call(method, params=None, whom=None):
    message = {"jsonrpc": "2.0", "method": method}
    if params is not None:
        message["params"] = params
    if whom is not None:
        message["id"] = whom
    return json.dumps(message).encode()


def document(uri, text=None):
    it = {"uri": uri}
    if text is not None:
        it |= {"languageId": "al", "version": 1, "text": text}
    return {"textDocument": it}


def change(uri, *texts):
    return document(uri) | {"contentChanges": [{"text": text} for text in texts]}


BEGIN = [call("initialize", {}, 0), call("initialized", {})]
END = [call("shutdown", None, "end"), call("exit")]


def life():
    open_bad = call("textDocument/didOpen", document("file:///a", BAD))
    cases = [
        ("whole", BEGIN + END),
        ("no shutdown", BEGIN + [call("exit")]),
        ("no exit", BEGIN),
        ("nothing", []),
        ("too early", [call("shutdown", None, 1), call("textDocument/hover", {}, 2), open_bad] + BEGIN + END),
        ("twice", BEGIN + [call("initialize", {}, 5)] + END),
        ("too late", BEGIN + [call("shutdown", None, 1), call("shutdown", None, 2), open_bad, call("exit")]),
        ("behind the exit", BEGIN + END + [call("shutdown", None, 9)]),
        ("unknown", BEGIN + [call("no/such", {}, 7), call("no/such", {}), call("$/cancelRequest", {"id": 7})] + END),
        ("ids", BEGIN + [call("no/such", {}, whom) for whom in (-5, 0, "", "a\"\\\u00e9\u2028", 2**53, -(2**62))] + END),
        ("texts", BEGIN + [
            call("textDocument/didOpen", document("file:///a", GOOD)),
            call("textDocument/didChange", change("file:///a", BAD)),
            call("textDocument/didChange", change("file:///a", BAD, GOOD)),
            call("textDocument/didOpen", document("file:///b \u00e9", BAD)),
            call("textDocument/didClose", document("file:///b \u00e9")),
            call("textDocument/didClose", document("file:///never")),
        ] + END),
        ("bad parameters", BEGIN + [
            call("textDocument/didOpen"), call("textDocument/didOpen", []), call("textDocument/didOpen", document("a")),
            call("textDocument/didOpen", {"textDocument": {"uri": 5, "text": GOOD}}),
            call("textDocument/didChange", document("a")), call("textDocument/didChange", change("a")),
            call("textDocument/didChange", document("a") | {"contentChanges": [5]}),
            call("textDocument/didClose", {"textDocument": None}),
        ] + END),
        ("no calls", BEGIN + [b"", b"{", b"\xff", b"[]", b"5", b"null", b"{}", b'{"method":5}', b'{"id":3}',
            b'{"id":null,"method":"shutdown"}', b'{"id":1.5,"method":"shutdown"}', b'{"id":[1],"method":"shutdown"}',
            b'{"id":true,"method":"exit"}', b"[" * 127 + b"]" * 127, b"[" * 128 + b"]" * 128,
            b'"\xc3"', "5".encode("utf-16")] + END),
    ]
    return sum(judge(name, bodies) for name, bodies in cases), len(cases)


def cuts():
    """An input that is cut at any byte: what was written is the replies to the frames that are whole."""
    bodies = BEGIN + [call("textDocument/didOpen", document("a", BAD)), call("no/such", {}, 1)]
    data, ends = b"", []
    for body in bodies:
        data += frame(body)
        ends.append(len(data))
    for cut in range(len(data) + 1):
        whole = sum(end <= cut for end in ends)
        judge(("cut", cut), bodies[:whole], data[ends[whole - 1] if whole else 0 : cut], 1)
    return len(data) + 1


def headers():
    body = call("no/such", {}, 1)
    n = len(body)
    good = [
        b"content-length: %d\r\n\r\n", b"CONTENT-LENGTH:%d\r\n\r\n", b"Content-Length: \t %d\r\n\r\n", b"Content-Length: 00%d\r\n\r\n",
        b"Content-Type: application/vscode-jsonrpc; charset=utf-8\r\nContent-Length: %d\r\n\r\n",
        b"Content-Length: %d\r\nContent-Type: x\r\n\r\n", b"Content-Length: %d\n\n", b"Content-Length: 3\r\nContent-Length: %d\r\n\r\n",
    ]
    bad = [
        b"\r\n", b"\r\n\r\n", b"Content-Type: x\r\n\r\n", b"Content-Length: \r\n\r\n", b"Content-Length: x\r\n\r\n",
        b"Content-Length: -1\r\n\r\n", b"Content-Length: +5\r\n\r\n", b"Content-Length: 5 \r\n\r\n", b"Content-Length: 5.0\r\n\r\n",
        b"Content-Length: %d\r\n\r\n" % (LIMIT + 1), b"Content-Length: 99999999999999999999999999\r\n\r\n",
        b"Content-Length : 5\r\n\r\n", b"X: y\r\n" * 64 + b"Content-Length: 2\r\n\r\n{}", body,
    ]
    for head in good:
        status, out = run(b"".join(map(frame, BEGIN)) + head % n + body + b"".join(map(frame, END)))
        codes = [one.get("error", {}).get("code") for one in frames_of(out)]
        assert (status, codes) == (0, [None, -32601, None]), (head, status, codes)
    for head in bad:
        judge(("bad frame", head), BEGIN, head + frame(call("shutdown", None, 1)), 1)
    most = b'"' + b"x" * (LIMIT - 2) + b'"'
    judge("the longest body", BEGIN + [most] + END)
    return len(good) + len(bad) + 1


def any_message(rng):
    whom = rng.choice([None, None, 1, -1, "x", rng.randrange(2**40)])
    uri = rng.choice(["a", "b", "file:///c%20d", "\u00fc\U0001f600"])
    text = rng.choice([GOOD, BAD])
    kind = rng.randrange(12)
    if kind < 3:
        return call("textDocument/didOpen", document(uri, text))
    if kind < 6:
        return call("textDocument/didChange", change(uri, *[rng.choice([GOOD, BAD]) for _ in range(rng.randrange(1, 4))]))
    if kind == 6:
        return call("textDocument/didClose", document(uri))
    if kind == 7:
        return bytes(rng.randrange(256) for _ in range(rng.randrange(20)))
    if kind == 8:
        return call(rng.choice(["initialize", "shutdown", "initialized", "no/such"]), {}, whom)
    if kind == 9:
        return json.dumps(rng.choice([[], {}, 5, {"id": 4}, {"method": "x", "id": None}, {"method": None, "id": 3}])).encode()
    if kind == 10 and rng.randrange(6) == 0:
        return call("exit")
    return call("no/such", {}, whom)


def randomly():
    count = 0
    for seed in range(ROUNDS):
        rng = random.Random(seed)
        bodies = (BEGIN if rng.randrange(4) else []) + [any_message(rng) for _ in range(40)]
        count += judge(("random", seed), bodies + (END if rng.randrange(2) else []))
    return count


KINDS = {"lock": 14, "struct": 23, "global": 13, "pool": 18, "atomic": 12, "call": 12, "thread": 24}
DECLARES = re.compile(r"(?:(lock|struct|atomic|call|thread)|(global)\s+(?:int|ref\s+\w+)|(pool)\s+\w+)\s+(\w+)")


def place(text, at):
    """The protocol's position of a character: lines end at LF, CR LF or CR, and units are those of UTF-16."""
    lines = re.split(r"\r\n|\n|\r", text[:at])
    if text[:at].endswith("\r") and text[at : at + 1] == "\n":
        lines = re.split(r"\r\n|\n|\r", text[: at - 1])
    return {"line": len(lines) - 1, "character": len(lines[-1].encode("utf-16-le")) // 2}


def symbols_wanted(text):
    """By a rule of its own: the words that declare, outside braces and comments."""
    plain = re.sub(r"//[^\n]*", lambda found: " " * len(found[0]), text)
    depth, outside = 0, ""
    for one in plain:
        depth -= one == "}" and depth > 0
        outside += one if depth == 0 and one not in "{}" else (" " if one.isspace() else "#")
        depth += one == "{"
    found = []
    for it in DECLARES.finditer(outside):
        start, end = it.span(4)
        span = {"start": place(text, start), "end": place(text, end)}
        kind = KINDS[it[1] or it[2] or it[3]]
        found.append({"name": it[4], "kind": kind, "range": span, "selectionRange": span})
    return found


def symbols():
    """The symbols of the examples and of texts with other ends of lines."""
    texts = [open(name, encoding="utf-8").read() for name in sorted(glob.glob(f"{TOP}/examples/*.al"))]
    assert texts, "no examples"
    texts += ["", "lock", "lock G", "atomic f( {} lock G;", "}} lock G; {{ lock H; }} lock I;", "lock \u00e9;"]
    texts += [text.replace("\n", end) for text in texts[:4] for end in ("\r\n", "\r\n\n")]
    texts += ["// \U0001f600 \u00e9\n" + texts[0], "lock A;\rlock B;\r\n\rlock C;", "lock A; // \U0001f600\r lock B;\nlock C;"]
    bodies = BEGIN[:]
    for number, text in enumerate(texts):
        bodies.append(call("textDocument/didOpen", document(f"u{number}", text)))
        bodies.append(call("textDocument/documentSymbol", document(f"u{number}"), number + 1))
    bodies += [call("textDocument/documentSymbol", document("never"), -1), call("textDocument/documentSymbol", {}, -2)] + END
    status, out = run(b"".join(map(frame, bodies)))
    replies = {one["id"]: one for one in frames_of(out) if "id" in one}
    assert status == 0
    for number, text in enumerate(texts):
        want = [] if "\u00e9;" in text else symbols_wanted(text)
        assert replies[number + 1]["result"] == want, (text[:60], replies[number + 1]["result"], want)
    assert [replies[whom]["error"]["code"] for whom in (-1, -2)] == [-32602, -32602]
    return len(texts)


def main():
    messages, sessions = life()
    print(f"lsp: {sessions} sessions of {messages} messages, {cuts()} cuts, {headers()} headers, "
          f"{randomly()} random messages, symbols of {symbols()} texts: as wanted")


if __name__ == "__main__":
    COMMAND = sys.argv[1:2] + (sys.argv[2:] or ["lsp"])
    main()
