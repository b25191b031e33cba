"""What the commands of `autolock` write, read into values: traces, checks, orders, listings and explanations.

Each reader takes a text as docs/FORMATS.md has it to the byte, and raises Strange, with what is wrong, for any other.
"""
import json
import re
import subprocess
from dataclasses import dataclass
from typing import List, NamedTuple, Optional, Tuple

PLACE = r"(\d+):(\d+)"
STEP = re.compile(
    r"(?P<thread>\d+) (?:"
    r"(?P<began>began) (?P<call>\w+\([ -~]*\))"
    rf"|(?P<moved>moved) (?:(?P<line>\d+):(?P<column>\d+) )?(?P<instruction>[ -~]+)"
    r"|(?P<got>got) (?P<granted>[!-~]+)"
    r"|(?P<waits>waits) (?P<wanted>[!-~]+) for (?P<holder>\d+)"
    r"|(?P<ended>ended) at (?P<position>\d+)"
    r"|(?P<idle>idle))",
    re.ASCII,
)


class Strange(Exception):
    """A text that no command writes."""


class Place(NamedTuple):
    """A line and a column of the program, from 1; columns count bytes."""

    line: int
    column: int

    def __str__(self):
        return f"{self.line}:{self.column}"


@dataclass(frozen=True)
class Step:
    """A step of a thread: its event is `began`, `moved`, `got`, `waits`, `ended` or `idle`.

    `what` is the call that began, the instruction, the lock, the position, or nothing. Only a step that moved has a place,
    and only one that waits has the thread that holds the lock.
    """

    thread: int
    event: str
    what: str
    place: Optional[Place] = None
    holder: Optional[int] = None


@dataclass(frozen=True)
class Trace:
    """The steps of a trace, and how many threads its program has."""

    steps: List[Step]
    threads: int


def read_step(line, number):
    """The step that a line of a trace tells."""
    found = STEP.fullmatch(line)
    if not found:
        raise Strange(f"line {number} is not a step: {line}")
    event = next(name for name in ("began", "moved", "got", "waits", "ended", "idle") if found[name])
    what = next((found[name] for name in ("call", "instruction", "granted", "wanted", "position") if found[name]), "")
    place = Place(int(found["line"]), int(found["column"])) if found["line"] else None
    holder = int(found["holder"]) if found["holder"] else None
    return Step(int(found["thread"]), event, what, place, holder)


def read_trace(text):
    """The steps ahead of the simulation text, and the number of threads that this tells."""
    lines = text.split("\n")
    if "simulation 1" not in lines:
        raise Strange("no simulation text follows the steps")
    end = lines.index("simulation 1")
    steps = [read_step(line, number) for number, line in enumerate(lines[:end], 1)]
    if "threads" not in lines[end:]:
        raise Strange("the simulation text has no threads")
    threads = sum(line != "end" for line in lines[lines.index("threads", end) + 1 :] if line)
    named = [step.thread for step in steps] + [step.holder for step in steps if step.holder is not None]
    if any(thread >= threads for thread in named):
        raise Strange("a step is of a thread that the simulation text does not have")
    return Trace(steps, threads)


@dataclass(frozen=True)
class Take:
    """The lock paths that a section takes before the statement at a place."""

    section: str
    place: Place
    paths: List[str]


@dataclass(frozen=True)
class Check:
    """The lock classes by rank, the sections, and where these take locks."""

    ranks: List[str]
    sections: List[str]
    takes: List[Take]


def read_check(text):
    """What a check text says."""
    first, *lines = text.split("\n")
    check = Check([], [], [])
    if first != "accepted":
        raise Strange("the check text does not begin with accepted")
    for line in filter(None, lines):
        word, _, rest = line.partition(" ")
        place = re.fullmatch(PLACE + r" take (.+)", rest)
        if word == "rank":
            check.ranks.append(rest.split(" ")[1])
        elif word == "section":
            check.sections.append(rest)
        elif word == "at" and place and check.sections:
            check.takes.append(Take(check.sections[-1], Place(int(place[1]), int(place[2])), place[3].split(" ")))
        else:
            raise Strange(f"not a line of a check text: {line}")
    return check


@dataclass(frozen=True)
class Pair:
    """Of two lock classes the first comes before the second, as a section makes it at a place."""

    first: str
    second: str
    section: str
    place: Place
    is_of_cycle: bool


@dataclass(frozen=True)
class Order:
    """The lock classes, by rank where they have one, and the pairs of them."""

    classes: List[str]
    pairs: List[Pair]


def read_order(text):
    """What an order text says; of a program that has none, no class and no pair."""
    order = Order([], [])
    for line in text.split("\n")[1:-2]:
        pair = re.fullmatch(rf'  "(\S+)" -> "(\S+)" \[label="(\w+):{PLACE}"(, color="red")?\];', line)
        named = re.fullmatch(r'  "(\S+)"(?: \[label="rank \d+ \S+"\])?;', line)
        if pair:
            place = Place(int(pair[4]), int(pair[5]))
            order.pairs.append(Pair(pair[1], pair[2], pair[3], place, bool(pair[6])))
        elif named:
            order.classes.append(named[1])
        else:
            raise Strange(f"not a line of an order text: {line}")
    return order


@dataclass(frozen=True)
class Instruction:
    """An instruction of a section, with the place of its statement where it belongs to one."""

    number: int
    place: Optional[Place]
    text: str


def read_listing(text):
    """The sections of a listing with places, each with its instructions."""
    sections: List[Tuple[str, List[Instruction]]] = []
    for line in filter(None, text.split("\n")):
        found = re.fullmatch(rf"(\d+) (?:{PLACE} )?(.+)", line)
        if line.startswith("section "):
            sections.append((line[len("section ") :], []))
        elif found and sections:
            place = Place(int(found[2]), int(found[3])) if found[2] else None
            sections[-1][1].append(Instruction(int(found[1]), place, found[4]))
        else:
            raise Strange(f"not a line of a listing: {line}")
    return sections


@dataclass(frozen=True)
class Note:
    """What an explanation says, and of which piece of the program where it says so: from a place up to another."""

    text: str
    start: Optional[Place]
    end: Optional[Place]


@dataclass(frozen=True)
class Explanation:
    """Whether a program is accepted; of a refused one the fault, with its code, and the remedy; and the notes."""

    accepted: bool
    code: str
    fault: Optional[Note]
    notes: List[Note]
    remedy: str


def read_note(value):
    """The note of an object with a text, and of one with places these."""
    start, end = (Place(value[name]["line"], value[name]["column"]) if name in value else None for name in ("start", "end"))
    return Note(value["text"], start, end)


def read_explanation(text):
    """What an explanation in JSON says."""
    try:
        value = json.loads(text)
        notes = [read_note(note) for note in value["notes"]]
        if value["accepted"]:
            return Explanation(True, "", None, notes, "")
        return Explanation(False, value["code"], read_note(value), notes, value["remedy"])
    except (ValueError, KeyError, TypeError) as fault:
        raise Strange(f"not an explanation: {fault!r}") from fault


def ask(program, *words):
    """What the program writes for these words: its standard output, whatever its status is."""
    ended = subprocess.run([program, *words], stdin=subprocess.DEVNULL, stdout=subprocess.PIPE, stderr=subprocess.PIPE)
    if ended.returncode > 1 or ended.returncode < 0:
        raise Strange(f"{' '.join(map(str, words))}: {ended.stderr.decode(errors='replace').strip()}")
    return ended.stdout.decode(errors="replace")
