"""Reads bench/results.txt, what bench/all.sh printed, for the figures in docs/FIGURES.md."""
import pathlib
import re

RESULTS = pathlib.Path(__file__).resolve().parent.parent / "bench" / "results.txt"
# What is compared, the bench, and a pattern of its lines that takes the ratio.
RATIOS = [
    ("`serial`, loops, to Lua 5.4", "programs", r" (\d+\.\d\d) +\d+\.\d\d +ms$"),
    ("`serial`, loops, to CPython 3.11", "programs", r" (\d+\.\d\d) +ms$"),
    ("`serial` with a helper in a loop, to its body in its place", "helpers", r"ratio (\d+\.\d\d)$"),
    ("`serial` with a `where` at each step of a walk, to none", "owners", r"ratio (\d+\.\d\d)$"),
    ("`replay`, to `serial` of the same calls", "replay", r"ratios (\d+\.\d\d) "),
    ("a transfer in emitted C, to two ordered `std::mutex`es", "emit", r"threads?, .* (\d+\.\d\d) \(\d+\.\d\d\) +\d+\.\d\d \("),
    ("the same with a history, to one by hand", "emit", r"threads?, .* (\d+\.\d\d) \(\d+\.\d\d\) *$"),
    ("loops in emitted C, to C by hand with the same tests", "emit", r"^\D.*\d\.\d{4} .* (\d+\.\d\d)$"),
    ("`emit`, to `listing`", "emit", r" listing .*ratio (\d+\.\d\d);"),
    ("calls by `run`'s threads with answers and history, to the same without", "unseen", r"takes (\d+\.\d\d) of the time"),
]


class Results:
    """The lines that each bench printed, and the lines before the first of them."""

    def __init__(self, text):
        head, *parts = re.split(r"^== ", text, flags=re.M)
        self.head = head.splitlines()
        self.benches = {}
        for part in parts:
            first, *lines = part.splitlines()
            name, load = re.match(r"(\w+), load (\S+)", first).groups()
            self.benches[name] = (load, [line.rstrip() for line in lines if not line.startswith("-- ")])

    def block(self, name):
        """What the bench printed, as a block of a page."""
        load, lines = self.benches[name]
        return "\n".join([f"At a load of {load}:", "", "```", *lines, "```", ""])

    def run(self):
        """A sentence of the commit, the programs and the machine."""
        fields = dict(line.split(" ", 1) for line in self.head)
        loads = [float(load) for load, _ in self.benches.values()]
        return (f"All figures are of commit {fields['commit']}, its programs {fields['programs']}, on {fields['machine']}. "
                f"The load was {min(loads)} to {max(loads)} when a bench began.\n")

    def ratios(self):
        """A row for each thing that is compared: the least and the greatest ratio, and the mean."""
        rows = ["| Time of | Least | Greatest | Mean |", "|---|---|---|---|"]
        for what, bench, pattern in RATIOS:
            found = [re.search(pattern, line) for line in self.benches[bench][1]]
            found = [float(it.group(1)) for it in found if it]
            if found:
                rows.append(f"| {what} | {min(found):.2f} | {max(found):.2f} | {sum(found) / len(found):.2f} |")
        return "\n".join([*rows, ""])


def tables():
    """The makers of the tables, by the names of their marks."""
    if not RESULTS.exists():
        return {}
    results = Results(RESULTS.read_text())
    makers = {f"figures_{name}": lambda name=name: results.block(name) for name in results.benches}
    return {**makers, "figures_run": results.run, "figures_ratios": results.ratios}
