#!/usr/bin/env python3
"""Draws what `autolock trace` writes as an SVG, with a column for each thread and time running down; or as a page.

    ./autolock trace FILE STEPS | tools/msc.py [--moves] --program FILE >picture.svg
    ./autolock trace FILE STEPS | tools/msc.py [--moves] --html --program FILE >page.html
    tools/msc.py [--moves] [--html] TRACE [FILE] >picture.svg

A section is a box in its thread's column, from the step that began it to the one that ended it. A lock that is acquired, or
that another thread holds, is a line of text there, and from a wait an arrow points to the holder's column; waits of one
thread for one holder in a row are one line with a count. Each lock that a section holds is a bar beside the box, labelled
by the lock, from where it was granted to the section's end. A run of instructions of one statement is one line, with the
statement's place and how many there were.

FILE        the program's file, of which columns have the names of its threads; --program FILE says it too
--html      one page without other files: the program beside the chart. Buttons and the keys right and left, home and end
            go from step to step; the step is lit, and the program's line where its thread is. page.html#N begins at step N
--moves     draw each instruction

A text that is no trace is refused, with status 1.
"""
import argparse
import pathlib
import sys

from chart import Chart
from source import Source, declared
from steps_page import page
from told import Strange, read_trace


def arguments():
    """The words of the command line."""
    p = argparse.ArgumentParser(formatter_class=argparse.RawDescriptionHelpFormatter, description=__doc__)
    p.add_argument("--moves", action="store_true", help="draw each instruction")
    p.add_argument("--html", action="store_true", help="write a page with the program; needs FILE")
    p.add_argument("--program", type=pathlib.Path, metavar="FILE")
    p.add_argument("trace", nargs="?", type=pathlib.Path, metavar="TRACE", help="by default, and for -, standard input")
    p.add_argument("file", nargs="?", type=pathlib.Path, metavar="FILE")
    words = p.parse_args()
    words.program = words.program or words.file
    if words.html and not words.program:
        p.error("--html needs FILE")
    return words


def drawn(words):
    """What is asked for, of the trace that is read."""
    is_standard = words.trace is None or str(words.trace) == "-"
    text = sys.stdin.buffer.read() if is_standard else words.trace.read_bytes()
    source = Source(words.program.read_bytes() if words.program else b"")
    declarations, trace = declared(source), read_trace(text.decode(errors="replace"))
    chart = Chart(trace, declarations.threads, words.moves)
    return page(words.program.name, source, declarations, trace, chart) if words.html else chart.picture()


def main():
    try:
        text = drawn(arguments())
    except (OSError, Strange) as fault:
        sys.exit(f"msc.py: {fault}")
    sys.stdout.buffer.write(text.encode(errors="replace") + b"\n")


if __name__ == "__main__":
    main()
