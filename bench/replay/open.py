#!/usr/bin/env python3
"""Times `replay --open` of large histories of the second format: calls of a one-line section by so many threads.

    bench/replay/open.py BIN [CALLS ..] [--threads N]

By default 100,000, 1,000,000 and 10,000,000 calls by one thread. Tells of each the size of the history, the processor time
and the peak memory.
"""
import argparse
import os
import subprocess
import tempfile

PROGRAM = "lock G;\nglobal int n protected_by(G);\natomic add(int k) { n = n + k; }\n"


def write_history(file, calls, threads):
    with open(file, "w", buffering=1 << 20) as out:
        out.write("history 2\n")
        for i in range(calls):
            out.write(f"call {i % threads * 41} {i // threads} {i} add({i % 7}) ends\n")
        out.write(f"cells\nn {sum(range(7)) * (calls // 7) + sum(range(calls % 7))}\nend\n")


def main():
    parser = argparse.ArgumentParser()
    parser.add_argument("program")
    parser.add_argument("calls", nargs="*", type=int, default=[100_000, 1_000_000, 10_000_000])
    parser.add_argument("--threads", type=int, default=1)
    words = parser.parse_args()
    with tempfile.TemporaryDirectory() as room:
        source, history = f"{room}/add.al", f"{room}/history"
        with open(source, "w") as out:
            out.write(PROGRAM)
        for calls in words.calls:
            write_history(history, calls, words.threads)
            child = subprocess.Popen([words.program, "replay", "--open", source, history], stdout=subprocess.PIPE)
            said = child.stdout.read().decode().strip()
            _, status, used = os.wait4(child.pid, 0)
            size = os.path.getsize(history)
            print(f"{calls} calls, {size >> 10} KiB: {said}, {used.ru_utime + used.ru_stime:.2f} s, {used.ru_maxrss} KiB")


if __name__ == "__main__":
    main()
