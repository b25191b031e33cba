import sys

n = 0


def run(turns):
    global n
    i = 0
    while i < turns:
        n = n + 1
        i = i + 1
    return n


for call in range(100000):
    sys.stdout.write(f"{call} t.{call} run(3) returns {run(3)}\n")
