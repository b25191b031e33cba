"""The same pieces of work in Python. Its numbers grow where ours trap, and none of these reaches that."""
import sys
import time


def arith():
    i = 0
    s = 0
    while i < 10000000:
        s = s + i * 3 % 7 - s // 5
        i = i + 1
    return s


a = [1] * 1000


def array():
    i = s = r = 0
    while r < 5000:
        i = 0
        while i < 1000:
            s = s + a[i]
            a[i] = s % 1000
            i = i + 1
        r = r + 1
    return s


g = h = 0


def globals_():
    global g, h
    i = 0
    while i < 5000000:
        g = g + i
        h = h + g % 7
        i = i + 1
    return h


class Node:
    __slots__ = ("v", "next")


nodes = [Node() for _ in range(1000)]
for k in range(1000):
    nodes[k].v = 0
    nodes[k].next = nodes[(k + 1) % 1000]


def fields():
    i = 0
    p = nodes[0]
    while i < 4000000:
        p.v = p.v + 1
        p = p.next
        i = i + 1
    return p.v


following = [nodes[(k + 1) % 1000] for k in range(1000)]


def references():
    i = 0
    while i < 4000000:
        p = nodes[i % 1000]
        p = following[i % 1000]
        i = i + 1
    return p.v


def small():
    a[3] = a[3] + 1
    return a[3]


work = {"arith": arith, "array": array, "globals": globals_, "fields": fields, "references": references, "small": small, "large": small}
name, count = sys.argv[1], int(sys.argv[2])
f = work[name]
start = time.perf_counter()
for _ in range(count):
    r = f()
print(name, int((time.perf_counter() - start) * 1e6), r)
