class Node:
    __slots__ = ("value", "next")


node = [Node() for _ in range(1000)]


def run(steps):
    i, before = 0, node[999]
    while i < 1000:
        at = node[i]
        at.value = i
        before.next = at
        before = at
        i = i + 1
    s = i = 0
    at = node[0]
    while i < steps:
        s = s + at.value
        at = at.next
        i = i + 1
    return s


print(run(5000000))
