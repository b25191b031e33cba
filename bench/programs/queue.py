class Node:
    __slots__ = ("value", "next")


node = [Node() for _ in range(64)]


def run(turns):
    i = total = 0
    first = last = None
    while i < 64:
        at = node[i]
        at.value = i
        at.next = None
        if first is None:
            first = at
        else:
            last.next = at
        last = at
        i = i + 1
    i = 0
    while i < turns:
        at = first
        first = at.next
        at.next = None
        at.value = at.value + 1
        total = (total + at.value) % 1000007
        last.next = at
        last = at
        i = i + 1
    return total


print(run(1500000))
