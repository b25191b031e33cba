class Node:
    __slots__ = ("key", "left", "right")

    def __init__(self):
        self.key, self.left, self.right = 0, None, None


node = [Node() for _ in range(20000)]


def run(count, searches):
    x, i = 12345, 1
    root = node[0]
    root.key = 500000
    while i < count:
        x = (x * 1103515245 + 12345) % 2147483648
        made = node[i]
        made.key = x % 1000000
        made.left = None
        made.right = None
        at = root
        placed = 0
        while placed == 0:
            if made.key < at.key:
                if at.left is None:
                    at.left = made
                    placed = 1
                else:
                    at = at.left
            else:
                if at.right is None:
                    at.right = made
                    placed = 1
                else:
                    at = at.right
        i = i + 1
    found = i = 0
    while i < searches:
        x = (x * 1103515245 + 12345) % 2147483648
        key = x % 1000000
        at = root
        while at is not None and at.key != key:
            if key < at.key:
                at = at.left
            else:
                at = at.right
        if at is not None:
            found = found + 1
        i = i + 1
    return found


print(run(20000, 100000))
