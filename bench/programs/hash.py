key = [0] * 8192
count = [0] * 8192


def run(rounds):
    x = 12345
    i = most = 0
    while i < rounds:
        x = (x * 1103515245 + 12345) % 2147483648
        k = x // 65536 % 4096 + 1
        at = k * 2654435761 % 8192
        while key[at] != 0 and key[at] != k:
            at = (at + 1) % 8192
        key[at] = k
        count[at] = count[at] + 1
        if count[at] > most:
            most = count[at]
        i = i + 1
    return most


print(run(1000000))
