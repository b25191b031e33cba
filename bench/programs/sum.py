a = [0] * 1000


def run(rounds):
    i = 0
    while i < 1000:
        a[i] = i * 7 % 13
        i = i + 1
    s = r = 0
    while r < rounds:
        i = 0
        while i < 1000:
            s = s + a[i]
            i = i + 1
        r = r + 1
    return s


print(run(5000))
