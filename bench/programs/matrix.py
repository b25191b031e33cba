a = [0] * 3600
b = [0] * 3600
c = [0] * 3600


def run(n, rounds):
    i = r = 0
    while i < n * n:
        a[i] = i % 7
        b[i] = i % 11
        i = i + 1
    while r < rounds:
        i = 0
        while i < n:
            j = 0
            while j < n:
                s = 0
                k = 0
                while k < n:
                    s = s + a[i * n + k] * b[k * n + j]
                    k = k + 1
                c[i * n + j] = s
                j = j + 1
            i = i + 1
        a[r] = c[r] % 10
        r = r + 1
    return c[n * n - 1]


print(run(60, 15))
