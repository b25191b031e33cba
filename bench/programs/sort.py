a = [0] * 2000


def run(n):
    i, x = 0, 12345
    while i < n:
        x = (x * 1103515245 + 12345) % 2147483648
        a[i] = x % 100000
        i = i + 1
    last = n
    while last > 1:
        i = 1
        while i < last:
            if a[i - 1] > a[i]:
                x = a[i]
                a[i] = a[i - 1]
                a[i - 1] = x
            i = i + 1
        last = last - 1
    return a[0] + a[n // 2] * 3 + a[n - 1] * 7


print(run(2000))
