total = 0


def run(most):
    global total
    a = 1
    while a <= most:
        b = 1
        while b <= most:
            x = a
            y = b
            while y != 0:
                r = x % y
                x = y
                y = r
            total = total + x
            b = b + 1
        a = a + 1
    return total


print(run(600))
