def run(bound):
    total, a = 0, 1
    while a <= bound:
        b = 1
        while b <= bound:
            x = a
            y = b
            while y != 0:
                rest = x % y
                x = y
                y = rest
            total = total + x
            b = b + 1
        a = a + 1
    return total


print(run(1000))
