slot = [0] * 64
head = 0
count = 0


def run(rounds):
    global head, count
    r = total = refused = 0
    while r < rounds:
        i = 0
        while i < 50 + r % 40:
            if count < 64:
                slot[(head + count) % 64] = r + i
                count = count + 1
            else:
                refused = refused + 1
            i = i + 1
        i = 0
        while i < 60 and count > 0:
            total = (total + slot[head]) % 1000007
            head = (head + 1) % 64
            count = count - 1
            i = i + 1
        r = r + 1
    return total + refused


print(run(30000))
