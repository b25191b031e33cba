composite = [0] * 50001


def run(rounds):
    r = count = 0
    while r < rounds:
        i = 0
        while i <= 50000:
            composite[i] = 0
            i = i + 1
        i = 2
        count = 0
        while i <= 50000:
            if composite[i] == 0:
                count = count + 1
                k = i + i
                while k <= 50000:
                    composite[k] = 1
                    k = k + i
            i = i + 1
        r = r + 1
    return count


print(run(60))
