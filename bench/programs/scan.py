text = [0] * 10000


def run(length, rounds):
    i, x = 0, 1
    r = words = numbers = lines = 0
    while i < length:
        x = (x * 1103515245 + 12345) % 2147483648
        text[i] = x // 65536 % 96 + 32
        if text[i] > 122:
            text[i] = 10
        i = i + 1
    while r < rounds:
        i = 0
        state = 0
        while i < length:
            c = text[i]
            if c >= 97 and c <= 122 or c >= 65 and c <= 90:
                if state != 1:
                    words = words + 1
                state = 1
            else:
                if c >= 48 and c <= 57:
                    if state == 0:
                        numbers = numbers + 1
                        state = 2
                else:
                    if c == 10:
                        lines = lines + 1
                    state = 0
            i = i + 1
        r = r + 1
    return words * 10000 + numbers * 100 + lines


print(run(10000, 150))
