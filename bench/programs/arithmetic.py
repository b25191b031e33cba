def run(turns):
    s = i = 0
    while i < turns:
        s = s + i * 3 % 7 - s // 5
        i = i + 1
    return s


print(run(10000000))
