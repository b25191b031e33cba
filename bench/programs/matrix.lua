local a, b, c = {}, {}, {}
for k = 0, 3599 do a[k], b[k], c[k] = 0, 0, 0 end
local function run(n, rounds)
  local i, j, k, s, r = 0, 0, 0, 0, 0
  while i < n * n do
    a[i] = i % 7
    b[i] = i % 11
    i = i + 1
  end
  while r < rounds do
    i = 0
    while i < n do
      j = 0
      while j < n do
        s = 0
        k = 0
        while k < n do
          s = s + a[i * n + k] * b[k * n + j]
          k = k + 1
        end
        c[i * n + j] = s
        j = j + 1
      end
      i = i + 1
    end
    a[r] = c[r] % 10
    r = r + 1
  end
  return c[n * n - 1]
end
print(run(60, 15))
