local a = {}
for k = 0, 1999 do a[k] = 0 end
local function run(n)
  local i, x = 0, 12345
  while i < n do
    x = (x * 1103515245 + 12345) % 2147483648
    a[i] = x % 100000
    i = i + 1
  end
  local last = n
  while last > 1 do
    i = 1
    while i < last do
      if a[i - 1] > a[i] then
        x = a[i]
        a[i] = a[i - 1]
        a[i - 1] = x
      end
      i = i + 1
    end
    last = last - 1
  end
  return a[0] + a[n // 2] * 3 + a[n - 1] * 7
end
print(run(2000))
