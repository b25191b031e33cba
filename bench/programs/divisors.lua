local function run(bound)
  local sum, a = 0, 1
  local b, x, y, rest = 1, 0, 0, 0
  while a <= bound do
    b = 1
    while b <= bound do
      x = a
      y = b
      while y ~= 0 do
        rest = x % y
        x = y
        y = rest
      end
      sum = sum + x
      b = b + 1
    end
    a = a + 1
  end
  return sum
end
print(run(1000))
