sum = 0
local function run(most)
  local a, b, x, y, r = 1, 1, 0, 0, 0
  while a <= most do
    b = 1
    while b <= most do
      x = a
      y = b
      while y ~= 0 do r = x % y; x = y; y = r end
      sum = sum + x
      b = b + 1
    end
    a = a + 1
  end
  return sum
end
print(run(600))
