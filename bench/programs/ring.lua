local slot = {}
for k = 0, 63 do slot[k] = 0 end
head, count = 0, 0
local function run(rounds)
  local r, i, sum, refused = 0, 0, 0, 0
  while r < rounds do
    i = 0
    while i < 50 + r % 40 do
      if count < 64 then
        slot[(head + count) % 64] = r + i
        count = count + 1
      else
        refused = refused + 1
      end
      i = i + 1
    end
    i = 0
    while i < 60 and count > 0 do
      sum = (sum + slot[head]) % 1000007
      head = (head + 1) % 64
      count = count - 1
      i = i + 1
    end
    r = r + 1
  end
  return sum + refused
end
print(run(30000))
