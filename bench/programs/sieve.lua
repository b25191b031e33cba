local composite = {}
for k = 0, 50000 do composite[k] = 0 end
local function run(rounds)
  local r, count, i, k = 0, 0, 0, 0
  while r < rounds do
    i = 0
    while i <= 50000 do composite[i] = 0; i = i + 1 end
    i = 2
    count = 0
    while i <= 50000 do
      if composite[i] == 0 then
        count = count + 1
        k = i + i
        while k <= 50000 do composite[k] = 1; k = k + i end
      end
      i = i + 1
    end
    r = r + 1
  end
  return count
end
print(run(60))
