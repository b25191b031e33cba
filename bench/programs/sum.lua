local a = {}
for k = 0, 999 do a[k] = 0 end
local function run(rounds)
  local i = 0
  while i < 1000 do a[i] = i * 7 % 13; i = i + 1 end
  local s, r = 0, 0
  while r < rounds do
    i = 0
    while i < 1000 do s = s + a[i]; i = i + 1 end
    r = r + 1
  end
  return s
end
print(run(5000))
