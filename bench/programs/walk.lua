local node = {}
for k = 0, 999 do node[k] = { value = 0 } end
local function run(steps)
  local i, at, before = 0, nil, node[999]
  while i < 1000 do
    at = node[i]
    at.value = i
    before.next = at
    before = at
    i = i + 1
  end
  local s = 0
  at = node[0]
  i = 0
  while i < steps do
    s = s + at.value
    at = at.next
    i = i + 1
  end
  return s
end
print(run(5000000))
