local node = {}
for k = 0, 63 do node[k] = { value = 0 } end
local function run(turns)
  local i, at, first, last, sum = 0, nil, nil, nil, 0
  while i < 64 do
    at = node[i]
    at.value = i
    at.next = nil
    if first == nil then first = at else last.next = at end
    last = at
    i = i + 1
  end
  i = 0
  while i < turns do
    at = first
    first = at.next
    at.next = nil
    at.value = at.value + 1
    sum = (sum + at.value) % 1000007
    last.next = at
    last = at
    i = i + 1
  end
  return sum
end
print(run(1500000))
