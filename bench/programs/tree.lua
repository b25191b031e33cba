local node = {}
for k = 0, 19999 do node[k] = { key = 0, left = nil, right = nil } end
local function run(count, searches)
  local x, i, at, made, placed = 12345, 1, nil, nil, 0
  local root = node[0]
  root.key = 500000
  while i < count do
    x = (x * 1103515245 + 12345) % 2147483648
    made = node[i]
    made.key = x % 1000000
    made.left = nil
    made.right = nil
    at = root
    placed = 0
    while placed == 0 do
      if made.key < at.key then
        if at.left == nil then
          at.left = made
          placed = 1
        else
          at = at.left
        end
      else
        if at.right == nil then
          at.right = made
          placed = 1
        else
          at = at.right
        end
      end
    end
    i = i + 1
  end
  local found, key = 0, 0
  i = 0
  while i < searches do
    x = (x * 1103515245 + 12345) % 2147483648
    key = x % 1000000
    at = root
    while at ~= nil and at.key ~= key do
      if key < at.key then at = at.left else at = at.right end
    end
    if at ~= nil then found = found + 1 end
    i = i + 1
  end
  return found
end
print(run(20000, 100000))
