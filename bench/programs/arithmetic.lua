local function run(turns)
  local s, i = 0, 0
  while i < turns do
    s = s + i * 3 % 7 - s // 5
    i = i + 1
  end
  return s
end
print(run(10000000))
