n = 0
local function run(turns)
  local i = 0
  while i < turns do n = n + 1; i = i + 1 end
  return n
end
for call = 0, 99999 do io.write(call, " t.", call, " run(3) returns ", run(3), "\n") end
