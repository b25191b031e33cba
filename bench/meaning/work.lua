-- The same pieces of work in Lua. Its numbers wrap where ours trap, and none of these reaches that.
local name, count = arg[1], tonumber(arg[2])
local clock = os.clock
local work = {}
function work.arith()
  local i, s = 0, 0
  while i < 10000000 do
    s = s + i * 3 % 7 - s // 5
    i = i + 1
  end
  return s
end
local a = {}
for k = 0, 999 do a[k] = 1 end
function work.array()
  local i, s, r = 0, 0, 0
  while r < 5000 do
    i = 0
    while i < 1000 do
      s = s + a[i]
      a[i] = s % 1000
      i = i + 1
    end
    r = r + 1
  end
  return s
end
g, h = 0, 0
function work.globals()
  local i = 0
  while i < 5000000 do
    g = g + i
    h = h + g % 7
    i = i + 1
  end
  return h
end
local nodes = {}
for k = 0, 999 do nodes[k] = { v = 0 } end
for k = 0, 999 do nodes[k].next = nodes[(k + 1) % 1000] end
function work.fields()
  local i, p = 0, nodes[0]
  while i < 4000000 do
    p.v = p.v + 1
    p = p.next
    i = i + 1
  end
  return p.v
end
local following = {}
for k = 0, 999 do following[k] = nodes[(k + 1) % 1000] end
function work.references()
  local i, p = 0, nil
  while i < 4000000 do
    p = nodes[i % 1000]
    p = following[i % 1000]
    i = i + 1
  end
  return p.v
end
function work.small()
  a[3] = a[3] + 1
  return a[3]
end
work.large = work.small
local f = work[name]
local start = clock()
local r
for _ = 1, count do r = f() end
local time = clock() - start
print(name, math.floor(time * 1e6), r)
