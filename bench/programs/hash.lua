local key, count = {}, {}
for k = 0, 8191 do key[k] = 0; count[k] = 0 end
local function run(rounds)
  local x, i, at, k, most = 12345, 0, 0, 0, 0
  while i < rounds do
    x = (x * 1103515245 + 12345) % 2147483648
    k = x // 65536 % 4096 + 1
    at = k * 2654435761 % 8192
    while key[at] ~= 0 and key[at] ~= k do at = (at + 1) % 8192 end
    key[at] = k
    count[at] = count[at] + 1
    if count[at] > most then most = count[at] end
    i = i + 1
  end
  return most
end
print(run(1000000))
