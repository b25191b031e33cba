local text = {}
for k = 0, 9999 do text[k] = 0 end
local function run(length, rounds)
  local i, x, r, c, state, words, numbers, lines = 0, 1, 0, 0, 0, 0, 0, 0
  while i < length do
    x = (x * 1103515245 + 12345) % 2147483648
    text[i] = x // 65536 % 96 + 32
    if text[i] > 122 then text[i] = 10 end
    i = i + 1
  end
  while r < rounds do
    i = 0
    state = 0
    while i < length do
      c = text[i]
      if c >= 97 and c <= 122 or c >= 65 and c <= 90 then
        if state ~= 1 then words = words + 1 end
        state = 1
      else
        if c >= 48 and c <= 57 then
          if state == 0 then
            numbers = numbers + 1
            state = 2
          end
        else
          if c == 10 then lines = lines + 1 end
          state = 0
        end
      end
      i = i + 1
    end
    r = r + 1
  end
  return words * 10000 + numbers * 100 + lines
end
print(run(10000, 150))
