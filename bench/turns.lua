-- The loop of turns.c.
local i, s, t = 0, 0, 0
while i < 9999998 do
  s = (s + i) % 7
  if s > 3 then t = t + 1 end
  i = i + 1
end
print(t)
