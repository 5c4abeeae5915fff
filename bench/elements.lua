-- The loop of elements.c, over a table whose indices begin at 1.
local a = {}
for k = 1, 1000 do a[k] = 0 end
local i, k, s = 0, 1, 0
while i < 5000000 do
  a[k] = s + i
  k = k + 1
  if k == 1001 then k = 1 end
  s = (s + a[k]) % 1000
  i = i + 1
end
print(s)
