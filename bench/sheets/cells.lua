-- References: two shuttles change places by way of a cell that every pass makes anew.
local function change(a, b)
  local held = {a[1]}
  a[1] = b[1]
  b[1] = held[1]
end

local function weave(passes)
  local left = {1}
  local right = {2}
  local i = {0}
  while i[1] < passes do
    change(left, right)
    left[1] = left[1] + 1
    i[1] = i[1] + 1
  end
  return left[1] - right[1]
end

return weave(27000)
