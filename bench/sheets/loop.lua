-- A loop with arithmetic: a tally that every pass multiplies, adds to, divides and keeps below 10000.
local function tally(passes)
  local i = 0
  local sum = 1
  while i < passes do
    i = i + 1
    sum = sum * 31 + i // 7 - 3
    sum = sum - sum // 10000 * 10000
  end
  return sum
end

return tally(27000)
