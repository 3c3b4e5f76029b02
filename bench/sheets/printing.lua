-- Printing: the letters from a to z, over and over.
local function letters(count)
  local i = 0
  while i < count do
    io.write(string.char(97 + i - i // 26 * 26))
    i = i + 1
  end
  return i
end

return letters(41000)
