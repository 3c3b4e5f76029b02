-- Lua's side of the bench: one sheet, run again and again by the clock.
--
--     drive.lua SHEET REPEATS   value, and the nanoseconds of the shortest run
--     drive.lua SHEET print     what the sheet prints, and its value on a line under it
--
-- A run begins with the text, as it does in the box: reading is a part of it.
local name, repeats = ...

local function run(text)
  local began = os.clock()
  local value = assert(load(text, name, "t"))()
  return value, os.clock() - began
end

local file = assert(io.open(name, "rb"))
local text = file:read("a")
file:close()

if repeats == "print" then
  local value = run(text)
  io.write(string.format("\n%d\n", value))
  return
end

-- The box prints into memory; a large buffer that nobody reads comes closest.
io.output("/dev/null")
io.output():setvbuf("full", 1 << 16)
local value, best
for _ = 1, math.tointeger(repeats) do
  local took
  value, took = run(text)
  best = math.min(best or took, took)
end
io.stdout:write(string.format("value=%d ns=%.0f\n", value, best * 1e9))
