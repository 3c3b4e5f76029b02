-- Recursive calls: the number of rabbits, worked out the long way.
local function fib(n)
  if n < 2 then return n else return fib(n - 1) + fib(n - 2) end
end

return fib(23)
