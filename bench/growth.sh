# shellcheck shell=bash
# To be sourced. Writes the sheets that show how the time grows: one and the same loop, with more and more
# bindings, or more and more live cells, in its way. Each as NAME.grumpy and NAME.lua.

repeat() { # TIMES TEXT: the text that often; each # in it is the count, from 1 on
  awk -v times="$1" -v text="$2" \
    'BEGIN { for (i = 1; i <= times; i++) { one = text; gsub(/#/, i, one); printf "%s", one } }'
}

# Bindings: the loop's counter is named in each pass three times, from under so many other names.
bindings_sheets() { # NAME BINDINGS PASSES
  cat >"$1.grumpy" <<W
let i=ref 0 in
$(repeat "$2" 'let b#=1 in ')
while !i<$3 { i := !i+1 };
!i
W
  cat >"$1.lua" <<W
local i = 0
$(repeat "$2" 'local b# = 1 ')
while i < $3 do i = i + 1 end
return i
W
}

# Cells: the loop's step is read in each pass once. Of the cells beside the counter, so many were born
# before the step's and so many after. A Block frees what was born in it, so the loop has to run inside of
# all that make cells: each call of `before` and `after` makes twenty and goes on to the next, and the
# odd ones are made on the way. The counter is the newest, where it costs least.
HANDFUL=20

cells_sheets() { # NAME BEFORE AFTER PASSES
  local make
  make="let u=0$(repeat $HANDFUL '+!ref 1') in"
  cat >"$1.grumpy" <<W
def loop(step:int ref):int{ let i=ref 0 in while !i<$4 { i := !i+!step }; !i }
def after(calls:int,step:int ref):int{ if calls==0 then loop(step) else { $make after(calls-1,step) } }
def step():int{
  let step=ref 1 in
  let u=0$(repeat $(($3 % HANDFUL)) '+!ref 1') in
  after($(($3 / HANDFUL)),step)
}
def before(calls:int):int{ if calls==0 then step() else { $make before(calls-1) } }
let u=0$(repeat $(($2 % HANDFUL)) '+!ref 1') in
before($(($2 / HANDFUL)))
W
  cat >"$1.lua" <<W
local cells = {}
for n = 1, $(($2 + 1 + $3)) do cells[n] = {1} end
local step = cells[$(($2 + 1))]
local i = {0}
while i[1] < $4 do i[1] = i[1] + step[1] end
return i[1]
W
}
