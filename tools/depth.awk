# How much stack the services take at most: tools/stack says from what, and how it is counted. It reads the lines of
# `measures` there and what tools/frames.awk writes; `tokens`, `rows` and `digits` are what a cycle's number can be at
# most, and with `short` the paths are left out.
BEGIN { FS = "\t" }
# by how much the number falls at least in a call from x to y: the measure of y is less than that of x
function falls(x, y,   d, times) {
  if (!(x in cycle && y in cycle && cycle[x] == cycle[y])) return 0
  times = counted[x] ~ /^[0-9]+\*/ ? counted[x] + 0 : 1
  d = rank[y] - rank[x] + 1
  return d > 0 ? int((d + times - 1) / times) : -int(-d / times)
}
# the number where x is called from outside of all cycles, of a sheet of so many tokens: it has no more rows than tokens
function start(x, sheet) {
  return number[x] == "t" ? sheet : number[x] == "r" ? (sheet < rows ? sheet : rows) : number[x] == "d" ? digits : 0
}
# The most that x and all that it calls take where the number is n; `onward` and `left` say by which call. All smaller
# numbers have been counted before.
function most(x, n,   i, y, k, w, best) {
  if (number[x] == "") n = 0
  if ((x, n) in bytes) return bytes[x, n]
  best = frame[x]
  for (i = 1; i <= calls[x]; i++) {
    y = callee[x, i]
    k = falls(x, y)
    if (k > n) continue
    w = held[x, i] + (k > 0 ? bytes[y, n - k] : most(y, n))
    if (w > best) { best = w; onward[x, n] = i; left[x, n] = n - k }
  }
  return bytes[x, n] = best
}
# the same where no cycle has been entered yet
function whole(x, sheet,   i, w, best) {
  if (x in inside) return most(x, start(x, sheet))
  if ((x, sheet) in total) return total[x, sheet]
  best = frame[x]
  for (i = 1; i <= calls[x]; i++) {
    w = held[x, i] + whole(callee[x, i], sheet)
    if (w > best) { best = w; first[x] = i }
  }
  return total[x, sheet] = best
}
# the path that takes most: each function with what it has on the stack where it goes on, and how often that is so
function path(x,   n, i, names, entered, order, on) {
  for (; !(x in inside); x = callee[x, i]) {
    i = first[x]
    print "  " x ": " (i ? held[x, i] : frame[x])
    if (!i) return
  }
  n = start(x, tokens)
  for (; x != ""; x = i ? callee[x, i] : "") {
    if (number[x] == "") n = 0
    i = onward[x, n]
    on = x ": " (i ? held[x, i] : frame[x])
    if (!(on in entered)) order[++names] = on
    entered[on]++
    n = left[x, n]
  }
  for (i = 1; i <= names; i++) print "  " order[i] (entered[order[i]] > 1 ? ", " entered[order[i]] " times" : "")
}
# all that can be called from x
function reach(x,   ways, waiting, i, y) {
  waiting[ways = 1] = x
  while (ways > 0) {
    y = waiting[ways--]
    for (i = 1; i <= calls[y]; i++) if (!((x, callee[y, i]) in reached)) {
      reached[x, callee[y, i]] = 1
      waiting[++ways] = callee[y, i]
    }
  }
}
# a compiled name may end in a hash, which the proofs do not have
function name_cycles(   x, y) {
  for (x in frame) {
    y = x; sub(/::h[0-9a-f]+$/, "", y)
    if (!(x in rank) && y in rank) { rank[x] = rank[y]; counted[x] = counted[y] }
    if ((x, x) in reached) {
      for (y in frame) if ((x, y) in reached && (y, x) in reached && (!(x in cycle) || y < cycle[x])) cycle[x] = y
      if (x ~ /^(phrases|reader|phrase_types|checker)::/) of[x] = "t"
      else if (x ~ /^resolver::/) of[x] = "r"
      else if (x ~ /^tally::calls::/) of[x] = "d"
      if (!(x in of && x in rank)) wrong("a cycle of calls of which nothing says what falls: " x)
    }
  }
}
function look_at_cycles(   x, y, i) {
  for (x in cycle) {
    for (y in cycle) if (cycle[x] == cycle[y] && counted[x] != counted[y]) wrong("two measures in one cycle: " x ", " y)
    for (i = 1; i <= calls[x]; i++) if (falls(x, callee[x, i]) < 0) wrong("the number may rise from " x)
  }
  # what can be called from a cycle, and which number its own calls go by
  for (x in cycle) for (y in frame) if ((x, y) in reached) inside[y] = 1
  for (x in inside) for (y in cycle) if (x == y || (x, y) in reached) {
    if (number[x] != "" && number[x] != of[y]) wrong("cycles that go by two numbers: " x)
    number[x] = of[y]
  }
}
function wrong(what) { print "stack: " what >"/dev/stderr"; bad = 1 }
# the most of all services for a sheet of so many tokens
function worst(sheet,   x, w) {
  w = 0
  for (x in frame) if (x ~ /^grumpy_/ && whole(x, sheet) > w) w = whole(x, sheet)
  return w
}
# a number and a slope that all sheets stay below, and that meet the largest
function formula(   n, slope, fixed) {
  slope = int((worst(tokens) - worst(tokens - 256)) / 256 + 0.999)
  fixed = 0
  for (n = 0; n <= tokens; n++) if (worst(n) - slope * n > fixed) fixed = worst(n) - slope * n
  print "of a sheet of n tokens: at most " fixed " + " slope " * n bytes"
}
$1 == "measure" { rank[$2] = $3; counted[$2] = $4; next }
$1 == "function" { f = $2; next }
$1 == "frame" { frame[f] = $2; next }
$1 == "call" { held_at[f, ++sites[f]] = $2; site[f, sites[f]] = $3; next }
END {
  # of several calls of one function only that counts which finds most on the stack; what is not here is from outside
  for (x in frame) for (i = 1; i <= sites[x]; i++) {
    y = site[x, i]
    if (!(y in frame)) continue
    if (!((x, y) in known)) { callee[x, ++calls[x]] = y; known[x, y] = calls[x] }
    k = known[x, y]
    if (held_at[x, i] > held[x, k]) held[x, k] = held_at[x, i]
  }
  for (x in frame) reach(x)
  name_cycles()
  look_at_cycles()
  if (bad) exit 1
  for (n = 0; n <= tokens || n <= rows; n++) for (x in inside) if (number[x] != "") most(x, n)
  if (!short) for (x in frame) if (x ~ /^grumpy_/) {
    print x ": at most " whole(x, tokens) " bytes"
    path(x)
  }
  formula()
  print "at most " worst(tokens) " bytes"
  exit worst(tokens) == 0
}
