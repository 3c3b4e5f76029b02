# Reads what objdump shows of an archive for x86-64 (-dr --no-show-raw-insn -C), and writes for tools/depth.awk, with
# tabs between the words, for each function
#
#   function NAME
#   frame BYTES         the most that it has on the stack by itself, its return address among it
#   call BYTES NAME     what it has there where it calls another, or goes on as another
#
# How much is on the stack at an instruction is followed along every way through the function: arguments of a call are
# pushed before it and dropped behind it, so to add up all that is pushed would count those of every call.
function hex(s,   i, n) {
  n = 0
  for (i = 1; i <= length(s); i++) n = 16 * n + index("0123456789abcdef", substr(s, i, 1)) - 1
  return n
}
# what stands on the stack after instruction i, where it was d before
function after(i, d,   s) {
  s = text[i]
  if (s ~ /^push/) return d + 8
  if (s ~ /^pop/) return d - 8
  if (s !~ /,%rsp$/ || s ~ /^(cmp|test)/) return d
  if (match(s, /^(sub|add) +\$0x[0-9a-f]+/)) {
    d += (s ~ /^sub/ ? 1 : -1) * hex(substr(s, index(s, "$0x") + 3, RLENGTH - index(s, "$0x") - 2))
  } else if (match(s, /^and +\$0xffffffffffff[0-9a-f]+/)) {
    d += 65536 - hex(substr(s, RLENGTH - 3, 4))
  } else if (s !~ /^(mov +%rbp|lea +-?0x[0-9a-f]+\(%rbp\))/) {
    print "frames: nothing is known of '" s "' in " name >"/dev/stderr"
    failed = 1
  }
  return d
}
function reach(i, d) {
  if (i > count || i in depth && depth[i] >= d) return
  depth[i] = d
  waiting[++ways] = i
}
function follow(   i, d, s) {
  while (ways > 0) {
    i = waiting[ways--]
    d = depth[i]
    s = text[i]
    d = after(i, d)
    if (d > most) most = d
    if (d > 16777216) {
      print "frames: " name " takes stack in a loop" >"/dev/stderr"
      failed = 1
      ways = 0
      return
    }
    if (s ~ /^(ret|ud2|hlt)/) continue
    if (s ~ /^(notrack )?jmp +\*/) { if (d > aside) aside = d; continue }
    if (s ~ /^j/ && match(s, / [0-9a-f]+ </)) {
      d0 = substr(s, RSTART + 1, RLENGTH - 3)
      if (!(i in callee) && d0 in at) reach(at[d0], d)
    }
    if (s !~ /^jmp/) reach(i + 1, d)
  }
}
# Code that is reached only through a table of jumps has on the stack what there is where the table is used.
function finish(   i) {
  if (name == "") return
  most = aside = ways = 0
  split("", depth)
  reach(1, 8)
  follow()
  for (i = 1; i <= count; i++) if (!(i in depth) && aside) { reach(i, aside); follow() }
  print "function\t" name
  print "frame\t" most
  for (i = 1; i <= count; i++) if (i in callee && i in depth)
    print "call\t" (text[i] ~ /^call/ ? depth[i] : depth[i] - 8) "\t" callee[i]
}
/^[0-9a-f]+ <.*>:$/ {
  finish()
  name = $0; sub(/^[0-9a-f]+ </, "", name); sub(/>:$/, "", name)
  count = 0
  split("", text); split("", at); split("", callee)
  next
}
/^ *[0-9a-f]+:\t/ && !/R_X86_64/ {
  count++
  s = $1; sub(/:$/, "", s); at[s] = count
  s = $0; sub(/^ *[0-9a-f]+:\t/, "", s); sub(/ +$/, "", s); text[count] = s
  if (s ~ /^(call|j)/ && match(s, /<[^+>]*>$/)) {
    s = substr(s, RSTART + 1, RLENGTH - 2)
    if (text[count] ~ /^call/ || s != name) callee[count] = s
  }
}
/R_X86_64_PLT32/ { s = $0; sub(/.*R_X86_64_PLT32[ \t]*(\.text\.)?/, "", s); sub(/-0x4$/, "", s); callee[count] = s }
END { finish(); exit failed }
