# What kinds of instructions a run was made of: first the program's listing (objdump -d --no-show-raw-insn),
# then callgrind's counts (--dump-instr=yes --compress-pos=no). One line: four shares in percent, of moves
# between memory and registers, of moves between registers, of tests and jumps, and of the rest.
function kind(op, words) {
  if (op ~ /^(push|pop)/ || op ~ /mov/ && words ~ /\(/) return "memory"
  if (op ~ /mov/) return "register"
  if (op ~ /^(cmp|test|set|j)/) return "jump"
  return "rest"
}
NR == FNR {
  if ($1 ~ /^[0-9a-f]+:$/) of["0x" substr($1, 1, length($1) - 1)] = kind($2, $0)
  next
}
/^calls=/ { inside = 1; next } # the next line is what was spent inside of a call, counted where it was spent
/^0x/ {
  if (!inside) { spent[of[$1]] += $3; all += $3 }
  inside = 0
}
END {
  rest = all - spent["memory"] - spent["register"] - spent["jump"]
  printf "%.0f %.0f %.0f %.0f\n", 100 * spent["memory"] / all, 100 * spent["register"] / all,
    100 * spent["jump"] / all, 100 * rest / all
}
