# To be sourced after tools/built.sh, with `top` set to the top of the repository. The machines that the archive can be
# for, and how it is compiled for each: from the bitcode that `archive` keeps, so that one proof serves all of them.
#
#   TARGETS                           the triples
#   machine TRIPLE                    the words that tell clang the machine; fails where nothing is known of it
#   compile TRIPLE LEVEL              writes grumpy_c.o, .ll and .su in the folder where it is called
#   llvm NAME WORDS...                a tool that the kit's clang is when it is called by that name
TARGETS='x86_64-linux-gnu aarch64-linux-gnu riscv64-linux-gnu s390x-linux-gnu armv7-linux-gnueabihf
thumbv7em-none-eabihf thumbv7em-none-eabi riscv32-unknown-elf wasm32-unknown-unknown'

machine() { # TRIPLE
  case $1 in
  x86_64-linux-gnu) echo -march=x86-64 -fPIC ;;
  aarch64-linux-gnu) echo -march=armv8-a -fPIC ;;
  riscv64-linux-gnu) echo -march=rv64gc -mabi=lp64d -fPIC ;;
  s390x-linux-gnu) echo -march=z13 -fPIC ;;
  armv7-linux-gnueabihf) echo -march=armv7-a -mfpu=vfpv3-d16 -mfloat-abi=hard -fPIC ;;
  thumbv7em-none-eabihf) echo -mcpu=cortex-m4 -mfpu=fpv4-sp-d16 -mfloat-abi=hard ;;
  thumbv7em-none-eabi) echo -mcpu=cortex-m4 -mfpu=none -mfloat-abi=soft ;;
  riscv32-unknown-elf) echo -march=rv32imac -mabi=ilp32 ;;
  wasm32-unknown-unknown) echo -mbulk-memory ;;
  *) echo "${0##*/}: nothing is known of $1; the triples are:" $TARGETS >&2 && return 2 ;;
  esac
}

llvm() { # NAME WORDS...
  (exec -a "$1" "$kit/toolchain/bin/clang" "${@:2}")
}

# The bitcode as text, for another machine than that which it was made for. Each function in it names its processor,
# which would beat the words above; triple and layout of data are clang's to set. Two machines want a number of 32 bits
# widened by the function that returns it. x86-64 does not, so the bitcode does not say so.
module() { # TRIPLE
  local widened='' order=cat
  case $1 in riscv64-*) widened='signext ' ;; s390x-*) widened='zeroext ' order=high_first ;; esac
  llvm clang -x ir -S -emit-llvm -Xclang -disable-llvm-passes "$top/target/staticlib/grumpy_c.bc" -o - |
    sed -e 's/ "target-cpu"="[^"]*"//' -e "s/^define noundef i32 @grumpy_/define noundef ${widened}i32 @grumpy_/" | $order
}

# The bitcode says in two places that the low byte of a number comes first; for a machine where it comes last both are
# turned round. Which case of a type it is stands in one byte, and is stored together with the empty bytes behind it, as
# one number: the only numbers of several bytes that are stored as if at any place. And constants are bytes, of numbers
# that are as long as they are aligned. `boards/run` finds whatever else there should be.
high_first() {
  awk '
    /^  store i[0-9]+ .*, align 1$/ && !/^  store i8 / {
      if ($2 !~ /^i(16|32|64)$/) { print "targets: nothing is known of" $0 >"/dev/stderr"; exit 1 }
      value = $3; sub(/,$/, "", value)
      print "  %turned." ++n " = call " $2 " @llvm.bswap." $2 "(" $2 " " value ")"
      sub(/ i[0-9]+ [^ ]+,/, " " $2 " %turned." n ",")
      turned[$2] = 1
    }
    /^@.* constant \[[0-9]+ x i8\] c".*", align [248]$/ {
      front = substr($0, 1, index($0, "] c\"") + 3)
      bytes = substr($0, length(front) + 1); sub(/"[^"]*$/, "", bytes)
      all = part = ""
      for (i = k = 1; i <= length(bytes); i += length(byte)) {
        byte = substr(bytes, i, 1)
        if (byte == "\\") byte = substr(bytes, i, 3)
        part = byte part
        if (k++ % $NF == 0) { all = all part; part = "" }
      }
      $0 = front all part "\", align " $NF
    }
    /^declare .*@llvm\.bswap\./ { declared[$2] = 1 }
    { print }
    END { for (type in turned) if (!(type in declared)) print "declare " type " @llvm.bswap." type "(" type ")" }'
}

# In two steps: what the calls are is read from the optimised text, and what each function takes of the stack from the
# list that is written with the object, so that tools/stack need not compile again. The text has in which order a value
# is used, so that the second step does with it what one step would do. Products and sums of floats stay two
# roundings, what cannot be reached traps, and the passes that `rt` leaves out where it compiles are left out here, too.
compile() { # TRIPLE LEVEL
  local words word status=0
  words=$(machine "$1") || return
  words="--target=$1 $words -O$2 -ffp-contract=off -ffunction-sections -fdata-sections --no-default-config"
  words+=' -fno-crash-diagnostics -Wno-override-module -Werror -x ir'
  for word in trap-unreachable no-trap-after-noreturn no-x86-call-frame-opt aarch64-load-store-renaming=false \
    disable-machine-licm disable-postra-machine-licm sink-common-insts=false; do
    words+=" -mllvm -$word"
  done
  module "$1" >whole.ll || return
  # shellcheck disable=SC2086
  llvm clang $words -S -emit-llvm -Xclang -emit-llvm-uselists whole.ll -o grumpy_c.ll &&
    llvm clang -fstack-usage -Xclang -disable-llvm-passes $words -c grumpy_c.ll -o grumpy_c.o || status=$?
  rm whole.ll
  return $status
}
