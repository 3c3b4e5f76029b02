# To be sourced after tools/targets.sh and tools/x86.sh, with `top` set to the top of the repository: how C is built for
# each target, and how a program for it is run.
#
#   provide TRIPLE...              installs what is missing for them, as far as that can be done
#   is_there TRIPLE                whether all that it needs is there; lacking TRIPLE names what is not
#   build TRIPLE PROGRAM WORDS...  a program of the C files and archives in WORDS; where it is bare, with STACK bytes of
#                                  stack, or as many as the header and start.c say
#   run TRIPLE PROGRAM             runs it, or node for WebAssembly, for LIMIT seconds at most, if that is set
export QEMU_STACK_SIZE=16M
STACK=

# What a target needs, by twos: a command, and Debian's package that has it.
needed() { # TRIPLE
  local own
  case $1 in
  aarch64-*) own=arm64 ;;
  armv7-*) own=armhf ;;
  *) own=${1%%-*} ;;
  esac
  case $1 in
  x86_64-*) ;;
  *-linux-*)
    set -- "${1/armv7/arm}"
    echo "$1-gcc gcc-$1 $1-libc libc6-dev-$own-cross qemu-${1%%-*} qemu-user"
    ;;
  thumbv7em-*)
    echo arm-none-eabi-gcc gcc-arm-none-eabi arm-none-eabi-libc libnewlib-arm-none-eabi qemu-system-arm qemu-system-arm
    ;;
  riscv32-*) echo riscv64-unknown-elf-gcc gcc-riscv64-unknown-elf qemu-riscv32 qemu-user ;;
  wasm32-*) echo node nodejs ;;
  esac
}

# A command is there, or the C library of a compiler.
has() { # COMMAND
  case $1 in
  *-libc) command -v "${1%libc}gcc" >/dev/null && [ -e "$("${1%libc}gcc" -print-file-name=libc.a)" ] ;;
  *) command -v "$1" >/dev/null ;;
  esac
}

lacking() { # TRIPLE
  local command package
  needed "$1" | xargs -n 2 | while read -r command package; do has "$command" || echo "$package"; done | paste -sd ' '
}

is_there() { # TRIPLE
  [ -z "$(lacking "$1")" ]
}

# All packages at once, since each call of the installer takes seconds; one by one where one of them is not to be had.
provide() { # TRIPLE...
  local triple packages package
  packages=$(for triple in "$@"; do lacking "$triple"; done | tr ' ' '\n' | sort -u)
  # shellcheck disable=SC2086
  [ -z "$packages" ] || fetch $packages 2>/dev/null ||
    for package in $packages; do fetched "$package" 2>/dev/null || true; done
}

# For WebAssembly the kit's clang is compiler and linker. It has no header of its own for <stdint.h>.
build_wasm() { # PROGRAM WORDS...
  local folder=$1.parts word objects=() given=()
  local compiler=(llvm clang --target=wasm32 -mbulk-memory -ffreestanding -nostdinc -I"$folder")
  mkdir -p "$folder"
  cat >"$folder/stdint.h" <<'HEADER'
typedef __UINT8_TYPE__ uint8_t;
typedef __UINT32_TYPE__ uint32_t;
typedef __INT64_TYPE__ int64_t;
typedef __UINT64_TYPE__ uint64_t;
typedef __UINTPTR_TYPE__ uintptr_t;
#define UINT32_C(c) c##U
#define UINT64_C(c) c##ULL
HEADER
  for word in "${@:2}"; do
    case $word in *.[ac]) ;; *) given+=("$word") ;; esac
  done
  for word in "${@:2}"; do
    case $word in
    *.c)
      objects+=("$folder/$(basename "$word" .c).o")
      "${compiler[@]}" "${given[@]}" -c "$word" -o "${objects[-1]}" || return
      ;;
    *.a) objects+=("$word") ;;
    esac
  done
  llvm wasm-ld --no-entry --stack-first -z stack-size="$STACK" "${objects[@]}" -o "$1"
}

build() { # TRIPLE PROGRAM WORDS...
  local cortex=(arm-none-eabi-gcc -mcpu=cortex-m4 ${STACK:+-DSTACK="$STACK"} -nostartfiles -T examples/board/board.ld
    -Wl,--no-warn-execstack)
  case $1 in
  x86_64-*) x86_gcc -static "${@:3}" -o "$2" ;;
  aarch64-* | riscv64-* | s390x-*) "$1-gcc" -static "${@:3}" -o "$2" ;;
  armv7-*) arm-linux-gnueabihf-gcc -static "${@:3}" -o "$2" ;;
  *-eabihf) "${cortex[@]}" -mfpu=fpv4-sp-d16 -mfloat-abi=hard examples/board/start.c "${@:3}" -o "$2" ;;
  *-eabi) "${cortex[@]}" -mfloat-abi=soft examples/board/start.c "${@:3}" -o "$2" ;;
  riscv32-*)
    riscv64-unknown-elf-gcc -march=rv32imac -mabi=ilp32 -ffreestanding -nostdlib -static -Wl,--no-relax "${@:3}" -lgcc \
      -o "$2"
    ;;
  wasm32-*) build_wasm "${@:2}" ;;
  esac
}

run() { # TRIPLE PROGRAM
  local patient=(timeout "${LIMIT:-0}")
  case $1 in
  x86_64-*) "${patient[@]}" $EMULATOR "$2" ;;
  armv7-*) "${patient[@]}" qemu-arm "$2" ;;
  thumbv7em-*)
    "${patient[@]}" qemu-system-arm -M mps2-an386 -display none -monitor none -serial none \
      -semihosting-config enable=on,target=native -kernel "$2"
    ;;
  wasm32-*) "${patient[@]}" node boards/cases.mjs "$2" ;;
  *) "${patient[@]}" "qemu-${1%%-*}" "$2" ;;
  esac
}
