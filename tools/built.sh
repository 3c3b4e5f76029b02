# To be sourced, with `top` set to the top of the repository. What was built is known by a key of the source that
# it was built from, so that after an edit nothing older is used.
#
#   key CRATE       of the source as it stands of this crate and of all that it rests on
#   need_rt         says what is missing, and ends with status 2, where there is no toolchain
#   find_kit        sets `kit` to the folder of the toolchain
#   words CRATE     sets the array `words` to those that the prover takes for a crate, called in its folder
#   build FILE      builds slip from the source as it stands, without looking at the proofs
#   prove FILE      builds slip once all that it rests on is proved
#   older FILE      removes programs of its kind, as proved-KEY, that other sources were built to
#   runner          sets the array `run` to the words before a program for x86-64
#   archive         builds the archive for C, proved, where there is none of this source, and beside it grumpy_c.bc
#   before_gate, after_gate   stand around `rt ci`: what it has proved, the two above need not prove again
WANTED='rattle-kit-13f logic dac8208d650f15bf'
UNPROVED='slip: the proofs were not checked in this build; ./slip --prove checks them, in some minutes'

# A crate and the crates of this repository that it rests on, each behind those that it uses.
rests_on() { # CRATE
  awk -F : -v wanted="$1" '
    { sub(/#.*/, ""); gsub(/,/, " ") }
    split($1, own, " ") { uses[own[1]] = $2 }
    function visit(name,   i, n, below) {
      if (!(name in uses) || name in seen) return
      seen[name] = 1
      n = split(uses[name], below, " ")
      for (i = 1; i <= n; i++) visit(below[i])
      print name
    }
    END { visit(wanted) }' "$top/crates.txt"
}

key() { # CRATE
  (
    cd "$top" || exit
    folders=()
    for crate in $(rests_on "$1"); do
      grep -E "^$crate( [^:]*)?:" crates.txt
      for part in src specs proofs; do
        [ ! -e "crates/$crate/$part" ] || folders+=("crates/$crate/$part")
      done
    done
    find "${folders[@]}" -type f \( -name '*.rt' -o -name '*.antt' \) -exec sha256sum {} + | LC_ALL=C sort
  ) | sha256sum | cut -d' ' -f1
}

need_rt() {
  if ! command -v rt >/dev/null; then
    echo "${0##*/}: the Rattle toolchain is missing: there is no rt in PATH. Wanted: $WANTED" >&2
    exit 2
  fi
  [ "$(rt version)" = "$WANTED" ] || echo "${0##*/}: rt is $(rt version), and this was written for $WANTED" >&2
}

# The page that `rt doc` names lies in it.
find_kit() {
  kit=$(rt doc 2>/dev/null) && kit=${kit%/*}
}

# The libraries below are those that rt left in out/.
words() { # CRATE
  local name kind
  words=(--crate-name "$1" src/lib.rt --antt-project "$kit/rattle/logic/antt-project.json"
    --logic-built "$kit/logic_built" --extern "std=$kit/rlibs/std.rlib" -L "dependency=$kit/rlibs")
  [ ! -e "$top/crates/$1/src/main.rt" ] || words[2]=src/main.rt
  for name in $(rests_on "$1"); do
    [ "$name" = "$1" ] || words+=(-L "dependency=../$name/out/rlib")
  done
  for name in $(sed -n -E "s/#.*//; s/,/ /g; s/^$1( [^:]*)?://p" "$top/crates.txt"); do
    if [ -e "$top/crates/$name" ]; then
      words+=(--extern "$name=../$name/out/rlib/$name.rlib")
    else
      words+=(--extern "$name=$kit/rlibs/$name.rlib")
    fi
  done
  kind=$(sed -n -E "s/^$1 ([a-z0-9]+).*:.*/\1/p" "$top/crates.txt")
  [ "$kind" != staticlib ] || words+=(--crate-type staticlib)
}

# A folder of tools that differs from the toolchain's in its compiler, which is the script on standard input; the real
# one is real/clang beside it.
altered_tools() { # FOLDER
  mkdir -p "$1/bin/real"
  ln -s "$kit/toolchain/lib" "$1"
  ln -s "$kit/toolchain/bin"/* "$1/bin" && mv "$1/bin/clang" "$1/bin/real"
  cat >"$1/bin/clang" && chmod +x "$1/bin/clang"
}

# `rt try` compiles a program that is not proved, runs it and throws it away. Here it is given a kit that differs from
# the real one in its compiler, which keeps the object, optimised, and without the watch over memory that is for trials
# alone; what the program checks by itself stays: a wrong index or sum ends it. That is linked as rt links. rt takes the
# folder in which it lies itself for the kit's, so it is copied there.
build() { # FILE
  local kit room part
  find_kit
  mkdir -p "${1%/*}" && room=$(mktemp -d "${1%/*}/build.XXXXXX") || return
  mkdir -p "$room/kit/bin"
  for part in "$kit"/* "$kit"/bin/*; do
    case ${part#"$kit/"} in
    bin | toolchain) ;;
    bin/rt*) cp "$part" "$room/kit/bin" ;;
    bin/*) ln -s "$part" "$room/kit/bin" ;;
    *) ln -s "$part" "$room/kit" ;;
    esac
  done
  altered_tools "$room/kit/toolchain" <<'SCRIPT'
#!/bin/sh
case " $* " in
*' -fsanitize=address '*)
  "${0%/*}/real/clang" "$@" -fno-sanitize=address -O2 && cp module.o "${0%/*}/kept.o"
  exit 1
  ;;
esac
exec "${0%/*}/real/clang" "$@"
SCRIPT
  (cd "$top/crates/slip" && "$room/kit/bin/rt" try) >"$room/log" 2>&1 </dev/null
  if [ -e "$room/kit/toolchain/bin/kept.o" ] &&
    "$kit/bin/rattle-link" --target x86_64-unknown-linux-gnu --toolchain "$kit/toolchain" \
      -o "$room/program" "$room/kit/toolchain/bin/kept.o" "$kit"/c/lib{os,libc}_c.a >>"$room/log" 2>&1; then
    mv "$room/program" "$1"
  else
    cat "$room/log" >&2
  fi
  rm -rf "$room"
  [ -x "$1" ]
}

# `rt ci` leaves the program of slip, and also the libraries of the archive, unless there were others before, which it
# then puts back. target/gate has a list of sums for each, and the key of the source that was read.
before_gate() {
  gated="$(key slip) $(key grumpy_c)"
  anew=yes
  if compgen -G "$top/crates/*/out/rlib" >/dev/null || compgen -G "$top/.git/rt-aside/*/rlib" >/dev/null; then anew=; fi
}

after_gate() {
  (
    [ "$(key slip) $(key grumpy_c)" = "$gated" ] || exit
    mkdir -p "$top/target/gate" && cd "$top/target/gate" && rm -f -- * && cd "$top/crates" || exit
    sha256sum slip/out/slip >../target/gate/slip && echo "${gated% *}" >../target/gate/slip.key || exit
    [ -n "$anew" ] || exit 0
    for name in $(rests_on grumpy_c); do
      [ "$name" = grumpy_c ] || sha256sum "$name/out/rlib/$name.rlib/format" || exit
    done >../target/gate/grumpy_c && echo "${gated#* }" >../target/gate/grumpy_c.key
  )
}

left() { # CRATE
  [ "$(key "$1")" = "$(cat "$top/target/gate/$1.key" 2>/dev/null)" ] &&
    (cd "$top/crates" && sha256sum --check --status "$top/target/gate/$1")
}

# rt builds a program only as it runs it, so it tells its version.
prove() { # FILE
  left slip || (cd "$top/crates/slip" && rt run -- --version) >&2 || return
  mkdir -p "${1%/*}" && cp "$top/crates/slip/out/slip" "$1"
}

older() { # FILE
  local file
  for file in "${1%-*}"-*; do
    [ "$file" = "$1" ] || rm -f "$file"
  done
}

# Elsewhere than on x86-64 that is an emulator.
runner() {
  run=()
  [ "$(uname -m)" != x86_64 ] || return 0
  . "$top/tools/x86.sh"
  read -ra run <<<"$EMULATOR"
}

# The last step of a proof hands bitcode to the compiler: kept, it can be compiled for other machines. `rt lib` proves
# all that the archive rests on and leaves the libraries; what the gate has just proved is not proved again. The archive
# is for the least of the processors for x86-64, and `rt lib` alone would ask for more.
archive() {
  local folder=$top/target/staticlib file now kit room words status=0 over=() jobs
  file=$folder/libgrumpy_c.a
  now=$(key grumpy_c)
  [ "$now $(cat "$file" "$folder/grumpy_c.bc" 2>/dev/null | sha256sum)" = "$(cat "$file.key" 2>/dev/null)" ] && return
  need_rt
  find_kit
  if ! left grumpy_c; then
    (cd "$top/crates/grumpy_c" && rt lib --cpu x86-64) >&2 || return
    over=(--incremental out/incremental)
  fi
  mkdir -p "$folder" && room=$(mktemp -d "$folder/build.XXXXXX") || return
  altered_tools "$room" <<'SCRIPT'
#!/bin/sh
cp module.bc "${0%/*}/kept.bc"
exec "${0%/*}/real/clang" "$@"
SCRIPT
  words grumpy_c
  jobs=$(nproc)
  words+=(--jobs $((jobs < 4 ? jobs : 4)) "${over[@]}" --cpu x86-64 --toolchain "$room" -o "$room/libgrumpy_c.a")
  (cd "$top/crates/grumpy_c" && "$kit/bin/rattle" build "${words[@]}") >&2 &&
    mv "$room/bin/kept.bc" "$folder/grumpy_c.bc" && mv "$room/libgrumpy_c.a" "$file" &&
    echo "$now $(cat "$file" "$folder/grumpy_c.bc" | sha256sum)" >"$file.key" || status=1
  rm -rf "$room"
  return $status
}
