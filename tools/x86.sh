# To be sourced. Programs of the box are for x86-64; on another machine they are built by a cross
# compiler and run under an emulator, both Debian's, installed here where they are missing.
#
#   fetch PACKAGE...        installs Debian's packages; `fetched` does so by the lists that there are
#   need COMMAND PACKAGE... installs them if there is no such command
#   x86_gcc WORDS...        the C compiler for x86-64
#   x86_objdump WORDS...    shows what such an object holds
#   $EMULATOR PROGRAM ...   runs such a program; empty on x86-64
fetched() { # PACKAGE...
  apt-get install -y -q --no-install-recommends "$@" >/dev/null
}

fetch() { # PACKAGE...
  fetched "$@" 2>/dev/null || { apt-get update -q >/dev/null && fetched "$@"; }
}

need() { # COMMAND PACKAGE...
  command -v "$1" >/dev/null || fetch "${@:2}"
}

x86_gcc() {
  need x86_64-linux-gnu-gcc gcc-x86-64-linux-gnu libc6-dev-amd64-cross && x86_64-linux-gnu-gcc "$@"
}

x86_objdump() {
  need x86_64-linux-gnu-objdump binutils-x86-64-linux-gnu && x86_64-linux-gnu-objdump "$@"
}

EMULATOR=
if [ "$(uname -m)" != x86_64 ]; then
  need qemu-x86_64 qemu-user
  [ -e /usr/x86_64-linux-gnu/lib ] || need no-such-command libc6-amd64-cross
  EMULATOR='qemu-x86_64 -L /usr/x86_64-linux-gnu'
fi
