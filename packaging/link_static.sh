#!/usr/bin/env bash
# Links fq_prog into a file that needs no library: the program's proved object, the two archives of
# the Rattle kit that hold its calls of the system, and the C library of the machine that links, as
# one file. The directory relink/ of a release has this script and the three files, so anybody can
# link the program with another C library.
set -euo pipefail

if [ $# -ne 2 ]; then
  echo "usage: link_static.sh DIRECTORY FILE
Links FILE from fq_prog.o, libos_c.a and liblibc_c.a of DIRECTORY, with the C library's static form.
CC names the compiler that links (default: cc). LDFLAGS has more arguments for it, such as
-L/another/libc."
  [ "${1-}" = --help ]
  exit
fi

# shellcheck disable=SC2086  # LDFLAGS is a list of words
exec "${CC:-cc}" ${LDFLAGS-} -static-pie -Wl,-z,relro,-z,now,-z,noexecstack,--build-id=none -s \
  -o "$2" "$1/fq_prog.o" "$1/libos_c.a" "$1/liblibc_c.a"
