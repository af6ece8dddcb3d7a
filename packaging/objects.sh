#!/usr/bin/env bash
# Collects what a static link takes: the proved object of the program, and the two archives of the
# Rattle kit.
set -euo pipefail
cd "$(dirname "$0")/.."

if [ $# -ne 1 ] || [ "$1" = --help ]; then
  echo "usage: packaging/objects.sh DIRECTORY
Copies fq_prog.o, libos_c.a and liblibc_c.a to DIRECTORY. The program must be built already. If it
was linked but its object is gone, it is proved once more."
  [ "${1-}" = --help ]
  exit
fi

kit=$(dirname "$(rt doc)")
built=crates/fq_prog/out
# A gate that keeps what it has proved before may leave only the linked program.
if [ ! -s "$built/fq_prog.o" ]; then
  rm -f "$built/fq_prog.stamp"
  (cd crates/fq_prog && bash ../../packaging/progress.sh rt run -- EXAMPLE)
fi
mkdir -p "$1"
install -m 644 "$built/fq_prog.o" "$kit/c/libos_c.a" "$kit/c/liblibc_c.a" "$1"
