#!/usr/bin/env bash
# Puts the program and the command with its Python package, their manual pages, their completion, the
# workflow, the plugin of MultiQC and the reads of tibzharuk selftest below a directory such as
# /usr/local, or removes them.
# `make install`, the tarball and the Debian package have all of them by this list. Neither pip nor a
# network is needed.
set -euo pipefail
umask 022
export LC_ALL=C

usage() {
  echo "usage: packaging/install.sh PROGRAM DIRECTORY [PACKAGE]
       packaging/install.sh --remove DIRECTORY
Installs PROGRAM as DIRECTORY/bin/fq_prog, and the command tibzharuk, whose Python package goes to
DIRECTORY/PACKAGE (default: share/tibzharuk/python) and is compiled if python3 is installed. The
workflow is beside it.
tibzharuk --version then names the Rattle kit that is installed here, as 'rt version' prints it, and
tibzharuk selftest compares the program with the one that was installed.
MultiQC finds its plugin by DIRECTORY/lib/python3/dist-packages, which is on Python's path on Debian
if DIRECTORY is /usr. --remove removes all of these files."
}

case ${1-} in
  --help)
    usage
    exit
    ;;
  --remove) program='' ;;
  *) program=$(realpath -m -- "${1-}") ;;
esac
if [ $# -lt 2 ] || [ $# -gt 3 ]; then
  usage
  exit 1
fi
# Not every shell expands the ~ in PREFIX=~/.local.
# shellcheck disable=SC2088
case $2 in
  '~' | '~/'*) folder=$HOME${2#'~'} ;;
  '~'*)
    echo "install: give the whole path in place of $2" >&2
    exit 1
    ;;
  *) folder=$2 ;;
esac
folder=$(realpath -m -- "$folder")
package=${3:-share/tibzharuk/python}
cd "$(dirname "$0")/.."

# The files of the tree below these directories: those that git knows, or all if the tree isn't a
# clone. Then it may still be below a directory that is one.
files_of() {
  if git ls-files --error-unmatch Makefile > /dev/null 2>&1; then
    git ls-files -- "$@"
  else
    find "$@" -name __pycache__ -prune -o -type f -print 2> /dev/null
  fi | sort
}

# Each file or link with what it is made of, and its name below the directory.
entries() {
  local file name
  echo 'program - bin/fq_prog'
  for file in $(files_of python/tibzharuk); do echo "file $file $package/${file#python/}"; done
  echo "kit - $package/tibzharuk/kit
sum - $package/tibzharuk/fq_prog.sha256
link ../$package/tibzharuk/__main__.py bin/tibzharuk"
  # The workflow is beside the package, as in the tree.
  for file in $(files_of workflow config profiles); do echo "file $file ${package%python}$file"; done
  # What tibzharuk selftest reads.
  for file in $(files_of examples/reads_1.fq.gz examples/reads_2.fq.gz examples/trimmed); do
    echo "file $file ${package%python}$file"
  done
  for file in $(files_of docs/claims.tsv); do echo "file $file $package/tibzharuk/selftest/${file##*/}"; done
  # MultiQC finds its plugin by these.
  echo "link ../../../$package/tibzharuk lib/python3/dist-packages/tibzharuk
metadata - $metadata/METADATA
file python/tibzharuk/entry_points.txt $metadata/entry_points.txt"
  for file in $(files_of man); do echo "file $file share/man/man1/${file#man/}"; done
  for name in fq_prog tibzharuk; do
    echo "file completions/$name.bash share/bash-completion/completions/$name
file completions/_$name share/zsh/site-functions/_$name
file completions/$name.fish share/fish/vendor_completions.d/$name.fish"
  done
}

version=$(sed -n 's/^VERSION = "\(.*\)"$/\1/p' python/tibzharuk/__init__.py)
metadata=lib/python3/dist-packages/tibzharuk-$version.dist-info

metadata() {
  echo "Metadata-Version: 2.1
Name: tibzharuk
Version: $version"
  sed -n 's/^description = "\(.*\)"$/Summary: \1/p
s/^license = .*text = "\(.*\)".*/License: \1/p
s/^requires-python = "\(.*\)"$/Requires-Python: \1/p' python/pyproject.toml
}

# What is there of another version goes, too.
rm -rf -- "${folder:?}/$package/tibzharuk" "$folder"/lib/python3/dist-packages/tibzharuk-*.dist-info
while read -r kind from name; do
  to=$folder/$name
  if [ -z "$program" ]; then
    rm -f -- "$to"
    continue
  fi
  mkdir -p "${to%/*}"
  case $kind in
    program) install -m 755 "$program" "$to" ;;
    sum) (cd "$folder/bin" && sha256sum fq_prog) > "$to" ;;
    kit) if command -v rt > /dev/null; then rt version > "$to"; fi ;;
    metadata) metadata > "$to" ;;
    link) ln -sfn "$from" "$to" ;;
    file)
      if [ -x "$from" ]; then install -m 755 "$from" "$to"; else install -m 644 "$from" "$to"; fi
      ;;
  esac
done < <(entries)

# Compiled files don't have the time of their source, nor the name of this directory: packages are
# the same bytes each time.
if [ -n "$program" ] && command -v python3 > /dev/null; then
  python3 -m compileall -q --invalidation-mode unchecked-hash -d "/$package" "$folder/$package"
fi
if [ -z "$program" ] && [ -d "$folder/share/tibzharuk" ]; then
  find "$folder/share/tibzharuk" -depth -type d -empty -delete
fi
if [ -n "$program" ] && [ -z "${DESTDIR-}" ]; then
  echo "tibzharuk and fq_prog are in $folder/bin; 'tibzharuk workflow DIRECTORY' prepares the workflow."
  case :$PATH: in
    *:"$folder/bin":*) echo "The search path has $folder/bin." ;;
    *) echo "They aren't on the search path yet: export PATH=$folder/bin:\$PATH" ;;
  esac
  echo "MultiQC finds its plugin by: export PYTHONPATH=$folder/lib/python3/dist-packages"
fi
