#!/usr/bin/env bash
# The version and its day, which are those of the newest heading of CHANGELOG.md,
# '## VERSION (YYYY-MM-DD)', and of every other place that names them.
set -euo pipefail
cd "$(dirname "$0")/.."

usage() {
  echo "usage: packaging/version.sh            sets version and day everywhere
       packaging/version.sh --check    prints each place that has another, with status 1
       packaging/version.sh --print    prints the version
The version and the day are those of the newest heading of CHANGELOG.md. What names the version that
was measured (README.md, bench/) stays as it is."
}

tab=$'\t'
number='[0-9]+\.[0-9]+\.[0-9]+'
date='[0-9]{4}-[0-9]{2}-[0-9]{2}'
read -r version day < <(sed -nE "s/^## ($number) \(($date)\)\$/\1 \2/p" CHANGELOG.md | head -n 1) || true
if [ -z "${day-}" ]; then
  echo "version: CHANGELOG.md has no heading '## VERSION (YYYY-MM-DD)'" >&2
  exit 1
fi

# Each place: a file, what comes before the version there, and what comes after it, as extended
# regular expressions.
versions() {
  local name file
  sed 's/  */ /g; s/ | /\t/g' << 'END'
crates/fq_app_words/src/words.rt | ^pub const VERSION: &str = " | ";$
crates/fq_test_rows/data/words.rows | ^= text: fq_prog | \\n$
crates/fq_test_rows/data/report.rows | ^let run reported [0-9]+: "version":" | "\}$
docs/report.example.json | ^ *"version": " | "\}$
docs/GUIDE.md | tibzharuk- | -oci\.tar
docs/GUIDE.md | Tibzharuk \(fq_prog\) | , with the steps
packaging/Containerfile | VERSION= | -t tibz
packaging/Containerfile | -t tibzharuk: | dist
workflow/cwl/tibzharuk.cwl | ^ *version: \[" | "\]$
workflow/cwl/tibzharuk.cwl | ^ *dockerImageId: tibzharuk: | $
docs/GUIDE.md | `tibzharuk: | `
python/tibzharuk/__init__.py | ^VERSION = " | "$
tests/rehearsal/column.patch | ^ let run reported [0-9]+: "version":" | "\}$
tests/rehearsal/report_field.patch | ^ let run reported [0-9]+: "version":" | "\}$
CITATION.cff | ^version: | $
END
  while IFS= read -r file; do
    printf '%s\t^ *version = codes "\t";$\n' "$file"
  done < <(grep -rlE "^ *version = codes \"$number\";\$" crates --include='*.antt' --exclude-dir=out)
  for name in man/*.1; do printf '%s\t^\\.TH .* "Tibzharuk \t" "User Commands"$\n' "$name"; done
}

# The same of the day.
days() {
  local name
  for name in man/*.1; do printf '%s\t^\\.TH [A-Z_-]+ 1 \t "Tibzharuk\n' "$name"; done
}

# set_to VALUE PATTERN: sets what matches the pattern in each place of standard input
set_to() {
  local file before after
  while IFS=$tab read -r file before after; do
    sed -i -E "s/($before ?)$2( ?$after)/\1$1\2/g" "$file"
  done
}

# check VALUE PATTERN: prints each place of standard input that has another value, or none
check() {
  local file before after found
  while IFS=$tab read -r file before after; do
    found=$(grep -oE -e "$before ?$2 ?$after" "$file" | sed -E "s/($before ?)($2)( ?$after)/\n\2\n/" | grep -xE "$2" | sort -u | paste -sd' ') || true
    if [ "$found" != "$1" ]; then
      echo "version: $file has ${found:-none after $before}, and CHANGELOG.md has $1"
      different=1
    fi
  done
}

different=0
case ${1-} in
  '')
    set_to "$version" "$number" < <(versions)
    set_to "$day" "$date" < <(days)
    ;;
  --print) echo "$version" ;;
  --check)
    check "$version" "$number" < <(versions)
    check "$day" "$date" < <(days)
    ;;
  *)
    usage
    [ "$1" = --help ]
    ;;
esac
exit "$different"
