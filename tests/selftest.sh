#!/usr/bin/env bash
# tibzharuk selftest, as it is installed, for a user without rights: all checks pass, also over reads
# of a Debian package, and the record is a page and JSON. Each of these defects fails at its check: a
# byte of the program that was changed, a program that trims otherwise, a command that ignores a
# status, a command whose outputs are there before they are complete, a decompressor that hides
# damage, an old cutadapt. A signal ends it, and leaves nothing.
# Status 77, and 'skipped', if a package is missing.
set -uo pipefail
. "$(dirname "$0")/common.bash"
need python3 bgzip:tabix cutadapt
find_program
work=$(mktemp -d)
trap 'rm -rf "$work"' EXIT
chmod 755 "$work"
mkdir -m 777 "$work/out"
reads=/usr/share/doc/trimmomatic/test_data
given=$PATH
# Root tries it as another user, who may write only there.
anybody=()
if [ "$(id -u)" -eq 0 ] && command -v setpriv > /dev/null; then anybody=("$(command -v setpriv)" --reuid 65534 --regid 65534 --clear-groups); fi

# install_copy NAME: an installation below this name
install_copy() { bash packaging/install.sh "$program" "$work/$1" > "$work/log" 2>&1 || fail "it is not installed: $(cat "$work/log")"; }

# change NAME FILE EDIT: sed changes a file of the package of an installation, whose Python isn't
# compiled then
change() {
  install_copy "$1"
  find "$work/$1" -name __pycache__ -prune -exec rm -rf {} +
  local file=$work/$1/share/tibzharuk/python/tibzharuk/$2
  sed -i "$3" "$file"
  ! cmp -s "$file" "python/tibzharuk/$2" || fail "nothing is changed in $2"
}

# begin NAME DIRECTORIES WORDS..: checks an installation, by these words, with these directories as
# the search path, while others are checked
declare -A begun=()
begin() {
  local name=$1 path=$2
  shift 2
  mkdir -m 777 "$work/$name.tmp"
  (cd "$work/out" && TMPDIR=$work/$name.tmp PATH=$path exec "${anybody[@]}" tibzharuk selftest "$@") > "$work/$name.said" 2> "$work/$name.told" < /dev/null &
  begun[$name]=$!
}

# ended NAME STATUS: it has ended with this status, and left nothing
ended() {
  local got
  wait "${begun[$1]}"
  got=$?
  [ "$got" -eq "$2" ] || fail "status $got, not $2: $(tail -n 12 "$work/$1.said" "$work/$1.told")"
  [ -z "$(ls -A "$work/$1.tmp")" ] || fail "it leaves $(ls -A "$work/$1.tmp")"
}

# fails NAME LINE..: these checks failed, and no other
fails() {
  grep '^FAILED' "$work/$1.said" | sed 's/^FAILED: //' | diff <(printf '%s\n' "${@:2}") - > "$work/difference" || fail "other checks fail (< must fail): $(cat "$work/difference")"
}

# fails_at NAME LINE..: checks failed whose lines begin so
fails_at() {
  local line
  for line in "${@:2}"; do
    grep -qF "FAILED: $line" "$work/$1.said" || fail "it doesn't fail at $line"
  done
}

# says NAME TEXT: it ended with status 1, and a line that has this text
says() {
  ended "$1" 1
  grep -q "^tibzharuk selftest: .*$2" "$work/$1.told" || fail "it says $(cat "$work/$1.told")"
}

# tool NAME: a program of this name, by standard input, in the directory `NAME.bin`
tool() {
  mkdir "$work/$1.bin"
  cat > "$work/$1.bin/$1"
  chmod 755 "$work/$1.bin/$1"
}

row='as it is installed'
install_copy whole
SECONDS=0
begin whole "$work/whole/bin:$given" --html check.html --json check.json
ended whole 0
echo "selftest: all checks took $SECONDS s"
tail -n 1 "$work/whole.said" | grep -qE '^passed ([0-9]+) of \1$' || fail "it ends with $(tail -n 1 "$work/whole.said")"
python3 - "$work/out" "$program" << 'END' || fail 'the record is another'
import hashlib, json, sys
page = open(sys.argv[1] + "/check.html", encoding="utf-8").read()
told = json.load(open(sys.argv[1] + "/check.json", encoding="utf-8"))
checks = told["checks"]
assert told["passed"] == len(checks) >= 40 and not told["failed"] and not told["not_tried"]
assert told["programs"]["SHA-256 of fq_prog"] == hashlib.sha256(open(sys.argv[2], "rb").read()).hexdigest()
assert all(each["must_be"] == each["is"] and each["serves"] for each in checks)
assert "<script" not in page and "http" not in page and "Signatures" in page
assert page.count('<td class="verdict">passed</td>') == len(checks)
END

# All others at once.
install_copy changed
python3 - "$work/changed/bin/fq_prog" << 'END' || fail 'nothing is changed'
import sys
data = bytearray(open(sys.argv[1], "rb").read())
data[data.index(b"Exit status")] ^= 1
open(sys.argv[1], "wb").write(data)
END
install_copy otherwise
cat > "$work/otherwise/bin/fq_prog" << END
#!/usr/bin/env bash
exec "$work/whole/bin/fq_prog" "\${@/#MINLEN:36/MINLEN:37}"
END
(cd "$work/otherwise/bin" && sha256sum fq_prog > ../share/tibzharuk/python/tibzharuk/fq_prog.sha256)
change ignores trim/verdict.py 's/    if status > 0:$/    if status > 3:/; s/    if status in (0, 3):/    if status == 0:/; s/    if ends.taken is None or not all.*/    if ends.taken is None:/'
change early trim/files.py 's/        self.hidden = hidden$/        os.rename(hidden, self.target); self.hidden = None/'
tool bgzip << END
#!/bin/sh
"$(command -v bgzip)" "\$@" 2> /dev/null
exit 0
END
tool cutadapt << 'END'
#!/bin/sh
case "$*" in
  --version) echo 2.8 ;;
  *) echo 'cutadapt: error: unrecognized arguments: --json' >&2; exit 2 ;;
esac
END
mkdir "$work/few"
for each in env sh bash cat gzip bgzip; do ln -s "$(command -v "$each")" "$work/few/$each"; done
ln -s "$(readlink -f "$(PATH=/usr/bin:$PATH command -v python3)")" "$work/few/python3"
both=("$tree/examples/reads_1.fq" "$tree/examples/reads_2.fq")
mkdir "$work/reads"
cp "${both[@]}" "$work/reads"
both=("$work/reads/reads_1.fq" "$work/reads/reads_2.fq")

whole=$work/whole/bin:$given
begin few "$work/whole/bin:$work/few"
if [ -e "$reads/test_forward.fq.gz" ]; then
  begin own "$whole" --reads "$reads/test_forward.fq.gz" "$reads/test_reverse.fq.gz" --pairs 90 -- HEADCROP:3 SLIDINGWINDOW:4:20 AVGQUAL:22 MINLEN:40
fi
begin changed "$work/changed/bin:$given"
begin otherwise "$work/otherwise/bin:$given" --reads "${both[@]}"
begin ignores "$work/ignores/bin:$given"
begin early "$work/early/bin:$given"
begin hides "$work/bgzip.bin:$whole"
begin old "$work/cutadapt.bin:$whole"

row='without cutadapt'
ended few 0
tail -n 1 "$work/few.said" | grep -q ', 3 not tried$' || fail "it ends with $(tail -n 1 "$work/few.said")"

row='reads of a Debian package'
if [ -n "${begun[own]-}" ]; then
  ended own 0
  grep -q '^  passed     the counts of the report' "$work/own.said" || fail "it doesn't compare them: $(tail -n 12 "$work/own.said")"
else
  echo "selftest: skipped: $row: needs trimmomatic"
fi

row='a byte of the program that was changed'
ended changed 1
fails changed 'Installation: the SHA-256 of fq_prog'

row='a program that trims otherwise'
ended otherwise 1
fails_at otherwise 'Known results: plain files, 1 thread' 'Known results: a line of Trimmomatic' 'Worked examples of the steps: MINLEN:36 (sanger)' \
  "The laboratory's own reads: p1.fq.gz" "The laboratory's own reads: trim.log" "The laboratory's own reads: the counts of the report"

row='a command that ignores a status'
ended ignores 1
fails_at ignores 'Broken inputs: the last 100 mates missing' 'Broken inputs: mates shifted by one' 'Broken inputs: a byte that is no score'
! grep -q '^FAILED: \(Known\|Worked\)' "$work/ignores.said" || fail "right results fail: $(grep ^FAILED "$work/ignores.said")"

row='a command whose outputs are there before they are complete'
ended early 1
fails_at early 'Broken inputs: half of a .gz file' 'Files and signals: a signal (SIGTERM)'

row='a decompressor that hides damage'
ended hides 1
fails_at hides 'Broken inputs: half of a .gz file' 'Broken inputs: one byte of a .gz file changed'

row='an old cutadapt'
ended old 1
fails old 'Known results: reads with adapters, 1 thread' 'Known results: reads with adapters, 4 threads' \
  'Known results: reads with adapters, which the command looks for'

row='a signal'
begin stopped "$whole" --html stopped.html
for _ in {1..600}; do
  grep -q 'Known results' "$work/stopped.said" && break
  sleep 0.1
done
kill -TERM "${begun[stopped]}"
ended stopped 143
[ ! -e "$work/out/stopped.html" ] || fail 'it leaves a record'

row='the matrix'
begin matrix "$whole" --matrix
if [ -e docs/claims.tsv ]; then
  ended matrix 0
  [ "$(grep -c '^| ' "$work/matrix.said")" -eq "$(($(grep -c '^[^#]' docs/claims.tsv) + 1))" ] || fail "it has $(grep -c '^| ' "$work/matrix.said") lines"
else
  says matrix "the table of promises (claims.tsv) isn't installed"
fi

row='what it refuses'
begin holds "$whole" --html "${both[0]}"
says holds 'reads_1.fq holds reads, or is compressed'
begin steps "$whole" MINLEN:36
says steps 'steps are for --reads'
begin wrong "$whole" --reads "${both[@]}" -- MINLEN
says wrong 'not steps: MINLEN'
begin none "$whole" --reads "${both[0]}" none.fq
says none 'cannot read none.fq'
rm -r "$work/whole/share/tibzharuk/examples"
begin bare "$whole"
says bare "the reads of the check aren't installed"
row=''
finish 'as it must be, and each defect fails'
