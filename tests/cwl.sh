#!/usr/bin/env bash
# The description of tibzharuk trim for engines of the Common Workflow Language, run by cwltool: two
# lanes of a sample, with each output compared with what the program makes of the plain texts, also
# if the name of the sample begins with a dash; and a damaged input, which ends as permanentFail and
# leaves nothing. The terms of EDAM and the licences are those that the description should have. It
# is not run in a container.
# FQ_PROG is the program, crates/fq_prog/out/fq_prog if not set. Status 77, and 'skipped', if a
# package is missing.
set -uo pipefail
. "$(dirname "$0")/common.bash"
need cwltool python3
find_program
work=$(mktemp -d)
trap 'rm -rf "$work"' EXIT
mkdir "$work/bin" "$work/home"
ln -s "$program" "$work/bin/fq_prog"
ln -s "$tibzharuk" "$work/bin/tibzharuk"
export PATH=$work/bin:$PATH HOME=$work/home PYTHONDONTWRITEBYTECODE=1
steps=(LEADING:3 TRAILING:3 SLIDINGWINDOW:4:15 MINLEN:36)
cd "$work" || exit 1

# job SAMPLE REVERSE..: the inputs of a run, with these reverse files
job() {
  printf 'sample: "%s"\n' "$1"
  shift
  printf 'forward:\n  - {class: File, path: a_1.fq.gz}\n  - {class: File, path: b_1.fq.gz}\nreverse:\n'
  printf '  - {class: File, path: %s}\n' "$@"
  printf 'threads: 2\nlevel: 1\nsteps: [%s]\n' "$(printf '"%s",' "${steps[@]}")"
}

# run NAME STATUS: cwltool on NAME.yaml, with the outputs in the directory NAME; STATUS is 0, or any
# other number for a failure
run() {
  local got
  timeout 300 cwltool --no-container --outdir "$1" "$tree/workflow/cwl/tibzharuk.cwl" "$1.yaml" > "$1.out" 2> "$1.err"
  got=$?
  if [ "$2" -eq 0 ] && [ "$got" -ne 0 ] || [ "$2" -ne 0 ] && [ "$got" -eq 0 ]; then fail "$1: status $got, not $2: $(tail -n 5 "$1.err")"; fi
}

draw_lane a 1 200
draw_lane b 2 200
gzip -k a_1.fq a_2.fq b_1.fq b_2.fq
head -c 1500 b_2.fq.gz > half_2.fq.gz
cat a_1.fq b_1.fq > 1.fq
cat a_2.fq b_2.fq > 2.fq
fq_prog PE 1.fq 2.fq r1.paired r1.unpaired r2.paired r2.unpaired "${steps[@]}" > summary || fail 'the program'

cwltool --validate "$tree/workflow/cwl/tibzharuk.cwl" > valid 2>&1 || fail "it is not valid: $(cat valid)"
version=$(fq_prog --version | sed 's/.* //')
grep -qF "version: [\"$version\"]" "$tree/workflow/cwl/tibzharuk.cwl" || fail 'it asks for another version'
grep -qxF "    dockerImageId: tibzharuk:$version" "$tree/workflow/cwl/tibzharuk.cwl" || fail 'it asks for another image'
cwltool --print-rdf "$tree/workflow/cwl/tibzharuk.cwl" > rdf 2> rdf.err || fail "it has no RDF: $(tail -n 3 rdf.err)"
for term in http://edamontology.org/operation_3192 https://spdx.org/licenses/MIT https://spdx.org/licenses/Apache-2.0; do
  grep -qF "\"$term\"" rdf || grep -qF "<$term>" rdf || fail "it lacks $term"
done

# same NAME SAMPLE: the outputs in the directory NAME are those of the program
same() {
  local part
  for part in r1.paired r1.unpaired r2.paired r2.unpaired; do
    gzip -dc -- "$1/$2.$part.fastq.gz" | cmp - "$part" || fail "$1: $part differs"
  done
  cmp -- "$1/$2.summary" summary || fail "$1: the summary differs"
  grep -q '"outcome":"finished"' "$1/$2.json" || fail "$1: the report is not that of a whole run"
}

job s a_2.fq.gz b_2.fq.gz > good.yaml
run good 0
same good s
grep -q '"forward_unpaired":' good.out || fail 'an output is not named'
grep -q '"format": "http://edamontology.org/format_1930"' good.out || fail 'the format of an output is not named'
job -s a_2.fq.gz b_2.fq.gz > dash.yaml
run dash 0
same dash -s

job s a_2.fq.gz half_2.fq.gz > bad.yaml
run bad 1
grep -q permanentFail bad.err || fail "a damaged input is not permanentFail: $(tail -n 5 bad.err)"
grep -q 'tibzharuk: cannot read .*half_2.fq.gz' bad.err || fail 'the damaged input is not named'
[ -z "$(find bad -type f 2> /dev/null)" ] || fail "a damaged input leaves $(find bad -type f)"
finish 'as the program does it'
