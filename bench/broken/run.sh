#!/usr/bin/env bash
# What trimmers make of broken inputs. For each trimmer that is installed and each input, prints the
# exit status, the pairs in the first output, and a line about the fault, if there is one; then the
# statuses as a table. Prints figures only; takes 30 seconds.
#
#     bench/broken/run.sh [PROGRAM]        (crates/fq_prog/out/fq_prog)
#
# The reads are the 1,000 pairs of examples/. Debian's packages: fastp, cutadapt, trimmomatic,
# bbmap, adapterremoval.
set -uo pipefail
export LC_ALL=C
tree=$(cd "$(dirname "$0")/../.." && pwd)
program=$(realpath "${1:-$tree/crates/fq_prog/out/fq_prog}")
trim=("$tree/python/tibzharuk/__main__.py" trim)
work=$(mktemp -d)
trap 'rm -rf "$work"' EXIT
cd "$work" || exit 1

tools=("$program:fq_prog" fastp:fastp cutadapt:Cutadapt TrimmomaticPE:Trimmomatic-1 TrimmomaticPE:Trimmomatic-4 bbduk.sh:BBDuk AdapterRemoval:AdapterRemoval)
inputs=(whole mates-missing cut-in-a-record no-mates half-a-gz full-disk)

# The reverse file: whole, without its last 100 records, cut within record 901, with its first
# record at the end, half of its .gz.
make_inputs() {
  cp "$tree/examples/reads_1.fq" 1.fq
  cp "$tree/examples/reads_2.fq" whole.fq
  head -n 3600 whole.fq > mates-missing.fq
  { head -n 3601 whole.fq && sed -n 3602p whole.fq | head -c 40; } > cut-in-a-record.fq
  { tail -n +5 whole.fq && head -n 4 whole.fq; } > no-mates.fq
  gzip -kf 1.fq whole.fq
  head -c $(($(stat -c %s whole.fq.gz) / 2)) whole.fq.gz > half-a-gz.fq.gz
}

# trim TOOL R1 R2 OUT: the pairs to OUT and o2.fq, by a usual quality threshold and at least 36 bases
trim() {
  local r1=$2 r2=$3 out=$4
  case $1 in
    fq_prog)
      case $r1 in
        *.gz) "${trim[@]}" --program "$program" -1 "$r1" -2 "$r2" --paired1 "$out" --unpaired1 u1.fq --paired2 o2.fq --unpaired2 u2.fq -- LEADING:3 MINLEN:36 ;;
        *) "$program" PE "$r1" "$r2" "$out" u1.fq o2.fq u2.fq LEADING:3 MINLEN:36 ;;
      esac
      ;;
    fastp) fastp -w 1 -A -i "$r1" -I "$r2" -o "$out" -O o2.fq -j x.json -h x.html -l 36 -5 ;;
    Cutadapt) cutadapt -q 15 -m 36 -o "$out" -p o2.fq "$r1" "$r2" ;;
    Trimmomatic-*) TrimmomaticPE -threads "${1#*-}" -phred33 "$r1" "$r2" "$out" u1.fq o2.fq u2.fq LEADING:3 MINLEN:36 ;;
    BBDuk) bbduk.sh in="$r1" in2="$r2" out="$out" out2=o2.fq qtrim=rl trimq=15 minlen=36 overwrite=t threads=1 ;;
    AdapterRemoval) AdapterRemoval --file1 "$r1" --file2 "$r2" --output1 "$out" --output2 o2.fq --discarded d.fq --singleton s.fq --settings st --trimqualities --minlength 36 ;;
  esac
}

# try TOOL INPUT: a line, and the status into statuses
try() {
  local r1=1.fq r2=$2.fq out=o1.fq status pairs=-
  case $2 in
    half-a-gz) r1=1.fq.gz r2=half-a-gz.fq.gz ;;
    full-disk) r2=whole.fq out=/dev/full ;;
  esac
  rm -f o1.fq o2.fq
  trim "$1" "$r1" "$r2" "$out" > log 2>&1
  status=$?
  if [ -f o1.fq ]; then pairs=$(($(wc -l < o1.fq) / 4)); fi
  printf '%s\t%s\t%d\t%s\t%s\n' "$1" "$2" "$status" "$pairs" "$(grep -iE 'error|exception|warn|differ|unexpect|^input:|cannot|write failed|length' log | head -n 1 | cut -c 1-100)"
  statuses[$1.$2]=$status
}

version_of() {
  case $1 in
    fq_prog) "$program" --version ;;
    fastp) fastp --version 2>&1 ;;
    Cutadapt) echo "cutadapt $(cutadapt --version)" ;;
    Trimmomatic-*) echo "Trimmomatic $(TrimmomaticPE -version 2>&1 | tail -n 1), ${1#*-} thread(s)" ;;
    BBDuk) bbduk.sh --version 2>&1 | grep -i 'version [0-9]' | head -n 1 ;;
    AdapterRemoval) AdapterRemoval --version 2>&1 | head -n 1 ;;
  esac
}

declare -A statuses=()
make_inputs
there=()
for tool in "${tools[@]}"; do
  if command -v "${tool%:*}" > /dev/null; then there+=("${tool##*:}"); else echo "${tool##*:} is not installed"; fi
done
for tool in "${there[@]}"; do
  for input in "${inputs[@]}"; do try "$tool" "$input"; done
done
printf '\n| Tool |'
printf ' %s |' "${inputs[@]}"
printf '\n|---|'
printf '%.0s---|' "${inputs[@]}"
for tool in "${there[@]}"; do
  printf '\n| %s |' "$(version_of "$tool")"
  for input in "${inputs[@]}"; do printf ' %s |' "${statuses[$tool.$input]}"; done
done
echo
