#!/usr/bin/env bash
# pictures.sh: draws docs/page.png and docs/report.png again, as a release does. The first is the
# top of the page that the first command of README.md makes of the reads in examples/. The second is
# that of the page that the workflow makes of simulated samples, one of which is damaged and one
# poor. Each has the program's version in a text of its own, which tests/documents.sh compares with
# CHANGELOG.md.
# It needs Debian's packages chromium, cutadapt, tabix, snakemake and multiqc, and makes the
# pictures smaller by pngquant if that is installed. FQ_PROG is the program,
# crates/fq_prog/out/fq_prog if not set.
set -euo pipefail

if [ "$#" -ne 0 ]; then
  sed -n '2,/^set/s/^# \{0,1\}//p' "$0" | sed '$d'
  exit 2
fi
cd "$(dirname "$0")/.."
tree=$PWD
program=$(realpath "${FQ_PROG:-crates/fq_prog/out/fq_prog}")
work=$(mktemp -d)
trap 'rm -rf "$work"' EXIT
mkdir "$work/bin"
ln -s "$program" "$work/bin/fq_prog"
ln -s "$tree/python/tibzharuk/__main__.py" "$work/bin/tibzharuk"
export PATH=$work/bin:$PATH XDG_CACHE_HOME=$work/cache MPLCONFIGDIR=$work/cache PYTHONDONTWRITEBYTECODE=1
cd "$work"

# draw PAGE SIZE TO: a picture of the top of a page
draw() {
  chromium --headless --no-sandbox --disable-gpu --hide-scrollbars --user-data-dir="$work/profile" --window-size="$2" \
    --screenshot="$work/picture.png" "file://$work/$1" 2> told || {
    cat told >&2
    exit 1
  }
  if command -v pngquant > /dev/null; then pngquant --quality 70-100 --speed 1 --force --output picture.png picture.png; fi
  python3 "$tree/packaging/picture_text.py" picture.png "$(fq_prog --version)"
  mv picture.png "$tree/docs/$3"
}

for lane in 1 2; do
  for side in 1 2; do cp "$tree/examples/reads_$side.fq.gz" "s_L00${lane}_R$side.fq.gz"; done
done
sed -n '/^    tibzharuk trim -1/,/^$/s/^    //p' "$tree/README.md" > first
bash -euo pipefail first > summary
draw s.html 1140,655 page.png

mkdir reads
PYTHONPATH=$tree/tests python3 - << 'END'
import gzip
import random

import count

random.seed(34)
# The pairs of each sample, how far its scores fall, and how much of its second file is there.
SAMPLES = {"blood1": (600, 12, 0.5), "brain1": (800, 10, 1), "brain2": (600, 34, 1), "heart1": (700, 14, 1), "liver1": (850, 9, 1), "liver2": (700, 13, 1)}
for name, (pairs, fall, part) in SAMPLES.items():
    for side in 1, 2:
        text = ""
        for number in range(pairs):
            letters, scores = count.drawn(150, fall + 4 * side)
            text += "@%s:%d/%d\n%s\n+\n%s\n" % (name, number, side, letters, "".join(chr(33 + score) for score in scores))
        data = gzip.compress(text.encode())
        with open(f"reads/{name}_R{side}.fastq.gz", "wb") as file:
            file.write(data[: int(len(data) * (part if side == 2 else 1))])
END
tibzharuk workflow lab > next
cd lab
tibzharuk samples ../reads > config/samples.tsv
# The damaged sample fails, and so does the call; the page names it.
snakemake --snakefile "$tree/workflow/Snakefile" --profile "$tree/profiles/local" > ../ran 2>&1 || true
cd ..
[ -s lab/results/report.html ] || {
  cat ran >&2
  exit 1
}
draw lab/results/report.html 1140,890 report.png
