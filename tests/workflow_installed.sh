#!/usr/bin/env bash
# The workflow as it is installed, by the commands of workflow/README.md, as a user without rights:
# 24 samples of which one is bad, which is first on the page and marked. What the page says of the
# settings is what config.yaml has, and a dry run refuses settings by which no sample can be trimmed.
#
# FQ_PROG is the program, crates/fq_prog/out/fq_prog if not set. Status 77, and 'skipped', if a
# package is missing.
set -uo pipefail
. "$(dirname "$0")/common.bash"
need snakemake multiqc cutadapt
find_program
work=$(mktemp -d -p /tmp tibzharuk.XXXXXX) || exit 1
trap 'rm -rf "$work"' EXIT
cd "$work" || exit 1
root=$work/usr
mkdir -p home/lab/reads
bash "$tree/packaging/install.sh" "$program" "$root" > told || fail "it isn't installed: $(cat told)"
python3 "$tree/tests/workflow/draw_many.py" home/lab/reads || exit 1

# user COMMAND..: runs it as a user who owns nothing but the directory home, and has no rights
if [ "$(id -u)" -eq 0 ]; then
  chmod 755 .
  chown -R nobody home
  user=(setpriv --reuid=nobody --regid=nogroup --clear-groups --inh-caps=-all --bounding-set=-all)
else
  chmod -R a-w "$root"
  trap 'chmod -R u+w "$work" && rm -rf "$work"' EXIT
  user=()
fi
user() {
  "${user[@]}" env -i HOME="$work/home" PATH="$root/bin:/usr/bin:/bin" LC_ALL=C.UTF-8 timeout -k 5 300 bash -euc "$1" > said 2>&1 < /dev/null
}

# The commands of its five steps, without the one that installs packages, the table that is shown,
# and the run on Slurm.
mapfile -t steps < <(sed -n '/^## In five steps/,/^## [^I]/p' "$tree/workflow/README.md" | grep -vP '\t|slurm|apt-get' | sed -n "s|^       ||p" | sed "s|PATH/|$root/share/tibzharuk/|g; s/ *#.*//")
[ "${#steps[@]}" -eq 5 ] || fail "workflow/README.md has ${#steps[@]} commands: ${steps[*]}"

row='the commands of workflow/README.md'
user "cd; $(printf '%s\n' "${steps[@]:0:4}")" || fail "status $?: $(tail -n 5 said)"
[ "$(grep -c '^would run: trim ' said)" -eq 24 ] || fail "it would trim $(grep -c '^would run: trim ' said) samples"
[ ! -e home/lab/results ] || fail 'a dry run makes something'
user "cd ~/lab; $(printf '%s\n' "${steps[@]:2}")" || fail "status $?: $(tail -n 5 said)"
[ "$(tail -n 1 said)" = 'results/report.html: 24 of 24 samples are good' ] || fail "the last line is $(tail -n 1 said)"
sed 1d home/lab/config/samples.tsv | cut -f 1 | sort -u > names
python3 "$tree/tests/workflow/page_looks.py" home/lab/results/report.html names bad || fail 'the rows differ'

# settings OPTIONS ADAPTERS [STEPS]: config.yaml has these
settings() {
  sed -i "s|^options:.*|options: \"$1\"|; s|^adapters:.*|adapters: \"$2\"|; s|^steps:.*|steps: ${3-LEADING:3 TRAILING:6 MINLEN:36}|" home/lab/config/config.yaml
}

# The rows of the page beside those of config.yaml.
same_settings() {
  python3 - home/lab/config/config.yaml home/lab/results/report.html << 'PYTHON' || fail 'the page has other settings than config.yaml'
import html, re, sys, yaml
wanted = yaml.safe_load(open(sys.argv[1]))
rows = re.findall("<tr><th>(Steps|Options|Adapters)</th><td><samp>([^<]*)</samp>", open(sys.argv[2]).read())
found = [(name.lower(), html.unescape(value)) for name, value in rows]
assert found == [(name, wanted[name] or "none") for name in ("steps", "options", "adapters")], found
PYTHON
}

row='settings of 24 samples'
same_settings
grep -P '^(sample|bad|tumor3)\t' home/lab/config/samples.tsv > some
cat some > home/lab/config/samples.tsv
printf '>truseq\nAGATCGGAAGAGC\n' > home/lab/config/adapters.fa
while IFS='|' read -r options adapters; do
  row="settings of two samples: '$options' '$adapters'"
  settings "$options" "$adapters"
  user "cd ~/lab; $(printf '%s\n' "${steps[2]}" "${steps[4]}")" || fail "status $?: $(tail -n 5 said)"
  [ "$(tail -n 1 said)" = 'results/report.html: 2 of 2 samples are good' ] || fail "the last line is $(tail -n 1 said)"
  same_settings
done << 'END'
|truseq
--no-name-check --level 5|
--cutadapt '-e 0.2 -O 5'|Nextera
--poly-g|AGATCGGAAGAGC,AGATCGGAAGAGC
|config/adapters.fa
END

# refused NAME VALUE LINE: a dry run refuses a setting with that line
refused() {
  row="a dry run with $1: $2"
  user "cd ~/lab; ${steps[2]}; ${steps[3]} --config '$1=$2'" && fail 'it is not refused'
  grep -qF -- "settings: $3" said || fail "'$3' was not said, but: $(grep -v '^ *File' said | paste -sd ' ' | cut -c 1-300)"
}

settings '' truseq
refused steps LEADIN:3 'tibzharuk: LEADIN:3 is no step; did you mean LEADING:3?'
refused options '--encoding phred' 'tibzharuk: bad encoding: phred'
refused options --frob 'tibzharuk: --frob is not an option'
refused options '--threads 2' 'tibzharuk: --threads is given twice'
refused options '--cutadapt --frob' 'tibzharuk: cutadapt: unrecognized arguments: --frob'
refused program none_such 'tibzharuk: no program none_such'
refused adapters none.fa "adapters: 'none.fa' is neither a file nor a sequence"
finish ok
