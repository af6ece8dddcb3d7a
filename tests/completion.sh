#!/usr/bin/env bash
# What bash, zsh and fish offer for a command line of fq_prog, and of each command of tibzharuk: the
# options that the help names, the values of each option, and after each option with its value the
# files and the steps at their places. bash and zsh are asked on a terminal, as a user asks.
# `completion.sh SHARE` tests what is installed in the directory SHARE; otherwise the files of this
# tree are laid out in a new one.
# A shell that isn't installed is reported as skipped. Status 77 if python3 is missing.
set -uo pipefail
. "$(dirname "$0")/common.bash"
need python3
find_program
work=$(mktemp -d)
trap 'rm -rf "$work"' EXIT
share=${1:-$work/share}
encodings='illumina13 sanger solexa'
adapters='auto nextera smallrna truseq'
files='one.fq two.fq'

# The steps that the help names. One that takes a number is offered with its colon.
steps=$("$program" PE --help | sed -nE 's/^  ([A-Z0-9]+)(:[a-z])* {2,}.*/\1\2/p' | sed 's/:.*/:/' | sort | paste -sd ' ')
[ "$(wc -w <<< "$steps")" -ge 8 ] || fail 'help lists no steps'

# lay_out NAME: the three files of a command
lay_out() {
  install -D -m 644 "completions/$1.bash" "$share/bash-completion/completions/$1"
  install -D -m 644 "completions/$1.fish" "$share/fish/vendor_completions.d/$1.fish"
  install -D -m 644 "completions/_$1" "$share/zsh/site-functions/_$1"
}

# The options that fq_prog COMMAND --help names, as --trimlog FILE, or as --sync if they take no
# value.
options_of_program() { "$program" "$1" --help | sed -nE 's/^ *(-[a-zA-Z], )?(--[a-z][a-z-]*)( <([A-Z]+)>)?( .*)?$/\2 \4/p' | sort -u; }

# The options that tibzharuk COMMAND --help lists, in the same form.
options_of_command() {
  COLUMNS=80 "$tree/python/tibzharuk/__main__.py" "$1" --help |
    sed -nE "s/^  (  )?(-[-0-9a-zV]+( [A-Z.']+)?(, -[-0-9a-z]+( [A-Z.']+)?)*)(  .*)?\$/\2/p; s/^  (--lane) NAME LANE .*/\1 NAME/p" |
    sed "s/, /\n/g; s/[.']//g" | awk '!seen[$1]++ { print $1, $2 }'
}

# The options of PE: those of its synopsis, and the long ones of trim but for names of reads.
options_of_pe() {
  {
    "$tree/python/tibzharuk/__main__.py" PE --help | sed -n '/^SYNOPSIS/,/^$/p' | grep -oE -- '-[a-zA-Z0-9]+( [A-Z]+)?'
    options_of_command trim | grep '^--' | grep -vE -- '^--(paired1|unpaired1|paired2|unpaired2|no-unpaired|interleaved|through|expect-pairs) ?'
  } | awk '!seen[$1]++ { print $1, $2 }'
}

# want WORDS LINE: at the end of this line exactly these words are offered
want() { printf '%s\t%s\n' "$2" "$1" >> "$work/wanted"; }

# words_for OPTION VALUE: what is offered as the option's value
words_for() {
  case $1,$2 in
    --encoding,*) echo "$encodings" ;;
    --adapters,*) echo "$files $adapters" ;;
    --compressor,*) echo 'bgzip gzip igzip pigz' ;;
    --decompressor,*) echo 'bgzip gzip' ;;
    *,FILE | *,OUT | *,PATH | *,PREFIX) echo "$files" ;;
  esac
}

want_program() {
  local name=fq_prog command=$1 some=$2 option value
  want "$(options_of_program "$command" | cut -d ' ' -f 1 | paste -sd ' ')" "$name $command --"
  want "$files" "$name $command $some"
  want "$steps" "$name $command ${some}last "
  while read -r option value; do
    [ -n "$value" ] || continue
    want "$(words_for "$option" "$value")" "$name $command $option "
    want "$files" "$name $command $option 7 $some"
    want "$files" "$name $command $option=7 $some"
    want "$steps" "$name $command $option 7 ${some}last "
    want "$steps" "$name $command ${some}last LEADING:3 $option 7 "
    want 'LEADING:' "$name $command $option 7 ${some}last L"
  done < <(options_of_program "$command")
}

# Steps follow the options of trim, with or without --, and the files of PE.
want_trim() {
  local option value
  want "$(options_of_command trim | cut -d ' ' -f 1 | grep '^--' | paste -sd ' ')" 'tibzharuk trim --'
  want "$steps" 'tibzharuk trim '
  want "$steps" 'tibzharuk trim -1 one.fq -2 two.fq --out x '
  want "$files" 'tibzharuk trim -1 one.fq '
  while read -r option value; do
    [ -n "$value" ] || continue
    want "$(words_for "$option" "$value")" "tibzharuk trim $option "
    case $option in
      -[12i]) want "$files" "tibzharuk trim $option 7 8 " ;;
      *) want 'LEADING:' "tibzharuk trim $option 7 L" ;;
    esac
    want "$steps" "tibzharuk trim $option 7 -- "
    want "$steps" "tibzharuk trim $option 7 LEADING:3 "
    want "$steps" "tibzharuk trim $option 7 -- LEADING:3 "
    want 'LEADING:' "tibzharuk trim $option 7 -- L"
  done < <(options_of_command trim)
}

want_pe() {
  local option value all="ILLUMINACLIP: $steps"
  want "$(options_of_pe | cut -d ' ' -f 1 | grep '^--' | paste -sd ' ')" 'tibzharuk PE --'
  want "$(options_of_pe | cut -d ' ' -f 1 | paste -sd ' ')" 'tibzharuk PE -'
  want "$files" 'tibzharuk PE f r fp fu rp '
  want "$all" 'tibzharuk PE f r fp fu rp ru '
  want "$all" 'tibzharuk PE f r fp fu rp ru ILLUMINACLIP:a.fa:2:30:10 '
  want "$files" 'tibzharuk PE -basein f fp fu rp '
  want "$all" 'tibzharuk PE -basein f fp fu rp ru '
  want "$files" 'tibzharuk PE f -baseout o '
  want "$all" 'tibzharuk PE f r -baseout o '
  want "$all" 'tibzharuk PE -basein f -baseout o '
  while read -r option value; do
    if [ -n "$value" ]; then want "$(words_for "$option" "$value")" "tibzharuk PE $option "; fi
    case $option in
      -base*) ;;
      *) want 'ILLUMINACLIP:' "tibzharuk PE $option${value:+ 7} f r fp fu rp ru I" ;;
    esac
  done < <(options_of_pe)
}

# The other commands take options and files.
want_files() {
  local command=$1 option value
  want "$files" "tibzharuk $command "
  want "$files" "tibzharuk $command one.fq "
  want "$(options_of_command "$command" | cut -d ' ' -f 1 | grep '^--' | paste -sd ' ')" "tibzharuk $command --"
  while read -r option value; do
    if [ -n "$value" ]; then want "$(words_for "$option" "$value")" "tibzharuk $command $option "; fi
  done < <(options_of_command "$command")
}

# in_fish < LINES: as typed.py does for the other shells; fish lists its offers without a terminal
# shellcheck disable=SC2016,SC2317  # the variables are those of fish, and `compare` calls it
in_fish() {
  HOME=$work/home XDG_DATA_DIRS=$share XDG_CONFIG_HOME=$work/home fish --private -c '
    while read -l line
      printf "%s\t%s\n" "$line" "$(complete -C "$line" | string replace -r "\t.*" "" | string join " ")"
    end'
}

# Short forms are left out. Shells that complete a value after = repeat the option before it.
sorted() {
  awk -F '\t' '{ n = split($2, words, " "); printf "%s\t", $1
    for (k = 1; k <= n; k++) { w = words[k]; if (w !~ /^-[a-zA-Z0-9]$/) print w | "sort -u | paste -sd \" \"" }
    if (n == 0) print ""; close("sort -u | paste -sd \" \"") }'
}

# compare SHELL COMMAND..: the command prints what the shell offers for each line
compare() {
  local shell=$1
  shift
  (cd "$work/files" && cut -f 1 "$work/wanted" | PATH=$work/bin:$PATH "$@") > "$work/got" || {
    fail "$shell does not answer"
    return
  }
  sorted < "$work/got" > "$work/got.sorted"
  sorted < "$work/wanted" | diff - "$work/got.sorted" > "$work/difference" ||
    fail "$shell offers other words (> it, < what was wanted): $(grep -c '^>' "$work/difference") lines, such as
$(head -n 6 "$work/difference")"
}

# check SHELL COMMAND..: compares, if the shell is installed; its package has its name
check() {
  if command -v "$1" > /dev/null; then
    compare "$@"
    shells+=" $1"
  else
    echo "completion: $1: skipped: needs $1 (Debian: $1)"
  fi
}

mkdir "$work/bin" "$work/files" "$work/home"
if [ $# -eq 0 ]; then
  lay_out fq_prog
  lay_out tibzharuk
fi
ln -s "$program" "$work/bin/fq_prog"
ln -s "$tree/python/tibzharuk/__main__.py" "$work/bin/tibzharuk"
touch "$work/files/one.fq" "$work/files/two.fq"

want PE 'fq_prog P'
want "$encodings" 'fq_prog IL --encoding '
want solexa 'fq_prog IL --encoding so'
want '' 'fq_prog EXAMPLE L'
want_program PE 'f r fp fu rp '
want_program IL 'i fp fu rp '
want 'PE page samples selftest sum trim workflow' 'tibzharuk '
want 'page' 'tibzharuk pa'
want '--help --version' 'tibzharuk --'
want 'truseq' 'tibzharuk trim --adapters tr'
want 'two.fq' 'tibzharuk trim --adapters tw'
want_trim
want_pe
for name in page sum samples workflow; do want_files "$name"; done
[ "$(grep -c -- --report "$work/wanted")" -gt 20 ] || fail 'help names no options with a value'

shells=''
cat > "$work/bash.setup" << END
XDG_DATA_DIRS=$share
PS1='> '
if [ -e /usr/share/bash-completion/bash_completion ]; then
  . /usr/share/bash-completion/bash_completion
else
  for each in $share/bash-completion/completions/*; do . "\$each"; done
fi
END
cat > "$work/zsh.setup" << END
fpath=($share/zsh/site-functions $share/zsh/vendor-completions \$fpath)
autoload -Uz compinit
compinit -u -D
END
check bash python3 "$tree/tests/completion/typed.py" bash "$work/bash.setup"
check zsh python3 "$tree/tests/completion/typed.py" zsh "$work/zsh.setup"
check fish in_fish
finish "as help says, in$shells: $(wc -l < "$work/wanted") lines in each"
